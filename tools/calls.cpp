// Shows that the header works from C++: loads the image that is named, judges a name by it, and prints the verdict's number. Null
// pointers in place of an image and of a name must have the answers that the header says.
#include "coqetwal.h"

#include <cstdio>
#include <fstream>
#include <iterator>
#include <memory>
#include <string>
#include <vector>

struct Free {
    void operator()(coqetwal_table *table) const { coqetwal_free(table); }
};

int main(int count, char **words) {
    if (count != 3) return 2;
    std::ifstream file(words[1], std::ios::binary);
    std::vector<char> image((std::istreambuf_iterator<char>(file)), std::istreambuf_iterator<char>());
    coqetwal_table *loaded;
    coqetwal_fault fault;
    if (coqetwal_load(image.data(), image.size(), &loaded, &fault)) return fault.number;
    std::unique_ptr<coqetwal_table, Free> table(loaded);
    std::string name(words[2]);
    coqetwal_answer answer;
    if (coqetwal_load(nullptr, 1, &loaded, nullptr) != COQETWAL_NULL || loaded) return COQETWAL_NULL;
    if (coqetwal_judge(table.get(), nullptr, 1, COQETWAL_READ, &answer) != COQETWAL_NO_ANSWER) return COQETWAL_NULL;
    std::printf("%d\n", coqetwal_judge(table.get(), name.data(), name.size(), COQETWAL_READ | COQETWAL_WRITE, &answer));
}
