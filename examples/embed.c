/* Judges names by the image of a profile, and prints the verdicts as ./aa-trace does.
 *
 *     embed IMAGE LETTERS NAME... */
#include <coqetwal.h>

#include <stdio.h>

static const char letters[] = "rwlkma";

static size_t read_image(const char *path, uint8_t *image, size_t room) {
    FILE *file = fopen(path, "rb");
    size_t length = file ? fread(image, 1, room, file) : 0;
    if (file) fclose(file);
    return length;
}

static void print_verdict(const struct coqetwal_answer *answer) {
    if (answer->verdict == COQETWAL_NO_ANSWER) printf("bad permissions");
    if (answer->verdict == COQETWAL_ALLOWED) printf("allowed");
    if (answer->verdict == COQETWAL_DENIED) printf("denied by rule %u", answer->rule);
    if (answer->verdict == COQETWAL_NO_RULE) printf("no rule for ");
    for (int i = 0; letters[i]; i++)
        if (answer->missing >> i & 1) putchar(letters[i]);
    putchar('\n');
}

int main(int count, char **words) {
    static uint8_t image[1 << 25];
    if (count < 3) return 2;
    uint32_t asked = 0;
    for (const char *at = words[2]; *at; at++) {
        const char *known = strchr(letters, *at);
        asked |= known ? 1u << (known - letters) : 1u << 31;
    }
    coqetwal_table *table;
    struct coqetwal_fault fault;
    if (coqetwal_load(image, read_image(words[1], image, sizeof image), &table, &fault)) {
        fprintf(stderr, "refused: image %u at %u\n", fault.number, fault.place);
        return 3;
    }
    for (int i = 3; i < count; i++) {
        struct coqetwal_answer answer;
        coqetwal_judge(table, words[i], strlen(words[i]), asked, &answer);
        print_verdict(&answer);
    }
    coqetwal_free(table);
}
