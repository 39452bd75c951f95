/* Calls the library as a program in C would, for tools/calls, which compares what it prints with ./aa-trace.
 *
 *     calls check IMAGE...         what `aa-trace check` prints for each image
 *     calls judge IMAGE QUERIES    a line for each query: verdict, rule, missing, steps
 *     calls bad IMAGE              calls that have no answer, and null pointers, on an image that is accepted
 *     calls threads IMAGE QUERIES  eight threads judge by one table what one thread judged
 *
 * QUERIES has for each query the permissions asked and the length of the name, 4 bytes each in this machine's order, and then
 * the name. */
#include "coqetwal.h"

#include <pthread.h>
#include <stdio.h>
#include <sys/mman.h>

enum { THREADS = 8, ROUNDS = 25, PAGE = 4096, PERMISSION_SETS = 64 };

struct text {
    uint8_t *bytes;
    size_t length;
};

struct query {
    uint32_t asked;
    struct text name;
};

struct queries {
    struct query *each;
    size_t count, bytes;
};

static void fail(const char *what) {
    fprintf(stderr, "calls: %s\n", what);
    exit(1);
}

static void *memory(size_t count, size_t size) {
    void *block = malloc(count * size + 1);
    if (!block) fail("no memory");
    return block;
}

static struct text read_file(const char *path) {
    FILE *file = fopen(path, "rb");
    if (!file || fseek(file, 0, SEEK_END)) fail(path);
    long length = ftell(file);
    if (length < 0 || fseek(file, 0, SEEK_SET)) fail(path);
    struct text text = {memory((size_t)length, 1), (size_t)length};
    if (fread(text.bytes, 1, text.length, file) != text.length) fail(path);
    fclose(file);
    return text;
}

static struct queries read_queries(const char *path) {
    struct text file = read_file(path);
    struct queries queries = {memory(file.length / 8, sizeof(struct query)), 0, 0};
    for (size_t at = 0; at < file.length;) {
        uint32_t head[2];
        memcpy(head, file.bytes + at, sizeof head);
        at += sizeof head;
        queries.each[queries.count++] = (struct query){head[0], {file.bytes + at, head[1]}};
        queries.bytes += head[1];
        at += head[1];
    }
    return queries;
}

/* Room for `length` bytes, with a page after it that nobody can read: a read past the last byte ends the program. */
static uint8_t *guarded(size_t length) {
    size_t room = (length + PAGE - 1) / PAGE * PAGE;
    uint8_t *begin = mmap(NULL, room + PAGE, PROT_READ | PROT_WRITE, MAP_PRIVATE | MAP_ANONYMOUS, -1, 0);
    if (begin == MAP_FAILED || mprotect(begin + room, PAGE, PROT_NONE)) fail("no pages");
    return begin + room - length;
}

/* A copy that nobody can write to: a write to it ends the program. */
static struct text read_only(struct text text) {
    struct text copy = {guarded(text.length), text.length};
    memcpy(copy.bytes, text.bytes, text.length);
    size_t before = (size_t)((uintptr_t)copy.bytes % PAGE);
    if (mprotect(copy.bytes - before, text.length + before, PROT_READ)) fail("no pages");
    return copy;
}

static coqetwal_table *load(struct text image) {
    coqetwal_table *table;
    if (coqetwal_load(image.bytes, image.length, &table, NULL)) fail("the image is refused");
    return table;
}

/* An answer that has in each field something that no call writes. */
static struct coqetwal_answer unwritten(void) {
    return (struct coqetwal_answer){UINT64_MAX, UINT16_MAX, UINT16_MAX, UINT16_MAX};
}

static int is_same(struct coqetwal_answer one, struct coqetwal_answer other) {
    return one.steps == other.steps && one.verdict == other.verdict && one.rule == other.rule && one.missing == other.missing;
}

static int is_none(struct coqetwal_answer answer) {
    struct coqetwal_answer cleared;
    memset(&cleared, 0, sizeof cleared);
    return answer.verdict == COQETWAL_NO_ANSWER && is_same(answer, cleared);
}

/* --- check --- */

/* The bound of depths of an image that is accepted; version 1 has none. */
static unsigned depth_bound(struct text image) {
    return image.bytes[4] == 2 ? image.bytes[6] | (unsigned)image.bytes[7] << 8 : 0;
}

static void print_counts(const coqetwal_table *table, struct text image) {
    printf("ok states %u cells %u accepts %u", coqetwal_states(table), coqetwal_cells(table), coqetwal_records(table));
    if (depth_bound(image)) printf(" depth %u", depth_bound(image));
    printf("\n");
}

static void check(const char *path) {
    struct text image = read_file(path);
    coqetwal_table *table;
    struct coqetwal_fault loaded, verified = coqetwal_image_verify(image.bytes, image.length);
    int number = coqetwal_load(image.bytes, image.length, &table, &loaded);
    if (number != verified.number || number != loaded.number || loaded.place != verified.place || !number != (table != NULL))
        fail("loading and verifying say different things");
    if (!number)
        print_counts(table, image);
    else if (number >= COQETWAL_DEFAULT)
        printf("refused: image %d at %u\n", number, verified.place);
    else
        printf("refused: image %d\n", number);
    coqetwal_free(table);
    free(image.bytes);
}

/* --- judge --- */

/* Each name by itself: from the table, and again from an image and a name that have a guarded page after them. */
static void judge_each(struct text image, const struct queries *queries, struct coqetwal_answer *answers) {
    coqetwal_table *table = load(image);
    struct text lying = read_only(image);
    uint8_t *end = guarded(queries->bytes) + queries->bytes;
    for (size_t i = 0; i < queries->count; i++) {
        struct query query = queries->each[i];
        struct coqetwal_answer again = unwritten();
        answers[i] = unwritten();
        if (coqetwal_judge(table, query.name.bytes, query.name.length, query.asked, &answers[i]) != answers[i].verdict)
            fail("the result isn't the verdict");
        uint8_t *name = end - query.name.length;
        memcpy(name, query.name.bytes, query.name.length);
        coqetwal_image_judge(lying.bytes, lying.length, name, query.name.length, query.asked, &again);
        if (!is_same(answers[i], again)) fail("an image where it lies has another answer than its copy");
    }
    coqetwal_free(table);
}

/* All names in one call for each set of permissions: if that set was asked, the answer is as for the name by itself. */
static void judge_all(struct text image, const struct queries *queries, const struct coqetwal_answer *answers) {
    coqetwal_table *table = load(image);
    struct coqetwal_answer *found = memory(queries->count, sizeof *found);
    size_t *offsets = memory(queries->count + 1, sizeof *offsets);
    uint8_t *names = guarded(queries->bytes);
    offsets[0] = 0;
    for (size_t i = 0; i < queries->count; i++) {
        struct text name = queries->each[i].name;
        memcpy(names + offsets[i], name.bytes, name.length);
        offsets[i + 1] = offsets[i] + name.length;
    }
    for (uint32_t asked = 0; asked < PERMISSION_SETS; asked++) {
        for (size_t i = 0; i < queries->count; i++) found[i] = unwritten();
        coqetwal_judge_batch(table, names, queries->bytes, offsets, asked, found, queries->count);
        for (size_t i = 0; i < queries->count; i++) {
            if (queries->each[i].asked == asked && !is_same(answers[i], found[i])) fail("a batch has another answer");
            if (!asked && !is_none(found[i])) fail("a batch has an answer where nothing is asked");
        }
    }
    free(offsets);
    free(found);
    coqetwal_free(table);
}

static void judge(struct text image, const char *path) {
    struct queries queries = read_queries(path);
    struct coqetwal_answer *answers = memory(queries.count, sizeof *answers);
    judge_each(image, &queries, answers);
    judge_all(image, &queries, answers);
    for (size_t i = 0; i < queries.count; i++)
        printf("%u %u %u %llu\n", answers[i].verdict, answers[i].rule, answers[i].missing, (unsigned long long)answers[i].steps);
    free(answers);
}

/* --- bad --- */

static int bad_calls;

static void expect(int holds, const char *what) {
    if (!holds) fail(what);
    bad_calls++;
}

static struct coqetwal_answer judged(const coqetwal_table *table, const void *name, size_t length, uint32_t asked) {
    struct coqetwal_answer answer = unwritten();
    int verdict = coqetwal_judge(table, name, length, asked, &answer);
    if (verdict != answer.verdict) fail("the result isn't the verdict");
    return answer;
}

static void ask_badly(const coqetwal_table *table) {
    static const uint32_t bad[] = {0, 64, 65, 127, 128, 0x10001, 0x80000000, 0xffffffff};
    for (size_t i = 0; i < sizeof bad / sizeof *bad; i++)
        expect(is_none(judged(table, "/etc/passwd", 11, bad[i])), "an answer, though no permissions are asked");
    for (uint32_t asked = 1; asked < PERMISSION_SETS; asked++) {
        expect(judged(table, "/etc/passwd", 11, asked).verdict != COQETWAL_NO_ANSWER, "no answer");
        expect(is_none(judged(NULL, "/etc/passwd", 11, asked)), "an answer without a table");
    }
}

static void judge_nothing(const coqetwal_table *table) {
    struct coqetwal_answer empty = judged(table, NULL, 0, COQETWAL_READ), cleared;
    coqetwal_table none;
    memset(&cleared, 0, sizeof cleared);
    memset(&none, 0, sizeof none);
    expect(empty.verdict == COQETWAL_NO_RULE && empty.missing == COQETWAL_READ && !empty.steps, "a null name of length 0");
    expect(is_same(empty, judged(table, "/etc/passwd", 0, COQETWAL_READ)), "a name of length 0");
    expect(is_same(empty, judged(table, guarded(0), 0, COQETWAL_READ)), "a name of length 0 that can't be read");
    expect(cleared.verdict == COQETWAL_NO_ANSWER, "cleared memory is an answer");
    expect(is_none(judged(&none, "/etc/passwd", 11, COQETWAL_READ)), "an answer of a cleared table");
    expect(is_none(judged(NULL, NULL, 0, COQETWAL_READ)), "an answer without table and name");
    expect(!coqetwal_states(&none) && !coqetwal_cells(&none) && !coqetwal_records(&none), "a cleared table has counts");
    expect(!coqetwal_states(NULL) && !coqetwal_cells(NULL) && !coqetwal_records(NULL), "no table has counts");
    coqetwal_free(NULL);
}

static void load_nothing(struct text image) {
    struct coqetwal_fault fault;
    coqetwal_table *table = (coqetwal_table *)&fault;
    volatile size_t longest = SIZE_MAX;
    expect(coqetwal_load(NULL, 0, &table, &fault) == COQETWAL_SHORT && !table && !fault.place, "a null image of length 0");
    expect(coqetwal_load(NULL, 0, &table, NULL) == COQETWAL_SHORT && !table, "a fault that nobody is told");
    for (size_t less = 0; less < 16; less++)
        expect(coqetwal_load(image.bytes, longest - less, &table, &fault) == COQETWAL_NO_MEMORY && !table && !fault.place &&
                   fault.number == COQETWAL_NO_MEMORY,
               "an image of all memory");
}

/* Each pointer of a load null or not: a missing image and no room for a table are faults. */
static void load_nulls(struct text image) {
    static const size_t lengths[] = {0, 1, 19, 20, 4096, SIZE_MAX};
    for (int nulls = 0; nulls < 8; nulls++)
        for (size_t i = 0; i < sizeof lengths / sizeof *lengths; i++) {
            const void *bytes = nulls & 1 ? NULL : image.bytes;
            size_t length = bytes && lengths[i] ? image.length : lengths[i];
            struct coqetwal_fault fault = {UINT16_MAX, UINT32_MAX};
            coqetwal_table *table = (coqetwal_table *)&fault;
            int wanted = nulls & 2 || (!bytes && length) ? COQETWAL_NULL : length ? COQETWAL_ACCEPTED : COQETWAL_SHORT;
            int found = coqetwal_load(bytes, length, nulls & 2 ? NULL : &table, nulls & 4 ? NULL : &fault);
            expect(found == wanted, "a load with null pointers");
            expect(nulls & 4 ? fault.number == UINT16_MAX : fault.number == wanted && !fault.place, "its fault");
            if (nulls & 2) continue;
            expect(!table == !!wanted, "its table");
            coqetwal_free(table);
        }
}

/* Each pointer of a question null or not: a missing name has no answer, and without room for the answer there is the verdict. */
static void judge_nulls(const coqetwal_table *table) {
    static const size_t lengths[] = {0, 1, 11, 4096, SIZE_MAX};
    for (int nulls = 0; nulls < 8; nulls++)
        for (size_t i = 0; i < sizeof lengths / sizeof *lengths; i++)
            for (uint32_t asked = 0; asked <= PERMISSION_SETS; asked++) {
                const char *name = nulls & 2 ? NULL : "/etc/passwd";
                size_t length = name && lengths[i] > 11 ? 11 : lengths[i];
                struct coqetwal_answer wanted, answer = unwritten();
                memset(&wanted, 0, sizeof wanted);
                if (!(nulls & 1) && (name || !length)) wanted = judged(table, "/etc/passwd", length, asked);
                int verdict = coqetwal_judge(nulls & 1 ? NULL : table, name, length, asked, nulls & 4 ? NULL : &answer);
                expect(verdict == wanted.verdict, "a question with null pointers");
                expect(is_same(answer, nulls & 4 ? unwritten() : wanted), "its answer");
            }
}

/* Each pointer of a batch null or not: without text or offsets no name has an answer, and without room for answers nothing is done. */
static void batch_nulls(const coqetwal_table *table) {
    static const char names[] = "/etc/passwd/tmp/x";
    static const size_t offsets[] = {0, 11, 17};
    for (int nulls = 0; nulls < 16; nulls++) {
        struct coqetwal_answer answers[3] = {unwritten(), unwritten(), unwritten()};
        coqetwal_judge_batch(nulls & 1 ? NULL : table, nulls & 2 ? NULL : names, 17, nulls & 4 ? NULL : offsets, COQETWAL_READ,
                             nulls & 8 ? NULL : answers, 2);
        for (size_t i = 0; i < 3; i++) {
            struct coqetwal_answer wanted = unwritten();
            if (!nulls && i < 2) wanted = judged(table, names + offsets[i], offsets[i + 1] - offsets[i], COQETWAL_READ);
            if (nulls && nulls < 8 && i < 2) memset(&wanted, 0, sizeof wanted);
            expect(is_same(answers[i], wanted), "a batch with null pointers");
        }
    }
    coqetwal_judge_batch(NULL, NULL, SIZE_MAX, NULL, COQETWAL_READ, NULL, SIZE_MAX);
    expect(!coqetwal_image_length(NULL) && coqetwal_image(NULL), "the image of no table");
    expect(!strcmp(coqetwal_version(), COQETWAL_VERSION), "another version than the header's");
}

/* In a batch, the names whose offsets are bad have no answer, and the others are judged as usual. */
static void batch_badly(const coqetwal_table *table) {
    static const char names[] = "/etc/passwd/tmp/x";
    static const size_t offsets[] = {0, 11, 5, 17, 18, 17, SIZE_MAX, 0, 17, 17};
    static const int is_good[] = {1, 0, 1, 0, 0, 0, 0, 1, 1};
    enum { COUNT = sizeof is_good / sizeof *is_good };
    struct coqetwal_answer answers[COUNT + 1];
    for (size_t i = 0; i <= COUNT; i++) answers[i] = unwritten();
    coqetwal_judge_batch(table, names, 17, offsets, COQETWAL_READ, answers, COUNT);
    for (size_t i = 0; i < COUNT; i++)
        expect(is_good[i] ? is_same(answers[i], judged(table, names + offsets[i], offsets[i + 1] - offsets[i], COQETWAL_READ))
                          : is_none(answers[i]),
               "offsets that are bad");
    expect(is_same(answers[COUNT], unwritten()), "an answer behind the last one");
    answers[0] = unwritten();
    coqetwal_judge_batch(table, names, 17, offsets, COQETWAL_READ, answers, 0);
    coqetwal_judge_batch(table, NULL, 0, NULL, COQETWAL_READ, NULL, 0);
    expect(is_same(answers[0], unwritten()), "a batch of no names");
    coqetwal_judge_batch(NULL, names, 17, offsets, COQETWAL_READ, answers, COUNT);
    for (size_t i = 0; i < COUNT; i++) expect(is_none(answers[i]), "a batch without a table");
}

/* More answers than offsets: those without two offsets have none. No offset at all: none has. */
static void lack_offsets(const coqetwal_table *table) {
    static const size_t offsets[] = {0, 1, 1};
    const uint8_t *image = coqetwal_image(table), *name = (const uint8_t *)"/";
    for (size_t known = 0; known <= 3; known++) {
        struct coqetwal_answer answers[4] = {unwritten(), unwritten(), unwritten(), unwritten()};
        coqetwal_image_judge_all(image, coqetwal_image_length(table), name, 1, offsets, known, COQETWAL_READ, answers, 4);
        for (size_t i = 0; i < 4; i++) expect(is_none(answers[i]) == (i + 1 >= known), "offsets that are missing");
    }
}

static void call_badly(struct text image) {
    coqetwal_table *table = load(image);
    ask_badly(table);
    judge_nothing(table);
    load_nothing(image);
    batch_badly(table);
    lack_offsets(table);
    load_nulls(image);
    judge_nulls(table);
    batch_nulls(table);
    coqetwal_free(table);
    printf("%d\n", bad_calls);
}

/* --- threads --- */

struct work {
    const coqetwal_table *table;
    const struct queries *queries;
    const struct coqetwal_answer *wanted;
    uint64_t seed;
    size_t wrong;
};

/* Puts the places in a random order, by the seed. */
static void shuffle(size_t *places, size_t count, uint64_t *seed) {
    for (size_t i = count; i > 1; i--) {
        *seed = *seed * 6364136223846793005u + 1442695040888963407u;
        size_t other = (size_t)(*seed >> 33) % i, place = places[i - 1];
        places[i - 1] = places[other];
        places[other] = place;
    }
}

static void *run_thread(void *given) {
    struct work *work = given;
    size_t count = work->queries->count, *places = memory(count, sizeof *places);
    for (size_t i = 0; i < count; i++) places[i] = i;
    for (int round = 0; round < ROUNDS; round++) {
        shuffle(places, count, &work->seed);
        for (size_t i = 0; i < count; i++) {
            struct query query = work->queries->each[places[i]];
            struct coqetwal_answer answer = unwritten();
            coqetwal_judge(work->table, query.name.bytes, query.name.length, query.asked, &answer);
            work->wrong += !is_same(answer, work->wanted[places[i]]);
        }
    }
    free(places);
    return NULL;
}

static void run_threads(struct text image, const char *path) {
    struct queries queries = read_queries(path);
    struct coqetwal_answer *wanted = memory(queries.count, sizeof *wanted);
    struct work works[THREADS];
    pthread_t threads[THREADS];
    judge_each(image, &queries, wanted);
    coqetwal_table *table = load(image);
    for (unsigned i = 0; i < THREADS; i++) {
        works[i] = (struct work){table, &queries, wanted, i + 1, 0};
        if (pthread_create(&threads[i], NULL, run_thread, &works[i])) fail("no thread");
    }
    for (unsigned i = 0; i < THREADS; i++) {
        if (pthread_join(threads[i], NULL)) fail("a thread is lost");
        if (works[i].wrong) fail("a thread has other answers than one thread alone");
    }
    printf("%zu\n", queries.count * THREADS * ROUNDS);
    coqetwal_free(table);
    free(wanted);
}

int main(int count, char **words) {
    if (count < 3) fail("usage: calls check IMAGE... | judge IMAGE QUERIES | bad IMAGE | threads IMAGE QUERIES");
    if (!strcmp(words[1], "check")) {
        for (int i = 2; i < count; i++) check(words[i]);
        return 0;
    }
    struct text image = read_file(words[2]);
    if (!strcmp(words[1], "bad")) call_badly(image);
    else if (count < 4) fail("no queries");
    else if (!strcmp(words[1], "judge")) judge(image, words[3]);
    else if (!strcmp(words[1], "threads")) run_threads(image, words[3]);
    else fail(words[1]);
    free(image.bytes);
    return 0;
}
