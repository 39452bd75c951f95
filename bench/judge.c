/* Times a name judged through a handle of include/coqetwal.h, next to the loop alone: the same image, run by the same loop in
 * a call for each name, which reads no record and gives no verdict.
 *
 *     judge PROFILE IMAGE NAMES PLACES
 *
 * NAMES has a name in each line. Once each name is repeated REPEATS times by itself, and the mean over the names is printed;
 * once DRAWN names are taken in random order, one after another, and in one batch. Each time is the least of ROUNDS runs at
 * each of PLACES places of the tables in memory. Each answer must be what the record of the loop's last state says.
 * With `-` as IMAGE the heads of the columns are printed. */
#include "coqetwal.h"

#include <malloc.h>
#include <stdio.h>
#include <time.h>

enum { REPEATS = 400, DRAWN = 4096, ROUNDS = 20 };

struct text {
    uint8_t *bytes;
    size_t length;
};

static void fail(const char *what) {
    fprintf(stderr, "judge: %s\n", what);
    exit(1);
}

static void *memory(size_t count, size_t size) {
    void *block = malloc(count * size + 1);
    if (!block) fail("no memory");
    return block;
}

static struct text read_file(const char *path) {
    FILE *file = fopen(path, "rb");
    if (!file || fseek(file, 0, SEEK_END)) fail(path);
    long length = ftell(file);
    if (length < 0 || fseek(file, 0, SEEK_SET)) fail(path);
    struct text text = {memory((size_t)length, 1), (size_t)length};
    if (fread(text.bytes, 1, text.length, file) != text.length) fail(path);
    fclose(file);
    return text;
}

/* --- the loop alone --- */

/* What crates/loop_bench exports: the state that a name leads to, by the loop that coqetwal_judge uses. */
uint32_t loop_bench_image(const uint8_t *image, size_t image_length, const uint8_t *name, size_t name_length);

static uint32_t word_at(const uint8_t *bytes) {
    return bytes[0] | (uint32_t)bytes[1] << 8 | (uint32_t)bytes[2] << 16 | (uint32_t)bytes[3] << 24;
}

/* Whether an answer on reading is what the record of the name's last state says. */
static int is_right(const coqetwal_table *table, uint32_t state, size_t length, struct coqetwal_answer answer) {
    const uint8_t *image = coqetwal_image(table);
    size_t states = word_at(image + 8), cells = word_at(image + 12);
    /* Version 2 has one more number for each state, its depth, and longer records. */
    int is_second = image[4] == 2;
    size_t per_state = is_second ? 16 : 12, per_record = is_second ? 24 : 20;
    uint32_t place = word_at(image + 20 + 4 * (2 * states + state));
    const uint8_t *record = image + 20 + per_state * states + 8 * cells + per_record * place;
    unsigned allow = record[0] | record[1] << 8, deny = record[2] | record[3] << 8;
    unsigned verdict = deny ? COQETWAL_DENIED : allow ? COQETWAL_ALLOWED : COQETWAL_NO_RULE;
    return answer.verdict == verdict && answer.rule == deny && answer.steps == length;
}

/* --- the names --- */

static uint32_t drawn(uint32_t below) {
    static uint64_t seed = 2026;
    seed = seed * 6364136223846793005u + 1442695040888963407u;
    return (uint32_t)(seed >> 33) % below;
}

/* Names in one text, each from an offset to the next one. */
struct names {
    struct text text;
    size_t *offsets, count;
};

static struct text name_at(const struct names *names, size_t i) {
    return (struct text){names->text.bytes + names->offsets[i], names->offsets[i + 1] - names->offsets[i]};
}

/* The lines of a text, without their ends. */
static struct names lines_of(struct text text) {
    struct names names = {{memory(text.length, 1), 0}, memory(text.length + 1, sizeof(size_t)), 0};
    names.offsets[0] = 0;
    for (size_t i = 0; i < text.length; i++)
        if (text.bytes[i] != '\n') names.text.bytes[names.text.length++] = text.bytes[i];
        else names.offsets[++names.count] = names.text.length;
    if (!names.count) fail("no names");
    return names;
}

/* DRAWN of the names. */
static struct names draw_names(const struct names *from) {
    struct names names = {{memory(DRAWN, from->text.length), 0}, memory(DRAWN + 1, sizeof(size_t)), DRAWN};
    names.offsets[0] = 0;
    for (size_t i = 0; i < DRAWN; i++) {
        struct text name = name_at(from, drawn((uint32_t)from->count));
        memcpy(names.text.bytes + names.text.length, name.bytes, name.length);
        names.text.length += name.length;
        names.offsets[i + 1] = names.text.length;
    }
    return names;
}

/* --- the times --- */

static double now(void) {
    struct timespec time;
    clock_gettime(CLOCK_MONOTONIC, &time);
    return time.tv_sec * 1e9 + time.tv_nsec;
}

static void keep_least(double *least, double time) {
    if (*least == 0 || time < *least) *least = time;
}

/* The least times so far: of the loop, of single calls and of a batch. */
struct times {
    double loop, judged, batch;
};

static uint32_t run(const coqetwal_table *table, struct text name) {
    return loop_bench_image(coqetwal_image(table), coqetwal_image_length(table), name.bytes, name.length);
}

/* One name, again and again. */
static void time_name(const coqetwal_table *table, struct text name, struct times *times) {
    struct coqetwal_answer answer;
    volatile uint32_t state = 0;
    double begin = now();
    for (int i = 0; i < REPEATS; i++) state = run(table, name);
    double middle = now();
    for (int i = 0; i < REPEATS; i++) coqetwal_judge(table, name.bytes, name.length, COQETWAL_READ, &answer);
    double end = now();
    keep_least(&times->loop, (middle - begin) / REPEATS);
    keep_least(&times->judged, (end - middle) / REPEATS);
    if (!is_right(table, state, name.length, answer)) fail("an answer isn't what the state's record says");
}

/* The last states of all names, and the answers on them. */
struct results {
    uint32_t states[DRAWN];
    struct coqetwal_answer answers[DRAWN];
};

static void compare(const coqetwal_table *table, const struct names *names, const struct results *results) {
    for (size_t i = 0; i < names->count; i++)
        if (!is_right(table, results->states[i], name_at(names, i).length, results->answers[i]))
            fail("an answer isn't what the state's record says");
}

/* All names in their order, and in a batch. */
static void time_order(const coqetwal_table *table, const struct names *names, struct times *times) {
    static struct results results;
    struct text all = names->text;
    double begin = now();
    for (size_t i = 0; i < DRAWN; i++) results.states[i] = run(table, name_at(names, i));
    double looped = now();
    for (size_t i = 0; i < DRAWN; i++)
        coqetwal_judge(table, name_at(names, i).bytes, name_at(names, i).length, COQETWAL_READ, &results.answers[i]);
    double judged = now();
    compare(table, names, &results);
    memset(results.answers, 0, sizeof results.answers);
    double again = now();
    coqetwal_judge_batch(table, all.bytes, all.length, names->offsets, COQETWAL_READ, results.answers, DRAWN);
    double end = now();
    compare(table, names, &results);
    keep_least(&times->loop, (looped - begin) / DRAWN);
    keep_least(&times->judged, (judged - looped) / DRAWN);
    keep_least(&times->batch, (end - again) / DRAWN);
}

/* The times at one place in memory: a block of a random size is allocated meanwhile, so that the table gets other pages than
 * before. How the pages of a table share the caches is luck. */
static void time_place(struct text image, const struct names *names, const struct names *order, struct times *single,
                       struct times *all) {
    size_t size = drawn(1 << 24);
    uint8_t *block = memory(size, 1);
    coqetwal_table *table;
    memset(block, 1, size);
    if (coqetwal_load(image.bytes, image.length, &table, NULL)) fail("the image is refused");
    for (int round = 0; round < ROUNDS; round++) {
        for (size_t i = 0; i < names->count; i++) time_name(table, name_at(names, i), &single[i]);
        time_order(table, order, all);
    }
    coqetwal_free(table);
    free(block);
}

/* `single` has the times of `count` names. */
static void print_row(const char *profile, uint32_t states, const struct times *single, size_t count, struct times all) {
    double loop = 0, judged = 0;
    for (size_t i = 0; i < count; i++) {
        loop += single[i].loop / count;
        judged += single[i].judged / count;
    }
    printf("%-18s %6u |%7.1f %7.1f %7.1f |%7.1f %7.1f %7.1f |%7.1f %7.1f\n", profile, states, loop, judged, judged - loop, all.loop,
           all.judged, all.judged - all.loop, all.batch, all.batch - all.loop);
}

static int print_heads(void) {
    printf("%-18s %6s |%-24s|%-24s|%s\n", "", "", " each name by itself", " in a drawn order", " in a batch");
    printf("%-18s %6s |%7s %7s %7s |%7s %7s %7s |%7s %7s\n", "profile", "states", "loop", "judged", "more", "loop", "judged",
           "more", "judged", "more");
    return 0;
}

int main(int count, char **words) {
    if (count != 5) fail("usage: judge PROFILE IMAGE NAMES PLACES");
    if (!strcmp(words[2], "-")) return print_heads();
    /* Each table gets pages of its own from the system, and gives them back. */
    mallopt(M_MMAP_THRESHOLD, 1 << 16);
    struct text image = read_file(words[2]), text = read_file(words[3]);
    struct names names = lines_of(text), order = draw_names(&names);
    struct times *single = calloc(names.count, sizeof *single), all = {0, 0, 0};
    if (!single) fail("no memory");
    for (int place = 0; place < atoi(words[4]); place++) time_place(image, &names, &order, single, &all);
    print_row(words[1], coqetwal_image_counts(image.bytes, image.length).states, single, names.count, all);
    return 0;
}
