/* Times the loop that runs a name through a table: the proved one, which the static library crates/loop_bench exports, and the
 * same loop written here in C, in turn, over one image and the same names. The image may have chains of defaults.
 *
 *     match IMAGE PATHS PAIRS
 *
 * PATHS has a path in each line. The names are made of these paths in random order, so that a name leads through many states.
 * Each loop runs all names of one length until about STEPS bytes are looked up, and then not at all: the difference is
 * the time of the loop, without that of loading the image. Of PAIRS such pairs of runs the least times count. Both loops must
 * lead to the same states. */
#include <malloc.h>
#include <stddef.h>
#include <stdint.h>
#include <stdio.h>
#include <stdlib.h>
#include <string.h>
#include <time.h>

/* How many bytes of names are in one list, and how many look-ups are timed at once. */
enum { LIST = 1 << 16, STEPS = 1 << 22 };

struct text {
    uint8_t *bytes;
    size_t length;
};

static void fail(const char *what) {
    fprintf(stderr, "match: %s\n", what);
    exit(1);
}

static void *memory(size_t count, size_t size) {
    void *block = malloc(count * size + 1);
    if (!block) fail("no memory");
    return block;
}

static struct text read_file(const char *path) {
    FILE *file = fopen(path, "rb");
    if (!file || fseek(file, 0, SEEK_END)) fail(path);
    long length = ftell(file);
    if (length < 0 || fseek(file, 0, SEEK_SET)) fail(path);
    struct text text = {memory(length, 1), length};
    if (fread(text.bytes, 1, text.length, file) != text.length) fail(path);
    fclose(file);
    return text;
}

/* --- the loop in C --- */

struct table {
    uint32_t *next_by_default, *base, *next, *check;
    /* Null in an image of version 1. */
    uint32_t *depth;
};

static uint32_t word_at(const uint8_t *bytes) {
    return bytes[0] | (uint32_t)bytes[1] << 8 | (uint32_t)bytes[2] << 16 | (uint32_t)bytes[3] << 24;
}

static uint32_t *words_at(const uint8_t *bytes, size_t count) {
    uint32_t *words = memory(count, sizeof *words);
    for (size_t i = 0; i < count; i++) words[i] = word_at(bytes + 4 * i);
    return words;
}

/* The tables of an image that was accepted. */
static struct table load(struct text image) {
    size_t states = word_at(image.bytes + 8), cells = word_at(image.bytes + 12);
    int has_depths = image.bytes[4] == 2;
    const uint8_t *at = image.bytes + 20, *of_cells = at + (has_depths ? 16 : 12) * states;
    struct table table;
    table.next_by_default = words_at(at, states);
    table.base = words_at(at + 4 * states, states);
    table.depth = has_depths ? words_at(at + 12 * states, states) : NULL;
    table.next = words_at(of_cells, cells);
    table.check = words_at(of_cells + 4 * cells, cells);
    return table;
}

static void unload(struct table table) {
    free(table.depth);
    free(table.check);
    free(table.next);
    free(table.base);
    free(table.next_by_default);
}

static uint32_t step(const struct table *table, uint32_t state, uint8_t byte) {
    size_t cell = (size_t)table->base[state] + byte;
    return table->check[cell] == state ? table->next[cell] : table->next_by_default[state];
}

/* The same where a state may have a depth: then the byte is looked up again, at the default. */
static uint32_t chained_step(const struct table *table, uint32_t state, uint8_t byte) {
    for (;;) {
        size_t cell = (size_t)table->base[state] + byte;
        if (table->check[cell] == state) return table->next[cell];
        uint32_t depth = table->depth[state];
        state = table->next_by_default[state];
        if (!depth) return state;
    }
}

/* Functions of their own, as that of the library is. */
__attribute__((noinline)) static uint32_t run(const struct table *table, const uint8_t *name, size_t length) {
    uint32_t state = 1;
    for (size_t i = 0; i < length; i++) state = step(table, state, name[i]);
    return state;
}

__attribute__((noinline)) static uint32_t chained_run(const struct table *table, const uint8_t *name, size_t length) {
    uint32_t state = 1;
    for (size_t i = 0; i < length; i++) state = chained_step(table, state, name[i]);
    return state;
}

/* What crates/loop_bench exports: as many names as there is room for states, of names_length / states_length bytes each, are
 * run `rounds` times through the table of an image, which is loaded once. `kind` is 0 if they were run; then each state is the
 * one that its name leads to, but with no round they stay as they are. */
struct walk {
    uint16_t kind, number;
    uint64_t steps;
};

struct walk loop_bench_run(const uint8_t *image, size_t image_length, const uint8_t *names, size_t names_length, uint32_t rounds,
                           uint32_t *states, size_t states_length);

/* The same call. */
static struct walk run_in_c(struct text image, struct text names, uint32_t rounds, uint32_t *states, size_t count) {
    struct table table = load(image);
    struct walk walk = {0, 0, 0};
    size_t length = names.length / count;
    for (uint32_t round = 0; round < rounds; round++)
        for (size_t i = 0; i < count; i++) {
            const uint8_t *name = names.bytes + i * length;
            states[i] = table.depth ? chained_run(&table, name, length) : run(&table, name, length);
            walk.steps += length;
        }
    unload(table);
    return walk;
}

static struct walk run_in_rattle(struct text image, struct text names, uint32_t rounds, uint32_t *states, size_t count) {
    return loop_bench_run(image.bytes, image.length, names.bytes, names.length, rounds, states, count);
}

/* --- the names --- */

static uint32_t drawn(uint32_t below) {
    static uint64_t seed = 2026;
    seed = seed * 6364136223846793005u + 1442695040888963407u;
    return (uint32_t)(seed >> 33) % below;
}

/* The lines of a text, each without its end. */
static size_t lines_of(struct text text, struct text **lines) {
    size_t count = 0;
    for (size_t i = 0; i < text.length; i++) count += text.bytes[i] == '\n';
    *lines = memory(count, sizeof **lines);
    uint8_t *begin = text.bytes;
    for (size_t i = 0; i < count; i++) {
        uint8_t *end = memchr(begin, '\n', text.bytes + text.length - begin);
        (*lines)[i] = (struct text){begin, end - begin};
        begin = end + 1;
    }
    return count;
}

/* As many names of one length as make up LIST bytes. Each is `/x` and then whole paths, except for the last, which is cut. */
static struct text names_of(struct text paths, size_t length) {
    struct text *lines;
    size_t count = lines_of(paths, &lines);
    if (!count) fail("no paths");
    struct text names = {memory(LIST, 1), LIST / length * length};
    for (size_t name = 0; name < names.length; name += length) {
        memcpy(names.bytes + name, "/x", 2);
        for (size_t at = 2; at < length;) {
            struct text path = lines[drawn(count)];
            size_t part = path.length < length - at ? path.length : length - at;
            memcpy(names.bytes + name + at, path.bytes, part);
            at += part;
        }
    }
    free(lines);
    return names;
}

/* --- the times --- */

typedef struct walk loop(struct text, struct text, uint32_t, uint32_t *, size_t);

/* The nanoseconds of a call, which must look up each byte of the names in each round. */
static double time_of(loop *run, struct text image, struct text names, uint32_t rounds, uint32_t *states, size_t count) {
    struct timespec begin, end;
    clock_gettime(CLOCK_MONOTONIC, &begin);
    struct walk walk = run(image, names, rounds, states, count);
    clock_gettime(CLOCK_MONOTONIC, &end);
    if (walk.kind || walk.steps != (uint64_t)rounds * names.length) fail("a wrong count of steps");
    return (end.tv_sec - begin.tv_sec) * 1e9 + (end.tv_nsec - begin.tv_nsec);
}

/* The least of the times that were measured so far. */
static void keep_least(double *least, double time) {
    if (*least == 0 || time < *least) *least = time;
}

/* How many different states the names lead through. */
static size_t visited(struct text image, struct text names, size_t length) {
    struct table table = load(image);
    uint8_t *met = memory(word_at(image.bytes + 8), 1);
    memset(met, 0, word_at(image.bytes + 8));
    size_t count = 0;
    uint32_t state = 1;
    for (size_t i = 0; i < names.length; i++) {
        if (i % length == 0) state = 1;
        state = table.depth ? chained_step(&table, state, names.bytes[i]) : step(&table, state, names.bytes[i]);
        count += !met[state];
        met[state] = 1;
    }
    free(met);
    unload(table);
    return count;
}

/* A block of a random size, allocated while a pair of runs is timed, so that the tables get other pages of memory than before.
 * How the pages of a table share the caches is luck, and can make a run half as long again. */
static uint8_t *other_pages(void) {
    size_t size = drawn(1 << 24);
    uint8_t *block = memory(size, 1);
    memset(block, 1, size);
    return block;
}

/* One row: names of this length. */
static void measure(struct text image, struct text paths, size_t length, int pairs) {
    struct text names = names_of(paths, length);
    size_t count = names.length / length;
    uint32_t rounds = STEPS / names.length;
    uint32_t *in_c = memory(count, sizeof *in_c), *in_rattle = memory(count, sizeof *in_rattle);
    double loading_c = 0, all_c = 0, loading_rattle = 0, all_rattle = 0;
    for (int pair = 0; pair < pairs; pair++) {
        uint8_t *pages = other_pages();
        keep_least(&loading_c, time_of(run_in_c, image, names, 0, in_c, count));
        keep_least(&loading_rattle, time_of(run_in_rattle, image, names, 0, in_rattle, count));
        keep_least(&all_c, time_of(run_in_c, image, names, rounds, in_c, count));
        keep_least(&all_rattle, time_of(run_in_rattle, image, names, rounds, in_rattle, count));
        if (memcmp(in_c, in_rattle, count * sizeof *in_c)) fail("the loops lead to different states");
        free(pages);
    }
    double runs = (double)rounds * count;
    double c = (all_c - loading_c) / runs, rattle = (all_rattle - loading_rattle) / runs;
    printf("%11zu %8zu %10.1f %10.1f %8.2f\n", length, visited(image, names, length), c, rattle, rattle / c);
    free(in_rattle);
    free(in_c);
    free(names.bytes);
}

int main(int count, char **words) {
    static const size_t lengths[] = {20, 60, 200, 4095};
    if (count != 4) fail("usage: match IMAGE PATHS PAIRS");
    /* Each table gets pages of its own from the system, and gives them back. */
    mallopt(M_MMAP_THRESHOLD, 1 << 16);
    struct text image = read_file(words[1]), paths = read_file(words[2]);
    uint32_t state;
    if (loop_bench_run(image.bytes, image.length, paths.bytes, 0, 0, &state, 0).kind) fail("the image is refused");
    printf("%11s %8s %10s %10s %8s\n", "name, bytes", "states", "C, ns", "Rattle, ns", "ratio");
    for (size_t i = 0; i < sizeof lengths / sizeof *lengths; i++) measure(image, paths, lengths[i], atoi(words[3]));
    free(paths.bytes);
    free(image.bytes);
    return 0;
}
