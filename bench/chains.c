/* Times names through the image of a profile without chains of defaults, and in turn through one of the same profile with chains, by
 * the proved loop that the static library crates/loop_bench exports; and counts how often the second one looks up a byte.
 *
 *     chains IMAGE CHAINED NAMES PLACES ROUNDS
 *
 * NAMES has a name in each line. Each of the first SINGLE names is taken REPEATS times by itself; then DRAWN of all names in random
 * order. Each time is the least of ROUNDS runs at each of PLACES places of both images in memory. Both images must lead each name to
 * the same state. It prints, in one line: look-ups for one byte with chains; nanoseconds of a name, repeated, without chains and with
 * them; and the same in the drawn order. */
#include <malloc.h>
#include <stddef.h>
#include <stdint.h>
#include <stdio.h>
#include <stdlib.h>
#include <string.h>
#include <time.h>

enum { REPEATS = 200, SINGLE = 64, DRAWN = 4096 };

/* What crates/loop_bench exports: the state that a name leads to by an image that was accepted. */
uint32_t loop_bench_image(const uint8_t *image, size_t image_length, const uint8_t *name, size_t name_length);

struct text {
    uint8_t *bytes;
    size_t length;
};

static void fail(const char *what) {
    fprintf(stderr, "chains: %s\n", what);
    exit(1);
}

static void *memory(size_t count, size_t size) {
    void *block = malloc(count * size + 1);
    if (!block) fail("no memory");
    return block;
}

static struct text read_file(const char *path) {
    FILE *file = fopen(path, "rb");
    if (!file || fseek(file, 0, SEEK_END)) fail(path);
    long length = ftell(file);
    if (length < 0 || fseek(file, 0, SEEK_SET)) fail(path);
    struct text text = {memory((size_t)length, 1), (size_t)length};
    if (fread(text.bytes, 1, text.length, file) != text.length) fail(path);
    fclose(file);
    return text;
}

static struct text copy_of(struct text from) {
    struct text text = {memory(from.length, 1), from.length};
    memcpy(text.bytes, from.bytes, from.length);
    return text;
}

/* --- the look-ups, over an image of version 2 where it is --- */

struct lists {
    const uint32_t *next_by_default, *base, *depth, *next, *check;
};

static struct lists lists_of(struct text image) {
    const uint32_t *words = (const uint32_t *)(const void *)image.bytes;
    size_t states = words[2], cells = words[3];
    struct lists lists;
    if (image.bytes[4] != 2) fail("the second image has no depths");
    lists.next_by_default = words + 5;
    lists.base = lists.next_by_default + states;
    lists.depth = lists.base + 2 * states;
    lists.next = lists.depth + states;
    lists.check = lists.next + cells;
    return lists;
}

/* How many look-ups a name takes, and the state that it leads to. */
static uint64_t look_ups_of(const struct lists *lists, struct text name, uint32_t *last) {
    uint64_t look_ups = 0;
    uint32_t state = 1;
    for (size_t i = 0; i < name.length; look_ups++) {
        size_t cell = (size_t)lists->base[state] + name.bytes[i];
        if (lists->check[cell] == state) {
            state = lists->next[cell];
            i++;
        } else {
            i += lists->depth[state] == 0;
            state = lists->next_by_default[state];
        }
    }
    *last = state;
    return look_ups;
}

/* --- the names --- */

static uint32_t drawn(uint32_t below) {
    static uint64_t seed = 2026;
    seed = seed * 6364136223846793005u + 1442695040888963407u;
    return (uint32_t)(seed >> 33) % below;
}

struct names {
    struct text *each;
    size_t count;
};

/* The lines of a text, each without its end. */
static struct names lines_of(struct text text) {
    struct names names = {memory(text.length, sizeof(struct text)), 0};
    for (size_t begin = 0, i = 0; i < text.length; i++)
        if (text.bytes[i] == '\n') {
            names.each[names.count++] = (struct text){text.bytes + begin, i - begin};
            begin = i + 1;
        }
    if (!names.count) fail("no names");
    return names;
}

static struct names draw_names(const struct names *from) {
    struct names names = {memory(DRAWN, sizeof(struct text)), DRAWN};
    for (size_t i = 0; i < DRAWN; i++) names.each[i] = from->each[drawn((uint32_t)from->count)];
    return names;
}

/* The look-ups for one byte of all names. */
static double look_ups_a_byte(struct text image, struct text chained, const struct names *names) {
    struct lists lists = lists_of(chained);
    uint64_t look_ups = 0, bytes = 0;
    for (size_t i = 0; i < names->count; i++) {
        struct text name = names->each[i];
        uint32_t state;
        look_ups += look_ups_of(&lists, name, &state);
        bytes += name.length;
        if (state != loop_bench_image(image.bytes, image.length, name.bytes, name.length) ||
            state != loop_bench_image(chained.bytes, chained.length, name.bytes, name.length))
            fail("the images lead to different states");
    }
    return (double)look_ups / bytes;
}

/* --- the times --- */

static double now(void) {
    struct timespec time;
    clock_gettime(CLOCK_MONOTONIC, &time);
    return time.tv_sec * 1e9 + time.tv_nsec;
}

static void keep_least(double *least, double time) {
    if (*least == 0 || time < *least) *least = time;
}

static void time_name(struct text image, struct text name, double *least) {
    volatile uint32_t state;
    double begin = now();
    for (int i = 0; i < REPEATS; i++) state = loop_bench_image(image.bytes, image.length, name.bytes, name.length);
    keep_least(least, (now() - begin) / REPEATS);
    (void)state;
}

static void time_order(struct text image, const struct names *order, double *least) {
    volatile uint32_t state;
    double begin = now();
    for (size_t i = 0; i < DRAWN; i++) state = loop_bench_image(image.bytes, image.length, order->each[i].bytes, order->each[i].length);
    keep_least(least, (now() - begin) / DRAWN);
    (void)state;
}

struct times {
    double flat, chained;
};

/* The times at one place in memory: a block of a random size is allocated meanwhile, so that the images get other pages than before.
 * How the pages of an image share the caches is luck. */
static void time_place(struct text image, struct text chained, const struct names *names, const struct names *order, int rounds,
                       struct times *single, struct times *all) {
    size_t size = drawn(1 << 24);
    uint8_t *block = memory(size, 1);
    memset(block, 1, size);
    struct text image_here = copy_of(image), chained_here = copy_of(chained);
    for (int round = 0; round < rounds; round++) {
        for (size_t i = 0; i < names->count && i < SINGLE; i++) {
            time_name(image_here, names->each[i], &single[i].flat);
            time_name(chained_here, names->each[i], &single[i].chained);
        }
        time_order(image_here, order, &all->flat);
        time_order(chained_here, order, &all->chained);
    }
    free(chained_here.bytes);
    free(image_here.bytes);
    free(block);
}

int main(int count, char **words) {
    if (count != 6) fail("usage: chains IMAGE CHAINED NAMES PLACES ROUNDS");
    /* Each image gets pages of its own from the system, and gives them back. */
    mallopt(M_MMAP_THRESHOLD, 1 << 16);
    struct text image = read_file(words[1]), chained = read_file(words[2]), text = read_file(words[3]);
    struct names names = lines_of(text), order = draw_names(&names);
    struct times single[SINGLE] = {{0, 0}}, all = {0, 0}, mean = {0, 0};
    size_t singles = names.count < SINGLE ? names.count : SINGLE;
    double look_ups = look_ups_a_byte(image, chained, &names);
    for (int place = 0; place < atoi(words[4]); place++)
        time_place(image, chained, &names, &order, atoi(words[5]), single, &all);
    for (size_t i = 0; i < singles; i++) {
        mean.flat += single[i].flat / singles;
        mean.chained += single[i].chained / singles;
    }
    printf("%.4f %.1f %.1f %.1f %.1f\n", look_ups, mean.flat, mean.chained, all.flat, all.chained);
    return 0;
}
