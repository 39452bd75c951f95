/* Times names of one kind through one image, in turn in four ways: the proved loop, a name in each call; the proved loop over eight
 * names side by side, all in one call; the plain loop in C over the same image, where it is; and the loop of the kernel over the
 * tables that AppArmor's own compiler makes of the same text.
 *
 *     mixes IMAGE KERNEL NAMES PLACES ROUNDS
 *
 * NAMES has a name in each line. KERNEL is a file of AppArmor's tables as bench/mixes writes it, or `-`. Each name is taken
 * REPEATS times by itself, and the mean over the first SINGLE names is printed; then DRAWN of the names in random order. Each time is
 * the least of ROUNDS runs at each of PLACES places of the tables in memory, in nanoseconds for one name. It prints, in one line:
 * repeated kernel, C, proved; drawn kernel, C, proved, batch. What wasn't measured is 0. */
#include <malloc.h>
#include <stddef.h>
#include <stdint.h>
#include <stdio.h>
#include <stdlib.h>
#include <string.h>
#include <time.h>

enum { REPEATS = 200, SINGLE = 32, DRAWN = 4096 };

/* What crates/loop_bench exports. */
uint32_t loop_bench_image(const uint8_t *image, size_t image_length, const uint8_t *name, size_t name_length);
uint64_t loop_bench_names(const uint8_t *image, size_t image_length, const uint8_t *text, size_t text_length, const size_t *offsets,
                          size_t offsets_length, uint32_t *states, size_t states_length);

struct text {
    uint8_t *bytes;
    size_t length;
};

static void fail(const char *what) {
    fprintf(stderr, "mixes: %s\n", what);
    exit(1);
}

static void *memory(size_t count, size_t size) {
    void *block = malloc(count * size + 1);
    if (!block) fail("no memory");
    return block;
}

static struct text read_file(const char *path) {
    FILE *file = fopen(path, "rb");
    if (!file || fseek(file, 0, SEEK_END)) fail(path);
    long length = ftell(file);
    if (length < 0 || fseek(file, 0, SEEK_SET)) fail(path);
    struct text text = {memory((size_t)length, 1), (size_t)length};
    if (fread(text.bytes, 1, text.length, file) != text.length) fail(path);
    fclose(file);
    return text;
}

static struct text copy_of(struct text from) {
    struct text text = {memory(from.length, 1), from.length};
    memcpy(text.bytes, from.bytes, from.length);
    return text;
}

/* --- the plain loop in C, over an image where it is --- */

struct image {
    const uint32_t *next_by_default, *base, *next, *check;
    /* Null in an image of version 1. */
    const uint32_t *depth;
};

static struct image view(struct text image) {
    const uint32_t *words = (const uint32_t *)(const void *)image.bytes;
    size_t states = words[2], cells = words[3];
    struct image view;
    view.next_by_default = words + 5;
    view.base = view.next_by_default + states;
    view.depth = image.bytes[4] == 2 ? view.base + 2 * states : NULL;
    view.next = view.base + (view.depth ? 3 : 2) * states;
    view.check = view.next + cells;
    return view;
}

__attribute__((noinline)) static uint32_t run_chained(const struct image *image, const uint8_t *name, size_t length) {
    uint32_t state = 1;
    for (size_t i = 0; i < length;) {
        size_t cell = (size_t)image->base[state] + name[i];
        if (image->check[cell] == state) {
            state = image->next[cell];
            i++;
        } else {
            i += image->depth[state] == 0;
            state = image->next_by_default[state];
        }
    }
    return state;
}

__attribute__((noinline)) static uint32_t run_flat(const struct image *image, const uint8_t *name, size_t length) {
    const uint32_t *next_by_default = image->next_by_default, *base = image->base, *next = image->next, *check = image->check;
    uint32_t state = 1;
    for (size_t i = 0; i < length; i++) {
        size_t cell = (size_t)base[state] + name[i];
        if (check[cell] == state) state = next[cell];
        else state = next_by_default[state];
    }
    return state;
}

static uint32_t run_in_c(const struct image *image, const uint8_t *name, size_t length) {
    return image->depth ? run_chained(image, name, length) : run_flat(image, name, length);
}

/* --- the kernel's loop (aa_dfa_match_len in security/apparmor/match.c) --- */

struct kernel {
    uint32_t start, has_classes;
    const uint32_t *base;
    const uint16_t *next_by_default, *next, *check;
    const uint8_t *classes;
};

/* Six numbers of 32 bits: the start, whether there are classes of bytes, and how many entries base, default, next and check have.
 * Then these, numbers of 32, 16, 16 and 16 bits, and 256 classes. */
static struct kernel kernel_of(struct text file) {
    const uint32_t *words = (const uint32_t *)(const void *)file.bytes;
    struct kernel kernel = {words[0], words[1], words + 6, 0, 0, 0, 0};
    kernel.next_by_default = (const uint16_t *)(const void *)(kernel.base + words[2]);
    kernel.next = kernel.next_by_default + words[3];
    kernel.check = kernel.next + words[4];
    kernel.classes = (const uint8_t *)(const void *)(kernel.check + words[5]);
    return kernel;
}

static inline unsigned step(const struct kernel *kernel, unsigned state, unsigned byte) {
    for (;;) {
        uint32_t base = kernel->base[state];
        size_t cell = (base & 0xffffff) + byte;
        if (kernel->check[cell] == state) return kernel->next[cell];
        state = kernel->next_by_default[state];
        if (!(base & 0x80000000u)) return state;
    }
}

__attribute__((noinline)) static unsigned run_in_kernel(const struct kernel *kernel, const uint8_t *name, size_t length) {
    unsigned state = kernel->start;
    if (kernel->has_classes)
        for (; length; length--) state = step(kernel, state, kernel->classes[*name++]);
    else
        for (; length; length--) state = step(kernel, state, *name++);
    return state;
}

/* --- the names --- */

static uint32_t drawn(uint32_t below) {
    static uint64_t seed = 2026;
    seed = seed * 6364136223846793005u + 1442695040888963407u;
    return (uint32_t)(seed >> 33) % below;
}

/* Names in one text, each from an offset to the next one. */
struct names {
    struct text text;
    size_t *offsets, count;
};

static struct text name_at(const struct names *names, size_t i) {
    return (struct text){names->text.bytes + names->offsets[i], names->offsets[i + 1] - names->offsets[i]};
}

static struct names lines_of(struct text text) {
    struct names names = {{memory(text.length, 1), 0}, memory(text.length + 1, sizeof(size_t)), 0};
    names.offsets[0] = 0;
    for (size_t i = 0; i < text.length; i++)
        if (text.bytes[i] != '\n') names.text.bytes[names.text.length++] = text.bytes[i];
        else names.offsets[++names.count] = names.text.length;
    if (!names.count) fail("no names");
    return names;
}

static struct names draw_names(const struct names *from) {
    size_t *chosen = memory(DRAWN, sizeof *chosen), length = 0;
    for (size_t i = 0; i < DRAWN; i++) {
        chosen[i] = drawn((uint32_t)from->count);
        length += name_at(from, chosen[i]).length;
    }
    struct names names = {{memory(length, 1), 0}, memory(DRAWN + 1, sizeof(size_t)), DRAWN};
    names.offsets[0] = 0;
    for (size_t i = 0; i < DRAWN; i++) {
        struct text name = name_at(from, chosen[i]);
        memcpy(names.text.bytes + names.text.length, name.bytes, name.length);
        names.text.length += name.length;
        names.offsets[i + 1] = names.text.length;
    }
    free(chosen);
    return names;
}

/* --- the times --- */

static double now(void) {
    struct timespec time;
    clock_gettime(CLOCK_MONOTONIC, &time);
    return time.tv_sec * 1e9 + time.tv_nsec;
}

static void keep_least(double *least, double time) {
    if (*least == 0 || time < *least) *least = time;
}

struct times {
    double kernel, c, proved, batch;
};

/* What is run: the tables at one place in memory. */
struct tables {
    struct text image;
    struct image view;
    const struct kernel *kernel;
};

/* One name, again and again. */
static void time_name(const struct tables *tables, struct text name, struct times *times) {
    volatile uint32_t state = 0;
    double begin = now();
    for (int i = 0; i < REPEATS; i++) state = run_in_c(&tables->view, name.bytes, name.length);
    double end = now();
    uint32_t wanted = state;
    keep_least(&times->c, (end - begin) / REPEATS);
    begin = now();
    for (int i = 0; i < REPEATS; i++) state = loop_bench_image(tables->image.bytes, tables->image.length, name.bytes, name.length);
    end = now();
    keep_least(&times->proved, (end - begin) / REPEATS);
    if (state != wanted) fail("the loops lead to different states");
    if (!tables->kernel) return;
    begin = now();
    for (int i = 0; i < REPEATS; i++) state = run_in_kernel(tables->kernel, name.bytes, name.length);
    end = now();
    keep_least(&times->kernel, (end - begin) / REPEATS);
}

/* All names in their order. */
static void time_order(const struct tables *tables, const struct names *names, struct times *times) {
    static uint32_t in_c[DRAWN], by_one[DRAWN], in_batch[DRAWN];
    volatile unsigned in_kernel;
    double begin = now();
    for (size_t i = 0; i < DRAWN; i++) in_c[i] = run_in_c(&tables->view, name_at(names, i).bytes, name_at(names, i).length);
    double end = now();
    keep_least(&times->c, (end - begin) / DRAWN);
    begin = now();
    for (size_t i = 0; i < DRAWN; i++)
        by_one[i] = loop_bench_image(tables->image.bytes, tables->image.length, name_at(names, i).bytes, name_at(names, i).length);
    end = now();
    keep_least(&times->proved, (end - begin) / DRAWN);
    begin = now();
    uint64_t steps = loop_bench_names(tables->image.bytes, tables->image.length, names->text.bytes, names->text.length,
                                      names->offsets, DRAWN + 1, in_batch, DRAWN);
    end = now();
    keep_least(&times->batch, (end - begin) / DRAWN);
    if (memcmp(in_c, by_one, sizeof in_c) || memcmp(in_c, in_batch, sizeof in_c)) fail("the loops lead to different states");
    if (steps != names->text.length) fail("a wrong count of steps");
    if (!tables->kernel) return;
    begin = now();
    for (size_t i = 0; i < DRAWN; i++) in_kernel = run_in_kernel(tables->kernel, name_at(names, i).bytes, name_at(names, i).length);
    end = now();
    (void)in_kernel;
    keep_least(&times->kernel, (end - begin) / DRAWN);
}

/* The times at one place in memory: a block of a random size is allocated meanwhile, so that the tables get other pages than
 * before. How the pages of a table share the caches is luck. */
static void time_place(struct text image, struct text kernel, const struct names *names, const struct names *order, int rounds,
                       struct times *single, struct times *all) {
    size_t size = drawn(1 << 24), count = names->count < SINGLE ? names->count : SINGLE;
    uint8_t *block = memory(size, 1);
    memset(block, 1, size);
    struct text image_here = copy_of(image), kernel_here = copy_of(kernel);
    struct kernel tables_here = {0};
    if (kernel.length) tables_here = kernel_of(kernel_here);
    struct tables tables = {image_here, view(image_here), kernel.length ? &tables_here : NULL};
    for (int round = 0; round < rounds; round++) {
        for (size_t i = 0; i < count; i++) time_name(&tables, name_at(names, i), &single[i]);
        time_order(&tables, order, all);
    }
    free(kernel_here.bytes);
    free(image_here.bytes);
    free(block);
}

int main(int count, char **words) {
    if (count != 6) fail("usage: mixes IMAGE KERNEL NAMES PLACES ROUNDS");
    /* Each table gets pages of its own from the system, and gives them back. */
    mallopt(M_MMAP_THRESHOLD, 1 << 16);
    struct text image = read_file(words[1]), kernel = {NULL, 0}, text = read_file(words[3]);
    if (strcmp(words[2], "-")) kernel = read_file(words[2]);
    struct names names = lines_of(text), order = draw_names(&names);
    struct times single[SINGLE] = {{0}}, all = {0}, mean = {0};
    for (int place = 0; place < atoi(words[4]); place++)
        time_place(image, kernel, &names, &order, atoi(words[5]), single, &all);
    size_t singles = names.count < SINGLE ? names.count : SINGLE;
    for (size_t i = 0; i < singles; i++) {
        mean.kernel += single[i].kernel / singles;
        mean.c += single[i].c / singles;
        mean.proved += single[i].proved / singles;
    }
    printf("%.1f %.1f %.1f %.1f %.1f %.1f %.1f\n", mean.kernel, mean.c, mean.proved, all.kernel, all.c, all.proved, all.batch);
    return 0;
}
