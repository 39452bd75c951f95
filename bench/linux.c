// Times system calls on files of a directory, by the paths of `benchmarks open`: stat(2), and open(2) with close(2), in one thread
// and in four.
//
//     linux DIRECTORY COUNT
//
// It makes the tree of bench/rwlock_tree.rs in DIRECTORY, which has to be empty, and prints for each file and call, in one thread
// and in four, how many calls there were, COUNT in each thread, and how many nanoseconds they took.
//
// Each thread has a descriptor of its own of DIRECTORY, which the paths begin at. The files that it opens get numbers in the table
// of descriptors that all threads of a process share, as in any program.
#define _GNU_SOURCE
#include <fcntl.h>
#include <pthread.h>
#include <stdbool.h>
#include <stdio.h>
#include <stdlib.h>
#include <string.h>
#include <sys/stat.h>
#include <time.h>
#include <unistd.h>

#define LENGTH(array) (sizeof(array) / sizeof((array)[0]))
#define MOST_THREADS 4
#define DIRECTORIES "d01/d02/d03/d04/d05/d06/d07/d08/d09/d10/d11/d12/d13/d14/d15/d16"

enum call { STAT, OPEN };

static const char *const CALLS[] = {[STAT] = "stat", [OPEN] = "open"};

struct route {
    const char *name, *path;
};

static const struct route ROUTES[] = {
    {"down_1", "d01/file"},
    {"down_2", "d01/d02/file"},
    {"down_4", "d01/d02/d03/d04/file"},
    {"down_8", "d01/d02/d03/d04/d05/d06/d07/d08/file"},
    {"down_16", DIRECTORIES "/file"},
    {"links_1", "one/file"},
    {"links_4", "four/file"},
};

static const struct {
    const char *name, *text;
} LINKS[] = {{"one", "d01/d02/d03/d04"}, {"two", "one"}, {"three", "two"}, {"four", "three"}};

static const char *const FILES[] = {"conf", "data", "lock", "log", "state", "file"};

// What one thread does.
struct work {
    const char *directory, *path;
    enum call call;
    long count;
};

static void fail(const char *what) {
    perror(what);
    exit(1);
}

static int opened(const char *directory) {
    int top = open(directory, O_PATH | O_DIRECTORY | O_CLOEXEC);
    if (top < 0)
        fail(directory);
    return top;
}

// The directories, each in the one before, each with six files.
static void make_directories(int top) {
    char path[sizeof DIRECTORIES + sizeof "/state"];
    for (size_t end = strlen("d01"); end <= strlen(DIRECTORIES); end += strlen("/d01")) {
        snprintf(path, sizeof path, "%.*s", (int)end, DIRECTORIES);
        if (mkdirat(top, path, 0755))
            fail(path);
        for (size_t i = 0; i < LENGTH(FILES); i++) {
            snprintf(path, sizeof path, "%.*s/%s", (int)end, DIRECTORIES, FILES[i]);
            int file = openat(top, path, O_CREAT | O_EXCL | O_WRONLY | O_CLOEXEC, 0644);
            if (file < 0 || close(file))
                fail(path);
        }
    }
}

static void make_tree(const char *directory) {
    int top = opened(directory);
    for (size_t i = 0; i < LENGTH(LINKS); i++)
        if (symlinkat(LINKS[i].text, top, LINKS[i].name))
            fail(LINKS[i].name);
    if (mkdirat(top, "aside", 0755))
        fail("aside");
    make_directories(top);
    close(top);
}

static bool call_once(int top, const char *path, enum call call) {
    if (call == STAT) {
        struct stat status;
        return !fstatat(top, path, &status, 0);
    }
    int file = openat(top, path, O_RDONLY | O_CLOEXEC);
    return file >= 0 && !close(file);
}

static void *call_often(void *argument) {
    const struct work *work = argument;
    int top = opened(work->directory);
    for (long i = 0; i < work->count; i++)
        if (!call_once(top, work->path, work->call))
            fail(work->path);
    close(top);
    return NULL;
}

// How many nanoseconds that takes in this many threads.
static long long time_calls(struct work *work, int threads) {
    pthread_t started[MOST_THREADS];
    struct timespec start, end;
    clock_gettime(CLOCK_MONOTONIC, &start);
    for (int i = 0; i < threads; i++)
        if (pthread_create(&started[i], NULL, call_often, work))
            fail("pthread_create");
    for (int i = 0; i < threads; i++)
        pthread_join(started[i], NULL);
    clock_gettime(CLOCK_MONOTONIC, &end);
    return (end.tv_sec - start.tv_sec) * 1000000000LL + (end.tv_nsec - start.tv_nsec);
}

int main(int count, char **words) {
    if (count != 3) {
        fprintf(stderr, "usage: linux DIRECTORY COUNT\n");
        return 2;
    }
    make_tree(words[1]);
    for (size_t i = 0; i < LENGTH(ROUTES); i++)
        for (enum call call = STAT; call <= OPEN; call++)
            for (int threads = 1; threads <= MOST_THREADS; threads += MOST_THREADS - 1) {
                struct work work = {words[1], ROUTES[i].path, call, atol(words[2])};
                long long took = time_calls(&work, threads);
                printf("%s %s %d %ld %lld\n", ROUTES[i].name, CALLS[call], threads, threads * work.count, took);
            }
    return 0;
}
