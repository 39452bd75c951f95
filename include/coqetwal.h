/* Judges names by the image of a compiled profile: AppArmor's file rules, without the rules' text.
 *
 *     coqetwal_table *table;
 *     struct coqetwal_fault fault;
 *     struct coqetwal_answer answer;
 *     if (coqetwal_load(image, length, &table, &fault)) ...    refused: fault.number, fault.place; or out of memory, 11
 *     coqetwal_judge(table, "/etc/passwd", 11, COQETWAL_READ | COQETWAL_WRITE, &answer);
 *     if (answer.verdict == COQETWAL_ALLOWED) ...
 *     coqetwal_free(table);
 *
 * Link with -lcoqetwal, which is built for processors of the level x86-64-v2; docs/EMBEDDING.md has the commands for C, C++,
 * Rust and Python.
 *
 * The first part of this file declares the functions of the library. Each is proved to meet the contract in its source
 * (crates/coqetwal). Nothing compares these declarations with that source, and only the caller can make sure that a pointer
 * points to as much as the length after it says. They allocate no memory, and change nothing but what they are given to
 * write. The second part, small C functions over them, isn't proved: they copy an image to memory of their own, and answer
 * null pointers. A program that includes this file has those compiled into it; the shared library exports them, too. */
#ifndef COQETWAL_H
#define COQETWAL_H

#include <stddef.h>
#include <stdint.h>
#include <stdlib.h>
#include <string.h>

#define COQETWAL_VERSION "0.1.0"

/* The number of this interface: it grows when a number gets a meaning that it hadn't. 2 has COQETWAL_APPEND, before which no number
 * was defined; 3 has COQETWAL_NULL. */
#define COQETWAL_INTERFACE 3

/* How the functions of the second part are defined. library/coqetwal.c, which is compiled into the shared library, says otherwise. */
#ifndef COQETWAL_FUNCTION
#define COQETWAL_FUNCTION static inline
#endif

#ifdef __cplusplus
extern "C" {
#endif

/* Permissions. A set of them is the sum of their numbers, in questions and in answers. */
enum coqetwal_permission {
    COQETWAL_READ = 1,
    COQETWAL_WRITE = 2,
    COQETWAL_LINK = 4,
    COQETWAL_LOCK = 8,
    COQETWAL_MAP = 16,
    /* Writing at the end of a file. A rule that gives or denies writing gives or denies this, too. An image of version 1 says
     * nothing else about it than about writing, so it has the answers of COQETWAL_WRITE. */
    COQETWAL_APPEND = 32
};

/* Verdicts. Cleared memory reads as COQETWAL_NO_ANSWER. */
enum coqetwal_verdict {
    /* Nothing was judged: nothing was asked, or something that isn't a permission, or there is no table, or no name. */
    COQETWAL_NO_ANSWER = 0,
    COQETWAL_ALLOWED = 1,
    /* A deny rule forbids something that was asked. */
    COQETWAL_DENIED = 2,
    /* No rule allows something that was asked. */
    COQETWAL_NO_RULE = 3
};

/* The answer on a name. */
struct coqetwal_answer {
    /* The number of steps: one for each byte of the name, or 0 if nothing was judged. In an image with chains of defaults a step
     * may take more look-ups than one, at most one more than the image's bound of depths; they aren't counted here. */
    uint64_t steps;
    /* One of enum coqetwal_verdict. */
    uint16_t verdict;
    /* If it is denied, the first rule that denies something that was asked, counted from 1; else 0. */
    uint16_t rule;
    /* If there is no rule, the sum of the asked permissions that no rule allows; else 0. */
    uint16_t missing;
};

/* Why an image is refused: its first fault. */
enum coqetwal_fault_number {
    COQETWAL_ACCEPTED = 0,
    /* fewer than 20 bytes */
    COQETWAL_SHORT = 1,
    /* the first four bytes aren't PTAB */
    COQETWAL_MAGIC = 2,
    /* a version other than 1 and 2 */
    COQETWAL_IMAGE_VERSION = 3,
    /* the two bytes after version 1, which are reserved, aren't 0 */
    COQETWAL_RESERVED = 4,
    /* a count of states, cells or records is out of its limits */
    COQETWAL_COUNTS = 5,
    /* a length other than the counts say */
    COQETWAL_LENGTH = 6,
    /* the default of a state isn't a state; place: the state */
    COQETWAL_DEFAULT = 7,
    /* the row of a state ends after the last cell; place: the state */
    COQETWAL_BASE = 8,
    /* the accept of a state isn't a record; place: the state */
    COQETWAL_ACCEPT = 9,
    /* the next of a cell isn't a state; place: the cell */
    COQETWAL_NEXT = 10,
    /* coqetwal_load was out of memory; this says nothing about the image */
    COQETWAL_NO_MEMORY = 11,
    /* the depth of a state is over the image's bound, or over 0 and not over that of its default; place: the state */
    COQETWAL_DEPTH = 12,
    /* coqetwal_load was given a null pointer in place of the image, with a length other than 0, or in place of the table */
    COQETWAL_NULL = 13
};

struct coqetwal_fault {
    uint16_t number;
    /* The state or cell of the faults 7 to 10 and 12; else 0. */
    uint32_t place;
};

struct coqetwal_counts {
    uint32_t states, cells, records;
};

/* ---- The functions of the library: images in place.
 *
 * Required of the caller, for each of them: a pointer isn't null, not even if the length after it is 0, and points to as many
 * bytes, offsets or answers as that length says; nobody else changes them during the call, and answers don't overlap with what
 * is read. Any number of calls may run at the same time on the same image and names.
 *
 * The `image` of all functions but coqetwal_image_verify must be one that it accepted, in bytes that haven't changed since;
 * with any other bytes the behaviour is undefined. If others can write to the bytes, as to a mapped file, use coqetwal_load.
 * An image of length 0 is none: names have no answer, and the counts are 0. */

/* The first fault of an image; 0 if it is accepted. Then no name leads out of its tables, wherever it came from. */
struct coqetwal_fault coqetwal_image_verify(const uint8_t *image, size_t image_length);

/* What an image says about a name. `asked` is a sum of permissions, 1 to 63; any other number has no answer. All of *answer is
 * written, whatever it was before. */
void coqetwal_image_judge(const uint8_t *image, size_t image_length, const uint8_t *name, size_t name_length, uint32_t asked,
                          struct coqetwal_answer *answer);

/* What an image says about many names in one text: name i goes from offsets[i] to offsets[i + 1]. Each of the `count` answers
 * is written. If a name lacks one of its offsets, or these descend or leave the text, it has no answer. */
void coqetwal_image_judge_all(const uint8_t *image, size_t image_length, const uint8_t *names, size_t names_length,
                              const size_t *offsets, size_t offsets_length, uint32_t asked, struct coqetwal_answer *answers,
                              size_t count);

/* How many states, cells and records an image has. */
struct coqetwal_counts coqetwal_image_counts(const uint8_t *image, size_t image_length);

/* ---- Holders of images, in C.
 *
 * A table holds a copy of an image that was accepted. It is never written to, so any number of threads may use it at the same
 * time, each with answers of its own.
 *
 * Required of the caller, for each of them: a table came from coqetwal_load and wasn't freed, or it is null; then names have
 * no answer and the counts are 0. Any other pointer that isn't null points to as much as is said of it: an image, a name or the
 * text of names has as many bytes as the length after it says. Nobody changes what a call reads while it runs.
 *
 * Any pointer may be null. An image, a name or a text of names of length 0 is then empty; with another length it is missing, and
 * a missing image is refused as COQETWAL_NULL, and a missing name, or each name of a missing text, has no answer. */

typedef struct coqetwal_table {
    size_t length;
    /* The image follows. */
} coqetwal_table;

/* Whether a pointer to bytes is null though there should be some: there is nothing that could be read. */
static inline int coqetwal_is_missing(const void *text, size_t length) {
    return !text && length;
}

/* Where the bytes of a text are: never null. */
static inline const uint8_t *coqetwal_bytes(const void *text) {
    return (const uint8_t *)(text ? text : "");
}

/* Where a table's image is. */
COQETWAL_FUNCTION const uint8_t *coqetwal_image(const coqetwal_table *table) {
    return table ? (const uint8_t *)(table + 1) : coqetwal_bytes(NULL);
}

COQETWAL_FUNCTION size_t coqetwal_image_length(const coqetwal_table *table) {
    return table ? table->length : 0;
}

/* A copy of an image, which isn't missing; null if memory is refused. */
static inline coqetwal_table *coqetwal_copy(const void *image, size_t length) {
    coqetwal_table *made = length > SIZE_MAX - sizeof *made ? NULL : (coqetwal_table *)malloc(sizeof *made + length);
    if (made) {
        made->length = length;
        memcpy(made + 1, coqetwal_bytes(image), length);
    }
    return made;
}

/* Copies an image and verifies the copy. The result is 0, and *table is the table; or it is the number of the fault, and *table
 * is null. If `table` is null, it is COQETWAL_NULL, and nothing is copied. `fault` may be null; if it isn't, *fault is the fault,
 * 0 for an accepted image. It allocates with malloc: the size of the image, and a little more. */
COQETWAL_FUNCTION int coqetwal_load(const void *image, size_t length, coqetwal_table **table, struct coqetwal_fault *fault) {
    struct coqetwal_fault found = {COQETWAL_NULL, 0};
    coqetwal_table *made = NULL;
    if (table && !coqetwal_is_missing(image, length)) {
        found.number = COQETWAL_NO_MEMORY;
        made = coqetwal_copy(image, length);
    }
    if (made) found = coqetwal_image_verify(coqetwal_image(made), length);
    if (found.number) {
        free(made);
        made = NULL;
    }
    if (table) *table = made;
    if (fault) *fault = found;
    return found.number;
}

/* Frees a table, which no call may use any more. With a null pointer it does nothing. */
COQETWAL_FUNCTION void coqetwal_free(coqetwal_table *table) {
    free(table);
}

/* Judges a name. `asked` is a sum of permissions, 1 to 63; any other number has no answer, and neither has a missing name. The
 * result is the verdict. All of *answer is written, with the same verdict; if `answer` is null, the result is all there is.
 * Allocates no memory. */
COQETWAL_FUNCTION int coqetwal_judge(const coqetwal_table *table, const void *name, size_t length, uint32_t asked,
                                     struct coqetwal_answer *answer) {
    struct coqetwal_answer unread, *told = answer ? answer : &unread;
    /* Of a missing name nothing is asked, which has no answer. */
    if (coqetwal_is_missing(name, length)) length = asked = 0;
    coqetwal_image_judge(coqetwal_image(table), coqetwal_image_length(table), coqetwal_bytes(name), length, asked, told);
    return told->verdict;
}

/* Judges `count` names, each from an offset to the next one in one text: `offsets` has count + 1 entries, and `answers` has room
 * for `count`. If its offsets descend or leave the text, or `offsets` is null, a name has no answer; `asked` is as above. Each
 * answer is written; if `answers` is null or `count` is 0, nothing is done. Allocates no memory. */
COQETWAL_FUNCTION void coqetwal_judge_batch(const coqetwal_table *table, const void *names, size_t length, const size_t *offsets,
                                            uint32_t asked, struct coqetwal_answer *answers, size_t count) {
    size_t none = 0;
    if (!count || !answers) return;
    if (coqetwal_is_missing(names, length)) length = asked = 0;
    coqetwal_image_judge_all(coqetwal_image(table), coqetwal_image_length(table), coqetwal_bytes(names), length,
                             offsets ? offsets : &none, offsets ? count + 1 : 0, asked, answers, count);
}

/* How many states, cells and records a table has. */
COQETWAL_FUNCTION uint32_t coqetwal_states(const coqetwal_table *table) {
    return coqetwal_image_counts(coqetwal_image(table), coqetwal_image_length(table)).states;
}

COQETWAL_FUNCTION uint32_t coqetwal_cells(const coqetwal_table *table) {
    return coqetwal_image_counts(coqetwal_image(table), coqetwal_image_length(table)).cells;
}

COQETWAL_FUNCTION uint32_t coqetwal_records(const coqetwal_table *table) {
    return coqetwal_image_counts(coqetwal_image(table), coqetwal_image_length(table)).records;
}

/* The version of the library, as "0.1.0". In a program that includes this file it is COQETWAL_VERSION. */
COQETWAL_FUNCTION const char *coqetwal_version(void) {
    return COQETWAL_VERSION;
}

#ifdef __cplusplus
}
#endif

#endif
