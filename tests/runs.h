/* Runs of words for the programs that answer requests: read from standard input, guarded on both sides while the
 * library is called. A program stops with status 2 where it cannot read or write, and with status 3 where a call
 * wrote beside a run or into a run that it may only read.
 */
#ifndef RUNS_H
#define RUNS_H

#include <stddef.h>
#include <stdint.h>
#include <stdio.h>
#include <stdlib.h>
#include <string.h>

/* Words beside each run that no call may touch, and what they hold. */
enum { BESIDE = 8 };
#define UNTOUCHED 0xA5A5A5A5u

typedef struct {
    uint32_t *block; /* BESIDE words, the run, BESIDE words */
    uint32_t *words; /* the run; NULL where it is empty */
    uint32_t *copy;  /* the run as it was before the call */
    size_t length;
} run;

static inline void stop(int status, const char *why) {
    fprintf(stderr, "requests: %s\n", why);
    exit(status);
}

static inline void get(void *to, size_t size, size_t count) {
    if (fread(to, size, count, stdin) != count) stop(2, "the input ends within a request");
}

static inline void put(const void *from, size_t size, size_t count) {
    if (fwrite(from, size, count, stdout) != count) stop(2, "cannot write");
}

static inline run new_run(uint32_t length) {
    run r;
    r.length = length;
    r.block = malloc((length + 2u * BESIDE) * sizeof *r.block);
    r.copy = malloc((length + 1u) * sizeof *r.copy);
    if (!r.block || !r.copy) stop(2, "out of memory");
    for (size_t i = 0; i < BESIDE; i++) r.block[i] = r.block[BESIDE + length + i] = UNTOUCHED;
    r.words = length ? r.block + BESIDE : NULL;
    return r;
}

/* Keeps the words of a run as they are now. */
static inline void keep_copy(run *r) { memcpy(r->copy, r->block + BESIDE, r->length * sizeof *r->copy); }

static inline run read_run(uint32_t length) {
    run r = new_run(length);
    get(r.block + BESIDE, sizeof *r.block, length);
    keep_copy(&r);
    return r;
}

/* A delay memory is sent by a number that its words are made from, so that no two neighbours are alike and each has
 * 20 bits (0 makes it all 0), and by those words that are others. */
static inline uint32_t made_word(uint32_t fill, uint32_t slot) { return fill ? (slot + fill) * 2654435761u >> 12 : 0; }

static inline void fill_memory(uint32_t *memory, uint32_t length, uint32_t fill) {
    for (uint32_t i = 0; i < length; i++) memory[i] = made_word(fill, i);
}

static inline run read_memory(uint32_t length, uint32_t fill, uint32_t others) {
    run r = new_run(length);
    if (length) fill_memory(r.words, length, fill);
    for (uint32_t i = 0; i < others; i++) {
        uint32_t other[2]; /* the slot and its word */
        get(other, sizeof other[0], 2);
        if (other[0] >= length) stop(2, "a slot is not in the delay memory");
        r.words[other[0]] = other[1];
    }
    keep_copy(&r);
    return r;
}

static inline void put_run(const run *r) { put(r->block + BESIDE, sizeof *r->block, r->length); }

static inline void check_beside(const run *r) {
    for (size_t i = 0; i < BESIDE; i++)
        if (r->block[i] != UNTOUCHED || r->block[BESIDE + r->length + i] != UNTOUCHED)
            stop(3, "a word beside a run was written");
}

static inline void check_kept(const run *r) {
    if (memcmp(r->copy, r->block + BESIDE, r->length * sizeof *r->copy)) stop(3, "a run that is only read was written");
}

static inline void free_run(run *r) {
    free(r->block);
    free(r->copy);
}

#endif
