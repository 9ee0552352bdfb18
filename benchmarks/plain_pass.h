/* What the plain C passes of both texts share: on the machine's words in place, from the papers. */
#ifndef BENCH_PLAIN_PASS_H
#define BENCH_PLAIN_PASS_H

#include "plain.h"
#include "tables.h" /* quarter, entries and old_entries: made by benchmarks/tables from the reference */

#include <string.h>

static int32_t signed20(uint32_t x) { return (int32_t)(x << 12) >> 12; }

/* Question 10, of memory that is long enough. It stands once, in pass.c: its time depends much on where its loop is put. */
int valid_memory(const uint32_t *memory);

/* Generators. */

static int leaves20(uint32_t a, uint32_t b) {
    int32_t s = signed20(a) + signed20(b);
    return s < -524288 || s > 524287;
}

/* Steps 2 and 4. */
static void turn(uint32_t *g, uint32_t j) {
    g[GJ] = LOW(g[GJ] + (uint32_t)signed20(g[GO]), 28);
    g[GK] = LOW(g[GK] + j, 20);
}

/* Step 7: whether the envelope overflows; GQ is brought up to date. */
static int decay(uint32_t *g, int is_free) {
    int32_t sum = (int32_t)g[GQ] + signed20(g[GP]);
    int over = sum < 0 || sum > 16777215;
    if (!over || is_free) g[GQ] = LOW((uint32_t)sum, 24);
    return over;
}

/* A signed sum of 20 bits; the mark is set where it leaves its range. */
static uint32_t add_marked(uint32_t a, uint32_t b, uint8_t *mark) {
    *mark |= (uint8_t)leaves20(a, b);
    return LOW(a + b, 20);
}

/* Modifiers. */

static int64_t scaled(uint32_t s, uint32_t a, uint32_t b) {
    return (int64_t)signed20(a) * signed20(b) * (1 << s);
}
static uint32_t product(uint32_t s, uint32_t a, uint32_t b) {
    return LOW((uint32_t)((scaled(s, a, b) + 262144) >> 19), 20);
}

static uint32_t look(uint32_t s[4][64], const uint32_t *view, uint32_t address) {
    uint32_t i = address & 63;
    return address < 64 ? s[GENERATOR_LAST][i] : address < 128 ? s[MODIFIER_LAST][i] : view[i];
}

static void write_sum(uint32_t *quadrant, uint32_t msum, uint32_t s) {
    uint32_t *word = &quadrant[msum & 63];
    *word = msum >> 6 ? s : LOW(*word + s, 20);
}

/* The end of a pass. */
static void end_pass(uint32_t *m, uint32_t s[4][64]) {
    memset(m + SUMS, 0, 4 * 64 * sizeof s[0][0]);
    memcpy(m + SUMS + 64, s[GENERATOR_THIS], sizeof s[0]);
    memcpy(m + SUMS + 192, s[MODIFIER_THIS], sizeof s[0]);
    m[COUNTER]++;
}

#endif
