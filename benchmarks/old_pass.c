/* A pass by the older text in plain C: benchmarks/pass builds this beside benchmarks/pass.c, which times it.
   Written from the papers, on the machine's words in place, with the same questions asked. */
#define _POSIX_C_SOURCE 199309L
#include "plain_pass.h"

/* Bit n is 1 where function n reads A late, and where run mode n adds. */
static const uint32_t late_a = 0x00007704, adds = 0x2C;

/* The questions of a pass. */
static uint32_t refusal(const uint32_t *m, size_t words, const uint32_t *order, size_t entries, size_t items_len,
                        size_t places_len, const uint32_t *memory, size_t memory_words) {
    if (words != KARVELORN_WORDS) return 1;
    if (!old_valid_machine(m)) return 2;
    if (entries != m[T]) return 5;
    if (!each_once(order, m[T])) return 6;
    size_t reads = 0, writes = 0;
    for (uint32_t i = 0; i < m[T]; i++) {
        const uint32_t *g = m + GENERATOR_WORDS * i;
        uint32_t run = g[GMODE] >> 5;
        reads += run == OLD_READ_DATA;
        writes += run == OLD_SEND && g[GN] >> 10;
    }
    if (items_len < reads) return 7;
    if (places_len < writes) return 8;
    if (memory_words != KARVELORN_MEMORY_WORDS || !valid_memory(memory)) return 10;
    return 0;
}

/* Generators. */

/* Step 3: E. */
static uint32_t angle(const uint32_t *g, uint32_t j) { return (g[GMODE] & 7) == 5 ? j : g[GK]; }

/* Steps 6 to 9: P of a generator as its turn begins. */
static uint32_t output(const uint32_t *g, int turning, uint32_t f, uint32_t j) {
    uint32_t mode = g[GMODE] & 7, env = g[GMODE] >> 3 & 3, k = angle(g, j) >> 8, w;
    int negative = k >= 2048;
    if (mode >= 4) {
        uint32_t x = 2 * k + 2048, i = x & 2047;
        negative = x >> 12 & 1;
        w = quarter[x & 2048 ? 2047 - i : i] >> (1 + g[GM]);
    } else if (mode == 1) {
        w = 1024;
    } else if (mode == 2) {
        w = negative ? 4096 - k : k;
    } else {
        w = leaves20(g[GJ] >> 8, f) || (turning && leaves20(g[GK], j)) ? 1024 : 0;
        negative = 0;
    }
    uint32_t h = g[GQ] >> 12, q = env >= 2 ? (uint32_t)old_entries[h & 255] >> (h >> 8) : h;
    uint32_t v = LOW(env & 1 ? g[GL] - q : g[GL] + q, 12);
    uint32_t p = (w * v + 32) / 64;
    return LOW(negative ? 0u - p : p, 20);
}

static void set_run_mode(uint32_t *g, uint32_t run) { g[GMODE] = run << 5 | LOW(g[GMODE], 5); }

static void generators(uint32_t *m, uint32_t s[4][64], const uint32_t *order, const uint32_t *items, uint32_t *places,
                       size_t *read, size_t *written, uint8_t *clipped) {
    uint8_t triggered[258] = {0}; /* at g+2 */
    size_t reads = 0, writes = 0;
    uint32_t t = m[T];
    for (uint32_t i = 0; i < t; i++) {
        uint32_t n = order[i], *g = m + GENERATOR_WORDS * n, run = g[GMODE] >> 5;
        if (run < OLD_RUNNING_A) continue;
        uint32_t f = s[g[GFM] >> 6 ? MODIFIER_LAST : GENERATOR_LAST][g[GFM] & 63], j = LOW((g[GJ] >> 8) + f, 20);
        if (adds >> run & 1) {
            uint32_t *sum = &s[GENERATOR_THIS][g[GSUM]];
            *sum = add_marked(*sum, output(g, 1, f, j), &clipped[g[GSUM]]);
            turn(g, j);
            if (decay(g, run != OLD_RUNNING_A) && run != OLD_RUNNING_A) {
                triggered[n + 2] = 1;
                if (run == OLD_RUNNING_C) set_run_mode(g, OLD_WAIT);
            }
        } else if (run == OLD_WAIT) {
            turn(g, j);
            if (triggered[n]) set_run_mode(g, OLD_RUNNING_C);
        } else if (run == OLD_READ_DATA) {
            s[GENERATOR_THIS][g[GSUM]] = add_marked(output(g, 0, f, j), LOW(items[reads++], 20), &clipped[g[GSUM]]);
            decay(g, 0);
        } else if (g[GN] >> 10) {
            places[writes++] = angle(g, j);
        } else {
            m[DACS + (g[GN] & 15)] = angle(g, j);
        }
    }
    *read = reads;
    *written = writes;
}

/* Modifiers. */

/* A modifier's turn with A and B: its registers are brought up to date; gives S. */
static uint32_t modifier_turn(uint32_t *u, uint32_t a, uint32_t b) {
    uint32_t aa = u[MMODE] >> 2 & 3, bb = u[MMODE] & 3, m0 = u[M0] >> 10, m1 = u[M1] >> 10;
    uint32_t function = u[MMODE] >> 4, s, x, y;
    switch (function) {
    case 1: return LOW(product(bb, a, m0) + product(aa, b, m1), 20);
    case 2:
        s = u[L1];
        if (product(aa, b, m1)) u[L1] = a;
        return s;
    case 3:
        x = product(bb, b, m0);
        y = product(aa, u[L1], m1);
        u[L1] = x;
        return x && y && (x ^ y) >> 19 ? LOW(~0u, 20) : 0;
    case 4:
        s = product(aa, u[L1], m1);
        u[L1] = product(bb, a, (uint32_t)(signed20(b) + 524288) >> 1);
        return s;
    case 5:
        s = product(aa, u[L1], m1);
        u[L1] = product(bb, a, b);
        return s;
    case 6: case 7:
        x = product(bb, a, m0);
        y = product(aa, b, m1);
        if (function == 6) return signed20(x) < signed20(y) ? x : y;
        return signed20(x) > signed20(y) ? x : y;
    case 8: case 9: case 10: case 12: case 13: case 14:
        s = LOW(product(aa, u[L0], m1) + product(bb, u[L1], m0) + a, 20);
        u[L0] = u[L1];
        u[L1] = function < 12 ? s : a;
        if ((function & 3) == 1) u[M0] = LOW(u[M0] + (uint32_t)signed20(b), 30);
        if ((function & 3) == 2) u[M1] = LOW(u[M1] + (uint32_t)signed20(b), 30);
        return s;
    case 16: return u[L1] = LOW(u[L0] + (uint32_t)scaled(bb, u[L1], m0), 20);
    default: return 0;
    }
}

static void modifiers(uint32_t *m, uint32_t s[4][64]) {
    uint32_t early[64], *late = s[MODIFIER_THIS];
    uint32_t msums[4], written[4]; /* the last four writes, that of k at k mod 4 */
    uint32_t count = m[T] / 2;
    memcpy(early, late, sizeof early);
    for (uint32_t k = 0; k < count; k++) {
        uint32_t *u = m + MODIFIERS + MODIFIER_WORDS * k;
        if (k >= 4) write_sum(early, msums[k & 3], written[k & 3]);
        uint32_t a = look(s, late_a >> (u[MMODE] >> 4) & 1 ? late : early, u[MIN]);
        uint32_t b = look(s, early, u[MRM]);
        uint32_t result = modifier_turn(u, a, b);
        msums[k & 3] = u[MSUM];
        written[k & 3] = result;
        write_sum(late, u[MSUM], result);
    }
}

/* The pass. */
__attribute__((noinline)) uint32_t plain_old_pass(uint32_t *m, size_t words, const uint32_t *order, size_t entries,
                                                  const uint32_t *items, size_t items_len, uint32_t *places,
                                                  size_t places_len, uint32_t *memory, size_t memory_words,
                                                  size_t *read, size_t *written, uint8_t *clipped) {
    uint32_t s[4][64], number = refusal(m, words, order, entries, items_len, places_len, memory, memory_words);
    *read = *written = 0;
    memset(clipped, 0, KARVELORN_MARKS);
    if (number) return number;
    memcpy(s, m + SUMS, sizeof s);
    generators(m, s, order, items, places, read, written, clipped);
    modifiers(m, s);
    end_pass(m, s);
    return 0;
}
