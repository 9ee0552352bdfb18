/* A compare by the older text in plain C: benchmarks/compare builds this beside benchmarks/compare.c, which tries and times it.
   Written from the papers, in time linear in T, with the same questions asked. */
#define _POSIX_C_SOURCE 199309L
#include "plain_compare.h"

/* Bit n is 1 where run mode n adds, and where its overflow is a trigger. */
static const uint32_t adds = 0x2C, triggers = 0x28;

/* The questions of a compare. */
static uint32_t refusal(const uint32_t *m, size_t words, const uint32_t *first, size_t first_len,
                        const uint32_t *second, size_t second_len) {
    if (words != KARVELORN_WORDS) return 1;
    if (!old_valid_machine(m)) return 2;
    return orders_refusal(m, first, first_len, second, second_len);
}

static void follow(const uint32_t *m, const uint32_t *order, trace *o) {
    uint32_t t = m[T];
    begin(o);
    for (uint32_t i = 0; i < t; i++) {
        uint32_t n = order[i], run;
        const uint32_t *g = m + GENERATOR_WORDS * n;
        run = g[GMODE] >> 5;
        o->at[n] = (uint8_t)i;
        if (run == OLD_SEND) {
            if (g[GN] >> 10)
                o->written[o->writes++] = n;
            else
                o->fed[g[GN] & 15] = n;
        } else if (run == OLD_READ_DATA) {
            o->last[g[GSUM]] = n + 1;
            o->among[g[GSUM]] = o->replacing++;
        }
    }
}

static int neighbours_agree(const uint32_t *m, const trace *a, const trace *b) {
    for (uint32_t g = 2; g < m[T]; g++) {
        uint32_t lower = m[GENERATOR_WORDS * (g - 2) + GMODE] >> 5;
        if (m[GENERATOR_WORDS * g + GMODE] >> 5 == OLD_WAIT && triggers >> lower & 1 && !same_side(a, b, g - 2, g))
            return 0;
    }
    return 1;
}

static int words_agree(const uint32_t *m, const trace *a, const trace *b) {
    if (!same_last(a, b)) return 0;
    for (uint32_t i = 0; i < m[T]; i++) {
        const uint32_t *g = m + GENERATOR_WORDS * i;
        uint32_t last = a->last[g[GSUM]];
        if (adds >> (g[GMODE] >> 5) & 1 && last && !same_side(a, b, last - 1, i)) return 0;
    }
    return 1;
}

__attribute__((noinline)) uint32_t plain_old_compare(const uint32_t *m, size_t words, const uint32_t *first,
                                                     size_t first_len, const uint32_t *second, size_t second_len,
                                                     uint32_t *equal) {
    trace a, b;
    uint32_t number = refusal(m, words, first, first_len, second, second_len);
    *equal = 0;
    if (number) return number;
    follow(m, first, &a);
    follow(m, second, &b);
    *equal = neighbours_agree(m, &a, &b) && same_sent(&a, &b) && words_agree(m, &a, &b);
    return 0;
}
