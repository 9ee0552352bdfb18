/* What the plain C compares of both texts share. */
#ifndef BENCH_PLAIN_COMPARE_H
#define BENCH_PLAIN_COMPARE_H

#include "plain.h"

#include <string.h>

/* Questions 5 and 6 of both orders. */
static uint32_t orders_refusal(const uint32_t *m, const uint32_t *first, size_t first_len, const uint32_t *second,
                               size_t second_len) {
    if (first_len != m[T]) return 5;
    if (!each_once(first, m[T])) return 6;
    if (second_len != m[T]) return 5;
    if (!each_once(second, m[T])) return 6;
    return 0;
}

/* What the four points need of an order; last and fed are 0 where there is none. A source is a GFM, by the older text a
   generator. */
typedef struct {
    uint8_t at[256];                         /* the place of each generator */
    uint32_t fed[16];                        /* the source of each DAC's last feeder */
    uint32_t written[256], writes;           /* the sources of the written data */
    uint32_t last[64], among[64], replacing; /* each word's last reading one, plus 1, and its place among all of them */
} trace;

static void begin(trace *o) {
    memset(o->fed, 0, sizeof o->fed);
    memset(o->last, 0, sizeof o->last);
    memset(o->among, 0, sizeof o->among);
    o->writes = o->replacing = 0;
}

/* What an order of a 1978 machine is followed to. */
SHARED void follow_1978(const uint32_t *m, const uint32_t *order, trace *o) {
    uint32_t t = m[T];
    begin(o);
    for (uint32_t i = 0; i < t; i++) {
        uint32_t n = order[i], run;
        const uint32_t *g = m + GENERATOR_WORDS * n;
        run = g[GMODE] >> 6;
        o->at[n] = (uint8_t)i;
        if (run == WRITE_DAC) {
            o->fed[g[GO] & 15] = g[GFM];
        } else if (run == WRITE_DATA) {
            o->written[o->writes++] = g[GFM];
        } else if (run == READ_DATA) {
            o->last[g[GSUM]] = n + 1;
            o->among[g[GSUM]] = o->replacing++;
        }
    }
}

static int same_side(const trace *a, const trace *b, uint32_t g, uint32_t h) {
    return (a->at[g] < a->at[h]) == (b->at[g] < b->at[h]);
}

SHARED int same_sent(const trace *a, const trace *b) {
    return !memcmp(a->fed, b->fed, sizeof a->fed) && !memcmp(a->written, b->written, a->writes * sizeof *a->written);
}

SHARED int same_last(const trace *a, const trace *b) {
    return !memcmp(a->last, b->last, sizeof a->last) && !memcmp(a->among, b->among, sizeof a->among);
}

#endif
