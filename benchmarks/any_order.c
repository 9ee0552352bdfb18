/* Whether all orders are equal, in plain C beside the proved call: benchmarks/any_order builds this. It asks both about the same machines, then
   times both in turn. The C is written from the papers, in one loop over the generators, with the same questions asked. */
#define _POSIX_C_SOURCE 199309L
#include "plain.h"

/* What the rule needs of the generators below T, in one loop: the first source of each DAC and of the written data, plus 1, and whether another one
   came; the words with a reader and those with an adding generator; how many readers there are; whether one waits for a lower neighbour that can trigger. */
static int rule(const uint32_t *m) {
    uint8_t fed[16] = {0};
    uint64_t read = 0, added = 0;
    uint32_t written = 0, apart = 0, readers = 0, lower = 0;
    const uint32_t *end = m + GENERATOR_WORDS * m[T];
    for (const uint32_t *g = m; g < end; g += GENERATOR_WORDS) {
        uint32_t run = g[GMODE] >> 6, source = g[GFM] + 1;
        if (run >= RUNNING_C) {
            added |= (uint64_t)1 << g[GSUM];
        } else if (run == WRITE_DAC) {
            uint8_t *first = &fed[g[GO] & 15];
            apart |= *first && *first != source;
            *first = (uint8_t)source;
        } else if (run == WRITE_DATA) {
            apart |= written && written != source;
            written = source;
        } else if (run == READ_DATA) {
            read |= (uint64_t)1 << g[GSUM];
            readers++;
        } else if (run == WAIT) {
            apart |= lower == RUNNING_B || lower == RUNNING_C;
        }
        lower = run;
    }
    return !apart && readers <= 1 && !(read & added);
}

__attribute__((noinline)) uint32_t plain_any_order(const uint32_t *m, size_t words, uint32_t *yes) {
    *yes = 0;
    if (words != KARVELORN_WORDS) return 1;
    if (!valid_machine(m)) return 2;
    *yes = (uint32_t)rule(m);
    return 0;
}

#ifndef ONLY_PLAIN

/* Machines. */

static const uint32_t runs[16] = {RUNNING_A, RUNNING_B, RUNNING_C, WAIT,       RUNNING_A, RUNNING_B,  WRITE_DAC, WRITE_DATA,
                                  WRITE_DAC, RUNNING_A, WAIT,      WRITE_DATA, RUNNING_C, WRITE_DATA, 0,         1};

/* A generator in a run mode; it is on one of `words` sum words and has one of `sources` GFMs. */
static void make_generator(uint32_t *g, uint32_t run, uint32_t words, uint32_t sources) {
    g[GO] = draw(20);
    g[GSUM] = draw(16) % words;
    g[GFM] = draw(16) % sources;
    g[GMODE] = run << 6;
}

/* Any modes; here and there a reader. */
static void make_machine(uint32_t *m, uint32_t t, uint32_t words, uint32_t sources) {
    karvelorn_fresh(m, KARVELORN_WORDS);
    set_ticks(m, t);
    for (uint32_t i = 0; i < 256; i++)
        make_generator(m + GENERATOR_WORDS * i, draw(3) ? runs[draw(4)] : READ_DATA, words, sources);
}

/* All modes, and every clause holds, so that none ends the count: the last generator is the one reader, on word 63. */
static void make_holding(uint32_t *m, uint32_t t) {
    uint32_t lower = 0;
    karvelorn_fresh(m, KARVELORN_WORDS);
    set_ticks(m, t);
    for (uint32_t i = 0; i < t; i++) {
        uint32_t *g = m + GENERATOR_WORDS * i, run = i == t - 1 ? READ_DATA : runs[draw(4)];
        if (run == WAIT && (lower == RUNNING_B || lower == RUNNING_C)) run = RUNNING_A;
        make_generator(g, run, 63, 128);
        if (run == READ_DATA) g[GSUM] = 63;
        if (run == WRITE_DAC) g[GFM] = 64 + (g[GO] & 15);
        if (run == WRITE_DATA) g[GFM] = 127;
        lower = run;
    }
}

/* Both answer alike: small machines of any settings, and others on which every clause holds; some of them not good. */
static int alike(int cases) {
    static uint32_t m[KARVELORN_WORDS];
    uint32_t said = 0, refused = 0;
    for (int i = 0; i < cases; i++) {
        uint32_t yes[2], number[2];
        size_t words = KARVELORN_WORDS - (draw(6) == 0);
        if (draw(2))
            make_machine(m, 1 + draw(3), 1 + draw(3), 1 + draw(2));
        else
            make_holding(m, 1 + draw(8));
        if (draw(5) == 0) m[draw(16) % KARVELORN_WORDS] = draw(32);
        number[0] = karvelorn_any_order(m, words, &yes[0]);
        number[1] = plain_any_order(m, words, &yes[1]);
        if (number[0] != number[1] || yes[0] != yes[1]) {
            printf("any order: R answers %u and %u, C %u and %u\n", number[0], yes[0], number[1], yes[1]);
            return 0;
        }
        said += yes[0];
        refused += number[0] != 0;
    }
    printf("any order: %d cases alike, %u of them yes, %u refused\n", cases, said, refused);
    return 1;
}

/* The timing. */

static const double limit = 1.1; /* the ratio to gcc -O2 at most */

typedef uint32_t any_order_function(const uint32_t *, size_t, uint32_t *);

any_order_function plain_any_order_o3, plain_any_order_native;

/* The time of one call, from a number of them in a row. */
static double timed(any_order_function *any_order, const uint32_t *m, int times) {
    uint32_t yes, all = 1, refused = 0;
    double start = now();
    for (int i = 0; i < times; i++) {
        refused |= any_order(m, KARVELORN_WORDS, &yes);
        all &= yes;
    }
    double spent = (now() - start) / times;
    if (refused || !all) {
        fprintf(stderr, "any order: refused or no\n");
        exit(1);
    }
    return spent;
}

/* Times the sides on a machine on which every clause holds; whether R's time is within the limit. */
static int time_all(uint32_t t, int times_each) {
    static any_order_function *const sides[SIDES] = {karvelorn_any_order, plain_any_order, plain_any_order_o3, plain_any_order_native};
    static uint32_t m[KARVELORN_WORDS];
    static double times[SIDES][ROUNDS];
    char call[32];
    make_holding(m, t);
    for (int i = -WARM; i < ROUNDS; i++)
        for (int side = 0; side < SIDES; side++) {
            double time = timed(sides[side], m, times_each);
            if (i >= 0) times[side][i] = time;
        }
    snprintf(call, sizeof call, "any order at T=%u", t);
    int within = print_times(call, times) <= limit;
    if (!within) printf("%s: above the limit of %.2f to C -O2\n", call, limit);
    return within;
}

int main(void) {
    print_load();
    if (!alike(200000)) return 1;
    int all = time_all(256, 20);
    all &= time_all(64, 40);
    all &= time_all(1, 80);
    return all ? 0 : 1;
}

#endif
