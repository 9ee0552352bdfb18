/* Two machines joined, in plain C beside the proved call: benchmarks/join builds this. It has both join the same pairs, then
   times both in turn. The C is written from the papers, with the same questions asked. */
#define _POSIX_C_SOURCE 199309L
#include "plain.h"

#include <string.h>

/* What a machine uses. */
typedef struct {
    uint8_t words[128], dacs[16];
} uses;

static void mark_uses(const uint32_t *m, uses *u) {
    const uint32_t *end = m + GENERATOR_WORDS * m[T];
    memset(u, 0, sizeof *u);
    for (const uint32_t *g = m; g < end; g += GENERATOR_WORDS) {
        u->words[g[GSUM]] = u->words[g[GFM]] = 1;
        if (g[GMODE] >> 6 == WRITE_DAC) u->dacs[g[GO] & 15] = 1;
    }
}

/* Whether a machine sounds by its generators alone. */
static int self_contained(const uint32_t *m) {
    const uint32_t *end = m + GENERATOR_WORDS * m[T];
    for (const uint32_t *g = m; g < end; g += GENERATOR_WORDS) {
        uint32_t run = g[GMODE] >> 6;
        if (run == READ_DATA || run == WRITE_DATA || g[GFM] >= 64) return 0;
    }
    for (const uint32_t *u = m + MODIFIERS; u < m + SUMS; u += MODIFIER_WORDS)
        if (u[MMODE] >> 4) return 0;
    return 1;
}

static int nothing_shared(const uses *a, const uses *b) {
    for (int w = 0; w < 64; w++)
        if (a->words[w] && b->words[w]) return 0;
    for (int d = 0; d < 16; d++)
        if (a->dacs[d] && b->dacs[d]) return 0;
    return 1;
}

__attribute__((noinline)) uint32_t plain_join(uint32_t *m, size_t words, const uint32_t *second, size_t second_words) {
    uses own, brought;
    if (words != KARVELORN_WORDS) return 1;
    if (!valid_machine(m)) return 2;
    if (second_words != KARVELORN_WORDS) return 1;
    if (!valid_machine(second)) return 2;
    if (m[T] + second[T] > 256) return 16;
    uint32_t first_run = second[GMODE] >> 6;
    if (!self_contained(m) || !self_contained(second) || first_run == WAIT || first_run == RUNNING_C) return 17;
    mark_uses(m, &own);
    mark_uses(second, &brought);
    if (!nothing_shared(&own, &brought)) return 18;
    memcpy(m + GENERATOR_WORDS * m[T], second, GENERATOR_WORDS * second[T] * sizeof *m);
    for (int w = 0; w < 64; w++)
        if (brought.words[w]) {
            m[SUMS + w] = second[SUMS + w];
            m[SUMS + 64 + w] = second[SUMS + 64 + w];
        }
    for (int d = 0; d < 16; d++)
        if (brought.dacs[d]) m[DACS + d] = second[DACS + d];
    m[T] += second[T];
    m[UPDATE_TICKS] = update_ticks(m[T], m[N]);
    return 0;
}

#ifndef ONLY_PLAIN

/* Machines. */

static const uint32_t runs[8] = {RUNNING_A, RUNNING_B, RUNNING_C, WAIT, WRITE_DAC, RUNNING_A, 0, 1};

/* A bell on sum words and DACs that are even or odd, here and there with a generator that 17 or 18 refuses. */
static void make_bell(uint32_t *m, uint32_t t, uint32_t odd, int good) {
    karvelorn_fresh(m, KARVELORN_WORDS);
    set_ticks(m, t);
    for (int i = SUMS; i <= DX; i++) m[i] = draw(20);
    for (uint32_t i = 0; i < 256; i++) {
        uint32_t *g = m + GENERATOR_WORDS * i;
        g[GO] = (draw(19) << 1) | odd;
        g[GQ] = draw(24);
        g[GSUM] = (draw(5) << 1) | odd;
        g[GFM] = (draw(5) << 1) | odd;
        g[GMODE] = runs[i ? draw(3) : 0] << 6;
        if (good || draw(9)) continue;
        if (draw(1)) g[GSUM] ^= 1;
        else if (draw(1)) g[GFM] |= 64;
        else g[GMODE] = (draw(1) ? READ_DATA : WAIT) << 6;
    }
}

/* Both answer alike and leave the same machine: pairs of all sizes, some refused by each question. */
static int alike(int cases) {
    static uint32_t first[2][KARVELORN_WORDS], second[KARVELORN_WORDS];
    uint32_t joined = 0, numbers[19] = {0};
    for (int i = 0; i < cases; i++) {
        uint32_t number[2];
        size_t words = KARVELORN_WORDS - (draw(6) == 0), second_words = KARVELORN_WORDS - (draw(6) == 0);
        make_bell(first[0], 1 + draw(7), 0, draw(1) == 0);
        make_bell(second, 1 + draw(7), 1, draw(1) == 0);
        if (draw(5) == 0) first[0][draw(16) % KARVELORN_WORDS] = draw(32);
        if (draw(5) == 0) second[draw(16) % KARVELORN_WORDS] = draw(32);
        if (draw(5) == 0) second[MODIFIERS + MODIFIER_WORDS * draw(7) + MMODE] = 2 << 4;
        if (draw(5) == 0) set_ticks(second, 257 - first[0][T] % 256);
        memcpy(first[1], first[0], sizeof first[0]);
        number[0] = karvelorn_join(first[0], words, second, second_words);
        number[1] = plain_join(first[1], words, second, second_words);
        if (number[0] != number[1] || memcmp(first[0], first[1], sizeof first[0])) {
            printf("join: R answers %u, C %u, or they leave other machines\n", number[0], number[1]);
            return 0;
        }
        joined += number[0] == 0;
        numbers[number[0]]++;
    }
    printf("join: %d cases alike, %u of them joined, refused by 1, 2, 16, 17 and 18: %u, %u, %u, %u, %u\n", cases, joined,
           numbers[1], numbers[2], numbers[16], numbers[17], numbers[18]);
    return numbers[1] && numbers[2] && numbers[16] && numbers[17] && numbers[18];
}

/* The timing. */

static const double limit = 1.1; /* the ratio to gcc -O2 at most */

typedef uint32_t join_function(uint32_t *, size_t, const uint32_t *, size_t);

join_function plain_join_o3, plain_join_native;

/* The time of one call, from a number of them in a row, each on its own copy of the first machine. */
static double timed(join_function *join, const uint32_t *first, const uint32_t *second, int times) {
    static uint32_t copies[80][KARVELORN_WORDS];
    uint32_t refused = 0;
    for (int i = 0; i < times; i++) memcpy(copies[i], first, sizeof copies[i]);
    double start = now();
    for (int i = 0; i < times; i++) refused |= join(copies[i], KARVELORN_WORDS, second, KARVELORN_WORDS);
    double spent = (now() - start) / times;
    if (refused) {
        fprintf(stderr, "join: refused\n");
        exit(1);
    }
    return spent;
}

/* Times the sides on a pair that is joined; whether R's time is within the limit. */
static int time_all(uint32_t t, uint32_t u, int times_each) {
    static join_function *const sides[SIDES] = {karvelorn_join, plain_join, plain_join_o3, plain_join_native};
    static uint32_t first[KARVELORN_WORDS], second[KARVELORN_WORDS];
    static double times[SIDES][ROUNDS];
    char call[48];
    make_bell(first, t, 0, 1);
    make_bell(second, u, 1, 1);
    for (int i = -WARM; i < ROUNDS; i++)
        for (int side = 0; side < SIDES; side++) {
            double time = timed(sides[side], first, second, times_each);
            if (i >= 0) times[side][i] = time;
        }
    snprintf(call, sizeof call, "join at T=%u and T=%u", t, u);
    int within = print_times(call, times) <= limit;
    if (!within) printf("%s: above the limit of %.2f to C -O2\n", call, limit);
    return within;
}

int main(void) {
    print_load();
    if (!alike(100000)) return 1;
    int all = time_all(128, 128, 20);
    all &= time_all(255, 1, 20);
    all &= time_all(1, 255, 20);
    all &= time_all(1, 1, 40);
    return all ? 0 : 1;
}

#endif
