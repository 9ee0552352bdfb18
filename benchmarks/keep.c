/* What is kept beside a machine, and changes of one partial, in plain C beside the proved calls: benchmarks/keep builds this. It has both make
   the same lists of changes, then times both in turn, and a change beside questions 1 and 2 alone. The C is written from the papers, with the
   same questions asked; a change looks at one generator and its neighbours. */
#define _POSIX_C_SOURCE 199309L
#include "plain.h"

#include <string.h>

/* Where the words stand. */
enum { READERS = 0, ADDERS = 64, WRITERS = 128, FEEDERS = 256, OTHERS = 2304, ALL_READERS, AWAITING, FED };
enum { WRITTEN = 2323, PARTED, SHARED_WORDS, ALIKE = KARVELORN_KEPT_ALIKE };

static int triggers(uint32_t run) { return run == RUNNING_B || run == RUNNING_C; }

/* Whether generator g waits for the one below it. */
static int awaits(const uint32_t *g, uint32_t number) {
    return number && g[GMODE] >> 6 == WAIT && triggers(g[GMODE - GENERATOR_WORDS] >> 6);
}

static inline void put_in(uint32_t *k, const uint32_t *g, uint32_t number) {
    uint32_t run = g[GMODE] >> 6;
    if (run >= RUNNING_C) {
        k[SHARED_WORDS] += !k[ADDERS + g[GSUM]]++ && k[READERS + g[GSUM]];
    } else if (run == WRITE_DATA) {
        k[WRITTEN] += !k[WRITERS + g[GFM]]++;
    } else if (run == WRITE_DAC) {
        uint32_t d = g[GO] & 15;
        if (!k[FEEDERS + 128 * d + g[GFM]]++) k[PARTED] += ++k[FED + d] == 2;
    } else if (run == READ_DATA) {
        k[SHARED_WORDS] += !k[READERS + g[GSUM]]++ && k[ADDERS + g[GSUM]];
        k[ALL_READERS]++;
    } else {
        k[OTHERS]++;
        k[AWAITING] += awaits(g, number);
    }
}

static inline void take_out(uint32_t *k, const uint32_t *g, uint32_t number) {
    uint32_t run = g[GMODE] >> 6;
    if (run >= RUNNING_C) {
        k[SHARED_WORDS] -= !--k[ADDERS + g[GSUM]] && k[READERS + g[GSUM]];
    } else if (run == WRITE_DATA) {
        k[WRITTEN] -= !--k[WRITERS + g[GFM]];
    } else if (run == WRITE_DAC) {
        uint32_t d = g[GO] & 15;
        if (!--k[FEEDERS + 128 * d + g[GFM]]) k[PARTED] -= --k[FED + d] == 1;
    } else if (run == READ_DATA) {
        k[SHARED_WORDS] -= !--k[READERS + g[GSUM]] && k[ADDERS + g[GSUM]];
        k[ALL_READERS]--;
    } else {
        k[OTHERS]--;
        k[AWAITING] -= awaits(g, number);
    }
}

static void answer(uint32_t *k) {
    k[ALIKE] = !k[AWAITING] && !k[PARTED] && k[WRITTEN] <= 1 && k[ALL_READERS] <= 1 && !k[SHARED_WORDS];
}

__attribute__((noinline)) uint32_t plain_keep(const uint32_t *m, size_t words, uint32_t *k) {
    if (words != KARVELORN_WORDS) return 1;
    if (!valid_machine(m)) return 2;
    memset(k, 0, KARVELORN_KEPT * sizeof *k);
    for (uint32_t n = 0; n < m[T]; n++) put_in(k, m + GENERATOR_WORDS * n, n);
    answer(k);
    return 0;
}

/* The register of a generator that a kind changes, as it is after the change; whether the value is within its bounds. */
static int changed(const uint32_t *g, uint32_t kind, uint32_t value, uint32_t *at, uint32_t *word) {
    *word = value;
    switch (kind) {
    case KARVELORN_CHANGE_GMODE:
        *at = GMODE;
        return value < 1024 && built_gmode[value];
    case KARVELORN_CHANGE_GSUM:
        *at = GSUM;
        return value < 64;
    case KARVELORN_CHANGE_GFM:
        *at = GFM;
        return value < 128;
    case KARVELORN_CHANGE_DAC:
        *at = GO;
        *word = (g[GO] & ~15u) | (value & 15);
        return value < 16;
    }
    return 0;
}

__attribute__((noinline)) uint32_t plain_change(uint32_t *m, size_t words, uint32_t *k, uint32_t kind, uint32_t generator,
                                                uint32_t value) {
    uint32_t at, word;
    if (words != KARVELORN_WORDS) return 1;
    if (!valid_machine(m)) return 2;
    if (kind == KARVELORN_TICK_MORE || kind == KARVELORN_TICK_FEWER) {
        uint32_t t = m[T], more = kind == KARVELORN_TICK_MORE;
        if (more ? t == 256 : t == 1) return 2;
        if (more) put_in(k, m + GENERATOR_WORDS * t, t);
        else take_out(k, m + GENERATOR_WORDS * (t - 1), t - 1);
        set_ticks(m, more ? t + 1 : t - 1);
        answer(k);
        return 0;
    }
    uint32_t *g = m + GENERATOR_WORDS * (generator & 255);
    if (generator > 255 || !changed(g, kind, value, &at, &word)) return 2;
    if (generator < m[T]) {
        int above = generator + 1 < m[T];
        take_out(k, g, generator);
        if (above) k[AWAITING] -= awaits(g + GENERATOR_WORDS, generator + 1);
        g[at] = word;
        put_in(k, g, generator);
        if (above) k[AWAITING] += awaits(g + GENERATOR_WORDS, generator + 1);
    } else {
        g[at] = word;
    }
    answer(k);
    return 0;
}

#ifndef ONLY_PLAIN

/* Machines and changes. */

static const uint32_t runs[16] = {RUNNING_A, RUNNING_B, RUNNING_C, WAIT,      RUNNING_A, RUNNING_B,  WRITE_DAC, WRITE_DATA,
                                  READ_DATA, RUNNING_A, WAIT,      WRITE_DAC, RUNNING_C, WRITE_DATA, 0,         1};

typedef struct {
    uint32_t kind, generator, value;
} change;

static uint32_t draw_gmode(void) { return runs[draw(4)] << 6 | draw(2) << 4 | draw(2); }

static void make_machine(uint32_t *m, uint32_t t, uint32_t words, uint32_t sources) {
    karvelorn_fresh(m, KARVELORN_WORDS);
    set_ticks(m, t);
    for (uint32_t i = 0; i < 256; i++) {
        uint32_t *g = m + GENERATOR_WORDS * i;
        g[GO] = draw(20);
        g[GSUM] = draw(16) % words;
        g[GFM] = draw(16) % sources;
        g[GMODE] = draw_gmode();
    }
}

/* A change of a generator below t, within the widths. */
static change draw_change(uint32_t t, uint32_t words, uint32_t sources) {
    change c = {draw(16) % 4, draw(16) % t, 0};
    c.value = c.kind == KARVELORN_CHANGE_GMODE  ? draw_gmode()
              : c.kind == KARVELORN_CHANGE_GSUM ? draw(16) % words
              : c.kind == KARVELORN_CHANGE_GFM  ? draw(16) % sources
                                                : draw(4);
    return c;
}

/* The timing, and that all sides do the same. */

typedef uint32_t keep_function(const uint32_t *, size_t, uint32_t *);
typedef uint32_t change_function(uint32_t *, size_t, uint32_t *, uint32_t, uint32_t, uint32_t);

keep_function plain_keep_o3, plain_keep_native;
change_function plain_change_o3, plain_change_native;

static keep_function *const keeps[SIDES] = {karvelorn_keep, plain_keep, plain_keep_o3, plain_keep_native};
static change_function *const changes[SIDES] = {karvelorn_change, plain_change, plain_change_o3, plain_change_native};
static uint32_t m[SIDES][KARVELORN_WORDS], kept[SIDES][KARVELORN_KEPT];

/* Lists of changes on machines of all sizes, some of them refused: after each both have the same number, machine and words. */
static int alike(int lists, int length) {
    uint32_t refused = 0, yes = 0;
    for (int i = 0; i < lists; i++) {
        uint32_t words = 1 + draw(6), sources = 1 + draw(3), t = draw(1) ? 1 + draw(8) : 1 + draw(2);
        make_machine(m[PROVED], t, words, sources);
        memcpy(m[PLAIN], m[PROVED], sizeof m[PLAIN]);
        if (karvelorn_keep(m[PROVED], KARVELORN_WORDS, kept[PROVED]) != plain_keep(m[PLAIN], KARVELORN_WORDS, kept[PLAIN])) return 0;
        for (int k = 0; k < length; k++) {
            change c = draw_change(256, words, sources);
            if (draw(1)) c.generator = draw(16) % (m[PROVED][T] + 1);
            if (draw(2) == 0) c.kind = KARVELORN_TICK_MORE + draw(1);
            if (draw(4) == 0) c.kind = draw(4), c.generator = draw(9), c.value = draw(11);
            uint32_t number[2];
            for (int side = PROVED; side <= PLAIN; side++)
                number[side] = changes[side](m[side], KARVELORN_WORDS, kept[side], c.kind, c.generator, c.value);
            if (number[0] != number[1] || memcmp(m[0], m[1], sizeof m[0]) || memcmp(kept[0], kept[1], sizeof kept[0])) {
                printf("change: kind %u of generator %u to %u: R answers %u, C %u, or they leave something else\n", c.kind,
                       c.generator, c.value, number[0], number[1]);
                return 0;
            }
            refused += number[0] != 0;
            yes += kept[0][ALIKE];
        }
    }
    printf("change: %d lists of %d changes alike, %u refused, %u times the answer yes\n", lists, length, refused, yes);
    return 1;
}

static const double limit = 1.1, asking_limit = 1.2; /* the ratio to gcc -O2, and that to questions 1 and 2, at most */
enum { CHANGES = 64 };
static change list[CHANGES];

static double timed_keep(int side, int times) {
    uint32_t refused = 0;
    double start = now();
    for (int i = 0; i < times; i++) refused |= keeps[side](m[side], KARVELORN_WORDS, kept[side]);
    double spent = (now() - start) / times;
    if (refused) exit(1);
    return spent;
}

/* The changes of the list, one after the other. */
static double timed_changes(int side) {
    uint32_t refused = 0;
    double start = now();
    for (int i = 0; i < CHANGES; i++)
        refused |= changes[side](m[side], KARVELORN_WORDS, kept[side], list[i].kind, list[i].generator, list[i].value);
    double spent = (now() - start) / CHANGES;
    if (refused) exit(1);
    return spent;
}

/* Questions 1 and 2 by the proved library: 5 refuses an order without entries. */
static double timed_asking(void) {
    uint32_t equal, others = 0;
    double start = now();
    for (int i = 0; i < CHANGES; i++) others |= karvelorn_compare(m[PROVED], KARVELORN_WORDS, NULL, 0, NULL, 0, &equal) ^ 5;
    double spent = (now() - start) / CHANGES;
    if (others) exit(1);
    return spent;
}

static int within(const char *call, double times[SIDES][ROUNDS]) {
    int good = print_times(call, times) <= limit;
    if (!good) printf("%s: above the limit of %.2f to C -O2\n", call, limit);
    return good;
}

static int time_all(uint32_t t) {
    static double keeping[SIDES][ROUNDS], changing[SIDES][ROUNDS], beside[ROUNDS];
    char call[48];
    make_machine(m[PROVED], t, 64, 128);
    for (int i = 0; i < CHANGES; i++) list[i] = draw_change(t, 64, 128);
    for (int side = 0; side < SIDES; side++) {
        memcpy(m[side], m[PROVED], sizeof m[side]);
        if (keeps[side](m[side], KARVELORN_WORDS, kept[side])) return 0;
    }
    for (int i = -WARM; i < ROUNDS; i++) {
        double asking = timed_asking();
        for (int side = 0; side < SIDES; side++) {
            double keep_time = timed_keep(side, 20), change_time = timed_changes(side);
            if (i < 0) continue;
            keeping[side][i] = keep_time, changing[side][i] = change_time;
            if (side == PROVED) beside[i] = change_time / asking;
        }
    }
    if (memcmp(kept[0], kept[1], sizeof kept[0]) || memcmp(kept[0], kept[2], sizeof kept[0])) return 0;
    double ratio = median(beside, ROUNDS);
    snprintf(call, sizeof call, "keep at T=%u", t);
    int all = within(call, keeping);
    snprintf(call, sizeof call, "change at T=%u", t);
    all &= within(call, changing);
    printf("%s: %.3f of the time of questions 1 and 2%s\n", call, ratio, ratio > asking_limit ? ", above the limit of 1.2" : "");
    return all & (ratio <= asking_limit);
}

int main(void) {
    print_load();
    if (!alike(400, 500)) return 1;
    int all = time_all(256);
    all &= time_all(64);
    all &= time_all(1);
    return all ? 0 : 1;
}

#endif
