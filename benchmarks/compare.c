/* A compare in plain C beside the proved one: benchmarks/compare builds this. It asks both about the same orders, then times both in turn.
   The C is written from the papers, in time linear in T, with the same questions asked. */
#define _POSIX_C_SOURCE 199309L
#include "plain_compare.h"

/* The questions of a compare. */
static uint32_t refusal(const uint32_t *m, size_t words, const uint32_t *first, size_t first_len,
                        const uint32_t *second, size_t second_len) {
    if (words != KARVELORN_WORDS) return 1;
    if (!valid_machine(m)) return 2;
    return orders_refusal(m, first, first_len, second, second_len);
}

static int neighbours_agree(const uint32_t *m, const trace *a, const trace *b) {
    for (uint32_t g = 1; g < m[T]; g++) {
        uint32_t lower = m[GENERATOR_WORDS * (g - 1) + GMODE] >> 6;
        if (m[GENERATOR_WORDS * g + GMODE] >> 6 == WAIT && (lower == RUNNING_B || lower == RUNNING_C) &&
            !same_side(a, b, g - 1, g))
            return 0;
    }
    return 1;
}

static int words_agree(const uint32_t *m, const trace *a, const trace *b) {
    if (!same_last(a, b)) return 0;
    for (uint32_t i = 0; i < m[T]; i++) {
        const uint32_t *g = m + GENERATOR_WORDS * i;
        uint32_t last = a->last[g[GSUM]];
        if (g[GMODE] >> 6 >= RUNNING_C && last && !same_side(a, b, last - 1, i)) return 0;
    }
    return 1;
}

__attribute__((noinline)) uint32_t plain_compare(const uint32_t *m, size_t words, const uint32_t *first,
                                                 size_t first_len, const uint32_t *second, size_t second_len,
                                                 uint32_t *equal) {
    trace a, b;
    uint32_t number = refusal(m, words, first, first_len, second, second_len);
    *equal = 0;
    if (number) return number;
    follow_1978(m, first, &a);
    follow_1978(m, second, &b);
    *equal = neighbours_agree(m, &a, &b) && same_sent(&a, &b) && words_agree(m, &a, &b);
    return 0;
}

#ifndef ONLY_PLAIN

typedef uint32_t compare_function(const uint32_t *, size_t, const uint32_t *, size_t, const uint32_t *, size_t, uint32_t *);

compare_function plain_compare_o3, plain_compare_native, plain_old_compare, plain_old_compare_o3, plain_old_compare_native; /* those of the older text are in old_compare.c */

enum { OF_1978, OLD, TEXTS };

static const char *const names[TEXTS] = {"", "old "};
static compare_function *const sides[TEXTS][SIDES] = {
    {karvelorn_compare, plain_compare, plain_compare_o3, plain_compare_native},
    {karvelorn_old_compare, plain_old_compare, plain_old_compare_o3, plain_old_compare_native}};

/* Machines and orders. */

static const uint32_t runs[16] = {RUNNING_A, RUNNING_B, RUNNING_C, WAIT,      RUNNING_A, RUNNING_B, WRITE_DAC, WRITE_DATA,
                                  READ_DATA, RUNNING_A, WAIT,      RUNNING_B, RUNNING_C, READ_DATA, 0,         1};
/* The same by the older text: WRITE_DATA sends with a negative GN. */
static const uint32_t old_runs[16] = {[1] = 1, [WRITE_DAC] = OLD_SEND, [WRITE_DATA] = OLD_SEND, [READ_DATA] = OLD_READ_DATA,
                                      [WAIT] = OLD_WAIT, [RUNNING_C] = OLD_RUNNING_C, [RUNNING_B] = OLD_RUNNING_B,
                                      [RUNNING_A] = OLD_RUNNING_A};

/* Generators in all run modes, on `words` sum words, through `sources` GFMs; by the older text `sources` DACs. */
static void make_machine(uint32_t *m, int text, uint32_t t, uint32_t words, uint32_t sources) {
    karvelorn_fresh(m, KARVELORN_WORDS);
    set_ticks(m, t);
    for (uint32_t i = 0; i < t; i++) {
        uint32_t *g = m + GENERATOR_WORDS * i, run;
        g[GO] = draw(20);
        g[GSUM] = draw(16) % words;
        g[GFM] = draw(16) % sources;
        run = runs[draw(4)];
        g[GMODE] = run << 6;
        if (text == OLD) {
            g[GN] = (run == WRITE_DATA) << 10 | draw(6) << 4 | (draw(16) % sources & 15);
            g[GMODE] = old_runs[run] << 5 | 4;
        }
    }
}

static void exchange(uint32_t *order, uint32_t i, uint32_t j) {
    uint32_t n = order[i];
    order[i] = order[j];
    order[j] = n;
}

static void make_order(uint32_t *order, uint32_t t) {
    for (uint32_t i = 0; i < t; i++) order[i] = i;
    for (uint32_t i = t - 1; i; i--) exchange(order, i, draw(16) % (i + 1));
}

/* Exchanges neighbours in an order; where plain C says that it still equals the other, the exchange stays. */
static void move_on(const uint32_t *m, int text, const uint32_t *other, uint32_t *order, int times) {
    uint32_t t = m[T], equal;
    for (int k = 0; k < times && t > 1; k++) {
        uint32_t i = draw(16) % (t - 1);
        exchange(order, i, i + 1);
        sides[text][PLAIN](m, KARVELORN_WORDS, other, t, order, t, &equal);
        if (!equal) exchange(order, i, i + 1);
    }
}

/* Both answer alike: small machines, of which many orders are equal, some of them not good, and orders of which some are not good. */
static int alike(int text, int cases) {
    static uint32_t m[KARVELORN_WORDS];
    uint32_t first[32], second[32], yes = 0, no = 0;
    for (int i = 0; i < cases; i++) {
        uint32_t t = 1 + draw(3), equal[2], number[2];
        size_t words = KARVELORN_WORDS - (draw(6) == 0), first_len = t, second_len = t;
        make_machine(m, text, t, 1 + draw(2), 1 + draw(2));
        make_order(first, t);
        memcpy(second, first, sizeof second);
        move_on(m, text, first, second, draw(2));
        if (t > 1 && draw(1)) exchange(second, draw(16) % t, draw(16) % t);
        if (draw(6) == 0) m[draw(16) % KARVELORN_WORDS] = draw(32);
        if (text == OLD && draw(4) == 0) m[GENERATOR_WORDS * (draw(16) % t) + GMODE] = draw(8);
        if (draw(5) == 0) first[draw(16) % t] = draw(3);
        if (draw(5) == 0) second[draw(16) % t] = draw(3);
        if (draw(5) == 0) first_len--;
        if (draw(5) == 0) second_len--;
        for (int side = PROVED; side <= PLAIN; side++)
            number[side] = sides[text][side](m, words, first, first_len, second, second_len, &equal[side]);
        if (number[0] != number[1] || equal[0] != equal[1]) {
            printf("%scompare: R answers %u and %u, C %u and %u\n", names[text], number[0], equal[0], number[1], equal[1]);
            return 0;
        }
        yes += equal[0];
        no += !number[0] && !equal[0];
    }
    printf("%scompare: %d cases alike, %u of them equal and %u unequal\n", names[text], cases, yes, no);
    return 1;
}

/* The timing. */

/* The time of one compare, from a number of them in a row. */
static double timed(compare_function *compare, const uint32_t *m, const uint32_t *first, const uint32_t *second, int times) {
    uint32_t equal, all = 1, refused = 0;
    double start = now();
    for (int i = 0; i < times; i++) {
        refused |= compare(m, KARVELORN_WORDS, first, m[T], second, m[T], &equal);
        all &= equal;
    }
    double spent = (now() - start) / times;
    if (refused || !all) {
        fprintf(stderr, "compare: refused or unequal\n");
        exit(1);
    }
    return spent;
}

/* Two orders that are equal, not the same, of a machine with all run modes; by both texts in the same rounds, or by 1978. */
static int time_all(int texts, uint32_t t, int times_each) {
    static uint32_t m[TEXTS][KARVELORN_WORDS], first[TEXTS][256], second[TEXTS][256];
    static double times[TEXTS][SIDES][ROUNDS];
    double ratio[TEXTS];
    char call[48];
    for (int text = 0; text < texts; text++) {
        make_machine(m[text], text, t, 64, 128);
        make_order(first[text], t);
        memcpy(second[text], first[text], sizeof second[text]);
        move_on(m[text], text, first[text], second[text], 20000);
    }
    for (int i = -WARM; i < ROUNDS; i++)
        for (int side = 0; side < SIDES; side++)
            for (int text = 0; text < texts; text++) {
                double time = timed(sides[text][side], m[text], first[text], second[text], times_each);
                if (i >= 0) times[text][side][i] = time;
            }
    for (int text = 0; text < texts; text++) {
        snprintf(call, sizeof call, "%scompare at T=%u", names[text], t);
        ratio[text] = print_times(call, times[text]);
    }
    return texts == 1 || within_1978("compare at T=256", ratio[OLD], ratio[OF_1978]);
}

int main(void) {
    print_load();
    if (!alike(OF_1978, 200000) || !alike(OLD, 200000)) return 1;
    int within = time_all(TEXTS, 256, 20);
    time_all(1, 64, 40);
    time_all(1, 1, 80);
    return within ? 0 : 1;
}

#endif
