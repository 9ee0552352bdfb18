/* A pass in plain C beside the proved one: benchmarks/pass builds this, and it times both in turn on the same machines.
   The C is written from the papers, on the machine's words in place, with the same questions asked. */
#define _POSIX_C_SOURCE 199309L
#include "plain_pass.h"

/* Bit n is 1 where function n reads A late. */
static const uint32_t late_a = 0x0040BB90;

/* Whether delay unit n doesn't act as inactive, as it would from (T-6) div 4 on. */
static int unit_runs(const uint32_t *m, uint32_t n) {
    return m[DELAYS + DELAY_WORDS * n + P] && 4 * n + 10 <= m[T];
}

/* The questions of a pass. */

__attribute__((noinline, aligned(64))) int valid_memory(const uint32_t *memory) {
    enum { QUARTER = KARVELORN_MEMORY_WORDS / 4 };
    uint32_t any = 0;
    for (int i = 0; i < QUARTER; i++) any |= memory[i] | memory[i + QUARTER] | memory[i + 2 * QUARTER] | memory[i + 3 * QUARTER];
    return !(any >> 20);
}

/* Questions 11 and 12. */
static uint32_t delay_refusal(const uint32_t *m) {
    uint32_t named = 0, twice = 0;
    const uint32_t *end = m + MODIFIERS + MODIFIER_WORDS * (m[T] / 2);
    for (const uint32_t *u = m + MODIFIERS; u < end; u += MODIFIER_WORDS) {
        if (u[MMODE] >> 4 != INVOKE_DELAY) continue;
        uint32_t n = u[MRM] & 31;
        const uint32_t *d = m + DELAYS + DELAY_WORDS * n;
        if (d[P] == LINE && unit_runs(m, n) && (d[X] + d[Z] >= KARVELORN_MEMORY_WORDS || d[Y] > d[Z])) return 11;
        twice |= named & 1u << n;
        named |= 1u << n;
    }
    return twice ? 12 : 0;
}

static uint32_t refusal(const uint32_t *m, size_t words, const uint32_t *order, size_t entries, size_t items_len,
                        size_t places_len, const uint32_t *memory, size_t memory_words) {
    if (words != KARVELORN_WORDS) return 1;
    if (!valid_machine(m)) return 2;
    if (entries != m[T]) return 5;
    if (!each_once(order, m[T])) return 6;
    size_t reads = 0, writes = 0;
    for (uint32_t i = 0; i < m[T]; i++) {
        uint32_t run = m[GENERATOR_WORDS * i + GMODE] >> 6;
        reads += run == READ_DATA;
        writes += run == WRITE_DATA;
    }
    if (items_len < reads) return 7;
    if (places_len < writes) return 8;
    if (memory_words != KARVELORN_MEMORY_WORDS || !valid_memory(memory)) return 10;
    return delay_refusal(m);
}

/* Generators. */

/* Steps 3 and 6 to 9: P of a generator as its turn begins. */
static uint32_t output(const uint32_t *g, int turning, uint32_t f, uint32_t j) {
    uint32_t mode = g[GMODE] & 15, env = g[GMODE] >> 4 & 3;
    uint32_t k = (mode == 8 ? j : g[GK]) >> 7, w;
    int negative = k >= 4096;
    if (mode == 0 || mode == 8) {
        uint32_t i = k & 2047;
        w = quarter[k & 2048 ? 2047 - i : i] >> g[GM];
    } else if (mode == 1) {
        w = k == 4096 ? 0 : negative ? 8192 - k : k;
    } else if (mode == 2) {
        w = 2048;
    } else {
        w = leaves20(g[GJ] >> 8, f) || (turning && leaves20(g[GK], j)) ? 2048 : 0;
        negative = 0;
    }
    uint32_t x = g[GQ] >> 10, q = env >= 2 ? (uint32_t)entries[x & 1023] >> (x >> 10) : g[GQ] >> 12;
    uint32_t v = LOW(env & 1 ? g[GL] + q : g[GL] - q, 12);
    uint32_t p = (w * v + 32) / 64;
    return LOW(negative ? 0u - p : p, 20);
}

static void set_run_mode(uint32_t *g, uint32_t run) { g[GMODE] = run << 6 | LOW(g[GMODE], 6); }

static void generators(uint32_t *m, uint32_t s[4][64], const uint32_t *order, const uint32_t *items, uint32_t *places,
                       size_t *read, size_t *written, uint8_t *clipped) {
    uint8_t triggered[257] = {0}; /* at g+1 */
    size_t reads = 0, writes = 0;
    uint32_t t = m[T];
    for (uint32_t i = 0; i < t; i++) {
        uint32_t n = order[i], *g = m + GENERATOR_WORDS * n, run = g[GMODE] >> 6;
        if (run < WRITE_DAC) continue;
        uint32_t f = s[g[GFM] >> 6 ? MODIFIER_LAST : GENERATOR_LAST][g[GFM] & 63], j = LOW((g[GJ] >> 8) + f, 20);
        if (run >= RUNNING_C) {
            uint32_t *sum = &s[GENERATOR_THIS][g[GSUM]];
            *sum = add_marked(*sum, output(g, 1, f, j), &clipped[g[GSUM]]);
            turn(g, j);
            if (decay(g, run != RUNNING_A) && run != RUNNING_A) {
                triggered[n + 1] = 1;
                if (run == RUNNING_C) set_run_mode(g, WAIT);
            }
        } else if (run == WAIT) {
            turn(g, j);
            if (triggered[n]) set_run_mode(g, RUNNING_C);
        } else if (run == READ_DATA) {
            s[GENERATOR_THIS][g[GSUM]] = add_marked(output(g, 0, f, j), LOW(items[reads++], 20), &clipped[g[GSUM]]);
            decay(g, 0);
        } else if (run == WRITE_DATA) {
            places[writes++] = f;
        } else {
            m[DACS + (g[GO] & 15)] = f;
        }
    }
    *read = reads;
    *written = writes;
}

/* Modifiers. */

static uint32_t integer_product(uint32_t s, uint32_t a, uint32_t b) {
    return LOW((uint32_t)(scaled(s, a, b) >> 2), 20);
}

/* The turn of a delay unit with the word from its modifier. */
static void delay_turn(uint32_t *d, uint32_t *memory, uint32_t word) {
    d[FIRST] = d[SECOND];
    if (d[P] == LINE) {
        uint32_t *slot = &memory[d[X] + d[Y]];
        d[SECOND] = *slot;
        d[THIRD] = 0;
        *slot = word;
        d[Y] = d[Y] < d[Z] ? d[Y] + 1 : 0;
    } else {
        uint32_t shift = d[Z] & 15, argument = word >> shift;
        if (d[P] == ROUNDED_TABLE && shift) argument += word >> (shift - 1) & 1;
        d[SECOND] = d[THIRD];
        d[THIRD] = memory[LOW(argument + d[X], 16)];
    }
}

/* A modifier's turn with A and B: its registers are brought up to date, and the delay unit that it invokes; gives S. */
static uint32_t modifier_turn(uint32_t *m, uint32_t *memory, uint32_t *u, uint32_t a, uint32_t b) {
    uint32_t aa = u[MMODE] >> 2 & 3, bb = u[MMODE] & 3, m0 = u[M0] >> 10, m1 = u[M1] >> 10;
    uint32_t function = u[MMODE] >> 4, s, x, y, *d;
    switch (function) {
    case 2: return u[L1] = LOW(u[L0] + integer_product(aa, u[L1], m0), 20);
    case 3:
        s = LOW(u[L0] + integer_product(aa, u[L1], m0), 20);
        if (integer_product(bb, b, m1)) u[L1] = s;
        return s;
    case 4:
        s = u[L1];
        if (product(bb, b, m1)) u[L1] = a;
        return s;
    case 6: return LOW(product(aa, a, m0) + u[L0], 20) >> 19 ? 0 : product(bb, b, m1);
    case INVOKE_DELAY:
        s = LOW(u[L0] + product(aa, u[L1], m0), 20);
        d = unit_runs(m, u[MRM] & 31) ? m + DELAYS + DELAY_WORDS * (u[MRM] & 31) : NULL;
        u[L0] = d ? d[FIRST] : 0;
        u[L1] = LOW(a + product(bb, u[L0], m1), 20);
        if (d) delay_turn(d, memory, u[L1]);
        return s;
    case 8: case 9: case 11: case 12: case 13: case 15:
        s = LOW(product(bb, u[L1], m1) + product(aa, u[L0], m0) + a, 20);
        u[L0] = u[L1];
        u[L1] = function < 12 ? s : a;
        if ((function & 3) == 1) u[M0] = LOW(u[M0] + (uint32_t)signed20(b), 30);
        if ((function & 3) == 3) u[M1] = LOW(u[M1] + (uint32_t)signed20(b), 30);
        return s;
    case 16: return LOW(integer_product(aa, a, m0) + integer_product(bb, b, m1), 20);
    case 17: return u[L1] = LOW(product(bb, u[L1], m1) + product(aa, b, u[L0]), 20);
    case 20: return LOW(product(aa, a, m0) + product(bb, b, m1), 20);
    case 22:
        s = LOW(product(bb, u[L1], m1) + product(aa, u[L0], m0), 20);
        u[L0] = u[L1];
        u[L1] = a;
        return s;
    case 24:
        s = product(bb, u[L1], m1);
        u[L1] = product(aa, a, b);
        return s;
    case 25:
        s = product(bb, u[L1], m1);
        u[L1] = product(aa, a, (uint32_t)(signed20(b) + 524288) >> 1);
        return s;
    case 26: case 27: case 28:
        x = product(aa, a, m0);
        y = product(bb, b, m1);
        if (function == 26) return signed20(x) > signed20(y) ? x : y;
        if (function == 27) return signed20(x) < signed20(y) ? x : y;
        return signed20(x) < signed20(y) ? LOW(~0u, 20) : x != y;
    case 29:
        x = product(aa, b, m0);
        y = product(bb, u[L1], m1);
        u[L1] = x;
        return y && (!x || (x ^ y) >> 19) ? LOW(~0u, 20) : 0;
    default: return 0;
    }
}

static void modifiers(uint32_t *m, uint32_t *memory, uint32_t s[4][64]) {
    uint32_t early[64], *late = s[MODIFIER_THIS];
    uint32_t msums[4], written[4]; /* the last four writes, that of k at k mod 4 */
    uint32_t count = m[T] / 2;
    memcpy(early, late, sizeof early);
    for (uint32_t k = 0; k < count; k++) {
        uint32_t *u = m + MODIFIERS + MODIFIER_WORDS * k;
        if (k >= 4) write_sum(early, msums[k & 3], written[k & 3]);
        uint32_t a = look(s, late_a >> (u[MMODE] >> 4) & 1 ? late : early, u[MIN]);
        uint32_t b = look(s, early, u[MRM]);
        uint32_t result = modifier_turn(m, memory, u, a, b);
        msums[k & 3] = u[MSUM];
        written[k & 3] = result;
        write_sum(late, u[MSUM], result);
    }
}

/* The pass. */
__attribute__((noinline)) uint32_t plain_pass(uint32_t *m, size_t words, const uint32_t *order, size_t entries,
                                              const uint32_t *items, size_t items_len, uint32_t *places,
                                              size_t places_len, uint32_t *memory, size_t memory_words, size_t *read,
                                              size_t *written, uint8_t *clipped) {
#ifdef UNASKED /* the caller knows that every question is answered yes */
    uint32_t s[4][64], number = 0;
    (void)refusal, (void)words, (void)entries, (void)items_len, (void)places_len, (void)memory_words;
#else
    uint32_t s[4][64], number = refusal(m, words, order, entries, items_len, places_len, memory, memory_words);
#endif
    *read = *written = 0;
    memset(clipped, 0, KARVELORN_MARKS);
    if (number) return number;
    memcpy(s, m + SUMS, sizeof s);
    generators(m, s, order, items, places, read, written, clipped);
    modifiers(m, memory, s);
    end_pass(m, s);
    return 0;
}

#ifndef ONLY_PLAIN

typedef uint32_t pass_function(uint32_t *, size_t, const uint32_t *, size_t, const uint32_t *, size_t, uint32_t *,
                               size_t, uint32_t *, size_t, size_t *, size_t *, uint8_t *);

pass_function plain_pass_o3, plain_pass_native, plain_old_pass, plain_old_pass_o3, plain_old_pass_native; /* those of the older text are in old_pass.c */

enum { OF_1978, OLD, TEXTS };

static const double limit = 1.1, no_limit = 1e9; /* the ratio to gcc -O2 at most, by 1978 */

static const char *const names[TEXTS] = {"", "old "};
static pass_function *const sides[TEXTS][SIDES] = {
    {karvelorn_pass, plain_pass, plain_pass_o3, plain_pass_native},
    {karvelorn_old_pass, plain_old_pass, plain_old_pass_o3, plain_old_pass_native}};
static uint32_t machines[TEXTS][SIDES][KARVELORN_WORDS], idle[TEXTS][SIDES][KARVELORN_WORDS];
static uint32_t memories[TEXTS][SIDES][KARVELORN_MEMORY_WORDS], order[256];
static uint8_t marks[TEXTS][SIDES][KARVELORN_MARKS];
static int marked[TEXTS]; /* whether some pass set a mark */

/* Plain C by the older text answers as the proved pass: in all modes and functions, some machines not good. */

static const uint8_t old_functions[16] = {0, 1, 2, 3, 4, 5, 6, 7, 8, 9, 10, 12, 13, 14, 16, 3};

static void draw_old_machine(uint32_t *m, uint32_t t) {
    static const uint8_t widths[GMODE] = {20, 28, 20, 11, 4, 20, 24, 12, 2, 7};
    karvelorn_fresh(m, KARVELORN_WORDS);
    set_ticks(m, t);
    for (uint32_t i = 0; i < t; i++) {
        uint32_t *g = m + GENERATOR_WORDS * i;
        for (int k = 0; k < GMODE; k++) g[k] = draw(widths[k]);
        if (draw(1)) g[GM] = 0;
        if (draw(1)) g[GQ] = LOW(0u - draw(18), 24);
        g[GMODE] = draw(3) << 5 | draw(2) << 3 | (1 + draw(16) % 5);
    }
    for (uint32_t k = 0; k < t / 2; k++) {
        uint32_t *u = m + MODIFIERS + MODIFIER_WORDS * k;
        u[M0] = draw(30);
        u[M1] = draw(30);
        u[L0] = draw(20) >> draw(4);
        u[L1] = draw(20) >> draw(4);
        u[MIN] = draw(2) + 64 * (draw(16) % 3);
        u[MRM] = draw(2) + 64 * (draw(16) % 3);
        u[MSUM] = draw(1) << 6 | draw(2);
        u[MMODE] = (uint32_t)old_functions[draw(4)] << 4 | draw(4);
    }
    for (int i = 0; i < 4; i++)
        for (int k = 0; k < 4; k++) m[SUMS + 64 * i + k] = draw(20);
}

static int old_alike(int cases) {
    uint32_t items[16], places[2][16], number[2], all[13] = {0};
    uint8_t clipped[2][KARVELORN_MARKS];
    size_t read[2], written[2];
    for (int i = 0; i < cases; i++) {
        uint32_t t = 1 + draw(16) % 16;
        size_t words = KARVELORN_WORDS - (draw(8) == 0), entries = t - (draw(8) == 0), given = draw(5) ? 16 : draw(2);
        size_t memory_words = KARVELORN_MEMORY_WORDS - (draw(8) == 0);
        draw_old_machine(machines[OLD][PROVED], t);
        for (uint32_t k = 0; k < t; k++) order[k] = k;
        for (uint32_t k = t - 1; k; k--) {
            uint32_t at = draw(16) % (k + 1), n = order[k];
            order[k] = order[at];
            order[at] = n;
        }
        for (int k = 0; k < 16; k++) items[k] = draw(32), places[0][k] = places[1][k] = draw(32);
        if (draw(3) == 0) machines[OLD][PROVED][draw(16) % KARVELORN_WORDS] = draw(32);
        if (draw(5) == 0) machines[OLD][PROVED][GENERATOR_WORDS * (draw(16) % t) + GMODE] = draw(8);
        if (draw(6) == 0) order[draw(16) % t] = draw(4);
        memories[OLD][PROVED][7] = draw(7) ? 0 : 1u << 20;
        memcpy(machines[OLD][PLAIN], machines[OLD][PROVED], sizeof machines[OLD][PROVED]);
        for (int side = PROVED; side <= PLAIN; side++)
            number[side] = sides[OLD][side](machines[OLD][side], words, order, entries, items, given, places[side], given,
                                            memories[OLD][PROVED], memory_words, &read[side], &written[side], clipped[side]);
        if (number[0] != number[1] || read[0] != read[1] || written[0] != written[1] || number[0] > 12 ||
            memcmp(places[0], places[1], sizeof places[0]) || memcmp(clipped[0], clipped[1], sizeof clipped[0]) ||
            memcmp(machines[OLD][PROVED], machines[OLD][PLAIN], sizeof machines[OLD][PROVED])) {
            printf("old pass: case %d: R answers %u, C %u, or what they leave differs\n", i, number[0], number[1]);
            return 0;
        }
        all[number[0]]++;
    }
    printf("old pass: %d cases alike, %u done; refused by 1 %u, 2 %u, 5 %u, 6 %u, 7 %u, 8 %u, 10 %u\n", cases, all[0],
           all[1], all[2], all[5], all[6], all[7], all[8], all[10]);
    return all[0] > (uint32_t)cases / 3;
}

/* The timing. */

/* Sines, by the older text cosines, under exponential envelopes, sticky and free in turn, and T/2 mixing modifiers. */
static void make_machine(uint32_t *m, int text, uint32_t t) {
    karvelorn_fresh(m, KARVELORN_WORDS);
    set_ticks(m, t);
    for (uint32_t i = 0; i < t; i++) {
        uint32_t *g = m + GENERATOR_WORDS * i;
        g[GO] = draw(4);
        g[GJ] = draw(26);
        g[GK] = draw(20);
        g[GP] = LOW(0u - draw(12), 20);
        g[GQ] = draw(24);
        g[GL] = draw(12);
        g[GSUM] = draw(6);
        g[GFM] = draw(7);
        g[GMODE] = text == OLD ? (i & 1 ? OLD_RUNNING_B : OLD_RUNNING_A) << 5 | 2 << 3 | 4
                               : (i & 1 ? RUNNING_B : RUNNING_A) << 6 | 2 << 4;
    }
    for (uint32_t k = 0; k < t / 2; k++) {
        uint32_t *u = m + MODIFIERS + MODIFIER_WORDS * k;
        u[M0] = draw(30);
        u[M1] = draw(30);
        u[MIN] = draw(6) + 64 * (k % 3);
        u[MRM] = draw(6) + 64 * (k / 3 % 3);
        u[MSUM] = draw(7);
        u[MMODE] = (text == OLD ? 1 : 20) << 4 | draw(4);
    }
}

/* So many delay lines, invoked by every fourth modifier in turn. */
static void add_lines(uint32_t *m, uint32_t lines) {
    for (uint32_t n = 0; n < lines; n++) {
        uint32_t *d = m + DELAYS + DELAY_WORDS * n, *u = m + MODIFIERS + MODIFIER_WORDS * 4 * n;
        d[X] = 2048 * n;
        d[Z] = 200 + draw(9);
        d[P] = LINE;
        u[MRM] = n;
        u[MMODE] = INVOKE_DELAY << 4 | draw(4);
    }
}

/* The sides of a text begin alike, each with a machine and a delay memory of its own. Memory is full: untouched pages
   could all be one page of zeros. */
static void make_sides(int text, uint32_t t, uint32_t lines) {
    uint32_t *m = machines[text][PROVED], *memory = memories[text][PROVED];
    make_machine(m, text, t);
    add_lines(m, lines);
    for (int i = 0; i < KARVELORN_MEMORY_WORDS; i++) memory[i] = draw(20);
    for (int side = PLAIN; side < SIDES; side++) {
        memcpy(machines[text][side], m, sizeof machines[text][side]);
        memcpy(memories[text][side], memory, sizeof memories[text][side]);
    }
    for (uint32_t i = 0; i < t; i++) order[i] = i;
}

/* The time of one pass on a machine, from a number of passes in a row that all give the same answer. */
static double timed_on(uint32_t *m, int text, int side, size_t memory_words, uint32_t answer, int passes) {
    size_t read, written;
    int others = 0;
    double start = now();
    for (int i = 0; i < passes; i++)
        others += sides[text][side](m, KARVELORN_WORDS, order, m[T], NULL, 0, NULL, 0, memories[text][side], memory_words,
                                    &read, &written, marks[text][side]) != answer;
    double time = (now() - start) / passes;
    if (others) {
        fprintf(stderr, "%spass: another answer than %u\n", names[text], answer);
        exit(1);
    }
    for (int i = 0; i < KARVELORN_MARKS; i++) marked[text] |= marks[text][side][i];
    return time;
}

static double timed(int text, int side, size_t memory_words, uint32_t answer, int passes) {
    return timed_on(machines[text][side], text, side, memory_words, answer, passes);
}

/* Prints the line of a call and gives its ratio to -O2; whether the sides ended alike. */
static double ended(const char *call, int text, double times[SIDES][ROUNDS], int *same) {
    char named[64];
    snprintf(named, sizeof named, "%s%s", names[text], call);
    double ratio = print_times(named, times);
    for (int side = PLAIN; side < SIDES; side++)
        if (memcmp(machines[text][side], machines[text][PROVED], sizeof machines[text][side]) ||
            memcmp(memories[text][side], memories[text][PROVED], sizeof memories[text][side]) ||
            memcmp(marks[text][side], marks[text][PROVED], sizeof marks[text][side])) {
            printf("%s: the machines, delay memories or marks differ\n", named);
            *same = 0;
        }
    return ratio;
}

/* The same of all texts that were timed: R's time by 1978 within a limit, and the older text's beside it. */
static int good(const char *call, int texts, double times[TEXTS][SIDES][ROUNDS], double most) {
    int all = 1;
    double ratio[TEXTS];
    for (int text = 0; text < texts; text++) ratio[text] = ended(call, text, times[text], &all);
    if (ratio[OF_1978] > most) printf("%s: above the limit of %.2f to C -O2\n", call, most);
    return all & (ratio[OF_1978] <= most) & (texts == 1 || within_1978(call, ratio[OLD], ratio[OF_1978]));
}

/* By 1978, and where both texts are asked for by the older text too, in the same rounds. */
static int time_pass(int texts, uint32_t t, uint32_t lines, int passes) {
    static double times[TEXTS][SIDES][ROUNDS];
    char call[48];
    for (int text = 0; text < texts; text++) make_sides(text, t, lines);
    for (int i = -WARM; i < ROUNDS; i++)
        for (int side = 0; side < SIDES; side++)
            for (int text = 0; text < texts; text++) {
                double time = timed(text, side, KARVELORN_MEMORY_WORDS, 0, passes);
                if (i >= 0) times[text][side][i] = time;
            }
    snprintf(call, sizeof call, lines ? "pass at T=%u with %u lines" : "pass at T=%u", t, lines);
    return good(call, texts, times, limit);
}

/* A generator's turn in a pass: a pass of 256 that sound and no modifier that acts, without what it takes where they
   are inactive. */
static int time_turn(int passes) {
    static double times[TEXTS][SIDES][ROUNDS];
    uint32_t t = 256;
    for (int text = 0; text < TEXTS; text++) {
        make_sides(text, t, 0);
        for (int side = 0; side < SIDES; side++) {
            uint32_t *m = machines[text][side];
            for (uint32_t k = 0; k < t / 2; k++) m[MODIFIERS + MODIFIER_WORDS * k + MMODE] = 0;
            memcpy(idle[text][side], m, sizeof idle[text][side]);
            for (uint32_t i = 0; i < t; i++) idle[text][side][GENERATOR_WORDS * i + GMODE] = 0;
        }
    }
    for (int i = -WARM; i < ROUNDS; i++)
        for (int side = 0; side < SIDES; side++)
            for (int text = 0; text < TEXTS; text++) {
                double sounding = timed(text, side, KARVELORN_MEMORY_WORDS, 0, passes);
                double silent = timed_on(idle[text][side], text, side, KARVELORN_MEMORY_WORDS, 0, passes);
                if (i >= 0) times[text][side][i] = (sounding - silent) / t;
            }
    return good("generator's turn in a pass at T=256", TEXTS, times, no_limit);
}

/* The sweep of question 10 alone: a pass that the last word of delay memory refuses, without what it takes where the
   length of delay memory refuses it. */
static int time_question_10(uint32_t t, int passes) {
    static double times[TEXTS][SIDES][ROUNDS];
    char call[48];
    make_sides(OF_1978, t, 0);
    for (int side = 0; side < SIDES; side++) memories[OF_1978][side][KARVELORN_MEMORY_WORDS - 1] = 1u << 20;
    for (int i = -WARM; i < ROUNDS; i++)
        for (int side = 0; side < SIDES; side++) {
            double swept = timed(OF_1978, side, KARVELORN_MEMORY_WORDS, 10, passes);
            double unswept = timed(OF_1978, side, KARVELORN_MEMORY_WORDS - 1, 10, passes);
            if (i >= 0) times[OF_1978][side][i] = swept - unswept;
        }
    snprintf(call, sizeof call, "question 10 of a pass at T=%u", t);
    return good(call, 1, times, limit);
}

int main(void) {
    print_load();
    int all = old_alike(200000);
    all &= time_pass(TEXTS, 256, 0, 20);
    all &= time_turn(20);
    all &= time_pass(1, 64, 0, 40);
    all &= time_pass(1, 1, 0, 80);
    all &= time_pass(1, 256, 32, 20);
    all &= time_question_10(256, 20);
    for (int text = 0; text < TEXTS; text++)
        if (!marked[text]) printf("no %spass set a mark\n", names[text]);
    return all && marked[OF_1978] && marked[OLD] ? 0 : 1;
}

#endif
