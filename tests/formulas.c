/* What karvelorn.h says of a generator's and a modifier's turn ("To write a bell"), formula by formula, tried against the
 * library (tests/header.py). C99 and C++17. Nothing here comes from elsewhere than the header. Ends with status 0 and a
 * line, or with status 1 and the first formula that does not hold. */
#include <math.h>
#include <stdint.h>
#include <stdio.h>
#include <stdlib.h>
#include <string.h>

#include "karvelorn.h"

enum { MACHINES = 600, TURNS = 4 };

static uint32_t machine[KARVELORN_WORDS], memory[KARVELORN_MEMORY_WORDS], order[KARVELORN_GENERATORS];
static uint32_t items[KARVELORN_GENERATORS], places[KARVELORN_GENERATORS];

static const uint32_t runs[] = {KARVELORN_RUN_INACTIVE, KARVELORN_RUN_PAUSE, KARVELORN_RUN_DAC,
                                KARVELORN_RUN_WRITE,    KARVELORN_RUN_READ,  KARVELORN_RUN_WAIT,
                                KARVELORN_RUN_ONCE,     KARVELORN_RUN_FREE,  KARVELORN_RUN_STICKY};
static const uint32_t oscillators[] = {KARVELORN_SINE,        KARVELORN_SAWTOOTH,       KARVELORN_SQUARE,
                                       KARVELORN_PULSE_TRAIN, KARVELORN_SUM_OF_COSINES, KARVELORN_SINE_OF_J};
static const uint32_t functions[] = {KARVELORN_INACTIVE,
                                     KARVELORN_NOISE,
                                     KARVELORN_TRIGGERED_NOISE,
                                     KARVELORN_LATCH,
                                     KARVELORN_THRESHOLD,
                                     KARVELORN_TWO_POLES,
                                     KARVELORN_TWO_POLES_M0_VARIABLE,
                                     KARVELORN_TWO_POLES_M1_VARIABLE,
                                     KARVELORN_TWO_ZEROS,
                                     KARVELORN_TWO_ZEROS_M0_VARIABLE,
                                     KARVELORN_TWO_ZEROS_M1_VARIABLE,
                                     KARVELORN_INTEGER_MIXING,
                                     KARVELORN_ONE_POLE,
                                     KARVELORN_MIXING,
                                     KARVELORN_ONE_ZERO,
                                     KARVELORN_FOUR_QUADRANT,
                                     KARVELORN_AMPLITUDE_MODULATION,
                                     KARVELORN_MAXIMUM,
                                     KARVELORN_MINIMUM,
                                     KARVELORN_SIGNUM,
                                     KARVELORN_PULSER};

#define COUNT(array) (sizeof(array) / sizeof(array)[0])

static void fail(const char *what, uint32_t number, uint32_t mode) {
    printf("formulas: %s %u with mode %X is not as the header says\n", what, (unsigned)number, (unsigned)mode);
    exit(1);
}

static uint32_t drawn(void) {
    static uint64_t state = 1978;
    state = state * 6364136223846793005u + 1442695040888963407u;
    return (uint32_t)(state >> 32);
}

/* A word of so many bits, now and then small, or near the ends of its range. */
static uint32_t drawn_word(uint32_t bits) {
    static const int32_t near[] = {0, 1, -1, 2, -2, 100, -100, 5000};
    const uint32_t kind = drawn() % 6;
    if (kind == 0) return karvelorn_word(near[drawn() % COUNT(near)], bits);
    if (kind == 1) return karvelorn_word(near[drawn() % COUNT(near)] + (int32_t)(UINT32_C(1) << (bits - 1)), bits);
    return drawn() & ((UINT32_C(1) << bits) - 1);
}

static int64_t floor_div(int64_t a, int64_t b) { return a / b - (a % b < 0); }

static int32_t low_20(int64_t value) { return karvelorn_signed((uint32_t)((uint64_t)value & 0xFFFFF), 20); }

/* Generators. */

typedef struct {
    int32_t go, gj, gk, gp, f;
    uint32_t gn, gm, gq, gl, run, envelope, oscillator;
} generator;

static int one_of(uint32_t run, uint32_t a, uint32_t b, uint32_t c, uint32_t d) {
    return run == a || run == b || run == c || run == d;
}

static int oscillator_on(uint32_t run) {
    return one_of(run, KARVELORN_RUN_WAIT, KARVELORN_RUN_ONCE, KARVELORN_RUN_FREE, KARVELORN_RUN_STICKY);
}

static int envelope_on(uint32_t run) {
    return one_of(run, KARVELORN_RUN_READ, KARVELORN_RUN_ONCE, KARVELORN_RUN_FREE, KARVELORN_RUN_STICKY);
}

static int free_running(uint32_t run) { return run == KARVELORN_RUN_ONCE || run == KARVELORN_RUN_FREE; }

static int32_t sine_before_shift(int32_t k) {
    const double value = 4096 * sin(2 * 3.14159265358979323846 * (k + 0.5) / 8192);
    const double magnitude = floor(fabs(value) + 0.0002);
    const int32_t whole = magnitude > 4095 ? 4095 : (int32_t)magnitude;
    return value < 0 ? -whole : whole;
}

static int32_t sum_of_cosines(const generator *g, int32_t k) {
    const int32_t s = sine_before_shift(karvelorn_signed((uint32_t)(2 * (int32_t)g->gn * k) & 8191, 13));
    const int32_t d = sine_before_shift(k);
    const int64_t ratio = INT64_C(4095) * abs(s) / ((int64_t)abs(d) << g->gm);
    const int32_t size = ratio > 4095 ? 4095 : (int32_t)ratio;
    return (s < 0) != (d < 0) ? -size : size;
}

static int32_t wave(const generator *g, int32_t j, int left) {
    const int32_t angle = g->oscillator == KARVELORN_SINE_OF_J ? j : g->gk;
    const int32_t k = (int32_t)floor_div(angle, 128);
    switch (g->oscillator) {
    case KARVELORN_SAWTOOTH: return k == -4096 ? 0 : k;
    case KARVELORN_SQUARE: return k < 0 ? -2048 : 2048;
    case KARVELORN_PULSE_TRAIN: return left ? 2048 : 0;
    case KARVELORN_SUM_OF_COSINES: return sum_of_cosines(g, k);
    default: break;
    }
    const int32_t whole = sine_before_shift(k);
    return whole < 0 ? -(-whole >> g->gm) : whole >> g->gm;
}

static uint32_t level(const generator *g) {
    const uint32_t h = g->gq / 1024;
    uint32_t q = g->gq / 4096;
    if (g->envelope >= KARVELORN_EXPONENTIAL_MINUS) q = (uint32_t)floor(4093 * pow(2, (h % 1024) / -1024.0)) >> h / 1024;
    const int plus = g->envelope == KARVELORN_LINEAR_PLUS || g->envelope == KARVELORN_EXPONENTIAL_PLUS;
    return (plus ? g->gl + q : g->gl - q) & 4095;
}

static int outside_20(int64_t value) { return value < -524288 || value > 524287; }

/* The turn of generator g: what it gives, and its registers afterwards; whether it triggers. */
static int32_t turn(generator *g, int told, int *triggers) {
    const int64_t exact_j = floor_div(g->gj, 256) + g->f;
    const int32_t j = low_20(exact_j);
    const int on = oscillator_on(g->run);
    const int left = outside_20(exact_j) || (on && outside_20((int64_t)g->gk + j));
    const int32_t w = wave(g, j, left);
    const int64_t size = (int64_t)abs(w) * level(g);
    const int32_t p = (int32_t)((size + 32) / 64);
    if (on) g->gj = karvelorn_signed((uint32_t)(g->gj + g->go) & 0xFFFFFFF, 28);
    if (on) g->gk = low_20((int64_t)g->gk + j);
    const int32_t gq = (int32_t)g->gq + g->gp;
    const int overflow = envelope_on(g->run) && (gq < 0 || gq >= 1 << 24);
    if (envelope_on(g->run) && (!overflow || free_running(g->run))) g->gq = (uint32_t)gq & 0xFFFFFF;
    *triggers = overflow && free_running(g->run);
    if (g->run == KARVELORN_RUN_ONCE && *triggers) g->run = KARVELORN_RUN_WAIT;
    else if (g->run == KARVELORN_RUN_WAIT && told) g->run = KARVELORN_RUN_ONCE;
    return w < 0 ? -p : p;
}

static generator generator_of(uint32_t number) {
    const uint32_t *m = machine + karvelorn_generator(number, 0);
    const uint32_t gfm = m[KARVELORN_GFM];
    const uint32_t last = gfm / 64 ? KARVELORN_MODIFIER_LAST : KARVELORN_GENERATOR_LAST;
    generator g;
    g.go = karvelorn_signed(m[KARVELORN_GO], 20);
    g.gj = karvelorn_signed(m[KARVELORN_GJ], 28);
    g.gk = karvelorn_signed(m[KARVELORN_GK], 20);
    g.gp = karvelorn_signed(m[KARVELORN_GP], 20);
    g.f = karvelorn_signed(machine[karvelorn_sum(last, gfm % 64)], 20);
    g.gn = m[KARVELORN_GN], g.gm = m[KARVELORN_GM], g.gq = m[KARVELORN_GQ], g.gl = m[KARVELORN_GL];
    g.run = m[KARVELORN_GMODE] >> 6;
    g.envelope = m[KARVELORN_GMODE] >> 4 & 3;
    g.oscillator = m[KARVELORN_GMODE] & 15;
    return g;
}

/* All generators by number, on the machine as it stands: what they leave, beside it. */
static generator after[KARVELORN_GENERATORS];
static int32_t sums[64], dacs[KARVELORN_DACS];
static uint32_t written_items[KARVELORN_GENERATORS];

static void take_generators(void) {
    size_t read = 0, written = 0;
    int told = 0;
    for (uint32_t w = 0; w < 64; w++) sums[w] = karvelorn_signed(machine[karvelorn_sum(KARVELORN_GENERATOR_THIS, w)], 20);
    for (uint32_t d = 0; d < KARVELORN_DACS; d++) dacs[d] = karvelorn_sample(machine[karvelorn_dac(d)]);
    for (uint32_t n = 0; n < machine[KARVELORN_T]; n++) {
        generator g = generator_of(n);
        const uint32_t run = g.run, gsum = machine[karvelorn_generator(n, KARVELORN_GSUM)];
        int triggers;
        if (run == KARVELORN_RUN_DAC) dacs[g.go & 15] = g.f;
        if (run == KARVELORN_RUN_WRITE) written_items[written++] = karvelorn_word(g.f, 20);
        const int32_t p = turn(&g, told, &triggers);
        if (run == KARVELORN_RUN_READ) sums[gsum] = low_20(p + (int64_t)karvelorn_signed(items[read++] & 0xFFFFF, 20));
        else if (envelope_on(run)) sums[gsum] = low_20((int64_t)sums[gsum] + p);
        after[n] = g;
        told = triggers;
    }
}

/* Modifiers. Each reads words of the last pass alone here: which writes of this pass it sees is not tried. */

typedef struct {
    int32_t m0, m1, l0, l1, a, b;
    uint32_t function, aa, bb;
} modifier;

static int32_t product(int32_t a, int32_t b, uint32_t s) {
    return low_20(floor_div((int64_t)a * b * (1 << s) + (1 << 18), 1 << 19));
}

static int32_t whole(int32_t a, int32_t b, uint32_t s) { return low_20(floor_div((int64_t)a * b * (1 << s), 4)); }

static int32_t high(int32_t coefficient) { return (int32_t)floor_div(coefficient, 1024); }

static int32_t modify(modifier *u) {
    const int32_t m0 = high(u->m0), m1 = high(u->m1), a = u->a, b = u->b, l0 = u->l0, l1 = u->l1;
    const int32_t a_m0 = product(a, m0, u->aa), b_m1 = product(b, m1, u->bb), l1_m1 = product(l1, m1, u->bb);
    const int32_t filtered = low_20((int64_t)l1_m1 + product(l0, m0, u->aa));
    const int32_t with_a = low_20((int64_t)filtered + a), noise = low_20((int64_t)l0 + whole(l1, m0, u->aa));
    int32_t s = 0;
    switch (u->function) {
    case KARVELORN_NOISE: return u->l1 = noise;
    case KARVELORN_TRIGGERED_NOISE:
        if (whole(b, m1, u->bb) != 0) u->l1 = noise;
        return noise;
    case KARVELORN_LATCH:
        if (b_m1 != 0) u->l1 = a;
        return l1;
    case KARVELORN_THRESHOLD: return low_20((int64_t)a_m0 + l0) >= 0 ? b_m1 : 0;
    case KARVELORN_TWO_POLES:
    case KARVELORN_TWO_POLES_M0_VARIABLE:
    case KARVELORN_TWO_POLES_M1_VARIABLE:
    case KARVELORN_TWO_ZEROS:
    case KARVELORN_TWO_ZEROS_M0_VARIABLE:
    case KARVELORN_TWO_ZEROS_M1_VARIABLE:
        u->l0 = l1;
        u->l1 = u->function < KARVELORN_TWO_ZEROS ? with_a : a;
        if (u->function == KARVELORN_TWO_POLES_M0_VARIABLE || u->function == KARVELORN_TWO_ZEROS_M0_VARIABLE)
            u->m0 = karvelorn_signed((uint32_t)(u->m0 + b) & 0x3FFFFFFF, 30);
        if (u->function == KARVELORN_TWO_POLES_M1_VARIABLE || u->function == KARVELORN_TWO_ZEROS_M1_VARIABLE)
            u->m1 = karvelorn_signed((uint32_t)(u->m1 + b) & 0x3FFFFFFF, 30);
        return with_a;
    case KARVELORN_INTEGER_MIXING: return low_20((int64_t)whole(a, m0, u->aa) + whole(b, m1, u->bb));
    case KARVELORN_ONE_POLE: return u->l1 = low_20((int64_t)l1_m1 + product(b, l0, u->aa));
    case KARVELORN_MIXING: return low_20((int64_t)a_m0 + b_m1);
    case KARVELORN_ONE_ZERO: u->l0 = l1, u->l1 = a; return filtered;
    case KARVELORN_FOUR_QUADRANT: u->l1 = product(a, b, u->aa); return l1_m1;
    case KARVELORN_AMPLITUDE_MODULATION:
        u->l1 = product(a, (int32_t)floor_div(b + (1 << 19), 2), u->aa);
        return l1_m1;
    case KARVELORN_MAXIMUM: return a_m0 > b_m1 ? a_m0 : b_m1;
    case KARVELORN_MINIMUM: return a_m0 < b_m1 ? a_m0 : b_m1;
    case KARVELORN_SIGNUM: return (a_m0 > b_m1) - (a_m0 < b_m1);
    case KARVELORN_PULSER:
        u->l1 = product(b, m0, u->aa);
        s = l1_m1 != 0 && (u->l1 == 0 || (u->l1 < 0) != (l1_m1 < 0)) ? -1 : 0;
        return s;
    default: return 0;
    }
}

static int32_t word_at(uint32_t address) {
    const uint32_t quadrant = address / 64 ? KARVELORN_MODIFIER_LAST : KARVELORN_GENERATOR_LAST;
    return karvelorn_signed(machine[karvelorn_sum(quadrant, address % 64)], 20);
}

static modifier modified[KARVELORN_MODIFIERS];
static int32_t modifier_sums[64];

static void take_modifiers(void) {
    for (uint32_t w = 0; w < 64; w++) modifier_sums[w] = 0;
    for (uint32_t n = 0; n < machine[KARVELORN_T] / 2; n++) {
        const uint32_t *m = machine + karvelorn_modifier(n, 0);
        const uint32_t msum = m[KARVELORN_MSUM];
        modifier *u = &modified[n];
        u->m0 = karvelorn_signed(m[KARVELORN_M0], 30), u->m1 = karvelorn_signed(m[KARVELORN_M1], 30);
        u->l0 = karvelorn_signed(m[KARVELORN_L0], 20), u->l1 = karvelorn_signed(m[KARVELORN_L1], 20);
        u->a = word_at(m[KARVELORN_MIN]), u->b = word_at(m[KARVELORN_MRM]);
        u->function = m[KARVELORN_MMODE] >> 4, u->aa = m[KARVELORN_MMODE] >> 2 & 3, u->bb = m[KARVELORN_MMODE] & 3;
        const int32_t s = modify(u);
        modifier_sums[msum % 64] = msum / 64 ? s : low_20((int64_t)modifier_sums[msum % 64] + s);
    }
}

/* Trying. */

static void draw_machine(void) {
    karvelorn_fresh(machine, KARVELORN_WORDS);
    machine[KARVELORN_T] = drawn() % 8 ? 256 : 1 + drawn() % 256;
    machine[KARVELORN_UPDATE_TICKS] = karvelorn_update_ticks(machine[KARVELORN_T], machine[KARVELORN_N]);
    for (uint32_t g = 0; g < KARVELORN_GENERATORS; g++) {
        static const uint32_t bits[] = {20, 28, 20, 11, 4, 20, 24, 12, 6, 7};
        uint32_t *m = machine + karvelorn_generator(g, 0);
        for (uint32_t r = 0; r < COUNT(bits); r++) m[r] = drawn_word(bits[r]);
        if (drawn() % 2) m[KARVELORN_GM] = drawn() % 3;
        m[KARVELORN_GMODE] = karvelorn_gmode(runs[drawn() % COUNT(runs)], drawn(), oscillators[drawn() % COUNT(oscillators)]);
    }
    for (uint32_t u = 0; u < KARVELORN_MODIFIERS; u++) {
        static const uint32_t bits[] = {30, 30, 20, 20, 7, 7, 7};
        uint32_t *m = machine + karvelorn_modifier(u, 0);
        for (uint32_t r = 0; r < COUNT(bits); r++) m[r] = drawn_word(bits[r]);
        m[KARVELORN_MMODE] = karvelorn_mmode(functions[drawn() % COUNT(functions)], drawn(), drawn());
    }
    for (uint32_t w = 0; w < 64; w++) {
        machine[karvelorn_sum(KARVELORN_GENERATOR_LAST, w)] = drawn_word(20);
        machine[karvelorn_sum(KARVELORN_MODIFIER_LAST, w)] = drawn_word(20);
    }
    for (uint32_t i = 0; i < KARVELORN_GENERATORS; i++) items[i] = drawn();
}

static void compare_generators(size_t written, const uint32_t *modes) {
    for (uint32_t n = 0; n < machine[KARVELORN_T]; n++) {
        const uint32_t *m = machine + karvelorn_generator(n, 0);
        const generator *g = &after[n];
        if (m[KARVELORN_GJ] != karvelorn_word(g->gj, 28) || m[KARVELORN_GK] != karvelorn_word(g->gk, 20) ||
            m[KARVELORN_GQ] != g->gq || m[KARVELORN_GMODE] != karvelorn_gmode(g->run, g->envelope, g->oscillator))
            fail("generator", n, modes[n]);
    }
    for (uint32_t w = 0; w < 64; w++)
        if (machine[karvelorn_sum(KARVELORN_GENERATOR_LAST, w)] != karvelorn_word(sums[w], 20)) fail("sum word", w, 0);
    for (uint32_t d = 0; d < KARVELORN_DACS; d++)
        if (karvelorn_sample(machine[karvelorn_dac(d)]) != dacs[d]) fail("DAC", d, 0);
    for (uint32_t i = 0; i < written; i++)
        if (places[i] != written_items[i]) fail("written item", i, 0);
}

static void compare_modifiers(void) {
    for (uint32_t n = 0; n < machine[KARVELORN_T] / 2; n++) {
        const uint32_t *m = machine + karvelorn_modifier(n, 0);
        const modifier *u = &modified[n];
        if (m[KARVELORN_M0] != karvelorn_word(u->m0, 30) || m[KARVELORN_M1] != karvelorn_word(u->m1, 30) ||
            m[KARVELORN_L0] != karvelorn_word(u->l0, 20) || m[KARVELORN_L1] != karvelorn_word(u->l1, 20))
            fail("modifier", n, u->function);
    }
    for (uint32_t w = 0; w < 64; w++)
        if (machine[karvelorn_sum(KARVELORN_MODIFIER_LAST, w)] != karvelorn_word(modifier_sums[w], 20))
            fail("modifier sum word", w, 0);
}

static void try_pass(void) {
    uint32_t modes[KARVELORN_GENERATORS];
    uint8_t clipped[KARVELORN_MARKS];
    size_t read, written;
    for (uint32_t n = 0; n < KARVELORN_GENERATORS; n++) modes[n] = machine[karvelorn_generator(n, KARVELORN_GMODE)];
    take_generators();
    take_modifiers();
    const uint32_t number =
        karvelorn_pass(machine, KARVELORN_WORDS, order, machine[KARVELORN_T], items, KARVELORN_GENERATORS, places,
                       KARVELORN_GENERATORS, memory, KARVELORN_MEMORY_WORDS, &read, &written, clipped);
    if (number != 0) fail(karvelorn_question(number), number, 0);
    compare_generators(written, modes);
    compare_modifiers();
}

int main(void) {
    for (uint32_t g = 0; g < KARVELORN_GENERATORS; g++) order[g] = g;
    for (int i = 0; i < MACHINES; i++) {
        draw_machine();
        for (int j = 0; j < TURNS; j++) try_pass();
    }
    printf("formulas: %d passes by the header's formulas, all words as the library leaves them\n", MACHINES * TURNS);
    return 0;
}
