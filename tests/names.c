/* Goes through every name, place and maker of karvelorn.h and tries each against the library (tests/header.py). C99 and
 * C++17. Ends with status 0 and a line, or with status 1 and the first name that does not hold. */
#include <stdint.h>
#include <stdio.h>
#include <stdlib.h>
#include <string.h>

#include "karvelorn.h"

static uint32_t before[KARVELORN_WORDS], wanted[KARVELORN_WORDS], machine[KARVELORN_WORDS];
static unsigned long tried;

static void fail(const char *name) {
    printf("names: %s does not hold\n", name);
    exit(1);
}

/* Numbers to try with. */
static uint32_t drawn(void) {
    static uint64_t state = 1978;
    state = state * 6364136223846793005u + 1442695040888963407u;
    return (uint32_t)(state >> 32);
}

/* Widths of registers, as the header lists them. */
static const uint32_t generator_bits[] = {20, 28, 20, 11, 4, 20, 24, 12, 6, 7, 10};
static const uint32_t modifier_bits[] = {30, 30, 20, 20, 8, 8, 7, 9};
static const uint32_t delay_bits[] = {16, 16, 16, 4, 20, 20, 20};

static const uint32_t runs[] = {KARVELORN_RUN_INACTIVE, KARVELORN_RUN_PAUSE, KARVELORN_RUN_DAC,
                                KARVELORN_RUN_WRITE,    KARVELORN_RUN_READ,  KARVELORN_RUN_WAIT,
                                KARVELORN_RUN_ONCE,     KARVELORN_RUN_FREE,  KARVELORN_RUN_STICKY};
static const uint32_t envelopes[] = {KARVELORN_LINEAR_MINUS, KARVELORN_LINEAR_PLUS, KARVELORN_EXPONENTIAL_MINUS,
                                     KARVELORN_EXPONENTIAL_PLUS};
static const uint32_t oscillators[] = {KARVELORN_SINE,        KARVELORN_SAWTOOTH,       KARVELORN_SQUARE,
                                       KARVELORN_PULSE_TRAIN, KARVELORN_SUM_OF_COSINES, KARVELORN_SINE_OF_J};
static const uint32_t functions[] = {
    KARVELORN_INACTIVE,   KARVELORN_NOISE,        KARVELORN_TRIGGERED_NOISE,       KARVELORN_LATCH,
    KARVELORN_THRESHOLD,  KARVELORN_INVOKE_DELAY, KARVELORN_TWO_POLES,             KARVELORN_TWO_POLES_M0_VARIABLE,
    KARVELORN_TWO_POLES_M1_VARIABLE,              KARVELORN_TWO_ZEROS,             KARVELORN_TWO_ZEROS_M0_VARIABLE,
    KARVELORN_TWO_ZEROS_M1_VARIABLE,              KARVELORN_INTEGER_MIXING,        KARVELORN_ONE_POLE,
    KARVELORN_MIXING,     KARVELORN_ONE_ZERO,     KARVELORN_FOUR_QUADRANT,         KARVELORN_AMPLITUDE_MODULATION,
    KARVELORN_MAXIMUM,    KARVELORN_MINIMUM,      KARVELORN_SIGNUM,                KARVELORN_PULSER};
static const uint32_t delays[] = {KARVELORN_DELAY_INACTIVE, KARVELORN_DELAY_LINE, KARVELORN_TABLE,
                                  KARVELORN_TABLE_ROUNDED};
static const uint32_t sources[] = {KARVELORN_FROM_GENERATOR_LAST, KARVELORN_FROM_MODIFIER_LAST,
                                   KARVELORN_FROM_MODIFIER_THIS};

#define COUNT(array) (sizeof(array) / sizeof(array)[0])
#define ONE_OF(array) ((array)[drawn() % COUNT(array)])

static uint32_t any_gmode(void) { return karvelorn_gmode(ONE_OF(runs), ONE_OF(envelopes), ONE_OF(oscillators)); }

static uint32_t any_mmode(void) { return karvelorn_mmode(ONE_OF(functions), drawn(), drawn()); }

static uint32_t any_address(void) { return karvelorn_address(ONE_OF(sources), drawn()); }

static uint32_t low(uint32_t word, uint32_t bits) { return word & ((UINT32_C(1) << bits) - 1); }

/* A good machine of drawn words. */
static void draw_machine(void) {
    if (karvelorn_fresh(before, KARVELORN_WORDS) != 0) fail("karvelorn_fresh");
    for (uint32_t g = 0; g < KARVELORN_GENERATORS; g++) {
        for (uint32_t r = 0; r < COUNT(generator_bits); r++)
            before[karvelorn_generator(g, r)] = low(drawn(), generator_bits[r]);
        before[karvelorn_generator(g, KARVELORN_GMODE)] = any_gmode();
    }
    for (uint32_t m = 0; m < KARVELORN_MODIFIERS; m++) {
        for (uint32_t r = 0; r < COUNT(modifier_bits); r++)
            before[karvelorn_modifier(m, r)] = low(drawn(), modifier_bits[r]);
        before[karvelorn_modifier(m, KARVELORN_MIN)] = any_address();
        before[karvelorn_modifier(m, KARVELORN_MRM)] = any_address();
        before[karvelorn_modifier(m, KARVELORN_MMODE)] = any_mmode();
    }
    for (uint32_t u = 0; u < KARVELORN_DELAYS; u++) {
        for (uint32_t r = 0; r < COUNT(delay_bits); r++) before[karvelorn_delay(u, r)] = low(drawn(), delay_bits[r]);
        before[karvelorn_delay(u, KARVELORN_P)] = ONE_OF(delays);
    }
    for (uint32_t w = 0; w < 64; w++) {
        before[karvelorn_sum(KARVELORN_GENERATOR_THIS, w)] = low(drawn(), 20);
        before[karvelorn_sum(KARVELORN_GENERATOR_LAST, w)] = low(drawn(), 20);
        before[karvelorn_sum(KARVELORN_MODIFIER_THIS, w)] = low(drawn(), 20);
        before[karvelorn_sum(KARVELORN_MODIFIER_LAST, w)] = low(drawn(), 20);
    }
    for (uint32_t d = 0; d < KARVELORN_DACS; d++) before[karvelorn_dac(d)] = low(drawn(), 20);
    before[KARVELORN_DX] = low(drawn(), 20);
    before[KARVELORN_T] = 1 + drawn() % 256;
    before[KARVELORN_N] = 300 + drawn() % 700;
    before[KARVELORN_COUNTER] = drawn();
    before[KARVELORN_LINGERING] = 0;
    before[KARVELORN_LINGER_PASS] = low(drawn(), 20);
    before[KARVELORN_OVERRUN] = drawn() % 2;
    before[KARVELORN_UPDATE_TICKS] = karvelorn_update_ticks(before[KARVELORN_T], before[KARVELORN_N]);
}

/* Whether question 2 passes. */
static int good(const uint32_t *m) {
    uint32_t alike;
    return karvelorn_any_order(m, KARVELORN_WORDS, &alike) == 0;
}

/* Commands that leave the machine as it is wanted; it is then wanted as it was before. */
static void takes(const char *name, const uint32_t *commands, size_t count) {
    size_t taken;
    memcpy(machine, before, sizeof machine);
    if (karvelorn_update(machine, KARVELORN_WORDS, commands, count, &taken) != 0 || taken != count) fail(name);
    if (memcmp(machine, wanted, sizeof machine) != 0) fail(name);
    memcpy(wanted, before, sizeof wanted);
    tried++;
}

static void take(const char *name, uint32_t command) { takes(name, &command, 1); }

/* A word that is wanted after the commands. */
static void want(uint32_t place, uint32_t word) { wanted[place] = word; }

static void places(void) {
    uint32_t place = 0;
    for (uint32_t g = 0; g < KARVELORN_GENERATORS; g++)
        for (uint32_t r = KARVELORN_GO; r <= KARVELORN_GMODE; r++)
            if (karvelorn_generator(g, r) != place++) fail("karvelorn_generator");
    for (uint32_t m = 0; m < KARVELORN_MODIFIERS; m++)
        for (uint32_t r = KARVELORN_M0; r <= KARVELORN_MMODE; r++)
            if (karvelorn_modifier(m, r) != place++) fail("karvelorn_modifier");
    for (uint32_t q = KARVELORN_GENERATOR_THIS; q <= KARVELORN_MODIFIER_LAST; q++)
        for (uint32_t w = 0; w < 64; w++)
            if (karvelorn_sum(q, w) != place++) fail("karvelorn_sum");
    for (uint32_t d = 0; d < KARVELORN_DACS; d++)
        if (karvelorn_dac(d) != place++) fail("karvelorn_dac");
    if (place++ != KARVELORN_DX || place++ != KARVELORN_T || place++ != KARVELORN_N || place++ != KARVELORN_COUNTER ||
        place++ != KARVELORN_LINGERING || place++ != KARVELORN_LINGER_PASS || place++ != KARVELORN_OVERRUN)
        fail("a word that stands alone");
    for (uint32_t u = 0; u < KARVELORN_DELAYS; u++)
        for (uint32_t r = KARVELORN_X; r <= KARVELORN_DUE_3; r++)
            if (karvelorn_delay(u, r) != place++) fail("karvelorn_delay");
    if (place++ != KARVELORN_UPDATE_TICKS || place != KARVELORN_WORDS) fail("KARVELORN_UPDATE_TICKS");
    if (KARVELORN_DUE_1 != 4 || KARVELORN_DUE_2 != 5 || KARVELORN_GK != 2) fail("a register");
}

/* The bits of the word at a place: of words with one bit more than question 2 lets through. */
static void width(const char *name, uint32_t place, uint32_t bits) {
    memcpy(machine, before, sizeof machine);
    machine[place] = (UINT32_C(1) << bits) - 1;
    if (!good(machine)) fail(name);
    machine[place] = UINT32_C(1) << bits;
    if (good(machine)) fail(name);
    tried++;
}

static void widths(void) {
    for (uint32_t g = 0; g < KARVELORN_GENERATORS; g++)
        for (uint32_t r = KARVELORN_GO; r < KARVELORN_GMODE; r++)
            width("the width of a generator's register", karvelorn_generator(g, r), generator_bits[r]);
    for (uint32_t m = 0; m < KARVELORN_MODIFIERS; m++)
        for (uint32_t r = KARVELORN_M0; r <= KARVELORN_MSUM; r++)
            if (r != KARVELORN_MIN && r != KARVELORN_MRM)
                width("the width of a modifier's register", karvelorn_modifier(m, r), modifier_bits[r]);
    for (uint32_t w = 0; w < 256; w++) width("the width of a sum word", karvelorn_sum(w / 64, w % 64), 20);
    for (uint32_t d = 0; d < KARVELORN_DACS; d++) width("the width of a DAC word", karvelorn_dac(d), 20);
    for (uint32_t u = 0; u < KARVELORN_DELAYS; u++)
        for (uint32_t r = KARVELORN_X; r <= KARVELORN_DUE_3; r++)
            if (r != KARVELORN_P) width("the width of a delay unit's register", karvelorn_delay(u, r), delay_bits[r]);
    width("KARVELORN_DX", KARVELORN_DX, 20);
    width("KARVELORN_LINGERING", KARVELORN_LINGERING, 1);
    width("KARVELORN_LINGER_PASS", KARVELORN_LINGER_PASS, 20);
    width("KARVELORN_OVERRUN", KARVELORN_OVERRUN, 1);
}

/* Of all words of so many bits at a place exactly those that are named pass question 2. */
static void exactly(const char *name, uint32_t place, uint32_t bits, const uint8_t *named) {
    memcpy(machine, before, sizeof machine);
    for (uint32_t word = 0; word < UINT32_C(1) << (bits + 1); word++) {
        machine[place] = word;
        if (good(machine) != (word < UINT32_C(1) << bits && named[word])) fail(name);
        tried++;
    }
}

static void modes(void) {
    static uint8_t named[1024];
    for (size_t i = 0; i < COUNT(runs); i++)
        for (size_t j = 0; j < COUNT(envelopes); j++)
            for (size_t k = 0; k < COUNT(oscillators); k++)
                named[karvelorn_gmode(runs[i], envelopes[j], oscillators[k])] = 1;
    exactly("a mode of a generator", karvelorn_generator(drawn() % 256, KARVELORN_GMODE), 10, named);
    memset(named, 0, sizeof named);
    for (size_t i = 0; i < COUNT(functions); i++)
        for (uint32_t scales = 0; scales < 16; scales++)
            named[karvelorn_mmode(functions[i], scales / 4, scales % 4)] = 1;
    exactly("a function of a modifier", karvelorn_modifier(drawn() % 128, KARVELORN_MMODE), 9, named);
    memset(named, 0, sizeof named);
    for (size_t i = 0; i < COUNT(sources); i++)
        for (uint32_t w = 0; w < 64; w++) named[karvelorn_address(sources[i], w)] = 1;
    exactly("an address of A", karvelorn_modifier(drawn() % 128, KARVELORN_MIN), 8, named);
    exactly("an address of B", karvelorn_modifier(drawn() % 128, KARVELORN_MRM), 8, named);
    memset(named, 0, sizeof named);
    for (size_t i = 0; i < COUNT(delays); i++) named[delays[i]] = 1;
    exactly("a mode of a delay unit", karvelorn_delay(drawn() % 32, KARVELORN_P), 4, named);
    for (uint32_t w = 0; w < 64; w++) {
        if (karvelorn_gfm(KARVELORN_FROM_GENERATOR_LAST, w) != w) fail("karvelorn_gfm");
        if (karvelorn_gfm(KARVELORN_FROM_MODIFIER_LAST, w) != 64 + w) fail("karvelorn_gfm");
        if (karvelorn_msum(KARVELORN_ADDS, w) != w || karvelorn_msum(KARVELORN_REPLACES, w) != 64 + w)
            fail("karvelorn_msum");
    }
}

/* Signed numbers of 20 bits to try with, as words: the ends, around 0, and drawn ones. */
static int32_t number_20(uint32_t i) {
    static const int32_t ends[] = {0, 1, -1, 524287, -524288, 255, -256};
    return i < COUNT(ends) ? ends[i] : karvelorn_signed(drawn(), 20);
}

static void generator_makers(uint32_t g) {
    const uint32_t dx = before[KARVELORN_DX];
    for (uint32_t i = 0; i < 10; i++) {
        const int32_t v = number_20(i);
        const uint32_t word = karvelorn_word(v, 20), a = drawn(), b = drawn(), mode = any_gmode();
        want(karvelorn_generator(g, KARVELORN_GQ), karvelorn_word(v, 24)), take("load_gq", karvelorn_load_gq(g, v));
        want(karvelorn_generator(g, KARVELORN_GQ), word << 4 | dx >> 16), want(KARVELORN_DX, 0);
        take("load_gq_left", karvelorn_load_gq_left(g, word));
        want(karvelorn_generator(g, KARVELORN_GJ), karvelorn_word(v, 28)), take("load_gj", karvelorn_load_gj(g, v));
        want(karvelorn_generator(g, KARVELORN_GJ), word << 8 | dx >> 12), want(KARVELORN_DX, 0);
        take("load_gj_left", karvelorn_load_gj_left(g, v));
        want(karvelorn_generator(g, KARVELORN_GP), word), take("load_gp", karvelorn_load_gp(g, v));
        want(karvelorn_generator(g, KARVELORN_GK), word), take("load_gk", karvelorn_load_gk(g, v));
        want(karvelorn_generator(g, KARVELORN_GO), word), take("load_go", karvelorn_load_go(g, v));
        want(karvelorn_generator(g, KARVELORN_GN), low(a, 11)), want(karvelorn_generator(g, KARVELORN_GM), low(b, 4));
        take("load_gn_gm", karvelorn_load_gn_gm(g, a, b));
        want(karvelorn_generator(g, KARVELORN_GN), low(a, 11)), take("load_gn", karvelorn_load_gn(g, a));
        want(karvelorn_generator(g, KARVELORN_GM), low(b, 4)), take("load_gm", karvelorn_load_gm(g, b));
        want(karvelorn_generator(g, KARVELORN_GL), low(a, 12)), want(karvelorn_generator(g, KARVELORN_GSUM), low(b, 6));
        take("load_gl_gsum", karvelorn_load_gl_gsum(g, a, b));
        want(karvelorn_generator(g, KARVELORN_GL), low(a, 12)), take("load_gl", karvelorn_load_gl(g, a));
        want(karvelorn_generator(g, KARVELORN_GSUM), low(b, 6)), take("load_gsum", karvelorn_load_gsum(g, b));
        want(karvelorn_generator(g, KARVELORN_GMODE), mode), want(karvelorn_generator(g, KARVELORN_GFM), low(b, 7));
        take("load_gmode_gfm", karvelorn_load_gmode_gfm(g, mode, b));
        want(karvelorn_generator(g, KARVELORN_GMODE), mode), take("load_gmode", karvelorn_load_gmode(g, mode));
        want(karvelorn_generator(g, KARVELORN_GFM), low(b, 7)), take("load_gfm", karvelorn_load_gfm(g, b));
    }
    want(karvelorn_generator(g, KARVELORN_GK), 0), take("clear_gk", karvelorn_clear_gk(g));
    uint32_t two[2];
    const int32_t gj = karvelorn_signed(drawn(), 28);
    want(karvelorn_generator(g, KARVELORN_GJ), karvelorn_word(gj, 28)), want(KARVELORN_DX, 0);
    karvelorn_load_whole_gj(two, g, gj), takes("load_whole_gj", two, 2);
    const uint32_t gq = low(drawn(), 24);
    want(karvelorn_generator(g, KARVELORN_GQ), gq), want(KARVELORN_DX, 0);
    karvelorn_load_whole_gq(two, g, gq), takes("load_whole_gq", two, 2);
}

static void modifier_makers(uint32_t m) {
    const uint32_t dx = before[KARVELORN_DX], mmode = before[karvelorn_modifier(m, KARVELORN_MMODE)];
    for (uint32_t i = 0; i < 10; i++) {
        const int32_t v = number_20(i);
        const uint32_t word = karvelorn_word(v, 20), b = drawn(), mode = any_mmode(), from = any_address();
        const uint32_t to = any_address(), function = ONE_OF(functions), aa = b % 4, bb = b / 4 % 4;
        want(karvelorn_modifier(m, KARVELORN_M0), karvelorn_word(v, 30)), take("load_m0", karvelorn_load_m0(m, v));
        want(karvelorn_modifier(m, KARVELORN_M1), karvelorn_word(v, 30)), take("load_m1", karvelorn_load_m1(m, v));
        want(karvelorn_modifier(m, KARVELORN_M0), word << 10 | dx >> 10), want(KARVELORN_DX, 0);
        take("load_m0_left", karvelorn_load_m0_left(m, v));
        want(karvelorn_modifier(m, KARVELORN_M1), word << 10 | dx >> 10), want(KARVELORN_DX, 0);
        take("load_m1_left", karvelorn_load_m1_left(m, v));
        want(karvelorn_modifier(m, KARVELORN_L0), word), take("load_l0", karvelorn_load_l0(m, v));
        want(karvelorn_modifier(m, KARVELORN_L1), word), take("load_l1", karvelorn_load_l1(m, v));
        want(karvelorn_modifier(m, KARVELORN_MMODE), mode), want(karvelorn_modifier(m, KARVELORN_MSUM), low(b, 7));
        take("load_mmode_msum", karvelorn_load_mmode_msum(m, mode, b));
        want(karvelorn_modifier(m, KARVELORN_MMODE), mode), take("load_mmode", karvelorn_load_mmode(m, mode));
        want(karvelorn_modifier(m, KARVELORN_MMODE), function << 4 | mmode % 16);
        take("load_function", karvelorn_load_function(m, function));
        want(karvelorn_modifier(m, KARVELORN_MMODE), mmode / 16 * 16 + aa * 4 + bb);
        take("load_scales", karvelorn_load_scales(m, aa, bb));
        want(karvelorn_modifier(m, KARVELORN_MSUM), low(b, 7)), take("load_msum", karvelorn_load_msum(m, b));
        want(karvelorn_modifier(m, KARVELORN_MRM), from), want(karvelorn_modifier(m, KARVELORN_MIN), to);
        take("load_mrm_min", karvelorn_load_mrm_min(m, from, to));
        want(karvelorn_modifier(m, KARVELORN_MRM), from), take("load_mrm", karvelorn_load_mrm(m, from));
        want(karvelorn_modifier(m, KARVELORN_MIN), to), take("load_min", karvelorn_load_min(m, to));
    }
    want(karvelorn_modifier(m, KARVELORN_L0), 0), take("clear_l0", karvelorn_clear_l0(m));
    want(karvelorn_modifier(m, KARVELORN_L1), 0), take("clear_l1", karvelorn_clear_l1(m));
    uint32_t two[2];
    const int32_t coefficient = karvelorn_signed(drawn(), 30);
    want(karvelorn_modifier(m, KARVELORN_M0), karvelorn_word(coefficient, 30)), want(KARVELORN_DX, 0);
    karvelorn_load_whole_m0(two, m, coefficient), takes("load_whole_m0", two, 2);
    want(karvelorn_modifier(m, KARVELORN_M1), karvelorn_word(coefficient, 30)), want(KARVELORN_DX, 0);
    karvelorn_load_whole_m1(two, m, coefficient), takes("load_whole_m1", two, 2);
}

static void delay_makers(uint32_t u) {
    for (uint32_t i = 0; i < 10; i++) {
        const uint32_t a = drawn(), p = ONE_OF(delays);
        want(karvelorn_delay(u, KARVELORN_X), low(a, 16)), want(karvelorn_delay(u, KARVELORN_Y), 0);
        take("load_x", karvelorn_load_x(u, a));
        want(karvelorn_delay(u, KARVELORN_Y), low(a, 16)), take("load_y", karvelorn_load_y(u, a));
        want(karvelorn_delay(u, KARVELORN_Z), low(a, 16)), want(karvelorn_delay(u, KARVELORN_P), p);
        take("load_zp", karvelorn_load_zp(u, a, p));
    }
}

static void sets_ticks(uint32_t t, uint32_t n, const char *name, uint32_t command) {
    want(KARVELORN_T, t), want(KARVELORN_N, n), want(KARVELORN_UPDATE_TICKS, karvelorn_update_ticks(t, n));
    take(name, command);
}

static void other_makers(void) {
    const uint32_t counter = before[KARVELORN_COUNTER];
    for (uint32_t i = 0; i < 10; i++) {
        const uint32_t a = drawn(), later = counter + 1 + a % 500000;
        want(KARVELORN_DX, low(a, 20)), take("load_dx", karvelorn_load_dx(a));
        if (karvelorn_command(a, 0x020) != karvelorn_load_dx(a)) fail("karvelorn_command");
        want(KARVELORN_COUNTER, low(a, 20)), take("set_counter", karvelorn_set_counter(a));
        take("a linger at its pass", karvelorn_linger(counter));
        want(KARVELORN_LINGERING, 1), want(KARVELORN_LINGER_PASS, low(later, 20)), take("linger", karvelorn_linger(later));
        want(KARVELORN_OVERRUN, 1), take("a late linger", karvelorn_linger(counter - 1 - a % 4096));
        want(KARVELORN_COUNTER, 0), want(KARVELORN_LINGERING, 1), want(KARVELORN_LINGER_PASS, 1 + a % 500000);
        take("clear_and_linger", karvelorn_clear_and_linger(1 + a % 500000));
    }
    for (uint32_t g = 0; g < KARVELORN_GENERATORS; g++) {
        const uint32_t at = karvelorn_generator(g, KARVELORN_GMODE), others = before[at] % 64;
        if (before[at] / 64 == KARVELORN_RUN_WAIT) want(at, karvelorn_gmode(KARVELORN_RUN_STICKY, others / 16, others));
    }
    take("clear_waits", karvelorn_clear_waits());
    for (uint32_t g = 0; g < KARVELORN_GENERATORS; g++) {
        const uint32_t at = karvelorn_generator(g, KARVELORN_GMODE), others = before[at] % 64;
        if (before[at] / 64 == KARVELORN_RUN_PAUSE) want(at, karvelorn_gmode(KARVELORN_RUN_STICKY, others / 16, others));
    }
    take("clear_pauses", karvelorn_clear_pauses());
    for (uint32_t t = 1; t <= 256; t++) sets_ticks(t, before[KARVELORN_N], "set_t", karvelorn_set_t(t));
    for (uint32_t n = 2; n <= 1025; n++) sets_ticks(before[KARVELORN_T], n, "set_n", karvelorn_set_n(n));
}

/* Every word of few bits and back, and DAC words. */
static void numbers(void) {
    for (uint32_t bits = 1; bits < 32; bits++)
        for (uint32_t i = 0; i < 100; i++) {
            const uint32_t word = low(drawn(), bits);
            const int32_t value = karvelorn_signed(word, bits);
            const int64_t size = INT64_C(1) << (bits - 1);
            if (karvelorn_word(value, bits) != word || value < -size || value >= size) fail("karvelorn_signed");
        }
    if (karvelorn_sample(524287) != 524287 || karvelorn_sample(524288) != -524288 || karvelorn_sample(1048575) != -1)
        fail("karvelorn_sample");
    if (karvelorn_update_ticks(1, 265) != 256 || karvelorn_update_ticks(256, 263) != 0 ||
        karvelorn_update_ticks(256, 265) != 1 || karvelorn_update_ticks(0, UINT32_MAX) != UINT32_MAX - 8)
        fail("karvelorn_update_ticks");
    for (uint32_t n = 1; n <= 18; n++)
        if (strchr(karvelorn_question(n), '?') == NULL) fail("karvelorn_question");
    if (strchr(karvelorn_question(0), '?') || strchr(karvelorn_question(19), '?')) fail("karvelorn_question");
    for (uint32_t a = 0; a < 19; a++)
        for (uint32_t b = 0; b < a; b++)
            if (strcmp(karvelorn_question(a), karvelorn_question(b)) == 0) fail("karvelorn_question");
}

int main(void) {
    places();
    numbers();
    draw_machine();
    if (!good(before)) fail("a machine of drawn words");
    memcpy(wanted, before, sizeof wanted);
    widths();
    modes();
    for (uint32_t g = 0; g < KARVELORN_GENERATORS; g++) generator_makers(g);
    for (uint32_t m = 0; m < KARVELORN_MODIFIERS; m++) modifier_makers(m);
    for (uint32_t u = 0; u < KARVELORN_DELAYS; u++) delay_makers(u);
    other_makers();
    printf("names: version %s, %lu calls tried, all names hold\n", KARVELORN_VERSION, tried);
    return 0;
}
