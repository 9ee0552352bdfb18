/* What the plain C beside the proved calls shares: the machine's layout, its questions, drawn numbers and the clock.
   Each program has its plain C three times: at gcc -O2, and from the same file at -O3 and at -O3 -march=native, under other names and with ONLY_PLAIN set. */
#ifndef BENCH_PLAIN_H
#define BENCH_PLAIN_H

#include "karvelorn.h"

#include <stdio.h>
#include <stdlib.h>
#include <string.h>
#include <time.h>

#if defined(__GNUC__)
#define SHARED __attribute__((unused)) static /* not every program uses all of it */
#else
#define SHARED static
#endif

#define LOW(x, w) ((x) & ((1u << (w)) - 1))

enum { GO, GJ, GK, GN, GM, GP, GQ, GL, GSUM, GFM, GMODE, GENERATOR_WORDS };
enum { M0, M1, L0, L1, MIN, MRM, MSUM, MMODE, MODIFIER_WORDS };
enum { X, Y, Z, P, FIRST, SECOND, THIRD, DELAY_WORDS };
enum { MODIFIERS = 2816, SUMS = 3840, DACS = 4096, DX = 4112, T, N, COUNTER, LINGERING, LINGER_PASS, OVERRUN, DELAYS };
enum { UPDATE_TICKS = KARVELORN_UPDATE_TICKS };
enum { GENERATOR_THIS, GENERATOR_LAST, MODIFIER_THIS, MODIFIER_LAST };
enum { WRITE_DAC = 2, WRITE_DATA = 3, READ_DATA = 7, WAIT = 9, RUNNING_C = 13, RUNNING_B = 14, RUNNING_A = 15 };
enum { INVOKE_DELAY = 7 }; /* a modifier's function */
enum { LINE = 8, TABLE = 10, ROUNDED_TABLE = 11 }; /* modes P of a delay unit */

/* The older text's run modes. */
enum { OLD_RUNNING_A = 2, OLD_RUNNING_B, OLD_WAIT, OLD_RUNNING_C, OLD_READ_DATA, OLD_SEND };

/* Bit n is 1 where function or delay unit's mode n is built. */
static const uint32_t built_function = 0x3F53BBDD, built_delay = 0x0D01;
/* Bit n is 1 where function n is built by the older text. */
static const uint32_t old_built_function = 0x000177FF;

/* Questions 1 and 2. Words of one kind are or-ed in columns, several rows at a time, and compared once: gcc -O2 makes
   loops of whole registers of it, since each has a fixed number of turns that fills them. */

/* The bits that a word of each kind may not have, by the widths of its registers. */
#define ABOVE(w) (~0u << (w))
#define GENERATOR_ABOVE \
    ABOVE(20), ABOVE(28), ABOVE(20), ABOVE(11), ABOVE(4), ABOVE(20), ABOVE(24), ABOVE(12), ABOVE(6), ABOVE(7), ABOVE(10)
#define MODIFIER_ABOVE ABOVE(30), ABOVE(30), ABOVE(20), ABOVE(20), ABOVE(8), ABOVE(8), ABOVE(7), ABOVE(9)
#define DELAY_ABOVE ABOVE(16), ABOVE(16), ABOVE(16), ABOVE(4), ABOVE(20), ABOVE(20), ABOVE(20)
#define ADDRESS_TOP 0, 0, 0, 0, 128, 128, 0, 0

enum { GENERATOR_ROW = 4 * GENERATOR_WORDS, MODIFIER_ROW = 2 * MODIFIER_WORDS, DELAY_ROW = 4 * DELAY_WORDS };

static const uint32_t generator_above[GENERATOR_ROW] = {GENERATOR_ABOVE, GENERATOR_ABOVE, GENERATOR_ABOVE, GENERATOR_ABOVE};
static const uint32_t modifier_above[MODIFIER_ROW] = {MODIFIER_ABOVE, MODIFIER_ABOVE}, address_top[MODIFIER_ROW] = {ADDRESS_TOP, ADDRESS_TOP};
static const uint32_t delay_above[DELAY_ROW] = {DELAY_ABOVE, DELAY_ABOVE, DELAY_ABOVE, DELAY_ABOVE};

/* Whether a GMODE is built, by 1978 and by the older text: a row for each run mode, four envelope modes by the oscillator modes. */
#define WAVES(b) b, b, b, b, b, 0, 0, 0, b, 0, 0, 0, 0, 0, 0, 0
#define RUN(b) WAVES(b), WAVES(b), WAVES(b), WAVES(b)
static const uint8_t built_gmode[1024] = {RUN(1), RUN(1), RUN(1), RUN(1), RUN(0), RUN(0), RUN(0), RUN(1),
                                          RUN(0), RUN(1), RUN(0), RUN(0), RUN(0), RUN(1), RUN(1), RUN(1)};
#define OLD_WAVES(cosines) cosines, 1, 1, 1, 1, 1, 0, 0
#define OLD_RUN(cosines) OLD_WAVES(cosines), OLD_WAVES(cosines), OLD_WAVES(cosines), OLD_WAVES(cosines)
static const uint8_t old_built_gmode[256] = {OLD_RUN(1), OLD_RUN(0), OLD_RUN(0), OLD_RUN(0), OLD_RUN(0), OLD_RUN(0), OLD_RUN(0), OLD_RUN(0)};

/* The widths of 256 generators' registers, eight rows of four at a time; GMODE may have 10 bits. */
SHARED uint32_t wide_generators(const uint32_t *m) {
    uint32_t bad = 0;
    for (const uint32_t *r = m; r < m + MODIFIERS; r += 8 * GENERATOR_ROW)
        for (int i = 0; i < GENERATOR_ROW; i++)
            bad |= (r[i] | r[i + GENERATOR_ROW] | r[i + 2 * GENERATOR_ROW] | r[i + 3 * GENERATOR_ROW] | r[i + 4 * GENERATOR_ROW] |
                    r[i + 5 * GENERATOR_ROW] | r[i + 6 * GENERATOR_ROW] | r[i + 7 * GENERATOR_ROW]) &
                   generator_above[i];
    return bad;
}

SHARED uint32_t bad_generators(const uint32_t *m) {
    uint32_t built = 1;
    for (const uint32_t *g = m; g < m + MODIFIERS; g += GENERATOR_WORDS) built &= built_gmode[g[GMODE] & 1023];
    return wide_generators(m) | !built;
}

SHARED uint32_t old_bad_generators(const uint32_t *m) {
    uint32_t built = 1, wide = 0;
    for (const uint32_t *g = m; g < m + MODIFIERS; g += GENERATOR_WORDS) {
        built &= old_built_gmode[g[GMODE] & 255];
        wide |= g[GMODE];
    }
    return wide_generators(m) | !built | wide >> 8;
}

/* The widths, and that no address has the top bits 11: both top bits of a word of 8 bits meet in one bit. */
static uint32_t bad_modifiers(const uint32_t *m, uint32_t built) {
    uint32_t bad = 0;
    for (const uint32_t *r = m + MODIFIERS; r < m + SUMS; r += 4 * MODIFIER_ROW)
        for (int i = 0; i < MODIFIER_ROW; i++) {
            uint32_t a = r[i], b = r[i + MODIFIER_ROW], c = r[i + 2 * MODIFIER_ROW], d = r[i + 3 * MODIFIER_ROW];
            bad |= ((a | b | c | d) & modifier_above[i]) | (((a & a << 1) | (b & b << 1) | (c & c << 1) | (d & d << 1)) & address_top[i]);
        }
    for (const uint32_t *u = m + MODIFIERS; u < m + SUMS; u += MODIFIER_WORDS) bad |= ~built >> (u[MMODE] >> 4 & 31) & 1;
    return bad;
}

static uint32_t bad_delays(const uint32_t *m) {
    uint32_t bad = 0;
    const uint32_t *r = m + DELAYS;
    for (int i = 0; i < DELAY_ROW; i++)
        bad |= (r[i] | r[i + DELAY_ROW] | r[i + 2 * DELAY_ROW] | r[i + 3 * DELAY_ROW] | r[i + 4 * DELAY_ROW] | r[i + 5 * DELAY_ROW] |
                r[i + 6 * DELAY_ROW] | r[i + 7 * DELAY_ROW]) &
               delay_above[i];
    for (const uint32_t *d = r; d < m + UPDATE_TICKS; d += DELAY_WORDS) bad |= ~built_delay >> (d[P] & 15) & 1;
    return bad;
}

enum { OVERHEAD_TICKS = 8 };

static uint32_t update_ticks(uint32_t t, uint32_t n) { return n > t + OVERHEAD_TICKS ? n - t - OVERHEAD_TICKS : 0; }

/* The words beside the generators' and modifiers', and whether those are bad. */
static int valid_rest(const uint32_t *m, uint32_t bad) {
    uint32_t all = m[DX] | m[LINGER_PASS];
    bad |= bad_delays(m);
    for (int i = 0; i < DX - SUMS; i++) all |= m[SUMS + i];
    bad |= all >> 20 | m[LINGERING] >> 1 | m[OVERRUN] >> 1;
    return !bad && m[T] >= 1 && m[T] <= 256 && m[N] >= 2 && m[N] <= 1025 && m[UPDATE_TICKS] == update_ticks(m[T], m[N]);
}

SHARED int valid_machine(const uint32_t *m) {
    return valid_rest(m, bad_generators(m) | bad_modifiers(m, built_function));
}

SHARED int old_valid_machine(const uint32_t *m) {
    return valid_rest(m, old_bad_generators(m) | bad_modifiers(m, old_built_function));
}

/* T of a machine that is made, with the update ticks that follow. */
SHARED void set_ticks(uint32_t *m, uint32_t t) {
    m[T] = t;
    m[UPDATE_TICKS] = update_ticks(t, m[N]);
}

/* Question 6. */

SHARED int each_once(const uint32_t *order, uint32_t t) {
    uint8_t seen[256] = {0};
    uint32_t past = 0;
    for (uint32_t i = 0; i < t; i++) {
        seen[order[i] & 255] = 1;
        past |= order[i] >= t;
    }
    return !past && !memchr(seen, 0, t);
}

/* The timing. */

SHARED uint32_t drawn = 1978;
SHARED uint32_t draw(uint32_t width) { return (drawn = drawn * 1664525 + 1013904223) >> (32 - width); }

/* The processor's time, in nanoseconds: other work on the machine disturbs it less. */
SHARED double now(void) {
    struct timespec t;
    clock_gettime(CLOCK_PROCESS_CPUTIME_ID, &t);
    return (double)t.tv_sec * 1e9 + (double)t.tv_nsec;
}

SHARED int ascending(const void *a, const void *b) {
    double x = *(const double *)a, y = *(const double *)b;
    return (x > y) - (x < y);
}

SHARED double median(double *times, size_t count) {
    qsort(times, count, sizeof *times, ascending);
    return times[count / 2];
}

enum { ROUNDS = 1001, WARM = 200 };
enum { PROVED, PLAIN, PLAIN_O3, PLAIN_NATIVE, SIDES };

/* The machine's load as a program begins. */
SHARED void print_load(void) {
    double load[1] = {0};
    FILE *f = fopen("/proc/loadavg", "r");
    if (f && fscanf(f, "%lf", load) == 1) printf("load as it begins: %.2f\n", load[0]);
    if (f) fclose(f);
}

/* The line of a call: the median times of the sides, and the ratios. Gives the ratio to -O2. */
SHARED double print_times(const char *call, double times[SIDES][ROUNDS]) {
    static const char *const levels[SIDES] = {"", "-O2", "-O3", "-O3 -march=native"};
    double r = median(times[PROVED], ROUNDS), c[SIDES];
    for (int side = PLAIN; side < SIDES; side++) c[side] = median(times[side], ROUNDS);
    int places = c[PLAIN] < 100 ? 2 : 0;
    printf("%s: R %.*f ns", call, places, r);
    for (int side = PLAIN; side < SIDES; side++) printf("; C %s %.*f ns, ratio %.2f", levels[side], places, c[side], r / c[side]);
    printf("\n");
    return r / c[PLAIN];
}

/* The older text's ratio to -O2 beside that of 1978, from the same rounds, and whether it is at most so much larger. */
SHARED int within_1978(const char *call, double old_ratio, double ratio) {
    static const double most = 1.05;
    printf("%s: the older text's ratio to C -O2 is %.3f of 1978's\n", call, old_ratio / ratio);
    if (old_ratio > most * ratio) printf("%s: above the limit of %.2f\n", call, most);
    return old_ratio <= most * ratio;
}

#endif
