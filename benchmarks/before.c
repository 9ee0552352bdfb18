/* The calls of 1978 by two builds of the library: benchmarks/before builds this, and it times both in turn on the same machines.
   The other build's calls are named before_.. */
#define _POSIX_C_SOURCE 199309L
#include "plain.h"

#include <string.h>

typedef uint32_t pass_function(uint32_t *, size_t, const uint32_t *, size_t, const uint32_t *, size_t, uint32_t *,
                               size_t, uint32_t *, size_t, size_t *, size_t *, uint8_t *);
typedef uint32_t update_function(uint32_t *, size_t, const uint32_t *, size_t, size_t *);
typedef uint32_t compare_function(const uint32_t *, size_t, const uint32_t *, size_t, const uint32_t *, size_t, uint32_t *);
typedef uint32_t any_order_function(const uint32_t *, size_t, uint32_t *);
typedef uint32_t parts_function(const uint32_t *, size_t, const uint32_t *, size_t, const uint32_t *, size_t, uint32_t *,
                                size_t, uint32_t *, size_t, uint32_t *, uint32_t *);

pass_function before_pass;
update_function before_update;
compare_function before_compare;
any_order_function before_any_order;
parts_function before_parts;

enum { BEFORE, AFTER, BUILDS };

static pass_function *const passes[BUILDS] = {before_pass, karvelorn_pass};
static update_function *const updates[BUILDS] = {before_update, karvelorn_update};
static compare_function *const compares[BUILDS] = {before_compare, karvelorn_compare};
static any_order_function *const any_orders[BUILDS] = {before_any_order, karvelorn_any_order};
static parts_function *const partings[BUILDS] = {before_parts, karvelorn_parts};

static const double limit = 1.03;
static uint32_t m[BUILDS][KARVELORN_WORDS], memory[BUILDS][KARVELORN_MEMORY_WORDS], first[256], second[256];
static uint32_t contents[BUILDS][KARVELORN_WORDS], items[BUILDS][256], commands[64], answers[BUILDS];

/* One call of a build on its machine; gives what it answers. */
static uint32_t pass(int build) {
    size_t read, written;
    uint8_t marks[KARVELORN_MARKS];
    return passes[build](m[build], KARVELORN_WORDS, first, m[build][T], NULL, 0, NULL, 0, memory[build],
                         KARVELORN_MEMORY_WORDS, &read, &written, marks);
}
static uint32_t update(int build) {
    size_t taken;
    return 1000 * updates[build](m[build], KARVELORN_WORDS, commands, 64, &taken) + (uint32_t)taken;
}
static uint32_t compare(int build) {
    uint32_t equal, t = m[build][T];
    return compares[build](m[build], KARVELORN_WORDS, first, t, second, t, &equal) * 2 + equal;
}
static uint32_t any_order(int build) {
    uint32_t alike;
    return any_orders[build](m[build], KARVELORN_WORDS, &alike) * 2 + alike;
}
static uint32_t parts(int build) {
    uint32_t point, place, t = m[build][T];
    uint32_t number = partings[build](m[build], KARVELORN_WORDS, first, t, second, t, contents[build], KARVELORN_WORDS,
                                      items[build], 256, &point, &place);
    return number * 65536 + point * 256 + place;
}

static double timed(uint32_t (*call)(int), int build, int times) {
    double start = now();
    for (int i = 0; i < times; i++) answers[build] = 31 * answers[build] + call(build);
    return (now() - start) / times;
}

/* Both builds by turns, the one that begins in turn too. The ratio is the median of the rounds' own ratios. */
static int time_call(const char *name, uint32_t (*call)(int), int times) {
    static double taken[BUILDS][ROUNDS], ratios[ROUNDS];
    memcpy(m[AFTER], m[BEFORE], sizeof m[AFTER]);
    memcpy(memory[AFTER], memory[BEFORE], sizeof memory[AFTER]);
    answers[BEFORE] = answers[AFTER] = 0;
    for (int i = -WARM; i < ROUNDS; i++) {
        double one[BUILDS];
        for (int k = 0; k < BUILDS; k++) {
            int build = (i & 1) ^ k;
            one[build] = timed(call, build, times);
        }
        if (i < 0) continue;
        for (int build = 0; build < BUILDS; build++) taken[build][i] = one[build];
        ratios[i] = one[AFTER] / one[BEFORE];
    }
    double ratio = median(ratios, ROUNDS);
    int same = answers[BEFORE] == answers[AFTER] && !memcmp(m[AFTER], m[BEFORE], sizeof m[AFTER]) &&
               !memcmp(memory[AFTER], memory[BEFORE], sizeof memory[AFTER]) &&
               !memcmp(contents[AFTER], contents[BEFORE], sizeof contents[AFTER]);
    printf("%s: before %.0f ns, after %.0f ns, ratio %.3f%s%s\n", name, median(taken[BEFORE], ROUNDS),
           median(taken[AFTER], ROUNDS), ratio, ratio > limit ? ", above the limit of 1.03" : "",
           same ? "" : ", and the builds DIFFER");
    return same && ratio <= limit;
}

/* Machines. */

static void sounding(uint32_t t, uint32_t lines) {
    uint32_t *made = m[BEFORE];
    karvelorn_fresh(made, KARVELORN_WORDS);
    set_ticks(made, t);
    for (uint32_t i = 0; i < t; i++) {
        uint32_t *g = made + GENERATOR_WORDS * i;
        g[GO] = draw(4), g[GJ] = draw(26), g[GK] = draw(20), g[GP] = LOW(0u - draw(12), 20);
        g[GQ] = draw(24), g[GL] = draw(12), g[GSUM] = draw(6), g[GFM] = draw(7);
        g[GMODE] = (i & 1 ? RUNNING_B : RUNNING_A) << 6 | 2 << 4;
        first[i] = second[i] = i;
    }
    for (uint32_t k = 0; k < t / 2; k++) {
        uint32_t *u = made + MODIFIERS + MODIFIER_WORDS * k;
        u[M0] = draw(30), u[M1] = draw(30), u[MIN] = draw(6) + 64 * (k % 3), u[MRM] = draw(6) + 64 * (k / 3 % 3);
        u[MSUM] = draw(7), u[MMODE] = 20 << 4 | draw(4);
    }
    for (uint32_t n = 0; n < lines; n++) {
        uint32_t *d = made + DELAYS + DELAY_WORDS * n, *u = made + MODIFIERS + MODIFIER_WORDS * 4 * n;
        d[X] = 2048 * n, d[Z] = 200 + draw(9), d[P] = LINE;
        u[MRM] = n, u[MMODE] = INVOKE_DELAY << 4 | draw(4);
    }
    for (int i = 0; i < KARVELORN_MEMORY_WORDS; i++) memory[BEFORE][i] = draw(20);
}

/* Generators in all run modes, and two orders; where asked for, the second is moved on as long as it equals the first. */
static void ordered(uint32_t t, int equal) {
    static const uint32_t runs[16] = {RUNNING_A, RUNNING_B, RUNNING_C, WAIT, RUNNING_A, RUNNING_B, WRITE_DAC, WRITE_DATA,
                                      READ_DATA, RUNNING_A, WAIT, RUNNING_B, RUNNING_C, READ_DATA, 0, 1};
    uint32_t *made = m[BEFORE], yes, n;
    karvelorn_fresh(made, KARVELORN_WORDS);
    set_ticks(made, t);
    for (uint32_t i = 0; i < t; i++) {
        uint32_t *g = made + GENERATOR_WORDS * i;
        g[GO] = draw(20), g[GSUM] = draw(6), g[GFM] = draw(7), g[GMODE] = runs[draw(4)] << 6;
        first[i] = i;
    }
    for (uint32_t i = t - 1; i; i--) {
        uint32_t at = draw(16) % (i + 1);
        n = first[i], first[i] = first[at], first[at] = n;
    }
    memcpy(second, first, sizeof second);
    for (int k = 0; k < 20000 && t > 1; k++) {
        uint32_t i = draw(16) % (t - 1);
        n = second[i], second[i] = second[i + 1], second[i + 1] = n;
        if (!equal) continue;
        karvelorn_compare(made, KARVELORN_WORDS, first, t, second, t, &yes);
        if (!yes) n = second[i], second[i] = second[i + 1], second[i + 1] = n;
    }
}

int main(void) {
    int all = 1;
    sounding(256, 0), all &= time_call("pass at T=256", pass, 20);
    sounding(64, 0), all &= time_call("pass at T=64", pass, 20);
    sounding(1, 0), all &= time_call("pass at T=1", pass, 20);
    sounding(256, 32), all &= time_call("pass at T=256 with 32 lines", pass, 20);
    ordered(256, 1), all &= time_call("compare at T=256", compare, 50);
    ordered(64, 1), all &= time_call("compare at T=64", compare, 50);
    ordered(1, 1), all &= time_call("compare at T=1", compare, 50);
    ordered(256, 0), all &= time_call("parts at T=256", parts, 50);
    sounding(256, 0), all &= time_call("any order at T=256", any_order, 50);
    for (uint32_t i = 0; i < 64; i++) commands[i] = draw(20) << 12 | 6u << 8 | (draw(8)); /* GP */
    sounding(64, 0), m[BEFORE][N] = 400, set_ticks(m[BEFORE], 64), all &= time_call("update of 64 GP", update, 50);
    return all ? 0 : 1;
}
