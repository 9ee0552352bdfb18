/* Contents at random with the settings of a machine, for the programs that try orders on passes. */
#ifndef DRAWN_H
#define DRAWN_H

#include "text.h"

enum { MODIFIERS = 128, MODIFIERS_AT = 2816, MODIFIER_WORDS = 8, MIN = 4, MRM = 5, MMODE = 7 };
enum { SUM_WORDS = 64, SUMS_AT = 3840, N = T + 1, COUNTER, LINGERING, LINGER_PASS, OVERRUN };
enum { UNITS = 32, UNITS_AT = 4119, X = 0, Y, Z, P, UNIT_WORDS = 7 };
enum { UPDATE_TICKS = 4343, OVERHEAD_TICKS = 8 };
enum { INVOKE_DELAY_UNIT = 7, DELAY_LINE = 8 };

/* Drawing. */

static uint64_t drawn;

static uint32_t draw(uint32_t width) {
    drawn = drawn * 6364136223846793005u + 1442695040888963407u;
    return (uint32_t)(drawn >> (64 - width));
}

/* Contents at random. */

static void draw_modifier(uint32_t *u) {
    static const uint32_t widths[MODIFIER_WORDS] = {30, 30, 20, 20, 7, 7, 7, 4};
    for (int j = 0; j < MODIFIER_WORDS; j++) u[j] = draw(widths[j]);
    if (draw(1)) u[MIN] = 128 | draw(6);
    if (draw(1)) u[MRM] = 128 | draw(6);
    u[MMODE] |= functions[draw(4)] << 4;
}

/* A delay unit in any mode; as a line it fits. */
static void draw_unit(uint32_t *u) {
    static const uint32_t modes[4] = {0, DELAY_LINE, 10, 11};
    for (int j = 0; j < UNIT_WORDS; j++) u[j] = draw(20);
    u[Z] = draw(1) ? draw(3) : draw(16);
    u[X] = draw(16) % (KARVELORN_MEMORY_WORDS - u[Z]);
    u[Y] = draw(16) % (u[Z] + 1);
    u[P] = modes[draw(2)];
}

/* Some modifiers become 00111s, each on a unit of its own: unit 0, a line, is named by one that runs where T is 2 or
 * more. By the older text they name none. */
static void draw_naming(uint32_t *m, uint32_t t) {
    uint32_t unit = 0, step = draw(5) | 1, first = t < 2 ? 0 : draw(8) % (t / 2);
    m[UNITS_AT + P] = DELAY_LINE;
    for (uint32_t k = first, left = UNITS; k < MODIFIERS && left; k++) {
        uint32_t *u = m + MODIFIERS_AT + MODIFIER_WORDS * k;
        if (k > first && draw(1)) continue;
        u[MMODE] = INVOKE_DELAY_UNIT << 4 | draw(4);
        u[MRM] = draw(2) % 3 << 6 | draw(1) << 5 | unit;
        unit = (unit + step) % UNITS;
        left--;
    }
}

static void draw_contents(uint32_t *m, const uint32_t *settings) {
    uint32_t edge = draw(2);
    for (int g = 0; g < GENERATORS; g++)
        draw_generator(m + GENERATOR_WORDS * g, generator(settings, g), edge, draw);
    for (int k = 0; k < MODIFIERS; k++) draw_modifier(m + MODIFIERS_AT + MODIFIER_WORDS * k);
    for (int i = SUMS_AT; i <= OVERRUN; i++) m[i] = draw(i == COUNTER ? 32 : 20);
    for (int u = 0; u < UNITS; u++) draw_unit(m + UNITS_AT + UNIT_WORDS * u);
    m[T] = settings[T];
    m[N] = 2 + draw(10);
    m[UPDATE_TICKS] = m[N] > m[T] + OVERHEAD_TICKS ? m[N] - m[T] - OVERHEAD_TICKS : 0;
    m[LINGERING] = draw(1);
    m[OVERRUN] = draw(1);
    draw_naming(m, m[T]);
}

#endif
