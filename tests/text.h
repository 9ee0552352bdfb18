/* The text that a program of the tests is built for: with OLD_TEXT the older one, else that of 1978. Its calls, and
 * what its machines' settings are.
 */
#ifndef TEXT_H
#define TEXT_H

#include "karvelorn.h"

enum { GENERATORS = 256, GO = 0, GN = 3, GP = 5, GQ, GL, GSUM, GFM, GMODE, GENERATOR_WORDS, T = 4113 };

#ifdef OLD_TEXT

#define TEXT_CALL(name) karvelorn_old_##name
/* The word of a generator that names its DAC, and the bits of it that are settings in SENDING: sign and DAC number. */
enum { RUN_MODE_AT = 5, READING = 6, SENDING = 7, SENT_BY = GN, SIGN = 1024, SENT_BITS = SIGN | 15 };
static const uint32_t functions[16] = {0, 1, 2, 3, 4, 5, 6, 7, 8, 9, 10, 12, 13, 14, 16, 8};

static inline int writes(const uint32_t *g) { return g[GMODE] >> RUN_MODE_AT == SENDING && g[GN] & SIGN; }

#else

#define TEXT_CALL(name) karvelorn_##name
enum { RUN_MODE_AT = 6, READING = 7, SENDING = 2, WRITING = 3, SENT_BY = GO, SENT_BITS = 15 };
/* Of those that invoke no delay unit. */
static const uint32_t functions[16] = {0, 2, 3, 4, 6, 8, 9, 11, 12, 13, 16, 17, 20, 22, 24, 28};

static inline int writes(const uint32_t *g) { return g[GMODE] >> RUN_MODE_AT == WRITING; }

#endif

static inline const uint32_t *generator(const uint32_t *m, uint32_t g) { return m + GENERATOR_WORDS * g; }

static inline int reads(const uint32_t *g) { return g[GMODE] >> RUN_MODE_AT == READING; }

/* The bits of a generator's word SENT_BY that are settings. */
static inline uint32_t sent_bits(const uint32_t *g) { return g[GMODE] >> RUN_MODE_AT == SENDING ? SENT_BITS : 0; }

static inline uint32_t below_t(const uint32_t *m, int (*holds)(const uint32_t *)) {
    uint32_t count = 0;
    for (uint32_t g = 0; g < m[T]; g++) count += holds(generator(m, g)) != 0;
    return count;
}

/* A generator's registers at random with the settings of another. GQ is at an end of its range where edge is 1 or 2, so
 * that many overflow. */
static inline void draw_generator(uint32_t *g, const uint32_t *settings, uint32_t edge, uint32_t (*draw)(uint32_t)) {
    static const uint32_t widths[GENERATOR_WORDS] = {20, 28, 20, 11, 4, 20, 24, 12, 6, 7, 10};
    for (int j = 0; j < GENERATOR_WORDS; j++) g[j] = draw(widths[j]);
    g[GSUM] = settings[GSUM];
    g[GFM] = settings[GFM];
    g[GMODE] = settings[GMODE];
    uint32_t bits = sent_bits(settings);
    g[SENT_BY] = (g[SENT_BY] & ~bits) | (settings[SENT_BY] & bits);
    if (edge == 1) g[GQ] = 16777215;
    if (edge == 2) g[GQ] = 0;
}

#endif
