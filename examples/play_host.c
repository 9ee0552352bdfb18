/* play_host.c: a bell written from karvelorn.h alone, and played in blocks through a callback as audio programs do. It is
 * played into a WAVE file, and every block's time is held to its deadline:
 *
 *     gcc -std=c99 -O2 -I include examples/play_host.c crates/karvelorn/out/libkarvelorn.a -lm -o target/play_host
 *     target/play_host bell.wav            (or: target/play_host bell.wav SECONDS T)
 *
 * The bell has five partials and is struck a second time after 1.5 seconds, by commands that wait for their pass. T is how
 * many generators have a turn in each pass, 7 to 256: those past the bell's own add a murmur, so that T 256 shows what a
 * whole machine costs. The share of the deadline that is used is printed; a busy machine uses more of it than of
 * processor time.
 */
#define _POSIX_C_SOURCE 199309L
#include <math.h>
#include <stdint.h>
#include <stdio.h>
#include <stdlib.h>
#include <string.h>
#include <time.h>

#include "karvelorn.h"

enum { BLOCK = 64, PARTIALS = 5, LEFT = PARTIALS, RIGHT = PARTIALS + 1, COMMANDS_MOST = 1 + 2 * PARTIALS, FRAME_BYTES = 6 };

/* A partial: Hz, its level (V, 0 to 4093) as it is struck, and the seconds in which it falls by 60 dB. */
static const struct {
    double hz, level, t60;
} partials[PARTIALS] = {{219.2, 1200, 3.0}, {440, 1500, 2.0}, {526.4, 1300, 1.5}, {662.5, 700, 0.8}, {880, 1600, 1.0}};

/* What the callback has at hand: the machine with its delay memory, and the commands still to be taken. */
typedef struct {
    uint32_t machine[KARVELORN_WORDS], memory[KARVELORN_MEMORY_WORDS], commands[COMMANDS_MOST];
    size_t taken, count;
    uint32_t refused;
} player;

static double rate_of(const player *p) { return 1e9 / (KARVELORN_TICK_NS * (double)p->machine[KARVELORN_N]); }

/* A generator's pitch and decay, by the header's formulas. */
static uint32_t gj_of(double hz, double rate) { return 256 * (uint32_t)lround(hz / rate * 1048576); }

static uint32_t gp_of(double t60, double rate) { return karvelorn_word((int32_t)lround(1048576 * 9.966 / (t60 * rate)), 20); }

static uint32_t gq_of(double level) { return (uint32_t)lround(1048576 * log2(4093 / level)); }

/* Generator g as a partial that dies away, into sum word `word`. Nothing modulates it: no modifier runs, so every word of
 * modifier-last stays 0. */
static void put_partial(player *p, uint32_t g, double hz, double level, double t60, uint32_t word) {
    uint32_t *registers = p->machine + karvelorn_generator(g, 0);
    registers[KARVELORN_GJ] = gj_of(hz, rate_of(p));
    registers[KARVELORN_GP] = gp_of(t60, rate_of(p));
    registers[KARVELORN_GQ] = gq_of(level);
    registers[KARVELORN_GSUM] = word;
    registers[KARVELORN_GFM] = karvelorn_gfm(KARVELORN_FROM_MODIFIER_LAST, 0);
    registers[KARVELORN_GMODE] = karvelorn_gmode(KARVELORN_RUN_STICKY, KARVELORN_EXPONENTIAL_PLUS, KARVELORN_SINE);
}

/* Generator g sends sum word `word` to a DAC. */
static void put_dac(player *p, uint32_t g, uint32_t dac, uint32_t word) {
    uint32_t *registers = p->machine + karvelorn_generator(g, 0);
    registers[KARVELORN_GO] = dac;
    registers[KARVELORN_GFM] = karvelorn_gfm(KARVELORN_FROM_GENERATOR_LAST, word);
    registers[KARVELORN_GMODE] = karvelorn_gmode(KARVELORN_RUN_DAC, KARVELORN_LINEAR_MINUS, KARVELORN_SINE);
}

static void put_bell(player *p, uint32_t t) {
    karvelorn_fresh(p->machine, KARVELORN_WORDS);
    p->machine[KARVELORN_T] = t;
    p->machine[KARVELORN_UPDATE_TICKS] = karvelorn_update_ticks(t, p->machine[KARVELORN_N]);
    for (uint32_t g = 0; g < PARTIALS; g++) put_partial(p, g, partials[g].hz, partials[g].level, partials[g].t60, 0);
    put_dac(p, LEFT, 0, 0);
    put_dac(p, RIGHT, 1, 1);
    for (uint32_t g = RIGHT + 1; g < t; g++) put_partial(p, g, 300 + 7.3 * g, 40, 1.0, 1);
}

/* The second stroke: at its pass every partial's envelope begins again. An update takes as many commands as it has ticks,
 * with T 256 one a pass. */
static void put_stroke(player *p, double seconds) {
    p->commands[p->count++] = karvelorn_linger((uint32_t)lround(seconds * rate_of(p)));
    for (uint32_t g = 0; g < PARTIALS; g++) {
        karvelorn_load_whole_gq(p->commands + p->count, g, gq_of(partials[g].level));
        p->count += 2;
    }
}

/* The callback: so many frames, DAC 0 left and DAC 1 right, by one call. After a refusal there is silence. */
static void callback(player *p, int32_t *frames, uint32_t count) {
    static const uint32_t dacs[] = {0, 1};
    uint32_t done = 0;
    size_t taken = 0;
    if (!p->refused)
        p->refused = karvelorn_ring(p->machine, KARVELORN_WORDS, p->memory, KARVELORN_MEMORY_WORDS, p->commands + p->taken,
                                    p->count - p->taken, NULL, 0, count, dacs, 2, frames, 2 * (size_t)count, &done, &taken);
    p->taken += taken;
    memset(frames + 2 * (size_t)done, 0, 2 * (size_t)(count - done) * sizeof frames[0]);
}

/* The driver, as an audio system would be: here it plays into a file and holds the time of each block to its deadline. */

static double now(void) {
    struct timespec t;
    clock_gettime(CLOCK_MONOTONIC, &t);
    return (double)t.tv_sec + 1e-9 * (double)t.tv_nsec;
}

static void put_number(FILE *file, uint32_t value, int bytes) {
    for (int i = 0; i < bytes; i++) fputc((int)(value >> 8 * i & 255), file);
}

static void put_header(FILE *file, uint32_t rate, uint32_t frames) {
    fputs("RIFF", file), put_number(file, 36 + FRAME_BYTES * frames, 4), fputs("WAVEfmt ", file), put_number(file, 16, 4);
    put_number(file, 1, 2), put_number(file, 2, 2), put_number(file, rate, 4), put_number(file, FRAME_BYTES * rate, 4);
    put_number(file, FRAME_BYTES, 2), put_number(file, 24, 2), fputs("data", file), put_number(file, FRAME_BYTES * frames, 4);
}

static void play(player *p, FILE *file, uint32_t blocks) {
    int32_t frames[2 * BLOCK];
    const double deadline = BLOCK / rate_of(p);
    double all = 0, most = 0, processor = 0;
    uint32_t late = 0;
    put_header(file, (uint32_t)lround(rate_of(p)), BLOCK * blocks);
    for (uint32_t b = 0; b < blocks; b++) {
        const double began = now();
        const clock_t ticks = clock();
        callback(p, frames, BLOCK);
        processor += (double)(clock() - ticks) / CLOCKS_PER_SEC / deadline;
        const double used = (now() - began) / deadline;
        all += used, most = used > most ? used : most, late += used > 1;
        for (int i = 0; i < 2 * BLOCK; i++) put_number(file, (uint32_t)(16 * frames[i]), 3);
    }
    printf("T %u: %u blocks of %d passes, a deadline of %.3f ms each: %.1f %% of it used (%.1f %% of processor time), "
           "at most %.1f %%, %u late\n",
           (unsigned)p->machine[KARVELORN_T], (unsigned)blocks, BLOCK, 1e3 * deadline, 100 * all / blocks,
           100 * processor / blocks, 100 * most, (unsigned)late);
}

int main(int count, char **arguments) {
    static player p;
    const double seconds = count > 2 ? atof(arguments[2]) : 3;
    const long t = count > 3 ? atol(arguments[3]) : RIGHT + 1;
    if (count < 2 || count > 4 || !(seconds > 0 && seconds <= 600) || t <= RIGHT || t > KARVELORN_GENERATORS) {
        fprintf(stderr, "usage: play_host FILE.wav [SECONDS, to 600] [T, %d to 256]\n", RIGHT + 1);
        return EXIT_FAILURE;
    }
    FILE *file = fopen(arguments[1], "wb");
    if (!file) {
        perror(arguments[1]);
        return EXIT_FAILURE;
    }
    put_bell(&p, (uint32_t)t);
    put_stroke(&p, 1.5);
    play(&p, file, (uint32_t)ceil(seconds * rate_of(&p) / BLOCK));
    if (fclose(file) != 0) {
        perror(arguments[1]);
        return EXIT_FAILURE;
    }
    if (p.refused) fprintf(stderr, "play_host: refused by %u: %s\n", (unsigned)p.refused, karvelorn_question(p.refused));
    return p.refused ? EXIT_FAILURE : EXIT_SUCCESS;
}
