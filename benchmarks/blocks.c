/* A block of passes in plain C beside the proved one: benchmarks/blocks builds this, and it times both in turn on the same
   machines. The C asks each question once a block, in its first pass, and again after an update that took commands; every
   other pass and update is that of benchmarks/pass.c and benchmarks/update.c without a question. With the name of a bench file and a
   number the program rings it by karvelorn_ring in blocks of so many passes, to be timed beside the program wav. */
#define _POSIX_C_SOURCE 199309L
#include "plain.h"

typedef uint32_t pass_function(uint32_t *, size_t, const uint32_t *, size_t, const uint32_t *, size_t, uint32_t *, size_t,
                               uint32_t *, size_t, size_t *, size_t *, uint8_t *);
typedef uint32_t update_function(uint32_t *, size_t, const uint32_t *, size_t, size_t *);
typedef uint32_t ring_function(uint32_t *, size_t, uint32_t *, size_t, const uint32_t *, size_t, const uint32_t *, size_t,
                               uint32_t, const uint32_t *, size_t, int32_t *, size_t, uint32_t *, size_t *);

pass_function plain_pass, unasked_pass;
update_function unasked_update;

__attribute__((noinline)) uint32_t plain_ring(uint32_t *m, size_t words, uint32_t *memory, size_t memory_words,
                                              const uint32_t *commands, size_t commands_len, const uint32_t *order,
                                              size_t entries, uint32_t passes, const uint32_t *dacs, size_t dacs_len,
                                              int32_t *frames, size_t frames_len, uint32_t *done, size_t *taken) {
    uint32_t numbers[256], asked = 0;
    uint8_t clipped[KARVELORN_MARKS];
    const int by_number = !entries;
    *done = 0, *taken = 0;
    if (by_number)
        for (uint32_t g = 0; g < 256; g++) numbers[g] = g;
    while (*done < passes && (*done + (size_t)1) * dacs_len <= frames_len) {
        size_t read, written, count;
        if (by_number) order = numbers, entries = words == KARVELORN_WORDS && m[T] <= 256 ? m[T] : 0;
        uint32_t number = (asked ? unasked_pass : plain_pass)(m, words, order, entries, NULL, 0, NULL, 0, memory, memory_words,
                                                              &read, &written, clipped);
        if (number) return number;
        number = unasked_update(m, words, commands + *taken, commands_len - *taken, &count);
        *taken += count;
        if (number) return number;
        asked = !count;
        for (size_t i = 0; i < dacs_len; i++) frames[*done * dacs_len + i] = (int32_t)(m[DACS + (dacs[i] & 15)] << 12) >> 12;
        ++*done;
    }
    return 0;
}

#ifndef ONLY_PLAIN

ring_function plain_ring_o3, plain_ring_native;

enum { DACS_MOST = 16, BLOCK_MOST = 64 };

/* At most so much of gcc -O2's time, in blocks of 64; a pass of N = 265 ticks lasts so many ns, of which a block of 64 at
   T 256 takes at most a tenth. */
static const double limit = 0.9, lasts = 265 * 195.0, times_real = 10;

static uint32_t machines[SIDES][KARVELORN_WORDS], memories[SIDES][KARVELORN_MEMORY_WORDS];
static int32_t frames[SIDES][BLOCK_MOST * DACS_MOST];
static ring_function *const sides[SIDES] = {karvelorn_ring, plain_ring, plain_ring_o3, plain_ring_native};

/* Sines under exponential envelopes, sticky and free in turn, every eighth one
   the word of the one before it to a DAC; T/2 mixing modifiers, of which some
   invoke a delay line. */
static void make_machine(uint32_t *m, uint32_t t, uint32_t lines) {
    karvelorn_fresh(m, KARVELORN_WORDS);
    set_ticks(m, t);
    for (uint32_t i = 0; i < t; i++) {
        uint32_t *g = m + GENERATOR_WORDS * i;
        const int feeds = i % 8 == 7;
        g[GO] = feeds ? i / 8 % 16 : draw(4), g[GJ] = draw(26), g[GK] = draw(20), g[GP] = LOW(0u - draw(12), 20);
        g[GQ] = draw(24), g[GL] = draw(12), g[GSUM] = draw(6), g[GFM] = feeds ? g[GSUM - GENERATOR_WORDS] : draw(7);
        g[GMODE] = feeds ? WRITE_DAC << 6 : (uint32_t)(i & 1 ? RUNNING_B : RUNNING_A) << 6 | 2 << 4;
    }
    for (uint32_t k = 0; k < t / 2; k++) {
        uint32_t *u = m + MODIFIERS + MODIFIER_WORDS * k;
        u[M0] = draw(30), u[M1] = draw(30), u[MIN] = draw(6) + 64 * (k % 3), u[MRM] = draw(6) + 64 * (k / 3 % 3);
        u[MSUM] = draw(7), u[MMODE] = 20 << 4 | draw(4);
    }
    for (uint32_t n = 0; n < lines; n++) {
        uint32_t *d = m + DELAYS + DELAY_WORDS * n, *u = m + MODIFIERS + MODIFIER_WORDS * 4 * n;
        d[X] = 2048 * n, d[Z] = 200 + draw(9), d[P] = LINE;
        u[MRM] = n, u[MMODE] = INVOKE_DELAY << 4 | draw(4);
    }
}

static void make_sides(uint32_t t, uint32_t lines) {
    make_machine(machines[PROVED], t, lines);
    for (int i = 0; i < KARVELORN_MEMORY_WORDS; i++) memories[PROVED][i] = draw(20);
    for (int side = PLAIN; side < SIDES; side++) {
        memcpy(machines[side], machines[PROVED], sizeof machines[side]);
        memcpy(memories[side], memories[PROVED], sizeof memories[side]);
    }
}

/* The time of a pass, from blocks in a row that are all done. */
static double timed(int side, uint32_t passes, uint32_t dacs_len, int blocks) {
    static const uint32_t dacs[DACS_MOST] = {0, 1, 2, 3, 4, 5, 6, 7, 8, 9, 10, 11, 12, 13, 14, 15};
    uint32_t done, others = 0;
    size_t taken;
    double start = now();
    for (int i = 0; i < blocks; i++) {
        others |= sides[side](machines[side], KARVELORN_WORDS, memories[side], KARVELORN_MEMORY_WORDS, NULL, 0, NULL, 0, passes,
                              dacs, dacs_len, frames[side], BLOCK_MOST * DACS_MOST, &done, &taken);
        others |= done != passes;
    }
    double time = (now() - start) / (blocks * (double)passes);
    if (others) {
        fprintf(stderr, "blocks: refused, or not all passes are done\n");
        exit(1);
    }
    return time;
}

/* A pass in blocks of so many; whether the sides end alike, with something heard, and R is within the limit of a block of 64. */
static int compare(uint32_t t, uint32_t lines, uint32_t passes, uint32_t dacs_len, int blocks) {
    static double times[SIDES][ROUNDS];
    char call[96];
    int same = 1, heard = 0;
    make_sides(t, lines);
    for (int i = -WARM; i < ROUNDS; i++) {
        for (int side = 0; side < SIDES; side++) {
            double time = timed(side, passes, dacs_len, blocks);
            if (i >= 0) times[side][i] = time;
        }
        for (uint32_t k = 0; k < passes * dacs_len; k++) heard |= frames[PROVED][k] != 0;
    }
    snprintf(call, sizeof call, "a pass at T=%u%s in blocks of %u, %u DACs", t, lines ? " with 32 lines" : "", passes, dacs_len);
    double ratio = print_times(call, times), mine = median(times[PROVED], ROUNDS);
    for (int side = PLAIN; side < SIDES; side++)
        same &= !memcmp(machines[side], machines[PROVED], sizeof machines[side]) && !memcmp(memories[side], memories[PROVED], sizeof memories[side]) &&
                !memcmp(frames[side], frames[PROVED], passes * dacs_len * sizeof frames[side][0]);
    if (!same || !heard) printf("%s: the machines, delay memories or frames differ, or nothing is heard\n", call);
    if (passes < BLOCK_MOST) return same && heard;
    if (ratio > limit) printf("%s: above the limit of %.2f to C -O2\n", call, limit);
    if (t == 256) printf("%s: %.1f times real time at N=265\n", call, lasts / mine);
    return same && heard && ratio <= limit && mine * times_real <= lasts;
}

/* Rings a bench file as a host does. */
static int ring_file(const char *name, uint32_t block) {
    enum { FILE_BLOCK_MOST = 1024 };
    static int32_t heard[2 * FILE_BLOCK_MOST];
    static uint8_t text[65536];
    static uint32_t commands[KARVELORN_COMMANDS], dacs[2] = {0, 1};
    uint32_t kind, passes, done = 0;
    size_t count, taken, from = 0;
    FILE *file = fopen(name, "rb");
    if (!file || block > FILE_BLOCK_MOST) return 2;
    const size_t bytes = fread(text, 1, sizeof text, file);
    fclose(file);
    uint32_t number = karvelorn_read(text, bytes, machines[0], KARVELORN_WORDS, commands, KARVELORN_COMMANDS, &kind, &passes, &count);
    for (uint32_t left = passes; left && !number; left -= done, from += taken)
        number = karvelorn_ring(machines[0], KARVELORN_WORDS, memories[0], KARVELORN_MEMORY_WORDS, commands + from, count - from, NULL, 0,
                                left < block ? left : block, dacs, 2, heard, 2 * FILE_BLOCK_MOST, &done, &taken);
    printf("%u %d %d\n", number, heard[0], heard[1]);
    return number != 0;
}

int main(int count, char **arguments) {
    if (count > 2) return ring_file(arguments[1], (uint32_t)atol(arguments[2]));
    print_load();
    int all = compare(256, 0, 64, 2, 1);
    all &= compare(20, 0, 64, 2, 4);
    all &= compare(256, 0, 64, 16, 1);
    all &= compare(256, 32, 64, 2, 1);
    all &= compare(256, 0, 16, 2, 2);
    all &= compare(256, 0, 1, 2, 16);
    return all ? 0 : 1;
}

#endif
