/* Question 10 of the proved pass, which reads all of delay memory, beside plain C that does nothing but read it: benchmarks/memory builds this.
   A pass whose delay memory has a wide word at its end is refused with 10 when it has read all; one whose memory is a word short is refused
   with 10 before it has read any. What the first takes more than the second is question 10's reading. */
#define _POSIX_C_SOURCE 199309L
#include "plain.h"

/* The or of all words of delay memory. Eight ors side by side, which gcc -O2 makes two whole registers of: one after the other takes 1.7 times as long. */
__attribute__((noinline)) uint32_t plain_read(const uint32_t *memory) {
    uint32_t ors[8] = {0}, all = 0;
    for (const uint32_t *w = memory; w < memory + KARVELORN_MEMORY_WORDS; w += 8)
        for (int i = 0; i < 8; i++) ors[i] |= w[i];
    for (int i = 0; i < 8; i++) all |= ors[i];
    return all;
}

#ifndef ONLY_PLAIN

uint32_t plain_read_o3(const uint32_t *memory);
uint32_t plain_read_native(const uint32_t *memory);

enum { CALLS = 8 };

static uint32_t machine[KARVELORN_WORDS], memory[KARVELORN_MEMORY_WORDS];

/* The time of one pass by number at T 1, refused with 10, over so many words of delay memory. */
static double refused_pass(size_t words) {
    static const uint32_t order[1] = {0};
    uint8_t clipped[KARVELORN_MARKS];
    size_t read, written;
    uint32_t wrong = 0;
    double start = now();
    for (int i = 0; i < CALLS; i++)
        wrong |= karvelorn_pass(machine, KARVELORN_WORDS, order, 1, NULL, 0, NULL, 0, memory, words, &read, &written, clipped) ^ 10;
    double time = (now() - start) / CALLS;
    if (wrong) {
        fprintf(stderr, "memory: a pass that wasn't refused with 10\n");
        exit(1);
    }
    return time;
}

static double plain_time(uint32_t (*read)(const uint32_t *)) {
    uint32_t all = 0;
    double start = now();
    for (int i = 0; i < CALLS; i++) all |= read(memory);
    double time = (now() - start) / CALLS;
    if (all >> 20 != 1) {
        fprintf(stderr, "memory: the wide word wasn't read\n");
        exit(1);
    }
    return time;
}

int main(void) {
    static uint32_t (*const reads[SIDES])(const uint32_t *) = {NULL, plain_read, plain_read_o3, plain_read_native};
    static double times[SIDES][ROUNDS];
    print_load();
    karvelorn_fresh(machine, KARVELORN_WORDS);
    for (size_t i = 0; i < KARVELORN_MEMORY_WORDS; i++) memory[i] = draw(20);
    memory[KARVELORN_MEMORY_WORDS - 1] = 1u << 20;
    for (int i = -WARM; i < ROUNDS; i++)
        for (int side = 0; side < SIDES; side++) {
            double time = side == PROVED ? refused_pass(KARVELORN_MEMORY_WORDS) - refused_pass(KARVELORN_MEMORY_WORDS - 1) : plain_time(reads[side]);
            if (i >= 0) times[side][i] = time;
        }
    print_times("question 10", times);
    return 0;
}

#endif
