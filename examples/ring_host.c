/* ring_host.c: a host for Karvelorn in C99, to learn karvelorn.h from. It rings a bench file:
 *
 *     gcc -std=c99 -I include examples/ring_host.c crates/karvelorn/out/libkarvelorn.a -o target/ring_host
 *     target/ring_host < examples/bell.txt
 *
 * A bench file says how many passes to ring, then which words of a fresh machine to set, then the commands for the
 * updates; it may begin with the text that it follows. karvelorn_read reads it.
 *
 *     passes=3
 *     word=4113:2
 *     command=3FFC0800
 *
 * Each pass, with the update after it, prints the pass counter, 32 bits, and what DAC 0 and DAC 1 play. A refusal
 * prints refused=N and ends: N is the question's number in karvelorn.h. karvelorn_question has it as text.
 *
 * With the argument --clipped the line of a pass goes on with the generator-this words that left their range in it:
 *
 *     pass=2 left=0 right=72 clipped=0,5
 */
#include <inttypes.h>
#include <stdbool.h>
#include <stdint.h>
#include <stdio.h>
#include <stdlib.h>
#include <string.h>

#include "karvelorn.h"

/* A bench file has at most so many bytes. */
enum { FILE_MOST = 65536 };

/* What a bench file says. */
typedef struct {
    uint32_t machine[KARVELORN_WORDS];
    uint32_t commands[KARVELORN_COMMANDS];
    size_t command_count;
    uint32_t text;
    uint32_t passes;
} bench;

/* A pass by number: generator 0 first, then 1, 2 .. to T-1. There are no items to read and no places to write to, so a
 * generator that reads or writes data is refused. T is whatever the bench file made it: an order has at most 256
 * entries, and the call refuses a larger T before it asks about the order. */
static uint32_t pass_by_number(bench *b, uint32_t *memory, uint8_t clipped[KARVELORN_MARKS]) {
    uint32_t order[KARVELORN_GENERATORS];
    size_t entries = b->machine[KARVELORN_T] < KARVELORN_GENERATORS ? b->machine[KARVELORN_T] : KARVELORN_GENERATORS;
    size_t read, written;
    for (uint32_t g = 0; g < entries; g++) order[g] = g;
    return (b->text == KARVELORN_TEXT_OLD ? karvelorn_old_pass : karvelorn_pass)(
        b->machine, KARVELORN_WORDS, order, entries, NULL, 0, NULL, 0, memory, KARVELORN_MEMORY_WORDS, &read, &written,
        clipped);
}

/* The words that are marked, where there are any. */
static void print_clipped(const uint8_t clipped[KARVELORN_MARKS]) {
    const char *before = " clipped=";
    for (int w = 0; w < KARVELORN_MARKS; w++) {
        if (!clipped[w]) continue;
        printf("%s%d", before, w);
        before = ",";
    }
}

/* All passes, each with an update after it, but for a file of the older text. An update takes commands from the first on
 * and says how many it took; the rest waits for the next one. Gives the number of the refusal that ended the passes, or
 * 0. */
static uint32_t ring(bench *b, bool with_clipped) {
    static uint32_t memory[KARVELORN_MEMORY_WORDS]; /* delay memory, zero at first */
    const uint32_t *commands = b->commands;
    size_t left = b->command_count;
    for (uint32_t i = 0; i < b->passes; i++) {
        size_t taken = 0;
        uint8_t clipped[KARVELORN_MARKS];
        uint32_t refused = pass_by_number(b, memory, clipped);
        if (refused) return refused;
        if (b->text == KARVELORN_TEXT_1978)
            refused = karvelorn_update(b->machine, KARVELORN_WORDS, commands, left, &taken);
        if (refused) return refused;
        commands += taken;
        left -= taken;
        printf("pass=%" PRIu32 " left=%" PRId32 " right=%" PRId32, b->machine[KARVELORN_COUNTER],
               karvelorn_sample(b->machine[karvelorn_dac(0)]), karvelorn_sample(b->machine[karvelorn_dac(1)]));
        if (with_clipped) print_clipped(clipped);
        putchar('\n');
    }
    return 0;
}

int main(int count, char **arguments) {
    static uint8_t file[FILE_MOST + 1]; /* a byte more than may be: a file that is too long is refused */
    static bench b;
    bool with_clipped = count == 2 && strcmp(arguments[1], "--clipped") == 0;
    if (count > 1 && !with_clipped) {
        fprintf(stderr, "usage: ring_host [--clipped] < FILE\n");
        return EXIT_FAILURE;
    }
    size_t length = fread(file, 1, sizeof file, stdin);
    if (ferror(stdin)) return EXIT_FAILURE;
    uint32_t refused = karvelorn_read(file, length, b.machine, KARVELORN_WORDS, b.commands, KARVELORN_COMMANDS, &b.text,
                                      &b.passes, &b.command_count);
    if (!refused) refused = ring(&b, with_clipped);
    if (refused) printf("refused=%" PRIu32 "\n", refused);
    return fflush(stdout) == 0 && !ferror(stdout) ? EXIT_SUCCESS : EXIT_FAILURE;
}
