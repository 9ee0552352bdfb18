/* ring_on.c: rings a machine for as many passes as are asked, through the library: what `hear --seconds` calls where a bench file's
 * 65,535 passes are not enough. Standard input has 32-bit numbers, the low byte first: 1 for the older text and 0 for that of 1978,
 * how many passes, how many words, commands and entries of an order (0: by number); then each word's place and value, the
 * commands, the entries. Standard output gets a frame for each pass, as the program wav writes them: DAC 0 and DAC 1, 24 bits
 * each, the low byte first. A refusal ends it: refused=N on standard error.
 */
#include <inttypes.h>
#include <stdlib.h>

#include "karvelorn.h"
#include "numbers.h"

enum { DAC_0 = 4096, DAC_1 = 4097, T = 4113, N = 4114, GENERATORS = 256, OVERHEAD = 8, COMMANDS_MOST = 65536 };

static void write_word(uint32_t word) {
    uint32_t sample = (word ^ 0x80000) - 0x80000; /* the highest of its 20 bits is the sign */
    for (int byte = 0; byte < 3; byte++) putchar((int)(sample << 4 >> 8 * byte & 0xFF));
}

/* Each pass goes by number where entries is 0, with the T of that moment, else by the order. By the older text no update follows. */
static uint32_t ring(bool old, uint32_t *machine, uint32_t passes, const uint32_t *commands, size_t left, const uint32_t *order, size_t entries) {
    static uint32_t memory[KARVELORN_MEMORY_WORDS];
    uint32_t by_number[GENERATORS];
    for (uint32_t g = 0; g < GENERATORS; g++) by_number[g] = g;
    while (passes-- > 0) {
        size_t read, written, taken = 0, all = machine[T] < GENERATORS ? machine[T] : GENERATORS;
        uint8_t clipped[KARVELORN_MARKS];
        uint32_t refused = (old ? karvelorn_old_pass : karvelorn_pass)(machine, KARVELORN_WORDS, entries ? order : by_number, entries ? entries : all, NULL, 0, NULL, 0, memory,
                                                                       KARVELORN_MEMORY_WORDS, &read, &written, clipped);
        if (!refused && !old) refused = karvelorn_update(machine, KARVELORN_WORDS, commands, left, &taken);
        if (refused) return refused;
        commands += taken;
        left -= taken;
        write_word(machine[DAC_0]);
        write_word(machine[DAC_1]);
        if (ferror(stdout)) return 0;
    }
    return 0;
}

int main(void) {
    static uint32_t machine[KARVELORN_WORDS], commands[COMMANDS_MOST], order[GENERATORS];
    uint32_t old, passes, words, count, entries, place, value;
    karvelorn_fresh(machine, KARVELORN_WORDS);
    if (!read_number(&old) || !read_number(&passes) || !read_number(&words) || !read_number(&count) || !read_number(&entries) || count > COMMANDS_MOST || entries > GENERATORS) return EXIT_FAILURE;
    while (words-- > 0) {
        if (!read_number(&place) || !read_number(&value) || place >= KARVELORN_WORDS) return EXIT_FAILURE;
        machine[place] = value;
    }
    machine[KARVELORN_UPDATE_TICKS] = machine[N] < machine[T] || machine[N] - machine[T] < OVERHEAD ? 0 : machine[N] - machine[T] - OVERHEAD;
    if (!read_numbers(commands, count) || !read_numbers(order, entries)) return EXIT_FAILURE;
    uint32_t refused = ring(old != 0, machine, passes, commands, count, order, entries);
    if (refused) fprintf(stderr, "refused=%" PRIu32 "\n", refused);
    return !refused && fflush(stdout) == 0 && !ferror(stdout) ? EXIT_SUCCESS : EXIT_FAILURE;
}
