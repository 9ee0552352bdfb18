/* library_calls.c: hands one request to the library, for the commands number, join and show. Standard input has 32-bit numbers, the
 * low byte first: the kind of request, then what it needs. Standard output gets the answer in the same form:
 *   0  chain      how many entries' words and names, the entries, the names: the number, then KARVELORN_MODIFIERS numbers
 *   1  join       both machines: the number, then the first machine
 *   2  any order  a machine: the number, then whether every two orders are equal
 *   3  DACs       how many passes, a machine without commands: for each pass, by number, its refusal and the sixteen DAC words; a
 *                 refused one is the last
 */
#include <stdlib.h>

#include "karvelorn.h"
#include "numbers.h"

enum { CHAIN, JOIN, ANY_ORDER, DACS };
enum { DACS_AT = 4096, DAC_WORDS = 16, T = 4113, GENERATORS = 256, LONGEST = 1 << 20 };

static uint32_t first[KARVELORN_WORDS], second[KARVELORN_WORDS];

static void write_numbers(const uint32_t *numbers, size_t count) {
    for (size_t i = 0; i < count; i++)
        for (int byte = 0; byte < 4; byte++) putchar((int)(numbers[i] >> 8 * byte & 0xFF));
}

static bool chain(void) {
    static uint32_t entries[LONGEST], names[LONGEST];
    uint32_t lengths[2], number, numbers[KARVELORN_MODIFIERS] = {0};
    if (!read_numbers(lengths, 2) || lengths[0] > LONGEST || lengths[1] > LONGEST) return false;
    if (!read_numbers(entries, lengths[0]) || !read_numbers(names, lengths[1])) return false;
    number = karvelorn_chain(entries, lengths[0], names, lengths[1], numbers);
    write_numbers(&number, 1);
    write_numbers(numbers, KARVELORN_MODIFIERS);
    return true;
}

static bool join(void) {
    if (!read_numbers(first, KARVELORN_WORDS) || !read_numbers(second, KARVELORN_WORDS)) return false;
    uint32_t number = karvelorn_join(first, KARVELORN_WORDS, second, KARVELORN_WORDS);
    write_numbers(&number, 1);
    write_numbers(first, KARVELORN_WORDS);
    return true;
}

static bool any_order(void) {
    uint32_t answer[2];
    if (!read_numbers(first, KARVELORN_WORDS)) return false;
    answer[0] = karvelorn_any_order(first, KARVELORN_WORDS, &answer[1]);
    write_numbers(answer, 2);
    return true;
}

static bool dacs(void) {
    static uint32_t memory[KARVELORN_MEMORY_WORDS];
    uint32_t passes, order[GENERATORS], number = 0;
    if (!read_number(&passes) || !read_numbers(first, KARVELORN_WORDS)) return false;
    for (uint32_t g = 0; g < GENERATORS; g++) order[g] = g;
    while (passes-- > 0 && !number) {
        size_t read, written, entries = first[T] < GENERATORS ? first[T] : GENERATORS;
        uint8_t clipped[KARVELORN_MARKS];
        number = karvelorn_pass(first, KARVELORN_WORDS, order, entries, NULL, 0, NULL, 0, memory, KARVELORN_MEMORY_WORDS, &read, &written, clipped);
        write_numbers(&number, 1);
        write_numbers(first + DACS_AT, DAC_WORDS);
    }
    return true;
}

int main(void) {
    static bool (*const calls[])(void) = {chain, join, any_order, dacs};
    uint32_t kind;
    if (!read_number(&kind) || kind >= sizeof calls / sizeof calls[0] || !calls[kind]()) return EXIT_FAILURE;
    return fflush(stdout) == 0 && !ferror(stdout) ? EXIT_SUCCESS : EXIT_FAILURE;
}
