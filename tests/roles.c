/* Calls the library for tests/roles.py: requests on standard input, answers on standard output, to the input's end.
 *
 * A request is two 32-bit numbers (a number to draw by, the length of the machine), then the words of the machine. Its
 * T is at most 4. All its orders, as the program lists them, are compared in pairs.
 *
 * An answer is a byte for each pair: the point times 16 plus the place; then three 32-bit numbers: the largest number
 * of any call; of the equal pairs how many did not end alike from contents at random; of the others how many were not
 * parted by the contents that the library lends for them, or where compare said yes. Two passes end alike where they
 * leave the same machine and write the same items; no pass may change delay memory.
 */
#include "runs.h"
#include "text.h"

enum { MOST = 4, ORDERS = 24, CONTENTS = 2, SUM_WORDS = 64, SUMS_AT = 3840, DACS_END = 4112 };

/* What a pass left: the machine, and the written items with their count. */
typedef struct {
    uint32_t machine[KARVELORN_WORDS], places[MOST];
    size_t written;
} left;

static uint32_t orders[ORDERS][MOST], count, entries, refused;
static uint32_t memory[KARVELORN_MEMORY_WORDS];

static void note(uint32_t number) {
    if (number > refused) refused = number;
}

/* Drawing. */

static uint64_t drawn;

static uint32_t draw(uint32_t width) {
    drawn = drawn * 6364136223846793005u + 1442695040888963407u;
    return (uint32_t)(drawn >> (64 - width));
}

/* The machine with other generators, sums and DACs; its settings and all else stay. */
static void draw_contents(uint32_t *m, const uint32_t *settings) {
    uint32_t edge = draw(2);
    memcpy(m, settings, KARVELORN_WORDS * sizeof *m);
    for (uint32_t g = 0; g < entries; g++) draw_generator(m + GENERATOR_WORDS * g, generator(settings, g), edge, draw);
    for (int i = SUMS_AT; i < DACS_END; i++) m[i] = draw(20);
}

/* All orders of the numbers below a count, the lower first. */
static void list_orders(uint32_t *order, uint32_t at) {
    if (at == entries) {
        memcpy(orders[count++], order, sizeof orders[0]);
        return;
    }
    for (uint32_t g = 0; g < entries; g++) {
        uint32_t used = 0;
        for (uint32_t i = 0; i < at; i++) used |= order[i] == g;
        order[at] = g;
        if (!used) list_orders(order, at + 1);
    }
}

/* Passes. */

static void pass_by(uint32_t order, const uint32_t *m, const uint32_t *items, left *after) {
    size_t read;
    uint8_t clipped[SUM_WORDS];
    memcpy(after->machine, m, sizeof after->machine);
    memset(after->places, 0, sizeof after->places);
    note(TEXT_CALL(pass)(after->machine, KARVELORN_WORDS, orders[order], entries, items, MOST, after->places, MOST,
                         memory, KARVELORN_MEMORY_WORDS, &read, &after->written, clipped));
}

static int alike(const left *a, const left *b) {
    return a->written == b->written && !memcmp(a->places, b->places, sizeof a->places) &&
           !memcmp(a->machine, b->machine, sizeof a->machine);
}

/* Whether the contents that the library lends part two orders; gives its point and place. */
static int parted(const uint32_t *m, uint32_t first, uint32_t second, uint32_t *point, uint32_t *place) {
    static uint32_t contents[KARVELORN_WORDS], items[MOST];
    static left one, other;
    uint32_t equal;
    note(TEXT_CALL(parts)(m, KARVELORN_WORDS, orders[first], entries, orders[second], entries, contents,
                          KARVELORN_WORDS, items, MOST, point, place));
    note(TEXT_CALL(compare)(m, KARVELORN_WORDS, orders[first], entries, orders[second], entries, &equal));
    if (!*point) return equal == 0;
    pass_by(first, contents, items, &one);
    pass_by(second, contents, items, &other);
    return !equal && !alike(&one, &other);
}

static void answer(const uint32_t *m) {
    static left after[CONTENTS][ORDERS];
    static uint32_t contents[KARVELORN_WORDS];
    uint32_t wrong[2] = {0, 0}, point, place, items[MOST];
    for (int c = 0; c < CONTENTS; c++) {
        draw_contents(contents, m);
        for (int i = 0; i < MOST; i++) items[i] = draw(32);
        for (uint32_t i = 0; i < count; i++) pass_by(i, contents, items, &after[c][i]);
    }
    for (uint32_t i = 0; i < count; i++)
        for (uint32_t j = i + 1; j < count; j++) {
            int shown = parted(m, i, j, &point, &place);
            uint8_t said = (uint8_t)(point << 4 | place);
            put(&said, 1, 1);
            if (point || shown)
                wrong[1] += !point || !shown;
            else
                for (int c = 0; c < CONTENTS; c++) wrong[0] += !alike(&after[c][i], &after[c][j]);
        }
    put(&refused, sizeof refused, 1);
    put(wrong, sizeof wrong[0], 2);
}

int main(void) {
    uint32_t head[2], order[MOST] = {0}, memory_kept = 1;
    fill_memory(memory, KARVELORN_MEMORY_WORDS, 1);
    while (fread(head, sizeof head[0], 2, stdin) == 2) {
        run m = read_run(head[1]);
        if (m.length != KARVELORN_WORDS || m.words[T] > MOST) stop(2, "not a machine of few generators");
        drawn = head[0];
        entries = m.words[T];
        count = refused = 0;
        list_orders(order, 0);
        answer(m.words);
        check_kept(&m);
        free_run(&m);
    }
    for (uint32_t i = 0; i < KARVELORN_MEMORY_WORDS; i++) memory_kept &= memory[i] == made_word(1, i);
    if (!memory_kept) stop(3, "a pass changed delay memory");
    return fflush(stdout) ? 2 : 0;
}
