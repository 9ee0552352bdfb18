/* Calls the library for tests/ringings.py: requests on standard input, answers on standard output, to the input's end.
 *
 * A request is six 32-bit numbers (a count of passes; a number to draw by; 1 where the machine's own contents are rung, 0
 * where contents at random with its settings are; the lengths of machine, first order and second order), then the words
 * of the three. Two ringings of so many passes begin with the same contents and the same delay memory, one by each order
 * throughout; in each pass both get the same items, at random. An answer is five 32-bit numbers: compare's number,
 * whether it says yes, the passes after which machine, delay memory and the written data of the pass are the same up to
 * the first at which they are not, the passes that were refused, and for orders that compare calls unequal whether one
 * pass by each from the contents of parts leaves another machine or other written data.
 */
#include "runs.h"
#include "drawn.h"

enum { MACHINE, FIRST, SECOND, RUNS };

/* One of two ringings. */
typedef struct {
    uint32_t machine[KARVELORN_WORDS], memory[KARVELORN_MEMORY_WORDS], places[GENERATORS];
    size_t written;
} ringing;

static ringing ringings[2];

static uint32_t pass_by(ringing *a, const run *order, const uint32_t *items) {
    size_t read;
    uint8_t clipped[SUM_WORDS];
    return TEXT_CALL(pass)(a->machine, KARVELORN_WORDS, order->words, order->length, items, GENERATORS, a->places,
                           GENERATORS, a->memory, KARVELORN_MEMORY_WORDS, &read, &a->written, clipped);
}

static int same(void) {
    return ringings[0].written == ringings[1].written &&
           !memcmp(ringings[0].machine, ringings[1].machine, sizeof ringings[0].machine) &&
           !memcmp(ringings[0].places, ringings[1].places, ringings[0].written * sizeof ringings[0].places[0]);
}

static int same_memory(void) { return !memcmp(ringings[0].memory, ringings[1].memory, sizeof ringings[0].memory); }

/* So many passes by both orders; gives those up to the first that parts them. Delay memory is compared at the end too,
 * and every 16 passes. */
static uint32_t ring(uint32_t passes, const run *r, uint32_t *refused) {
    static uint32_t items[GENERATORS];
    for (uint32_t n = 0; n < passes; n++) {
        for (int k = 0; k < GENERATORS; k++) items[k] = draw(32);
        uint32_t one = pass_by(&ringings[0], &r[FIRST], items), other = pass_by(&ringings[1], &r[SECOND], items);
        if (one != other || !same() || ((n % 16 == 15 || n + 1 == passes) && !same_memory())) return n;
        *refused += one != 0;
    }
    return passes;
}

/* Whether one pass by each order, from the contents of parts, parts them. */
static uint32_t parted(const run *r) {
    static uint32_t contents[KARVELORN_WORDS], items[GENERATORS];
    uint32_t point, place;
    memset(items, 0, sizeof items);
    if (TEXT_CALL(parts)(r[MACHINE].words, r[MACHINE].length, r[FIRST].words, r[FIRST].length, r[SECOND].words,
                         r[SECOND].length, contents, KARVELORN_WORDS, items, GENERATORS, &point, &place) || !point)
        return 0;
    for (int k = 0; k < 2; k++) {
        memcpy(ringings[k].machine, contents, sizeof contents);
        memset(ringings[k].memory, 0, sizeof ringings[k].memory);
        if (pass_by(&ringings[k], &r[FIRST + k], items)) return 0;
    }
    return !same();
}

static void answer(uint32_t passes, uint32_t number, uint32_t own, const run *r) {
    uint32_t given[5] = {0, UINT32_MAX, 0, 0, 0};
    drawn = number;
    if (own)
        memcpy(ringings[0].machine, r[MACHINE].words, sizeof ringings[0].machine);
    else
        draw_contents(ringings[0].machine, r[MACHINE].words);
    fill_memory(ringings[0].memory, KARVELORN_MEMORY_WORDS, number | 1);
    ringings[1] = ringings[0];
    given[0] = TEXT_CALL(compare)(r[MACHINE].words, r[MACHINE].length, r[FIRST].words, r[FIRST].length, r[SECOND].words,
                                  r[SECOND].length, &given[1]);
    given[2] = ring(passes, r, &given[3]);
    if (!given[1]) given[4] = parted(r);
    for (int i = 0; i < RUNS; i++) {
        check_kept(&r[i]);
        check_beside(&r[i]);
    }
    put(given, sizeof given[0], 5);
}

int main(void) {
    uint32_t head[3], lengths[RUNS];
    while (fread(head, sizeof head[0], 3, stdin) == 3) {
        run runs[RUNS];
        get(lengths, sizeof lengths[0], RUNS);
        for (int i = 0; i < RUNS; i++) runs[i] = read_run(lengths[i]);
        answer(head[0], head[1], head[2], runs);
        for (int i = 0; i < RUNS; i++) free_run(&runs[i]);
    }
    return fflush(stdout) ? 2 : 0;
}
