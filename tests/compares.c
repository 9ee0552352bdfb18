/* Calls the library for tests/compares.py: requests on standard input, answers on standard output, to the input's end.
 *
 * A request is seven 32-bit numbers (0 for a compare or 1 for passes; a count of contents; a number to draw by; the
 * lengths of machine, first order, second order and items), then the words of the four. An answer is five 32-bit
 * numbers:
 * - a compare answers its number, whether it says yes, and then of so many machines with the settings of this one and
 *   contents and items at random: on how many passes by the two orders end alike, on how many they leave the same delay
 *   memory, and whether they changed a word of it;
 * - passes by the two orders from this very machine answer the larger number, 0, and the same three.
 * Two passes end alike where they leave the same machine and delay memory and write the same items; the marks of sum
 * words that clipped over may differ. Delay memory is made from the number to draw by, for each request anew; passes
 * from contents at random go on with it.
 */
#include "runs.h"
#include "drawn.h"

enum { COMPARE, PASSES };
enum { MACHINE, FIRST, SECOND, ITEMS, RUNS };
/* What a request tries and what came of it. */
typedef struct {
    uint32_t refused;     /* the largest number of its passes */
    uint32_t alike;       /* on how many contents two passes end alike */
    uint32_t same_memory; /* on how many they leave the same delay memory */
} outcome;

static uint32_t memories[2][KARVELORN_MEMORY_WORDS];

/* Passes by two orders. */

/* Two passes from one machine, over delay memories that are the same as they begin. */
static void try_both(const uint32_t *m, const run *r, const uint32_t *items, size_t items_len, outcome *came) {
    static uint32_t machines[2][KARVELORN_WORDS], places[2][GENERATORS];
    size_t read[2], written[2];
    uint8_t clipped[SUM_WORDS];
    for (int k = 0; k < 2; k++) {
        const run *order = &r[FIRST + k];
        memcpy(machines[k], m, sizeof machines[k]);
        memset(places[k], 0, sizeof places[k]);
        uint32_t number = TEXT_CALL(pass)(machines[k], KARVELORN_WORDS, order->words, order->length, items, items_len,
                                          places[k], GENERATORS, memories[k], KARVELORN_MEMORY_WORDS, &read[k],
                                          &written[k], clipped);
        if (number > came->refused) came->refused = number;
    }
    int same_memory = !memcmp(memories[0], memories[1], sizeof memories[0]);
    came->same_memory += same_memory;
    came->alike += same_memory && written[0] == written[1] && !memcmp(machines[0], machines[1], sizeof machines[0]) &&
                   !memcmp(places[0], places[1], written[0] * sizeof places[0][0]);
    if (!same_memory) memcpy(memories[1], memories[0], sizeof memories[0]);
}

static void try_contents(uint32_t contents, const run *r, outcome *came) {
    static uint32_t m[KARVELORN_WORDS], items[GENERATORS];
    for (uint32_t i = 0; i < contents; i++) {
        draw_contents(m, r[MACHINE].words);
        for (int k = 0; k < GENERATORS; k++) items[k] = draw(32);
        try_both(m, r, items, GENERATORS, came);
        if (came->refused) stop(2, "a pass from contents at random was refused");
    }
}

/* Answers. */

static uint32_t memory_changed(uint32_t fill) {
    for (uint32_t i = 0; i < KARVELORN_MEMORY_WORDS; i++)
        if (memories[0][i] != made_word(fill, i)) return 1;
    return 0;
}

static void answer(uint32_t operation, uint32_t contents, uint32_t number, const run *r) {
    uint32_t given[5] = {0, 0, 0, 0, 0}, fill = number | 1;
    outcome came = {0, 0, 0};
    drawn = number;
    for (int k = 0; k < 2; k++) fill_memory(memories[k], KARVELORN_MEMORY_WORDS, fill);
    if (operation == COMPARE) {
        given[1] = UINT32_MAX;
        given[0] = TEXT_CALL(compare)(r[MACHINE].words, r[MACHINE].length, r[FIRST].words, r[FIRST].length,
                                      r[SECOND].words, r[SECOND].length, &given[1]);
        try_contents(contents, r, &came);
    } else {
        try_both(r[MACHINE].words, r, r[ITEMS].words, r[ITEMS].length, &came);
        given[0] = came.refused;
    }
    for (int i = 0; i < RUNS; i++) {
        check_kept(&r[i]);
        check_beside(&r[i]);
    }
    given[2] = came.alike;
    given[3] = came.same_memory;
    given[4] = memory_changed(fill);
    put(given, sizeof given[0], 5);
}

int main(void) {
    uint32_t head[3], lengths[RUNS];
    while (fread(head, sizeof head[0], 3, stdin) == 3) {
        run runs[RUNS];
        get(lengths, sizeof lengths[0], RUNS);
        for (int i = 0; i < RUNS; i++) runs[i] = read_run(lengths[i]);
        answer(head[0], head[1], head[2], runs);
        for (int i = 0; i < RUNS; i++) free_run(&runs[i]);
    }
    return fflush(stdout) ? 2 : 0;
}
