/* Calls the library for tests/parts.py: requests on standard input, answers on standard output, to the input's end.
 *
 * A request is six 32-bit numbers (a number to draw by; the lengths of machine, first order, second order, and of the
 * run and the read list that are lent for contents), then the words of machine and orders. What is lent is made from
 * the number to draw by, of words that no machine has.
 *
 * An answer is ten 32-bit numbers:
 * - the number, point and place of karvelorn_parts;
 * - the number of karvelorn_compare, and whether it says yes;
 * - whether both that were lent are as they were, as they must be for equal orders and in a refusal;
 * - and where a point is named, else 0: whether the run has the settings of the machine, and whether the items beyond
 *   the generators in 0111 are as they were; the largest number of passes by the two orders from these contents, with
 *   just enough places, over delay memories of zeros, of ones and at random; and over how many of these they leave
 *   another machine or other written data.
 */
#include "runs.h"
#include "text.h"

enum { MACHINE, FIRST, SECOND, READ_RUNS, CONTENTS = READ_RUNS, ITEMS, RUNS };
enum { SUM_WORDS = 64 };
enum { ZEROS, ONES, RANDOM, MEMORIES };

typedef uint32_t memory[KARVELORN_MEMORY_WORDS];

/* Of zeros and of ones, as they must be before each pass; and for each order one that its pass is handed. */
static memory kept[RANDOM], handed[MEMORIES][2];

/* What karvelorn_parts lends. */

static run lent(uint32_t length, uint32_t number) {
    run r = new_run(length);
    for (uint32_t i = 0; i < length; i++) r.words[i] = (i + number) * 2654435761u | 1u << 31;
    keep_copy(&r);
    return r;
}

static uint32_t is_kept(const run *r) { return !r->length || !memcmp(r->words, r->copy, r->length * sizeof *r->words); }

static uint32_t same_settings(const uint32_t *m, const uint32_t *n) {
    uint32_t same = m[T] == n[T];
    for (uint32_t i = 0; i < GENERATORS; i++) {
        const uint32_t *g = generator(m, i), *h = generator(n, i);
        same &= g[GMODE] == h[GMODE] && g[GSUM] == h[GSUM] && g[GFM] == h[GFM] &&
                !((g[SENT_BY] ^ h[SENT_BY]) & sent_bits(g));
    }
    return same;
}

/* Passes by the two orders from the lent contents. */

/* Two delay memories of a kind, the same for both orders. Few passes change them, so those that stay are looked at. */
static void make_memories(int kind, uint32_t number) {
    for (int k = 0; k < 2; k++)
        if (kind == RANDOM)
            fill_memory(handed[kind][k], KARVELORN_MEMORY_WORDS, number | 1);
        else if (memcmp(handed[kind][k], kept[kind], sizeof(memory)))
            memcpy(handed[kind][k], kept[kind], sizeof(memory));
}

/* Gives the larger number, and whether the passes leave another machine or other written data. */
static uint32_t try_both(int kind, const run *r, uint32_t places_len, uint32_t *parted) {
    static uint32_t machines[2][KARVELORN_WORDS], places[2][GENERATORS];
    uint8_t clipped[SUM_WORDS];
    uint32_t number[2];
    size_t read[2], written[2];
    for (int k = 0; k < 2; k++) {
        const run *order = &r[FIRST + k];
        memcpy(machines[k], r[CONTENTS].words, sizeof machines[k]);
        number[k] = TEXT_CALL(pass)(machines[k], KARVELORN_WORDS, order->words, order->length, r[ITEMS].words,
                                    r[ITEMS].length, places[k], places_len, handed[kind][k], KARVELORN_MEMORY_WORDS,
                                    &read[k], &written[k], clipped);
    }
    *parted = written[0] != written[1] || memcmp(machines[0], machines[1], sizeof machines[0]) ||
              memcmp(places[0], places[1], written[0] * sizeof places[0][0]);
    return number[0] > number[1] ? number[0] : number[1];
}

/* Whether machine and lengths are such that passes can be tried: a call that names a point has asked this. */
static int can_try(const run *r) {
    const uint32_t *m = r[MACHINE].words;
    if (r[MACHINE].length != KARVELORN_WORDS || r[CONTENTS].length != KARVELORN_WORDS || m[T] > GENERATORS) return 0;
    return r[ITEMS].length >= below_t(m, reads);
}

/* The four numbers of an answer where a point is named. */
static void try_contents(uint32_t number, const run *r, uint32_t *given) {
    const uint32_t *m = r[MACHINE].words;
    uint32_t readers = below_t(m, reads), parted;
    const run *items = &r[ITEMS];
    given[0] = same_settings(m, r[CONTENTS].words);
    given[1] = items->length == readers ||
               !memcmp(items->words + readers, items->copy + readers, (items->length - readers) * sizeof *items->words);
    for (int kind = 0; kind < MEMORIES; kind++) {
        make_memories(kind, number);
        uint32_t refused = try_both(kind, r, below_t(m, writes), &parted);
        if (refused > given[2]) given[2] = refused;
        given[3] += parted;
    }
}

static void answer(uint32_t number, const run *r) {
    uint32_t given[10] = {0, UINT32_MAX, UINT32_MAX, 0, UINT32_MAX, 0, 0, 0, 0, 0};
    given[0] = TEXT_CALL(parts)(r[MACHINE].words, r[MACHINE].length, r[FIRST].words, r[FIRST].length, r[SECOND].words,
                                r[SECOND].length, r[CONTENTS].words, r[CONTENTS].length, r[ITEMS].words,
                                r[ITEMS].length, &given[1], &given[2]);
    given[3] = TEXT_CALL(compare)(r[MACHINE].words, r[MACHINE].length, r[FIRST].words, r[FIRST].length,
                                  r[SECOND].words, r[SECOND].length, &given[4]);
    for (int i = 0; i < RUNS; i++) check_beside(&r[i]);
    for (int i = 0; i < READ_RUNS; i++) check_kept(&r[i]);
    given[5] = is_kept(&r[CONTENTS]) && is_kept(&r[ITEMS]);
    if (!given[0] && given[1] && can_try(r)) try_contents(number, r, &given[6]);
    put(given, sizeof given[0], 10);
}

int main(void) {
    uint32_t number, lengths[RUNS];
    for (int i = 0; i < KARVELORN_MEMORY_WORDS; i++) kept[ONES][i] = (1u << 20) - 1;
    while (fread(&number, sizeof number, 1, stdin) == 1) {
        run runs[RUNS];
        get(lengths, sizeof lengths[0], RUNS);
        for (int i = 0; i < RUNS; i++) runs[i] = i < READ_RUNS ? read_run(lengths[i]) : lent(lengths[i], number);
        answer(number, runs);
        for (int i = 0; i < RUNS; i++) free_run(&runs[i]);
    }
    return fflush(stdout) ? 2 : 0;
}
