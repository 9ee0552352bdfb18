/* Gives the contents of karvelorn_parts for tests/sorted.py: requests on standard input, answers on standard output, to
 * the input's end.
 *
 * A request is four 32-bit numbers (the lengths of machine, first order, second order and read list), then the words of
 * machine and orders. The run for the contents has the length of a machine; it and the read list are zeros before the
 * call.
 *
 * An answer is the number, point and place of karvelorn_parts, then the words of the contents and of the read list.
 */
#include "runs.h"
#include "text.h"

enum { MACHINE, FIRST, SECOND, READ_RUNS, CONTENTS = READ_RUNS, ITEMS, RUNS };

static run zeros(uint32_t length) {
    run r = new_run(length);
    memset(r.block + BESIDE, 0, length * sizeof *r.block);
    return r;
}

static void answer(const run *r) {
    uint32_t given[3] = {0, UINT32_MAX, UINT32_MAX};
    given[0] = TEXT_CALL(parts)(r[MACHINE].words, r[MACHINE].length, r[FIRST].words, r[FIRST].length, r[SECOND].words,
                                r[SECOND].length, r[CONTENTS].words, r[CONTENTS].length, r[ITEMS].words,
                                r[ITEMS].length, &given[1], &given[2]);
    for (int i = 0; i < RUNS; i++) check_beside(&r[i]);
    for (int i = 0; i < READ_RUNS; i++) check_kept(&r[i]);
    put(given, sizeof given[0], 3);
    put_run(&r[CONTENTS]);
    put_run(&r[ITEMS]);
}

int main(void) {
    uint32_t lengths[RUNS - 1];
    while (fread(lengths, sizeof lengths[0], 1, stdin) == 1) {
        run runs[RUNS];
        get(lengths + 1, sizeof lengths[0], RUNS - 2);
        for (int i = 0; i < READ_RUNS; i++) runs[i] = read_run(lengths[i]);
        runs[CONTENTS] = zeros(KARVELORN_WORDS);
        runs[ITEMS] = zeros(lengths[READ_RUNS]);
        answer(runs);
        for (int i = 0; i < RUNS; i++) free_run(&runs[i]);
    }
    return fflush(stdout) ? 2 : 0;
}
