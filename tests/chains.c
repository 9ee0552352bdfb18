/* Calls the library for tests/chains.py: requests on standard input, answers on standard output, to the input's end.
 *
 * A request is two 32-bit numbers (the lengths of entries and names), then the words of both. The run for the numbers
 * holds its places' numbers plus HELD before the call. An answer is the number and the words of that run.
 */
#include "karvelorn.h"
#include "runs.h"

enum { ENTRIES, NAMES, READ_RUNS, NUMBERS = READ_RUNS, RUNS };
enum { HELD = 1000 };

static void answer(const run *r) {
    uint32_t number = karvelorn_chain(r[ENTRIES].words, r[ENTRIES].length, r[NAMES].words, r[NAMES].length,
                                      r[NUMBERS].words);
    for (int i = 0; i < RUNS; i++) check_beside(&r[i]);
    for (int i = 0; i < READ_RUNS; i++) check_kept(&r[i]);
    put(&number, sizeof number, 1);
    put_run(&r[NUMBERS]);
}

int main(void) {
    uint32_t lengths[READ_RUNS];
    while (fread(lengths, sizeof lengths[0], READ_RUNS, stdin) == READ_RUNS) {
        run runs[RUNS];
        for (int i = 0; i < READ_RUNS; i++) runs[i] = read_run(lengths[i]);
        runs[NUMBERS] = new_run(KARVELORN_MODIFIERS);
        for (uint32_t i = 0; i < KARVELORN_MODIFIERS; i++) runs[NUMBERS].words[i] = HELD + i;
        answer(runs);
        for (int i = 0; i < RUNS; i++) free_run(&runs[i]);
    }
    return fflush(stdout) ? 2 : 0;
}
