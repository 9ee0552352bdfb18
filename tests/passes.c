/* Calls the library for tests/passes.py: requests on standard input, answers on standard output, until the input ends.
 * Passes are those of the text that the program is built for.
 *
 * A request is eight 32-bit numbers (0 for a pass or 1 for a fresh machine; the lengths of machine, order, items and
 * places; the length of the delay memory, the number that it is made from and how many of its words are others), then
 * the words of the four runs, then those other words of the delay memory, each as its slot and the word.
 *
 * An answer is the number (32 bits), the counts read and written (64 bits each), the mark of each generator-this word
 * (a byte each, all 0 of a fresh machine), the words of the machine and of the places, then how many words of the delay
 * memory are not as they were (32 bits), and the first CHANGED of these by slot, each as its slot and the word; pairs
 * that are not needed are 0. Every word of the delay memory is looked at.
 */
#include "runs.h"
#include "text.h"

enum { PASS, FRESH };
enum { MACHINE, ORDER, ITEMS, PLACES, READ_RUNS, MEMORY = READ_RUNS, RUNS };
enum { CHANGED = 32 }; /* there are 32 delay units, and each changes at most one word */
enum { SUM_WORDS = 64, UNMARKED = 0xA5 };

/* The marks that a pass answers, and bytes beside them that no call may touch. */
typedef struct {
    uint8_t before[BESIDE], of[SUM_WORDS], behind[BESIDE];
} marks;

static void check_marks(const marks *m) {
    for (int i = 0; i < BESIDE; i++)
        if (m->before[i] != UNMARKED || m->behind[i] != UNMARKED) stop(3, "a byte beside the marks was written");
}

static void put_changed(const run *r) {
    uint32_t count = 0, changed[CHANGED][2] = {{0, 0}};
    int same = !r->length || !memcmp(r->words, r->copy, r->length * sizeof *r->copy);
    for (uint32_t i = 0; !same && i < r->length; i++) {
        if (r->words[i] == r->copy[i]) continue;
        if (count < CHANGED) {
            changed[count][0] = i;
            changed[count][1] = r->words[i];
        }
        count++;
    }
    put(&count, sizeof count, 1);
    put(changed, sizeof changed, 1);
}

static void answer(uint32_t operation, run *r) {
    uint32_t number;
    size_t read = SIZE_MAX, written = SIZE_MAX;
    marks clipped;
    memset(&clipped, UNMARKED, sizeof clipped);
    if (operation == FRESH) {
        number = karvelorn_fresh(r[MACHINE].words, r[MACHINE].length);
        read = written = 0;
        memset(clipped.of, 0, sizeof clipped.of);
    } else {
        number = TEXT_CALL(pass)(r[MACHINE].words, r[MACHINE].length, r[ORDER].words, r[ORDER].length, r[ITEMS].words,
                                 r[ITEMS].length, r[PLACES].words, r[PLACES].length, r[MEMORY].words, r[MEMORY].length,
                                 &read, &written, clipped.of);
    }
    check_marks(&clipped);
    check_kept(&r[ORDER]);
    check_kept(&r[ITEMS]);
    for (int i = 0; i < RUNS; i++) check_beside(&r[i]);
    uint64_t counts[2] = {read, written};
    put(&number, sizeof number, 1);
    put(counts, sizeof counts[0], 2);
    put(clipped.of, 1, SUM_WORDS);
    put_run(&r[MACHINE]);
    put_run(&r[PLACES]);
    put_changed(&r[MEMORY]);
}

int main(void) {
    uint32_t operation, lengths[READ_RUNS], memory[3];
    while (fread(&operation, sizeof operation, 1, stdin) == 1) {
        run runs[RUNS];
        get(lengths, sizeof lengths[0], READ_RUNS);
        get(memory, sizeof memory[0], 3);
        for (int i = 0; i < READ_RUNS; i++) runs[i] = read_run(lengths[i]);
        runs[MEMORY] = read_memory(memory[0], memory[1], memory[2]);
        answer(operation, runs);
        for (int i = 0; i < RUNS; i++) free_run(&runs[i]);
    }
    return fflush(stdout) ? 2 : 0;
}
