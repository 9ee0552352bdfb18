/* Calls the library for tests/joins.py: requests on standard input, answers on standard output, to the input's end.
 *
 * A request is five 32-bit numbers (a number to draw by, how many passes are rung, after how many passes each time a
 * bell's registers are changed, 0 for never, and the lengths of both machines), then the words of both.
 *
 * An answer is the number of karvelorn_join and the words of the first machine; then three 32-bit numbers of the passes
 * by number of the joined machine and of each bell alone: the largest number of a pass, and of the first and of the
 * second bell how often a word of its sums, DACs and generators was not the one it has alone. What is changed in a
 * bell's generators is changed in the bell alone too; its settings stay.
 */
#include "runs.h"
#include "text.h"

enum { FIRST, SECOND, RUNS };
enum { SUM_WORDS = 64, THIS_AT = 3840, LAST_AT = 3904, DACS = 16, DACS_AT = 4096 };

/* A bell alone, and where its generators stand in the joined machine. */
typedef struct {
    uint32_t alone[KARVELORN_WORDS];
    uint32_t at;
    uint32_t words[SUM_WORDS], dacs[DACS]; /* whether it uses them */
} bell;

static uint32_t memory[KARVELORN_MEMORY_WORDS], by_number[GENERATORS];
static uint64_t drawn;

static uint32_t draw(uint32_t width) {
    drawn = drawn * 6364136223846793005u + 1442695040888963407u;
    return (uint32_t)(drawn >> (64 - width));
}

static void make_bell(bell *b, const uint32_t *m, uint32_t at) {
    memset(b, 0, sizeof *b);
    memcpy(b->alone, m, sizeof b->alone);
    b->at = at;
    for (uint32_t g = 0; g < m[T]; g++) {
        const uint32_t *u = generator(m, g);
        b->words[u[GSUM]] = b->words[u[GFM] % SUM_WORDS] = 1;
        if (sent_bits(u)) b->dacs[u[SENT_BY] % DACS] = 1;
    }
}

static uint32_t ring_once(uint32_t *m) {
    size_t read, written;
    uint8_t clipped[SUM_WORDS];
    return karvelorn_pass(m, KARVELORN_WORDS, by_number, m[T], NULL, 0, NULL, 0, memory, KARVELORN_MEMORY_WORDS, &read,
                          &written, clipped);
}

/* How many words of a bell in the joined machine are not those it has alone. */
static uint32_t others(const uint32_t *joined, const bell *b) {
    const uint32_t *block = joined + GENERATOR_WORDS * b->at;
    uint32_t count = 0;
    for (uint32_t w = 0; w < SUM_WORDS; w++)
        if (b->words[w])
            count += (joined[THIS_AT + w] != b->alone[THIS_AT + w]) + (joined[LAST_AT + w] != b->alone[LAST_AT + w]);
    for (uint32_t d = 0; d < DACS; d++) count += b->dacs[d] && joined[DACS_AT + d] != b->alone[DACS_AT + d];
    for (uint32_t i = 0; i < GENERATOR_WORDS * b->alone[T]; i++) count += block[i] != b->alone[i];
    return count;
}

/* A generator of a bell gets other registers, the same in both machines. */
static void change(uint32_t *joined, bell *b) {
    uint32_t g = draw(16) % b->alone[T], *u = b->alone + GENERATOR_WORDS * g, other[GENERATOR_WORDS];
    draw_generator(other, u, draw(2), draw);
    memcpy(u, other, sizeof other);
    memcpy(joined + GENERATOR_WORDS * (b->at + g), other, sizeof other);
}

static void ring_beside(uint32_t *joined, bell *bells, uint32_t passes, uint32_t every, uint32_t *given) {
    for (uint32_t n = 0; n < passes; n++) {
        if (every && n % every == every - 1) change(joined, &bells[draw(1)]);
        uint32_t number = ring_once(joined);
        for (int k = 0; k < RUNS; k++) {
            number |= ring_once(bells[k].alone);
            given[1 + k] += others(joined, &bells[k]);
        }
        if (number > given[0]) given[0] = number;
    }
}

static void answer(const uint32_t *head, const run *r) {
    static bell bells[RUNS];
    uint32_t given[3] = {0, 0, 0};
    drawn = head[0];
    uint32_t number = karvelorn_join(r[FIRST].words, r[FIRST].length, r[SECOND].words, r[SECOND].length);
    check_beside(&r[FIRST]);
    check_beside(&r[SECOND]);
    check_kept(&r[SECOND]);
    put(&number, sizeof number, 1);
    put_run(&r[FIRST]);
    if (!number && head[1]) {
        make_bell(&bells[FIRST], r[FIRST].copy, 0);
        make_bell(&bells[SECOND], r[SECOND].words, r[FIRST].copy[T]);
        for (int k = 0; k < RUNS; k++) given[1 + k] += others(r[FIRST].words, &bells[k]);
        ring_beside(r[FIRST].words, bells, head[1], head[2], given);
    }
    put(given, sizeof given[0], 3);
}

int main(void) {
    uint32_t head[3 + RUNS];
    for (uint32_t g = 0; g < GENERATORS; g++) by_number[g] = g;
    while (fread(head, sizeof head[0], 3 + RUNS, stdin) == 3 + RUNS) {
        run runs[RUNS];
        for (int i = 0; i < RUNS; i++) runs[i] = read_run(head[3 + i]);
        answer(head, runs);
        for (int i = 0; i < RUNS; i++) free_run(&runs[i]);
    }
    return fflush(stdout) ? 2 : 0;
}
