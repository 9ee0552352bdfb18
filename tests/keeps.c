/* Calls the library for tests/keeps.py: requests on standard input, answers on standard output, to the input's end.
 *
 * A request is four 32-bit numbers (0 for changes that follow, 1 for changes at random, 2 for changes that follow with
 * arbitrary arrays; a number to draw by; the length of the machine; how many changes), then the words of the machine,
 * then of each change that follows its kind, generator and value.
 *
 * An answer is the number of karvelorn_keep; of each change that follows its number and, but with arbitrary arrays, the
 * kept answer, 0 where keep was refused; how many changes left something wrong; and the words of the machine. Wrong is:
 * - another array than karvelorn_keep makes of the machine then, or another answer than karvelorn_any_order's; or where
 *   keep was refused an array that is not as it was;
 * - with an arbitrary array another number or machine than with the machine's own.
 * A program that draws changes at random answers the machine as it was.
 */
#include "karvelorn.h"
#include "runs.h"

enum { FOLLOWING, AT_RANDOM, ARBITRARY };
enum { GMODE = 10, GSUM = 8, GFM = 9, GENERATOR_WORDS = 11, T = 4113 };
enum { KINDS = 6, TICK_MORE = 4 };

typedef uint32_t kept[KARVELORN_KEPT];

static uint64_t drawn;

static uint32_t draw(uint32_t width) {
    drawn = drawn * 6364136223846793005u + 1442695040888963407u;
    return (uint32_t)(drawn >> (64 - width));
}

/* A change, mostly a good one of a generator about T; ticks come and go. */
static void draw_change(const uint32_t *m, uint32_t *c) {
    static const uint32_t modes[10] = {0, 64, 128, 128, 192, 448, 576, 832, 896, 960};
    c[0] = draw(3) % KINDS;
    if (c[0] >= TICK_MORE && draw(2)) c[0] = draw(2);
    c[1] = draw(3) ? draw(8) % (m[T] + 1) : draw(8) + draw(1);
    c[2] = c[0] == 0 ? modes[draw(8) % 10] | draw(2) << 4 : c[0] == 1 ? draw(draw(2) ? 2 : 6) : draw(draw(2) ? 1 : 7);
    if (c[0] == 3) c[2] = draw(draw(2) ? 1 : 4);
    if (!draw(6)) c[2] = draw(32);
}

/* Whether an array is the machine's own, and its answer Q-2's. */
static uint32_t is_own(const uint32_t *m, const uint32_t *array) {
    static kept made;
    uint32_t alike, number = karvelorn_keep(m, KARVELORN_WORDS, made) | karvelorn_any_order(m, KARVELORN_WORDS, &alike);
    return !number && !memcmp(made, array, sizeof made) && made[KARVELORN_KEPT_ALIKE] == alike;
}

static uint32_t change(const run *m, uint32_t *array, const uint32_t *c) {
    return karvelorn_change(m->words, m->length, array, c[0], c[1], c[2]);
}

/* Changes with the machine's own array, or with one that stays where keep was refused. */
static uint32_t with_own(const run *m, const run *array, const run *changes, uint32_t refused) {
    uint32_t wrong = 0;
    for (size_t i = 0; i < changes->length; i += 3) {
        uint32_t given[2] = {change(m, array->words, changes->words + i), 0};
        given[1] = refused ? 0 : array->words[KARVELORN_KEPT_ALIKE];
        put(given, sizeof given[0], 2);
        wrong += refused ? memcmp(array->words, array->copy, sizeof(kept)) != 0 : !is_own(m->words, array->words);
    }
    return wrong;
}

static uint32_t at_random(const run *m, const run *array, uint32_t count) {
    static uint32_t before[KARVELORN_WORDS];
    uint32_t wrong = 0, c[3];
    memcpy(before, m->words, sizeof before);
    for (uint32_t i = 0; i < count; i++) {
        draw_change(m->words, c);
        change(m, array->words, c);
        wrong += !is_own(m->words, array->words);
    }
    memcpy(m->words, before, sizeof before);
    return wrong;
}

/* Each change with the machine's own array, and on a copy of the machine with an arbitrary one. */
static uint32_t with_any(const run *m, const run *array, const run *changes) {
    static uint32_t copy[KARVELORN_WORDS];
    static kept any;
    uint32_t wrong = 0;
    for (size_t i = 0; i < changes->length; i += 3) {
        const uint32_t *c = changes->words + i;
        for (int k = 0; k < KARVELORN_KEPT; k++) any[k] = draw(1) ? draw(1) : draw(32);
        memcpy(copy, m->words, sizeof copy);
        uint32_t number = change(m, array->words, c);
        wrong += karvelorn_change(copy, KARVELORN_WORDS, any, c[0], c[1], c[2]) != number;
        wrong += memcmp(copy, m->words, sizeof copy) != 0;
        put(&number, sizeof number, 1);
    }
    return wrong;
}

static void answer(const uint32_t *head, const run *m, const run *changes) {
    run array = new_run(KARVELORN_KEPT);
    uint32_t wrong = 0;
    drawn = head[1];
    for (int k = 0; k < KARVELORN_KEPT; k++) array.words[k] = UNTOUCHED;
    keep_copy(&array);
    uint32_t number = karvelorn_keep(m->words, m->length, array.words);
    put(&number, sizeof number, 1);
    if (head[0] == FOLLOWING) wrong = with_own(m, &array, changes, number);
    if (head[0] == AT_RANDOM && !number) wrong = at_random(m, &array, head[3]);
    if (head[0] == ARBITRARY && !number) wrong = with_any(m, &array, changes);
    put(&wrong, sizeof wrong, 1);
    put_run(m);
    check_beside(m);
    check_beside(&array);
    check_kept(changes);
    free_run(&array);
}

int main(void) {
    uint32_t head[4];
    while (fread(head, sizeof head[0], 4, stdin) == 4) {
        run m = read_run(head[2]), changes = read_run(head[0] == AT_RANDOM ? 0 : 3 * head[3]);
        answer(head, &m, &changes);
        free_run(&m);
        free_run(&changes);
    }
    return fflush(stdout) ? 2 : 0;
}
