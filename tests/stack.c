/* What compares and parts use of a thread's stack, for tests/stack.py: for each a line with its name, the bytes, its answer, whether
 * the orders are equal and the point at which they part.
 *
 * The stack is painted, and looked at afterwards from its far end on. What a thread that calls nothing uses is taken off. The orders
 * are by number and the other way round, of a reading generator and 255 that add to the word that it replaces: they part at the
 * fourth point, the one whose contents take the most calls.
 */
#include <pthread.h>
#include <stdio.h>
#include <string.h>

#include "karvelorn.h"

enum { STACK = 1 << 20, PAINT = 0xa5, GENERATORS = 256 };

static unsigned char stack[STACK] __attribute__((aligned(4096)));
static uint32_t m[KARVELORN_WORDS], contents[KARVELORN_WORDS], first[GENERATORS], second[GENERATORS], items[GENERATORS];
static uint32_t answer, equal, point, place;

/* Calls. */

static void nothing(void) {}

#define CALLS(text)                                                                                                            \
    static void text##compare(void) {                                                                                          \
        answer = karvelorn_##text##compare(m, KARVELORN_WORDS, first, GENERATORS, second, GENERATORS, &equal);                 \
    }                                                                                                                          \
    static void text##parts(void) {                                                                                            \
        answer = karvelorn_##text##parts(m, KARVELORN_WORDS, first, GENERATORS, second, GENERATORS, contents, KARVELORN_WORDS, \
                                         items, GENERATORS, &point, &place);                                                   \
    }
CALLS()
CALLS(old_)

/* A machine of a text. */

static void fill(uint32_t reads, uint32_t adds) {
    karvelorn_fresh(m, KARVELORN_WORDS);
    m[KARVELORN_T] = GENERATORS;
    m[KARVELORN_N] = GENERATORS + 8;
    m[KARVELORN_UPDATE_TICKS] = karvelorn_update_ticks(m[KARVELORN_T], m[KARVELORN_N]);
    for (uint32_t g = 0; g < GENERATORS; g++) {
        m[karvelorn_generator(g, KARVELORN_GMODE)] = g ? adds : reads;
        first[g] = g;
        second[g] = GENERATORS - 1 - g;
    }
}

/* Depths. */

static void *run(void *call) {
    (*(void (**)(void))call)();
    return NULL;
}

static size_t depth(void (*call)(void)) {
    pthread_attr_t attributes;
    pthread_t thread;
    size_t untouched = 0;
    memset(stack, PAINT, STACK);
    if (pthread_attr_init(&attributes) || pthread_attr_setstack(&attributes, stack, STACK) ||
        pthread_create(&thread, &attributes, run, &call) || pthread_join(thread, NULL))
        return STACK;
    while (untouched < STACK && stack[untouched] == PAINT) untouched++;
    return STACK - untouched;
}

static void tell(const char *name, void (*call)(void), size_t least) {
    answer = equal = point = 99;
    size_t used = depth(call);
    printf("%s %zu %u %u %u\n", name, used - least, (unsigned)answer, (unsigned)equal, (unsigned)point);
}

int main(void) {
    size_t least = depth(nothing);
    fill(7 << 6, 14 << 6);
    tell("compare", compare, least);
    tell("parts", parts, least);
    fill(6 << 5 | 1, 3 << 5 | 1);
    tell("old_compare", old_compare, least);
    tell("old_parts", old_parts, least);
    return 0;
}
