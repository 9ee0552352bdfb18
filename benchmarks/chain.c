/* Numbers for a chain of modifiers, in plain C beside the proved call: benchmarks/chain builds this. It asks both for the same chains, then
   times both in turn. The C is written from the papers: question 14, then a loop over the entries, then question 15. Beside it stands
   what saves a look at each name, question 14 asked in that loop. */
#define _POSIX_C_SOURCE 199309L
#include "plain.h"

#include <string.h>

enum { MODIFIERS_IN_ALL = KARVELORN_MODIFIERS, EARLY_LAG = 4, LATE_LAG = 1, LIST_UNFIT = 14, NUMBERS_TOO_HIGH = 15 };

/* Question 14. */
static int fits(const uint32_t *entries, size_t size, const uint32_t *names, size_t names_len) {
    uint32_t start = 0;
    for (size_t i = 0; i < size; i++) {
        uint32_t end = entries[2 * i + 1];
        if (entries[2 * i] > 1 || end < start || end > names_len) return 0;
        for (uint32_t k = start; k < end; k++)
            if (names[k] >= i) return 0;
        start = end;
    }
    return start == names_len;
}

__attribute__((noinline)) uint32_t plain_chain(const uint32_t *entries, size_t entries_len, const uint32_t *names,
                                               size_t names_len, uint32_t numbers[KARVELORN_MODIFIERS]) {
    uint32_t found[MODIFIERS_IN_ALL], number = 0, start = 0;
    size_t size = entries_len / 2;
    if (entries_len % 2 || !fits(entries, size, names, names_len)) return LIST_UNFIT;
    if (size > MODIFIERS_IN_ALL) return NUMBERS_TOO_HIGH;
    for (size_t i = 0; i < size; i++) {
        uint32_t end = entries[2 * i + 1], lag = entries[2 * i] ? EARLY_LAG : LATE_LAG;
        number += i > 0;
        for (uint32_t k = start; k < end; k++)
            if (found[names[k]] + lag > number) number = found[names[k]] + lag;
        found[i] = number;
        start = end;
    }
    if (number >= MODIFIERS_IN_ALL) return NUMBERS_TOO_HIGH;
    memcpy(numbers, found, size * sizeof *found);
    return 0;
}

/* The same in one loop: it judges each entry and finds its number, which counts only if the whole list fits. */
__attribute__((noinline)) uint32_t merged_chain(const uint32_t *entries, size_t entries_len, const uint32_t *names,
                                                size_t names_len, uint32_t numbers[KARVELORN_MODIFIERS]) {
    uint32_t found[MODIFIERS_IN_ALL], number = 0, start = 0;
    size_t size = entries_len / 2;
    if (entries_len % 2) return LIST_UNFIT;
    for (size_t i = 0; i < size; i++) {
        uint32_t early = entries[2 * i], end = entries[2 * i + 1], lag = early ? EARLY_LAG : LATE_LAG;
        if (early > 1 || end < start || end > names_len) return LIST_UNFIT;
        number += i > 0;
        for (uint32_t k = start; k < end; k++) {
            if (names[k] >= i) return LIST_UNFIT;
            if (names[k] < MODIFIERS_IN_ALL && found[names[k]] + lag > number) number = found[names[k]] + lag;
        }
        if (i < MODIFIERS_IN_ALL) found[i] = number;
        start = end;
    }
    if (start != names_len) return LIST_UNFIT;
    if (number >= MODIFIERS_IN_ALL) return NUMBERS_TOO_HIGH;
    memcpy(numbers, found, size * sizeof *found);
    return 0;
}

#ifndef ONLY_PLAIN

/* Chains. */

enum { ENTRIES_MOST = 140, NAMED_MOST = 8 };

typedef struct {
    uint32_t entries[2 * ENTRIES_MOST], names[NAMED_MOST * ENTRIES_MOST];
    size_t entries_len, names_len;
} list;

/* So many entries, of which early ones are one in 2^rare, each after the first few with so many names of entries before it. */
static void make_chain(list *c, uint32_t size, uint32_t rare, uint32_t named, uint32_t nearest) {
    c->entries_len = c->names_len = 0;
    for (uint32_t i = 0; i < size; i++) {
        for (uint32_t k = 0; k < named && i >= nearest; k++) c->names[c->names_len++] = draw(16) % (i + 1 - nearest);
        c->entries[c->entries_len++] = draw(rare) == 0;
        c->entries[c->entries_len++] = (uint32_t)c->names_len;
    }
}

/* A word of one of the two runs becomes another. */
static void damage(list *c) {
    if (draw(1) && c->names_len) c->names[draw(16) % c->names_len] = draw(1) ? draw(8) : draw(32);
    else if (c->entries_len) c->entries[draw(16) % c->entries_len] = draw(1) ? draw(2) : draw(10);
    else c->names_len = draw(1);
}

/* Both answer alike: chains of all sizes, some of them not good. */
static int alike(int cases) {
    static list c;
    uint32_t given[NUMBERS_TOO_HIGH + 1] = {0};
    for (int i = 0; i < cases; i++) {
        uint32_t number[3], numbers[3][KARVELORN_MODIFIERS];
        memset(numbers, 0xA5, sizeof numbers);
        make_chain(&c, draw(16) % (ENTRIES_MOST + 1), 1 + draw(3), draw(2), 1 + draw(2));
        if (draw(2) == 0) damage(&c);
        c.entries_len -= c.entries_len && draw(6) == 0;
        number[0] = karvelorn_chain(c.entries, c.entries_len, c.names, c.names_len, numbers[0]);
        number[1] = plain_chain(c.entries, c.entries_len, c.names, c.names_len, numbers[1]);
        number[2] = merged_chain(c.entries, c.entries_len, c.names, c.names_len, numbers[2]);
        if (number[0] != number[1] || memcmp(numbers[0], numbers[1], sizeof numbers[0]) || number[0] != number[2] ||
            memcmp(numbers[0], numbers[2], sizeof numbers[0])) {
            printf("chain: R answers %u, C %u and %u, or other numbers\n", number[0], number[1], number[2]);
            return 0;
        }
        given[number[0]]++;
    }
    printf("chain: %d cases alike, %u of them numbered, %u refused by 14, %u by 15\n", cases, given[0], given[LIST_UNFIT],
           given[NUMBERS_TOO_HIGH]);
    return 1;
}

/* The timing. */

static const double limit = 1.6; /* the ratio to gcc -O2 at most, where the questions are asked one after the other */

typedef uint32_t chain_function(const uint32_t *, size_t, const uint32_t *, size_t, uint32_t *);

chain_function plain_chain_o3, plain_chain_native, merged_chain_o3, merged_chain_native;

/* The time of one call, from a number of them in a row. */
static double timed(chain_function *chain, const list *c, int times) {
    uint32_t numbers[KARVELORN_MODIFIERS], refused = 0;
    double start = now();
    for (int i = 0; i < times; i++) refused |= chain(c->entries, c->entries_len, c->names, c->names_len, numbers);
    double spent = (now() - start) / times;
    if (refused) {
        fprintf(stderr, "chain: refused\n");
        exit(1);
    }
    return spent;
}

/* Times the sides on a chain that is numbered; R's time by that of gcc -O2. */
static double time_all(chain_function *const sides[SIDES], const char *beside, uint32_t size, uint32_t named, int times_each) {
    static list c;
    static double times[SIDES][ROUNDS];
    char call[96];
    /* The three entries before it are never named, so that early reads ask no more than the entry before: 128 entries fit. */
    make_chain(&c, size, 1, named, 4);
    for (int i = -WARM; i < ROUNDS; i++)
        for (int side = 0; side < SIDES; side++) {
            double time = timed(sides[side], &c, times_each);
            if (i >= 0) times[side][i] = time;
        }
    snprintf(call, sizeof call, "chain of %u entries with %u names each%s", size, named, beside);
    return print_times(call, times);
}

int main(void) {
    static chain_function *const plain[SIDES] = {karvelorn_chain, plain_chain, plain_chain_o3, plain_chain_native};
    static chain_function *const merged[SIDES] = {karvelorn_chain, merged_chain, merged_chain_o3, merged_chain_native};
    print_load();
    if (!alike(200000)) return 1;
    double ratio = time_all(plain, "", 128, 8, 20);
    time_all(merged, ", beside one loop", 128, 8, 20);
    time_all(plain, "", 128, 0, 40);
    time_all(plain, "", 16, 2, 80);
    if (ratio > limit) printf("chain: above the limit of %.2f to C -O2\n", limit);
    return ratio <= limit ? 0 : 1;
}

#endif
