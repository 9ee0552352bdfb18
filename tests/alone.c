/* Links the library with nothing of the C library but what the header names. It is linked, not run. */
#include "karvelorn.h"

void *memcpy(void *to, const void *from, size_t n) { (void)from; (void)n; return to; }
void *memset(void *to, int byte, size_t n) { (void)byte; (void)n; return to; }
int memcmp(const void *a, const void *b, size_t n) { (void)a; (void)b; (void)n; return 0; }

void _start(void);

void _start(void)
{
    static uint32_t machine[KARVELORN_WORDS], memory[KARVELORN_MEMORY_WORDS], word;
    static uint32_t contents[KARVELORN_WORDS], point, place;
    static size_t count;
    static uint8_t clipped[64];
    static uint32_t numbers[KARVELORN_MODIFIERS], kept[KARVELORN_KEPT];
    karvelorn_fresh(machine, KARVELORN_WORDS);
    karvelorn_pass(machine, KARVELORN_WORDS, &word, 1, 0, 0, 0, 0, memory, KARVELORN_MEMORY_WORDS, &count, &count,
                   clipped);
    karvelorn_update(machine, KARVELORN_WORDS, 0, 0, &count);
    karvelorn_ring(machine, KARVELORN_WORDS, memory, KARVELORN_MEMORY_WORDS, 0, 0, 0, 0, 1, 0, 0, 0, 0, &word, &count);
    karvelorn_old_ring(machine, KARVELORN_WORDS, memory, KARVELORN_MEMORY_WORDS, 0, 0, 0, 0, 1, 0, 0, 0, 0, &word, &count);
    karvelorn_compare(machine, KARVELORN_WORDS, &word, 1, &word, 1, &word);
    karvelorn_any_order(machine, KARVELORN_WORDS, &word);
    karvelorn_parts(machine, KARVELORN_WORDS, &word, 1, &word, 1, contents, KARVELORN_WORDS, 0, 0, &point, &place);
    karvelorn_chain(0, 0, 0, 0, numbers);
    karvelorn_join(machine, KARVELORN_WORDS, contents, KARVELORN_WORDS);
    karvelorn_keep(machine, KARVELORN_WORDS, kept);
    karvelorn_change(machine, KARVELORN_WORDS, kept, KARVELORN_TICK_MORE, 0, 0);
    karvelorn_old_pass(machine, KARVELORN_WORDS, &word, 1, 0, 0, 0, 0, memory, KARVELORN_MEMORY_WORDS, &count, &count,
                       clipped);
    karvelorn_old_compare(machine, KARVELORN_WORDS, &word, 1, &word, 1, &word);
    karvelorn_old_parts(machine, KARVELORN_WORDS, &word, 1, &word, 1, contents, KARVELORN_WORDS, 0, 0, &point, &place);
    karvelorn_read(clipped, 64, machine, KARVELORN_WORDS, 0, 0, &point, &place, &count);
}
