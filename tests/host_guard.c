/* Stands between the example host and the library in tests/host.py (the linker's --wrap) and checks what karvelorn.h
 * asks of a host: valid memory for every length. The library itself is not compiled with the sanitizers, so this asks
 * the address sanitizer before each call.
 */
#include <sanitizer/asan_interface.h>
#include <stdio.h>
#include <stdlib.h>

#include "karvelorn.h"

static void check(const char *name, const void *memory, size_t count, size_t size) {
    if (count && (!memory || __asan_region_is_poisoned((void *)memory, count * size))) {
        fprintf(stderr, "host_guard: %s has no valid memory for %zu times %zu bytes\n", name, count, size);
        exit(3);
    }
}

uint32_t __real_karvelorn_fresh(uint32_t *, size_t);
uint32_t __real_karvelorn_pass(uint32_t *, size_t, const uint32_t *, size_t, const uint32_t *, size_t, uint32_t *,
                               size_t, uint32_t *, size_t, size_t *, size_t *, uint8_t *);
uint32_t __real_karvelorn_old_pass(uint32_t *, size_t, const uint32_t *, size_t, const uint32_t *, size_t, uint32_t *,
                                   size_t, uint32_t *, size_t, size_t *, size_t *, uint8_t *);
uint32_t __real_karvelorn_update(uint32_t *, size_t, const uint32_t *, size_t, size_t *);
uint32_t __real_karvelorn_read(const uint8_t *, size_t, uint32_t *, size_t, uint32_t *, size_t, uint32_t *, uint32_t *,
                               size_t *);

uint32_t __wrap_karvelorn_fresh(uint32_t *machine, size_t words) {
    check("machine", machine, words, sizeof *machine);
    return __real_karvelorn_fresh(machine, words);
}

static void check_pass(uint32_t *machine, size_t words, const uint32_t *order, size_t entries, const uint32_t *items,
                       size_t items_len, uint32_t *places, size_t places_len, uint32_t *memory, size_t memory_words,
                       size_t *read, size_t *written, uint8_t *clipped) {
    check("machine", machine, words, sizeof *machine);
    check("order", order, entries, sizeof *order);
    check("items", items, items_len, sizeof *items);
    check("places", places, places_len, sizeof *places);
    check("memory", memory, memory_words, sizeof *memory);
    check("read", read, 1, sizeof *read);
    check("written", written, 1, sizeof *written);
    check("clipped", clipped, 64, sizeof *clipped);
}

uint32_t __wrap_karvelorn_pass(uint32_t *machine, size_t words, const uint32_t *order, size_t entries,
                               const uint32_t *items, size_t items_len, uint32_t *places, size_t places_len,
                               uint32_t *memory, size_t memory_words, size_t *read, size_t *written,
                               uint8_t *clipped) {
    check_pass(machine, words, order, entries, items, items_len, places, places_len, memory, memory_words, read, written,
               clipped);
    return __real_karvelorn_pass(machine, words, order, entries, items, items_len, places, places_len, memory,
                                 memory_words, read, written, clipped);
}

uint32_t __wrap_karvelorn_old_pass(uint32_t *machine, size_t words, const uint32_t *order, size_t entries,
                                   const uint32_t *items, size_t items_len, uint32_t *places, size_t places_len,
                                   uint32_t *memory, size_t memory_words, size_t *read, size_t *written,
                                   uint8_t *clipped) {
    check_pass(machine, words, order, entries, items, items_len, places, places_len, memory, memory_words, read, written,
               clipped);
    return __real_karvelorn_old_pass(machine, words, order, entries, items, items_len, places, places_len, memory,
                                     memory_words, read, written, clipped);
}

uint32_t __wrap_karvelorn_read(const uint8_t *file, size_t bytes, uint32_t *machine, size_t words, uint32_t *commands,
                               size_t commands_len, uint32_t *text, uint32_t *passes, size_t *count) {
    check("file", file, bytes, sizeof *file);
    check("machine", machine, words, sizeof *machine);
    check("commands", commands, commands_len, sizeof *commands);
    check("text", text, 1, sizeof *text);
    check("passes", passes, 1, sizeof *passes);
    check("count", count, 1, sizeof *count);
    return __real_karvelorn_read(file, bytes, machine, words, commands, commands_len, text, passes, count);
}

uint32_t __wrap_karvelorn_update(uint32_t *machine, size_t words, const uint32_t *commands, size_t commands_len,
                                 size_t *taken) {
    check("machine", machine, words, sizeof *machine);
    check("commands", commands, commands_len, sizeof *commands);
    check("taken", taken, 1, sizeof *taken);
    return __real_karvelorn_update(machine, words, commands, commands_len, taken);
}
