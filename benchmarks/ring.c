/* The bench program in plain C, for benchmarks/ring: reads a bench file that fits, rings it and prints.
   The pass and the update are those of benchmarks/pass.c and benchmarks/update.c, which benchmarks/ring links. */
#include "karvelorn.h"

#include <stdio.h>
#include <stdlib.h>
#include <string.h>

enum { FILE_MOST = 65536, COMMANDS_MOST = 4096, GENERATORS = 256, BUFFER = 8192, LINE_MOST = 64 };
enum { DACS = 4096, T = 4113, N, COUNTER, UPDATE_TICKS = KARVELORN_UPDATE_TICKS };

uint32_t plain_pass(uint32_t *m, size_t words, const uint32_t *order, size_t entries, const uint32_t *items,
                    size_t items_len, uint32_t *places, size_t places_len, uint32_t *memory, size_t memory_words,
                    size_t *read, size_t *written, uint8_t *clipped);
uint32_t plain_update(uint32_t *m, size_t words, const uint32_t *commands, size_t count, size_t *taken);

static char text[FILE_MOST + 2], buffer[BUFFER];
static uint32_t machine[KARVELORN_WORDS], memory[KARVELORN_MEMORY_WORDS], commands[COMMANDS_MOST], order[GENERATORS];
static uint8_t marks[KARVELORN_MARKS];

/* Reads the file's lines; gives the passes. */
static uint32_t read_file(size_t *count) {
    size_t bytes = fread(text, 1, FILE_MOST + 1, stdin);
    if (bytes > FILE_MOST || strncmp(text, "passes=", 7)) exit(9);
    uint32_t passes = (uint32_t)strtoul(text + 7, NULL, 10);
    machine[T] = 1;
    machine[N] = 265;
    for (char *line = strchr(text, '\n') + 1; *line; line = strchr(line, '\n') + 1) {
        if (!strncmp(line, "word=", 5)) {
            char *colon;
            unsigned long place = strtoul(line + 5, &colon, 10);
            machine[place % UPDATE_TICKS] = (uint32_t)strtoul(colon + 1, NULL, 10);
        } else if (*count < COMMANDS_MOST) {
            commands[(*count)++] = (uint32_t)strtoul(line + 8, NULL, 16);
        }
    }
    machine[UPDATE_TICKS] = machine[N] > machine[T] + 8 ? machine[N] - machine[T] - 8 : 0;
    return passes;
}

static char *put_text(char *at, const char *s) {
    while (*s) *at++ = *s++;
    return at;
}

static char *put_decimal(char *at, uint32_t n) {
    char digits[10];
    int count = 0;
    do digits[count++] = (char)('0' + n % 10);
    while (n /= 10);
    while (count) *at++ = digits[--count];
    return at;
}

static char *put_signed(char *at, uint32_t word) {
    if (word < 1u << 19) return put_decimal(at, word);
    *at++ = '-';
    return put_decimal(at, (1u << 20) - word);
}

static char *put_line(char *at) {
    at = put_decimal(put_text(at, "pass="), machine[COUNTER]);
    at = put_signed(put_text(at, " left="), machine[DACS]);
    at = put_signed(put_text(at, " right="), machine[DACS + 1]);
    *at++ = '\n';
    return at;
}

int main(void) {
    size_t count = 0, from = 0, taken, read, written;
    uint32_t passes = read_file(&count), refused = 0;
    char *at = buffer;
    for (uint32_t g = 0; g < GENERATORS; g++) order[g] = g;
    while (passes-- && !refused) {
        size_t entries = machine[T] <= GENERATORS ? machine[T] : 0;
        refused = plain_pass(machine, KARVELORN_WORDS, order, entries, NULL, 0, NULL, 0, memory,
                             KARVELORN_MEMORY_WORDS, &read, &written, marks);
        if (!refused) {
            refused = plain_update(machine, KARVELORN_WORDS, commands + from, count - from, &taken);
            from += taken;
        }
        if (refused) {
            at = put_decimal(put_text(at, "refused="), refused);
            *at++ = '\n';
        } else {
            at = put_line(at);
        }
        if (at > buffer + BUFFER - LINE_MOST) {
            fwrite(buffer, 1, (size_t)(at - buffer), stdout);
            at = buffer;
        }
    }
    fwrite(buffer, 1, (size_t)(at - buffer), stdout);
    return 0;
}
