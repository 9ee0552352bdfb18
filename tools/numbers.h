/* numbers.h: 32-bit numbers on standard input and output, the low byte first, for the programs in C that the commands call. */
#ifndef NUMBERS_H
#define NUMBERS_H

#include <stdbool.h>
#include <stddef.h>
#include <stdint.h>
#include <stdio.h>

static bool read_number(uint32_t *number) {
    uint8_t bytes[4];
    if (fread(bytes, 1, 4, stdin) != 4) return false;
    *number = (uint32_t)bytes[0] | (uint32_t)bytes[1] << 8 | (uint32_t)bytes[2] << 16 | (uint32_t)bytes[3] << 24;
    return true;
}

static bool read_numbers(uint32_t *numbers, size_t count) {
    for (size_t i = 0; i < count; i++)
        if (!read_number(&numbers[i])) return false;
    return true;
}

#endif
