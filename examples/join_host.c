/* join_host.c: two bells in one ring, by karvelorn_join. It joins the machines of two bench files and writes the bench
 * file of the joined one:
 *
 *     gcc -std=c99 -I include examples/join_host.c crates/karvelorn/out/libkarvelorn.a -o target/join_host
 *     target/join_host examples/low_bell.txt examples/high_bell.txt > target/both_bells.txt
 *     ./hear target/both_bells.txt
 *
 * So the low bell is heard on the left as it is alone, and the high one on the right. The files are of 1978 and have no
 * commands; the passes are the first's. A refusal prints refused=N: N is the question's number in karvelorn.h, 8 for a
 * file with commands, 9 for one that can't be read or follows the older text.
 */
#include <inttypes.h>
#include <stdint.h>
#include <stdio.h>

#include "karvelorn.h"

/* A bench file has at most so many bytes; a byte more is enough to see that it is too long. */
enum { FILE_MOST = 65536, NOT_A_BENCH_FILE = 9 };

/* Reads a bench file of 1978 into a machine; there is no place for commands, so one that has any is refused. Gives the
 * number of the refusal, or 0. */
static uint32_t read_bell(const char *path, uint32_t *machine, uint32_t *passes) {
    static uint8_t bytes[FILE_MOST + 1];
    uint32_t text;
    size_t commands;
    FILE *file = fopen(path, "rb");
    if (!file) return NOT_A_BENCH_FILE;
    size_t length = fread(bytes, 1, sizeof bytes, file);
    if (fclose(file) != 0) return NOT_A_BENCH_FILE;
    uint32_t number = karvelorn_read(bytes, length, machine, KARVELORN_WORDS, NULL, 0, &text, passes, &commands);
    return number == 0 && text != KARVELORN_TEXT_1978 ? NOT_A_BENCH_FILE : number;
}

/* Writes a machine as a bench file: the words that are not those of a fresh machine. */
static void write_bell(const uint32_t *machine, uint32_t passes) {
    static uint32_t fresh[KARVELORN_WORDS];
    karvelorn_fresh(fresh, KARVELORN_WORDS);
    printf("passes=%" PRIu32 "\n", passes);
    for (int place = 0; place < KARVELORN_UPDATE_TICKS; place++)
        if (machine[place] != fresh[place]) printf("word=%d:%" PRIu32 "\n", place, machine[place]);
}

int main(int count, char **arguments) {
    static uint32_t first[KARVELORN_WORDS], second[KARVELORN_WORDS];
    uint32_t passes, others;
    if (count != 3) {
        fprintf(stderr, "usage: join_host FIRST-FILE SECOND-FILE\n");
        return 2;
    }
    uint32_t number = read_bell(arguments[1], first, &passes);
    if (!number) number = read_bell(arguments[2], second, &others);
    if (!number) number = karvelorn_join(first, KARVELORN_WORDS, second, KARVELORN_WORDS);
    if (number)
        printf("refused=%" PRIu32 "\n", number);
    else
        write_bell(first, passes);
    return number ? 1 : 0;
}
