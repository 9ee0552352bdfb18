/* Calls the library for tests/reads.py: requests on standard input, answers on standard output, until the input ends.
 *
 * A request is three 32-bit numbers (the bytes of the file, the lengths of machine and commands), then the bytes of the
 * file and the words of both runs. An answer is number, text and passes (32 bits each), the count (64 bits), then the
 * words of machine and commands.
 */
#include "karvelorn.h"
#include "runs.h"

static void answer(const uint8_t *file, uint32_t bytes, run *machine, run *commands) {
    uint32_t answers[3] = {UNTOUCHED, UNTOUCHED, UNTOUCHED};
    size_t count = SIZE_MAX;
    answers[0] = karvelorn_read(file, bytes, machine->words, machine->length, commands->words, commands->length,
                                &answers[1], &answers[2], &count);
    check_beside(machine);
    check_beside(commands);
    uint64_t commands_count = count;
    put(answers, sizeof answers[0], 3);
    put(&commands_count, sizeof commands_count, 1);
    put_run(machine);
    put_run(commands);
}

int main(void) {
    uint32_t lengths[3];
    while (fread(lengths, sizeof lengths[0], 3, stdin) == 3) {
        uint32_t bytes = lengths[0];
        uint8_t *file = malloc(bytes + 1u), *copy = malloc(bytes + 1u);
        if (!file || !copy) stop(2, "out of memory");
        get(file, 1, bytes);
        memcpy(copy, file, bytes);
        run machine = read_run(lengths[1]), commands = read_run(lengths[2]);
        answer(bytes ? file : NULL, bytes, &machine, &commands);
        if (memcmp(copy, file, bytes)) stop(3, "a file that is only read was written");
        free_run(&machine);
        free_run(&commands);
        free(file);
        free(copy);
    }
    return fflush(stdout) ? 2 : 0;
}
