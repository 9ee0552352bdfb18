/* Calls the library for tests/updates.py: requests on standard input, answers on standard output, until the input ends.
 *
 * A request is two 32-bit numbers (the lengths of machine and commands), then the words of both. An answer is the
 * number (32 bits), the count taken (64 bits), then the words of the machine.
 */
#include "karvelorn.h"
#include "runs.h"

static void answer(run *machine, run *commands) {
    size_t taken = SIZE_MAX;
    uint32_t number = karvelorn_update(machine->words, machine->length, commands->words, commands->length, &taken);
    check_kept(commands);
    check_beside(machine);
    check_beside(commands);
    uint64_t count = taken;
    put(&number, sizeof number, 1);
    put(&count, sizeof count, 1);
    put_run(machine);
}

int main(void) {
    uint32_t length, commands_length;
    while (fread(&length, sizeof length, 1, stdin) == 1) {
        get(&commands_length, sizeof commands_length, 1);
        run machine = read_run(length), commands = read_run(commands_length);
        answer(&machine, &commands);
        free_run(&machine);
        free_run(&commands);
    }
    return fflush(stdout) ? 2 : 0;
}
