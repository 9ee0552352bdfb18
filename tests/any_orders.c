/* Calls the library for tests/any_orders.py: requests on standard input, answers on standard output, to the input's
 * end.
 *
 * A request is two 32-bit numbers (1 where every pair of orders is to be compared, else 0; the length of the machine),
 * then the machine. An answer is four 32-bit numbers: the number of karvelorn_any_order, whether it says yes, how many
 * pairs of orders were compared, and whether every compare said yes (0 where none was asked). The machine is only read.
 */
#include "karvelorn.h"
#include "runs.h"

enum { T = 4113 };
enum { FEW = 4, ORDERS = 24 }; /* pairs are compared with T at most FEW, which has so many orders */

static void exchange(uint32_t *a, uint32_t *b) {
    uint32_t kept = *a;
    *a = *b;
    *b = kept;
}

/* All orders that agree with this one before a place; gives how many orders there are now. */
static uint32_t put_orders(uint32_t orders[ORDERS][FEW], uint32_t count, uint32_t *order, uint32_t place, uint32_t t) {
    if (place == t) {
        memcpy(orders[count], order, t * sizeof *order);
        return count + 1;
    }
    for (uint32_t i = place; i < t; i++) {
        exchange(&order[place], &order[i]);
        count = put_orders(orders, count, order, place + 1, t);
        exchange(&order[place], &order[i]);
    }
    return count;
}

/* Compares every two orders, each order with itself too; gives how many pairs, and whether all are equal. */
static uint32_t compare_all(const run *machine, uint32_t *all_equal) {
    uint32_t orders[ORDERS][FEW], order[FEW] = {0, 1, 2, 3}, t = machine->words[T];
    if (t < 1 || t > FEW) stop(2, "pairs of orders are compared for few generators only");
    uint32_t count = put_orders(orders, 0, order, 0, t);
    *all_equal = 1;
    for (uint32_t i = 0; i < count * count; i++) {
        uint32_t equal = UINT32_MAX;
        if (karvelorn_compare(machine->words, machine->length, orders[i / count], t, orders[i % count], t, &equal))
            stop(2, "a compare of two good orders was refused");
        *all_equal &= equal;
    }
    return count * count;
}

static void answer(uint32_t pairs, const run *machine) {
    uint32_t given[4] = {0, UINT32_MAX, 0, 0};
    given[0] = karvelorn_any_order(machine->words, machine->length, &given[1]);
    check_kept(machine);
    check_beside(machine);
    if (pairs) given[2] = compare_all(machine, &given[3]);
    put(given, sizeof given[0], 4);
}

int main(void) {
    uint32_t head[2];
    while (fread(head, sizeof head[0], 2, stdin) == 2) {
        run machine = read_run(head[1]);
        answer(head[0], &machine);
        free_run(&machine);
    }
    return fflush(stdout) ? 2 : 0;
}
