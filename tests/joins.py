"""Compares two bells joined, called from C, with the reference, and rings them beside each bell alone.

    python3 tests/joins.py [--dry] [--fault NAME] [COUNT] [SEED]

Run from the repository root. Builds tests/joins.c with include/karvelorn.h and
the library for C (which it has rt make where it is missing or older than the code).
The number and each word of the first machine must be the reference's. Every tenth pair is rung for
200 passes of the library beside each bell alone: sums, DACs and generators of each bell must be
those it has alone, half of them with every envelope overflowing, half with changes to one bell's
registers in between. Fails too where the requests met something too seldom. With --fault the
reference has one fault of reference/faults.py on: the comparison must fail. With --dry nothing is
built or asked: it says what the requests met, and with --fault in how many answers it shows.
"""

import struct
import sys
from collections import Counter

# First, since it makes the reference known.
from library import (Test, compared, counts, machine_differences, met_seldom, packed,
                     read_arguments, run, show_words, unpacked)

from join_requests import all_requests, answered
from reference import layout

COUNT, SEED = 22000, 12
HEAD, NUMBER, OTHERS = struct.Struct("<5I"), struct.Struct("<I"), struct.Struct("<3I")

# How often each kind is met at least, in COUNT pairs.
PROMISED = {
    "pairs": 20000, "joined": 10000, "rung": 2000, "rung with changes": 1000,
    "rung with envelopes that overflow": 1000, "T of both 256": 300,
    **{f"refused by {number}": least for number, least in
       ((1, 100), (2, 800), (16, 300), (17, 1500), (18, 400))},
}


def request_bytes(request):
    """A request as the program reads it."""
    runs = request.first, request.second
    return HEAD.pack(*request[:3], *map(len, runs)) + b"".join(map(packed, runs))


def answer_bytes(answer):
    """An answer as the program writes it."""
    return NUMBER.pack(answer.number) + packed(answer.machine) + OTHERS.pack(*answer[2:])


def show(request, expected, got):
    """One difference with its request."""
    if len(got) != len(answer_bytes(expected)):
        print("  the program gave no whole answer")
        return
    number, *words = unpacked(got)
    machine, others = words[:-3], words[-3:]
    print(f"  reference: number {expected.number}; program: number {number}; of the passes the "
          f"largest number is {others[0]}, {others[1]} words of the first bell and {others[2]} of "
          "the second were others")
    show_words(machine_differences(request.first, expected.machine, machine))


JOINS = Test("joins", request_bytes, answer_bytes, show)


def events(request, answer):
    """All that is counted of a pair."""
    yield "pairs"
    if answer.number:
        yield f"refused by {answer.number}"
        return
    yield "joined"
    if answer.machine[layout.T] == layout.T_MOST:
        yield "T of both 256"
    if request.passes:
        yield "rung"
        if request.every:
            yield "rung with changes"
        if request.drawn // 10 % 2 == 0:
            yield "rung with envelopes that overflow"


def main(arguments):
    """Reads the arguments; see the head of this file."""
    options = read_arguments(arguments, COUNT, SEED)
    pairs, met = all_requests(options.count, options.seed), Counter()

    def asked():
        status = compared(JOINS, pairs, lambda *pair: met.update(events(*pair)), options.dry)
        print(f"met: {counts(met)}")
        return met_seldom(met, PROMISED, options.count, COUNT) or status

    return run(JOINS, options, asked, pairs, answered)


if __name__ == "__main__":
    sys.exit(main(sys.argv[1:]))
