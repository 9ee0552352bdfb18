"""Compares changes of one partial at a time, called from C, with the reference.

    python3 tests/keeps.py [--dry] [--fault NAME] [COUNT] [SEED]

Run from the repository root. Builds tests/keeps.c with include/karvelorn.h and
the library for C (which it has rt make where it is missing or older than the code).
COUNT lists of changes, from fresh machines and others: after each change the array must be the one
that karvelorn_keep makes of the machine then, and its answer karvelorn_any_order's; in lists that
the test makes, numbers, answers and machines must be the reference's. With arbitrary arrays number
and machine must be those with the machine's own. Fails too where the requests met something too
seldom. With --fault the reference has one fault of reference/faults.py on: the comparison must
fail. With --dry nothing is built or asked.
"""

import struct
import sys
from collections import Counter

# First, since it makes the reference known.
from library import (Test, compared, counts, machine_differences, met_seldom, packed, read_arguments,
                     run, show_words, unpacked)

from keep_requests import ARBITRARY, AT_RANDOM, FOLLOWING, all_requests, answered

COUNT, SEED = 1500, 13
HEAD = struct.Struct("<4I")

# How often each kind is met at least, in COUNT lists.
PROMISED = {
    "changes": 200000, "changes compared with the reference": 20000, "changes at random": 180000,
    "changes with arbitrary arrays": 20000, "refused by 1": 200, "refused by 2": 3000,
    "kept answer yes": 5000, "kept answer no": 4000, "kept answer changes": 500,
    **{f"kind {kind}": 1000 for kind in range(6)}, "another kind": 300,
}


def request_bytes(request):
    """A request as the program reads it."""
    changes = [word for change in request.changes for word in change]
    head = HEAD.pack(request.operation, request.drawn, len(request.machine), request.count)
    return head + packed(request.machine) + packed(changes)


def answer_bytes(answer):
    """An answer as the program writes it."""
    return packed([answer.number, *answer.given, answer.wrong, *answer.machine])


def show(request, expected, got):
    """One difference with its request."""
    if len(got) != len(answer_bytes(expected)):
        print("  the program gave no whole answer")
        return
    number, *words = unpacked(got)
    given, (wrong, *machine) = words[:len(expected.given)], words[len(expected.given):]
    print(f"  keep: reference {expected.number}, program {number}; {wrong} changes left something wrong")
    step = 2 if request.operation == FOLLOWING else 1
    for at, (a, b) in enumerate(zip(expected.given, given)):
        if a != b:
            print(f"  change {at // step}, {request.changes[at // step]}: reference {a}, program {b}")
            break
    show_words(machine_differences(request.machine, expected.machine, machine))


KEEPS = Test("keeps", request_bytes, answer_bytes, show)


# What the requests met

def list_events(request, answer):
    """What is counted of a list that the test makes."""
    step = 2 if request.operation == FOLLOWING else 1
    for (kind, _, _), number in zip(request.changes, answer.given[::step]):
        yield f"kind {kind}" if kind < 6 else "another kind"
        if number:
            yield f"refused by {number}"
    if step == 2 and answer.number == 0:
        alike = answer.given[1::2]
        yield from ("kept answer yes" if one else "kept answer no" for one in alike)
        yield from ("kept answer changes" for one, other in zip(alike, alike[1:]) if one != other)


class Met:
    """Counts what the requests met."""

    def __init__(self):
        self.kinds = Counter()

    def count(self, request, answer):
        """Counts a list with its answers."""
        kind = {FOLLOWING: "changes compared with the reference", AT_RANDOM: "changes at random",
                ARBITRARY: "changes with arbitrary arrays"}[request.operation]
        self.kinds[kind] += request.count
        self.kinds["changes"] += request.count
        self.kinds.update(list_events(request, answer))


def main(arguments):
    """Reads the arguments; see the head of this file."""
    options = read_arguments(arguments, COUNT, SEED)
    pairs = all_requests(options.count, options.seed)

    def asked():
        met = Met()
        status = compared(KEEPS, pairs, met.count, options.dry)
        print(f"met: {counts(met.kinds)}")
        return met_seldom(met.kinds, PROMISED, options.count, COUNT) or status

    return run(KEEPS, options, asked, pairs, answered)


if __name__ == "__main__":
    sys.exit(main(sys.argv[1:]))
