"""Compares numbers for chains of modifiers, called from C, with the reference, and puts chains to use in passes.

    python3 tests/chains.py [--dry] [--fault NAME] [COUNT] [SEED]

Run from the repository root. Builds tests/chains.c with include/karvelorn.h and
the library for C (which it has rt make where it is missing or older than the code).
All chains of up to four entries and COUNT at random, good and damaged: the number and all 128
words must be the reference's, within a stack of 256 kB. Then chains of up to 18 entries are put to use through
tests/passes.c: in one pass each reader finds the bit of every entry that it names, and an early
reader whose number is lowered by one loses it. Fails too where the requests met something too
seldom. With --fault the reference has one fault of reference/faults.py on: the comparison must
fail. With --dry nothing is built or asked.
"""

import struct
import sys
from collections import Counter

# First, since it makes the reference known.
from library import Test, build, compared, counts, met_seldom, packed, read_arguments, run, unpacked

from chain_requests import all_requests, all_uses, answered, is_met
from pass_requests import answered as passed
from passes import PASSES

COUNT, SEED = 21000, 11
USES = 1000
STACK = 256 * 1024
HEAD, NUMBER = struct.Struct("<2I"), struct.Struct("<I")

# How often each kind is met at least, in COUNT chains at random and all small ones; and in USES.
PROMISED = {
    "chains": 21000, "numbered": 10000, "refused by 14": 3000, "refused by 15": 400, "sizes": 141,
    "numbered to 120 or more": 200, "numbered to 127": 20, "passing 127 by 1": 20,
    "14 with more than 128 entries": 50, "of 4": 1024,
}
PROMISED_USES = {"uses": 1000, "bits found": 5000, "lowered": 300, "mixing": 100}


def request_bytes(request):
    """A request as the program reads it."""
    return HEAD.pack(*map(len, request[:2])) + packed(request.entries) + packed(request.names)


def answer_bytes(answer):
    """An answer as the program writes it."""
    return NUMBER.pack(answer.number) + packed(answer.numbers)


def show(request, expected, got):
    """One difference with its request."""
    print(f"  entries {request.entries}\n  names {request.names}")
    if len(got) != len(answer_bytes(expected)):
        print("  the program gave no whole answer")
        return
    number, *numbers = unpacked(got)
    for title, given in (("reference", expected), ("program", (number, numbers))):
        print(f"  {title}: number {given[0]}, {given[1]}")


CHAINS = Test("chains", request_bytes, answer_bytes, show, stack=STACK)


# What the requests met

def events(request, answer):
    """All that is counted of a chain."""
    yield "chains"
    size = len(request.entries) // 2
    yield "numbered" if answer.number == 0 else f"refused by {answer.number}"
    if request.name == "of 4":
        yield "of 4"
    if answer.number == 14 and size > 128:
        yield "14 with more than 128 entries"
    if answer.number == 0 and size:
        highest = answer.numbers[size - 1]
        if highest >= 120:
            yield "numbered to 120 or more"
        if highest == 127:
            yield "numbered to 127"
    if answer.number == 15 and size == 129:
        yield "passing 127 by 1"


class Met:
    """Counts what the chains met."""

    def __init__(self):
        self.kinds, self.sizes = Counter(), set()

    def count(self, request, answer):
        """Counts a chain with its answer."""
        self.kinds.update(events(request, answer))
        self.sizes.add(len(request.entries) // 2)
        self.kinds["sizes"] = len(self.sizes)


def use_events(use):
    """What is counted of a chain put to use."""
    found = sum(seen for _, _, seen in use.wanted)
    return {"passes": 1, "uses": all(seen for _, _, seen in use.wanted), "bits found": found,
            "lowered": len(use.wanted) - found, "mixing": use.mixing}


def put_to_use(dry, seed):
    """Asks passes of chains put to use; gives the exit status."""
    met, unmet = Counter(), 0

    def pairs():
        nonlocal unmet
        for use in all_uses(USES, seed):
            answer = passed(use.request)
            met.update(use_events(use))
            unmet += not is_met(use, answer.machine)
            yield use.request, answer
    if not dry:
        build(PASSES)
    status = compared(PASSES, pairs(), lambda *pair: None, dry)
    print(f"put to use: {counts(met)}; {unmet} without what is wanted")
    return met_seldom(met, PROMISED_USES, USES, USES) or status or int(unmet > 0)


def main(arguments):
    """Reads the arguments; see the head of this file."""
    options = read_arguments(arguments, COUNT, SEED)
    pairs = all_requests(options.count, options.seed)

    def asked():
        met = Met()
        status = compared(CHAINS, pairs, met.count, options.dry)
        print(f"met: {counts(met.kinds)}")
        used = put_to_use(options.dry, options.seed)
        return met_seldom(met.kinds, PROMISED, options.count, COUNT) or used or status

    return run(CHAINS, options, asked, pairs, answered)


if __name__ == "__main__":
    sys.exit(main(sys.argv[1:]))
