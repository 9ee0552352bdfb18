"""Rings two orders throughout, called from C, where no generator below T waits or can come to wait.

    python3 tests/ringings.py [--text old] [COUNT] [SEED]

Run from the repository root. Builds tests/ringings.c with include/karvelorn.h and the library for C (which it
has rt make where it is missing or older than the code). The machines and orders are those of tests/compare_requests.py with
no generator below T in 1001 or 1101 (100 or 101 by the older text). Where the reference says that two orders are equal, two
ringings from contents at random with modifiers and delay units, other items in each pass, must leave the same machine, delay
memory and written data after every pass; where it says no, one pass from the contents of parts must part them. The shown
machine of Q-14, with a 1001, must part in its second pass. Fails too where the requests met something too seldom.
"""

import struct
import sys
from collections import Counter
from typing import NamedTuple

# First, since it makes the reference known.
from library import Test, build, compared, counts, met_seldom, packed, read_arguments

from compare_requests import COMPARE, all_requests
from reference import layout
from reference.machine import fresh_machine, put_update_ticks
from texts import NEW_TEXT

COUNT, SEED = 2800, 14
HEAD, NUMBERS = struct.Struct("<6I"), struct.Struct("<5I")
PASSES = (1, 40, 200, 300)
PROMISED = {"equal": 2000, "unequal": 150, "passes": 500000, "values of T": 45}

# Q-14's shown machine: a square that triggers, one that waits for it, and a 0111 on the word of the waiting one.
WOKEN = {5: 1, 6: 16777215, 8: 5, 10: 898, 18: 4095, 21: 578, 32: 450, layout.T: 3}


class Request(NamedTuple):
    """What is asked: how many passes, a number to draw by, whether the machine's own contents are rung, the runs, a name."""

    passes: int
    drawn: int
    own: int
    machine: list
    first: list
    second: list
    name: str


class Answer(NamedTuple):
    """What is answered: compare's number and yes or no, the passes that leave the same, those refused, parted or not."""

    number: int
    equal: int
    same: int
    refused: int
    parted: int


def request_bytes(request):
    """A request as the program reads it."""
    runs = request[3:6]
    return HEAD.pack(*request[:3], *map(len, runs)) + b"".join(map(packed, runs))


def show(request, expected, got):
    """One difference with its request."""
    print(f"  T {request.machine[layout.T]}, {request.passes} passes, first {request.first}\n  second {request.second}")
    print(f"  expected {expected}, the program gave {Answer(*NUMBERS.unpack(got)) if len(got) == NUMBERS.size else got}")


RINGINGS = Test("ringings", request_bytes, lambda answer: NUMBERS.pack(*answer), show)


def waits(machine, text):
    """Whether a generator below T waits or can come to wait."""
    for g in range(machine[layout.T]):
        at = layout.generator_at(g)
        words = machine[at:at + layout.GENERATOR_WORDS]
        if text.reference.waits(words) or stops(words, text):
            return True
    return False


def stops(words, text):
    """Whether a running generator goes back to waiting as it overflows."""
    return words[layout.GMODE] >> 6 == layout.RUNNING_C if text is NEW_TEXT else words[layout.GMODE] >> 5 == 0b101


def requests(count, seed, text):
    """So many pairs of orders to be rung throughout, each with what must be answered; and the shown machine."""
    made = 0
    if text is NEW_TEXT:
        machine = fresh_machine()
        for place, value in WOKEN.items():
            machine[place] = value
        put_update_ticks(machine)
        yield Request(2, 1, 1, machine, [0, 1, 2], [0, 2, 1], "the shown machine"), Answer(0, 1, 1, 0, 0)
    for asked, answer in all_requests(count * 20, seed, text):
        if made == count:
            return
        if asked.operation != COMPARE or answer.number or waits(asked.machine, text):
            continue
        if not answer.equal and made % 2:
            continue  # most of the unequal pairs are tried by tests/compares.py
        passes = PASSES[made % len(PASSES)] if answer.equal else 0
        yield (Request(passes, asked.drawn, 0, asked.machine, asked.first, asked.second, asked.name),
               Answer(0, answer.equal, passes, 0, int(not answer.equal)))
        made += 1


def main(arguments):
    """Reads the arguments; see the head of this file."""
    options = read_arguments(arguments, COUNT, SEED)
    test, met, ticks = RINGINGS.by(options), Counter(), Counter()

    def count(request, answer):
        met["equal" if answer.equal else "unequal"] += 1
        met["passes"] += 2 * request.passes
        ticks[request.machine[layout.T]] += 1

    build(test)
    status = compared(test, requests(options.count, options.seed, options.text), count)
    met["values of T"] = len(ticks)
    print(f"met: {counts(met)}")
    return met_seldom(met, PROMISED, options.count, COUNT) or status


if __name__ == "__main__":
    sys.exit(main(sys.argv[1:]))
