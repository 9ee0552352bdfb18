"""Compares all pairs of orders of few generators in every role, called from C, with the reference, and tries them.

    python3 tests/roles.py [--dry] [--fault NAME] [COUNT] [SEED]

Run from the repository root. Machines are those of the older text. Each generator below T is
idle, waits, adds in one of three ways or reads, on one of two words, feeds one of two DACs, or
writes. For T 2 and 3 every setting of roles is taken, for T 4 COUNT of them at random; other
modes, GFM and the free bits of GN are drawn. Builds tests/roles.c with include/karvelorn.h and
the library for C (which it has rt make where it is missing or older than the code).
Of every pair of orders the point and the place must be the reference's; passes by equal orders
from contents at random must end alike, and the library's own contents must part every other pair.
With --fault the reference has one fault of reference/faults.py on: the comparison must fail. With
--dry nothing is built or asked: it says what the requests met.
"""

import struct
import sys
from collections import Counter
from itertools import combinations, permutations, product
from typing import NamedTuple

# First, since it makes the reference known.
from library import Test, compared, counts, met_seldom, packed, read_arguments, run

from reference import layout
from reference.machine import fresh_machine, put_update_ticks
from reference.orders import POINTS
from reference.parts import differing
from texts import OLD_TEXT, Chance

COUNT, SEED = 1100, 10
HEAD, NUMBERS = struct.Struct("<2I"), struct.Struct("<3I")

# Each role: the run mode as 1978 has it, the sum word and the DAC.
WORDS, DACS = (0, 1), (0, 1)
ROLES = (
    (layout.INACTIVE, 0, 0), (layout.WAIT, 0, 0), (layout.WRITE_DATA, 0, 0),
    *product((layout.RUNNING_A, layout.RUNNING_B, layout.RUNNING_C, layout.READ_DATA), WORDS, (0,)),
    *((layout.WRITE_DAC, 0, dac) for dac in DACS),
)

# How often each kind is met at least, with COUNT settings of T 4: all settings of T 2 and 3.
PROMISED = {
    "settings of T 2": 169, "settings of T 3": 2197, "pairs of T 2": 169, "pairs of T 3": 32955,
    "pairs of T 4": 300000, "equal": 200000, "T 3, equal": 26684,
    **{f"T 3, point {point}": times for point, times in ((1, 468), (2, 672), (3, 339), (4, 4792))},
    **{f"point {point}": 4000 for point in (1, 2, 3, 4)},
}


class Request(NamedTuple):
    """What is asked: a number to draw by, a machine, and its roles for people."""

    drawn: int
    machine: list
    name: str


class Answer(NamedTuple):
    """What is answered: the point and place of each pair; the largest number; how many equal pairs
    did not end alike, and how many others were not parted."""

    pairs: list
    refused: int
    unlike: int
    not_parted: int


# Requests

def machine_of(chance, roles):
    """A machine whose generators have these roles, with any other modes."""
    machine, text = fresh_machine(), chance.text
    machine[layout.T] = len(roles)
    put_update_ticks(machine)
    for g, (mode, word, dac) in enumerate(roles):
        at = layout.generator_at(g)
        machine[at + layout.GMODE] = text.modes(chance.randrange(4),
                                                chance.choice(text.oscillator_modes))
        machine[at + layout.GSUM] = word
        machine[at + layout.GFM] = chance.choice((0, 1, 64, 65, chance.randrange(128)))
        machine[at + layout.GN] = chance.getrandbits(11)
        text.put_dac(machine, at, dac)
        text.put_mode(chance, machine, at, mode)
    return machine


def all_roles(chance, count):
    """Every setting of two and of three roles, then so many of four."""
    for t in (2, 3):
        yield from product(ROLES, repeat=t)
    for _ in range(count):
        yield chance.choices(ROLES, k=4)


def answered(request):
    """The reference's answer."""
    machine, text = request.machine, OLD_TEXT.reference
    orders = permutations(range(machine[layout.T]))
    found = [[point(machine, order, text) for point in POINTS] for order in orders]
    return Answer([first_failing(*pair) for pair in combinations(found, 2)], 0, 0, 0)


def first_failing(one, other):
    """The first point that fails and its lowest place, by what all points give for two orders."""
    for number, (a, b) in enumerate(zip(one, other), 1):
        if a != b:
            return number, differing(a, b)[0]
    return 0, 0


def all_requests(count, seed):
    """All requests, each with the reference's answer."""
    chance = Chance(seed, OLD_TEXT)
    for number, roles in enumerate(all_roles(chance, count)):
        name = " ".join(f"{mode:04b}/{word}/{dac}" for mode, word, dac in roles)
        request = Request(number + 1, machine_of(chance, roles), name)
        yield request, answered(request)


# Requests and answers as bytes

def request_bytes(request):
    """A request as the program reads it."""
    return HEAD.pack(request.drawn, len(request.machine)) + packed(request.machine)


def answer_bytes(answer):
    """An answer as the program writes it."""
    return bytes(point << 4 | place for point, place in answer.pairs) + NUMBERS.pack(*answer[1:])


def show(request, expected, got):
    """One difference with its request."""
    good = answer_bytes(expected)
    if len(got) != len(good):
        print("  the program gave no whole answer")
        return
    orders = list(combinations(permutations(range(request.machine[layout.T])), 2))
    for (first, second), a, b in zip(orders, good, got):
        if a != b:
            print(f"  {first} and {second}: reference {divmod(a, 16)}, program {divmod(b, 16)}")
    refused, unlike, not_parted = NUMBERS.unpack(got[-NUMBERS.size:])
    print(f"  largest number {refused}, {unlike} equal pairs end otherwise, {not_parted} not parted")


ALL_ROLES = Test("roles", request_bytes, answer_bytes, show, OLD_TEXT)


def events(request, answer):
    """All that is counted of a request."""
    t = request.machine[layout.T]
    yield f"settings of T {t}"
    for point, _ in answer.pairs:
        kind = f"point {point}" if point else "equal"
        yield kind
        yield f"T {t}, {kind}"
        yield f"pairs of T {t}"


def main(arguments):
    """Reads the arguments; see the head of this file."""
    options = read_arguments(arguments, COUNT, SEED)
    pairs, met = all_requests(options.count, options.seed), Counter()

    def ask_all():
        status = compared(ALL_ROLES, pairs, lambda *pair: met.update(events(*pair)), options.dry)
        print(f"met: {counts(met)}")
        return met_seldom(met, PROMISED, options.count, COUNT) or status

    return run(ALL_ROLES, options, ask_all, pairs, answered)


if __name__ == "__main__":
    sys.exit(main(sys.argv[1:]))
