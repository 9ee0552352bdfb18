"""Compares compares, called from C, with the reference, and tries what they say on passes.

    python3 tests/compares.py [--text old] [--dry] [COUNT] [SEED]

Run from the repository root. With --text old the machines are those of the older text. Builds tests/compares.c with include/karvelorn.h and
the library for C (which it has rt make where it is missing or older than the
code). Each answer must be the reference's. Where it is yes, passes of the library by
the two orders from contents at random must end alike, delay memory too; where it is no,
they must differ from contents that are made to part the two orders, but not in delay
memory, which no generator touches. Fails too where the requests met something too seldom.
With --dry nothing is built or asked: it says what the requests met, and tries some of the
contents that part orders on the reference.
"""

import struct
import sys
from collections import Counter

# First, since it makes the reference known.
from library import Test, build, compared, counts, met_seldom, packed, read_arguments

from compare_requests import COMPARE, Answer, all_requests, tried
from count_requests import OTHER_COUNT
from reference import layout
from reference.delay import units_refusal
from reference.parts import failing
from texts import NEW_TEXT

COUNT, SEED = 20000, 1978
HEAD, NUMBERS = struct.Struct("<7I"), struct.Struct("<5I")
TRIED = 50

# How often each kind is met at least, in COUNT compares, by every text.
SHARED = {
    "compares": 20000, "yes": 7000, "no": 3000, "values of T": 120, "pairs of passes": 80000,
    **{f"refused by {number}": least for number, least in
       ((1, 120), (2, 700), (5, 1200), (6, 1000))},
    "refused by 2 for the count": 120,
    **{f"point {point} alone fails": 200 for point in (1, 2, 3, 4)}, "parted": 3000,
}
# By the text of 1978, whose machines have delay units.
PROMISED = {
    **SHARED, "a pass would be refused by 11 or 12": 1000, "pairs of passes with delay units": 20000,
    "parted with delay units": 1000,
}


def request_bytes(request):
    """A request as the program reads it."""
    runs = request[3:7]
    head = HEAD.pack(*request[:3], *map(len, runs))
    return head + b"".join(map(packed, runs))


def answer_bytes(answer):
    """An answer as the program writes it."""
    return NUMBERS.pack(*answer)


def show(request, expected, got):
    """One difference with its request."""
    t = request.machine[layout.T] if len(request.machine) > layout.T else "none"
    print(f"  T {t}, first {request.first}\n  second {request.second}")
    if len(got) != NUMBERS.size:
        print("  the program gave no whole answer")
        return
    for title, given in (("reference", expected), ("program", Answer(*NUMBERS.unpack(got)))):
        print(f"  {title}: number {given.number}, equal {given.equal}; of "
              f"{max(request.contents, 1)} pairs of passes {given.alike} end alike and "
              f"{given.same_memory} in the same delay memory, which "
              f"{'changed' if given.memory_changed else 'did not change'}")


COMPARES = Test("compares", request_bytes, answer_bytes, show)


# What the requests met

def events(request, answer):
    """All that is counted of a request, each with how often it is counted."""
    if request.operation != COMPARE:
        yield "parted", 1
        yield "parted with delay units", answer.memory_changed
        return
    yield "compares", 1
    yield "pairs of passes", answer.alike
    yield "pairs of passes with delay units", answer.alike * answer.memory_changed
    if answer.number:
        yield f"refused by {answer.number}", 1
        yield "refused by 2 for the count", request.name.startswith(OTHER_COUNT)
        return
    yield "yes" if answer.equal else "no", 1
    yield "a pass would be refused by 11 or 12", units_refusal(request.machine) != 0
    points = failing(request.machine, request.first, request.second, request.text.reference)
    if points:
        ending = " alone fails" if len(points) == 1 else " fail"
        yield "point " + " and ".join(map(str, points)) + ending, 1


class Met:
    """Counts what the requests met; in a dry run the reference tries some of them."""

    def __init__(self, dry):
        self.kinds, self.ticks, self.dry, self.bad = Counter(), Counter(), dry, 0

    def count(self, request, answer):
        """Counts a request with its answer."""
        for event, times in events(request, answer):
            self.kinds[event] += times
        if request.operation == COMPARE and not answer.number:
            self.ticks[request.machine[layout.T]] += 1
        if self.dry and request.operation != COMPARE and self.kinds["parted"] % TRIED == 0:
            self.kinds["parted, tried on the reference"] += 1
            if tried(request) != answer:
                print(f"the reference says {tried(request)} of {request.name}, not {answer}")
                self.bad = 1


def main(arguments):
    """Reads the arguments; see the head of this file."""
    options = read_arguments(arguments, COUNT, SEED)
    test, met = COMPARES.by(options), Met(options.dry)
    pairs = all_requests(options.count, options.seed, options.text)
    promised = PROMISED if options.text is NEW_TEXT else SHARED

    if not options.dry:
        build(test)
    status = compared(test, pairs, met.count, options.dry) or met.bad
    met.kinds["values of T"] = len(met.ticks)
    print(f"met: {counts(met.kinds)}\nT from {min(met.ticks)} to {max(met.ticks)}")
    return met_seldom(met.kinds, promised, options.count, COUNT) or status


if __name__ == "__main__":
    sys.exit(main(sys.argv[1:]))
