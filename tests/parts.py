"""Compares what karvelorn_parts says, called from C, with the reference, and tries what it lends.

    python3 tests/parts.py [--text old] [--dry] [--fault NAME] [COUNT] [SEED]

Run from the repository root. With --text old the machines are those of the older text. Builds tests/parts.c with include/karvelorn.h and
the library for C (which it has rt make where it is missing or older than the
code). Each number, point and place must be the reference's, and compare must say no exactly
where a point is named. From the contents that are lent, passes of the library by the two
orders must run and part over delay memories of zeros, of ones and at random; they must have
the settings of the machine, and items beyond the 0111s must stay. For equal orders and in a
refusal both that are lent must stay. Fails too where the requests met something too seldom.
With --fault the reference has one fault of reference/faults.py on: the comparison must fail.
With --dry nothing is built or asked: it says what the requests met, and tries some of the
reference's own contents; with --fault it says in how many answers the fault shows.
"""

import struct
import sys
from collections import Counter

# First, since it makes the reference known.
from library import Test, compared, counts, met_seldom, packed, read_arguments, run

from count_requests import OTHER_COUNT
from part_requests import Answer, all_requests, tried
from pass_requests import needed_lists
from reference import layout
from reference.orders import register, replaced_words
from reference.parts import failing
from texts import OLD_TEXT

# Of the older text fewer: tests/roles.py has every pair of orders of few generators tried on its contents.
COUNT, COUNT_OLD, SEED = 26000, 10000, 1978
HEAD, NUMBERS = struct.Struct("<6I"), struct.Struct("<10I")
TRIED = 50

# How often each kind is met at least, in COUNT requests: by every text, and by the oscillator modes
# of one.
SHARED = {
    "pairs of good orders": 20000, "equal": 6000, "parted": 9000, "values of T": 150,
    "T 256, parted": 200,
    **{f"point {point}": 800 for point in (1, 2, 3, 4)},
    **{f"point {point}, and a later one fails": 200 for point in (1, 2, 3)},
    **{f"point {point}, and at a higher place too": 200 for point in (1, 2, 3, 4)},
    **{f"point {point}, above place 0": 400 for point in (1, 2, 4)},
    "point 3, above place 0": 250,
    # What point 4 fails by, at its lowest word.
    "another last 0111": 300, "another place of the last 0111": 300, "others add after it": 300,
    "more items than 0111s, parted": 1000,
    # Refusals.
    **{f"refused by {number}": least for number, least in
       ((1, 800), (2, 600), (5, 500), (6, 400), (7, 200))},
    "refused by 2 for the count": 120,
    "1 by the lent run": 800, "1 by the lent run, equal orders": 300,
    "1 by the lent run, unequal orders": 300,
    "7, equal orders": 100, "7, unequal orders": 100,
    "short list that is just enough": 200,
}


def promised(text):
    """What is promised of a text, in as many requests as its test makes."""
    modes = text.oscillator_modes
    whole = {**SHARED, **{f"another last 0111, in {mode:04b}": 30 for mode in modes},
             **{f"others add after it, the lowest in {mode:04b}": 30 for mode in modes}}
    return {kind: least * count_of(text) // COUNT for kind, least in whole.items()}


def count_of(text):
    """How many requests are made of a text."""
    return COUNT_OLD if text is OLD_TEXT else COUNT


def request_bytes(request):
    """A request as the program reads it."""
    runs = request[1:4]
    head = HEAD.pack(request.drawn, *map(len, runs), request.contents_len, request.items_len)
    return head + b"".join(map(packed, runs))


def answer_bytes(answer):
    """An answer as the program writes it."""
    return NUMBERS.pack(*answer)


def show(request, expected, got):
    """One difference with its request."""
    machine = request.machine
    t = machine[layout.T] if len(machine) > layout.T else "none"
    print(f"  T {t}, first {request.first}\n  second {request.second}")
    print(f"  lent: {request.contents_len} words and {request.items_len} items")
    if len(got) != NUMBERS.size:
        print("  the program gave no whole answer")
        return
    for title, given in (("reference", expected), ("program", Answer(*NUMBERS.unpack(got)))):
        named = ", ".join(f"{name} {value}" for name, value in given._asdict().items())
        print(f"  {title}: {named}")


PARTS = Test("parts", request_bytes, answer_bytes, show)


# What the requests met

def oscillator(request, g):
    """The oscillator mode of a generator, as bits."""
    return f"{request.text.oscillator_mode(register(request.machine, g, layout.GMODE)):04b}"


def replaced_events(request, word):
    """What point 4 fails by at a word."""
    one, other = (replaced_words(request.machine, order, request.text.reference)[word]
                  for order in (request.first, request.second))
    if one[0] != other[0]:
        yield "another last 0111"
        yield f"another last 0111, in {oscillator(request, one[0])}"
    elif one[1] != other[1]:
        yield "another place of the last 0111"
    else:
        yield "others add after it"
        yield f"others add after it, the lowest in {oscillator(request, min(one[2] ^ other[2]))}"


def parted_events(request, answer):
    """What is counted of unequal orders."""
    point, failed = answer.point, failing(*request[1:4], request.text.reference)
    yield "parted"
    yield f"point {point}"
    if len(failed) > 1:
        yield f"point {point}, and a later one fails"
    if len(failed[point]) > 1:
        yield f"point {point}, and at a higher place too"
    if answer.place:
        yield f"point {point}, above place 0"
    if point == 4:
        yield from replaced_events(request, answer.place)
    if request.items_len > needed_lists(request.text, request.machine)[0]:
        yield "more items than 0111s, parted"
    if request.machine[layout.T] == layout.T_MOST:
        yield "T 256, parted"


def refused_events(request, answer):
    """What is counted of a refusal."""
    yield f"refused by {answer.number}"
    if request.name.startswith(OTHER_COUNT) and answer.number == 2:
        yield "refused by 2 for the count"
    if answer.compare_number == 0:
        orders = "equal orders" if answer.equal else "unequal orders"
        if answer.number == 1:
            yield "1 by the lent run"
            yield f"1 by the lent run, {orders}"
        else:
            yield f"7, {orders}"


def events(request, answer):
    """All that is counted of a request."""
    if answer.number:
        yield from refused_events(request, answer)
        return
    yield "pairs of good orders"
    if request.name == "short list":
        yield "short list that is just enough"
    if answer.point:
        yield from parted_events(request, answer)
    else:
        yield "equal"


class Met:
    """Counts what the requests met; in a dry run the reference tries some of them."""

    def __init__(self, dry):
        self.kinds, self.ticks, self.dry, self.bad = Counter(), Counter(), dry, 0
        self.asked = 0

    def count(self, request, answer):
        """Counts a request with its answer."""
        self.asked += 1
        self.kinds.update(events(request, answer))
        if not answer.number:
            self.ticks[request.machine[layout.T]] += 1
        if self.dry and self.asked % TRIED == 0:
            self.kinds["tried on the reference"] += 1
            if tried(request) != answer:
                print(f"the reference says {tried(request)} of {request.name}, not {answer}")
                self.bad = 1


def main(arguments):
    """Reads the arguments; see the head of this file."""
    options = read_arguments(arguments, None, SEED)
    options = options._replace(count=options.count or count_of(options.text))
    test, pairs = PARTS.by(options), all_requests(options.count, options.seed, options.text)

    def ask_all():
        met = Met(options.dry)
        status = compared(test, pairs, met.count, options.dry) or met.bad
        met.kinds["values of T"] = len(met.ticks)
        print(f"met: {counts(met.kinds)}\nT from {min(met.ticks)} to {max(met.ticks)}")
        return met_seldom(met.kinds, promised(options.text), options.count, count_of(options.text)) or status

    return run(test, options, ask_all, pairs, tried)


if __name__ == "__main__":
    sys.exit(main(sys.argv[1:]))
