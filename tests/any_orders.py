"""Compares what karvelorn_any_order says, called from C, with the reference and with compares.

    python3 tests/any_orders.py [--dry] [--fault NAME] [COUNT] [SEED]

Run from the repository root. Builds tests/any_orders.c with include/karvelorn.h and
the library for C (which it has rt make where it is missing or older than the
code). Each number and each yes or no must be the reference's, and the machine must stay as
it was. On machines with T at most 4 every pair of orders is compared by the library too:
all are equal exactly where the answer is yes. Fails too where the requests met something
too seldom. With --fault the reference has one fault of reference/faults.py on: the
comparison must fail. With --dry nothing is built or asked: it says what the requests met,
tries some pairs of orders on the reference, and with --fault says in how many answers the
fault shows.
"""

import struct
import sys
from collections import Counter

# First, since it makes the reference known.
from library import Test, compared, counts, met_seldom, packed, read_arguments, run

from any_order_requests import (ADDING, FEW, NEXT, TRIGGERING, Answer, all_requests, asked,
                                mode_at, setting)
from count_requests import OTHER_COUNT
from reference import layout
from reference.any_order import CLAUSES, every_two_orders_agree, failing, reader_words

COUNT, SEED = 21000, 1978
HEAD, NUMBERS = struct.Struct("<2I"), struct.Struct("<4I")
TRIED = 25

# How often each kind is met at least, in COUNT machines.
PROMISED = {
    "machines": 21000, "yes": 6000, "no": 6000, "refused by 1": 400, "refused by 2": 1200,
    "refused by 2 for the count": 200,
    "values of T": 256, "T 1": 800, "T 2": 1500, "T 256": 800, "T 256, yes": 300, "T 256, no": 400,
    **{f"{clause} alone fails": 1000 for clause in CLAUSES},
    "several clauses fail": 300,
    # All pairs of orders.
    "few generators, all pairs compared": 8000, "few generators, yes": 3000,
    **{f"few generators, {clause} alone fails": 500 for clause in CLAUSES},
    # What must count, and what must not.
    **{f"yes, though with a higher T {clause} would fail": 500 for clause in CLAUSES},
    "yes, T-1 can trigger and T waits": 1000, "yes, 0 waits and 255 can trigger": 1000,
    "yes, 0 waits and 255 can trigger, T 256": 60,
    "yes, a reader and adding ones on other words": 500,
    "yes, a reader and others that don't add on its word": 500,
    "yes, two DACs through two GFMs": 300, "yes, a DAC fed twice": 500,
    "yes, a DAC fed twice with few generators": 200,
    "yes, two writers": 500, "yes, two writers with few generators": 200,
    "waiting pair alone fails, 1110": 300, "waiting pair alone fails, 1101": 300,
    "readers alone fails, on one word": 300, "readers alone fails, on two words": 300,
    **{f"adding alone fails, {mode:04b}": 200 for mode in ADDING},
    "feeders alone fails, one DAC by two GOs": 400,
    "feeders alone fails, GFMs of one word": 60, "writers alone fails, GFMs of one word": 60,
}


def request_bytes(request):
    """A request as the program reads it."""
    return HEAD.pack(request.pairs, len(request.machine)) + packed(request.machine)


def answer_bytes(answer):
    """An answer as the program writes it."""
    return NUMBERS.pack(*answer)


def show(request, expected, got):
    """One difference with its request."""
    machine = request.machine
    t = machine[layout.T] if len(machine) > layout.T else "none"
    print(f"  {len(machine)} words, T {t}")
    if not expected.number:
        print(f"  clauses that fail: {', '.join(failing(machine)) or 'none'}")
    if len(got) != NUMBERS.size:
        print("  the program gave no whole answer")
        return
    for title, given in (("reference", expected), ("program", Answer(*NUMBERS.unpack(got)))):
        print(f"  {title}: number {given.number}, yes {given.yes}; {given.pairs} pairs of orders "
              f"compared, all equal {given.all_equal}")


ANY_ORDERS = Test("any_orders", request_bytes, answer_bytes, show)


# What the requests met

def in_modes(machine, modes):
    """The generators below T in some run modes."""
    return [g for g in range(machine[layout.T]) if mode_at(machine, g) in modes]


def sources_by_dac(machine):
    """The GFMs of the feeders of each DAC."""
    sources = {}
    for g in in_modes(machine, (layout.WRITE_DAC,)):
        dac = setting(machine, g, layout.GO) % layout.DACS
        sources.setdefault(dac, []).append(setting(machine, g, layout.GFM))
    return sources


def triggers_at(machine, g):
    """Whether a generator, below T or not, can trigger."""
    return mode_at(machine, g) in TRIGGERING


def yes_events(machine):
    """What is counted where all orders are equal."""
    t, last = machine[layout.T], layout.GENERATORS - 1
    longer = list(machine)
    longer[layout.T] = min(t + NEXT, layout.T_MOST)
    yield from (f"though with a higher T {clause} would fail" for clause in failing(longer))
    if t <= last and triggers_at(machine, t - 1) and mode_at(machine, t) == layout.WAIT:
        yield "T-1 can trigger and T waits"
    if mode_at(machine, 0) == layout.WAIT and triggers_at(machine, last):
        yield "0 waits and 255 can trigger" + (", T 256" if t > last else "")
    if read := reader_words(machine):
        if in_modes(machine, ADDING):
            yield "a reader and adding ones on other words"
        if sum(setting(machine, g, layout.GSUM) in read for g in range(t)) > 1:
            yield "a reader and others that don't add on its word"
    fed = list(sources_by_dac(machine).values())
    if len({gfm for sources in fed for gfm in sources}) > 1:
        yield "two DACs through two GFMs"
    few = " with few generators" if t <= FEW else ""
    if any(len(sources) > 1 for sources in fed):
        yield "a DAC fed twice" + few
    if len(in_modes(machine, (layout.WRITE_DATA,))) > 1:
        yield "two writers" + few


def of_one_word(gfms):
    """Whether GFMs differ in their quadrant alone."""
    return len(set(gfms)) == 2 and len(set(map(layout.sum_address, gfms))) == 1


def waiting_pair_events(machine):
    """Which run mode the lower neighbours are in."""
    for g in in_modes(machine, (layout.WAIT,)):
        if g > 0 and triggers_at(machine, g - 1):
            yield f"{mode_at(machine, g - 1):04b}"


def feeder_events(machine):
    """Whether a DAC is named by two GOs, and whether GFMs differ in their quadrant."""
    sources = sources_by_dac(machine)
    dacs = {dac for dac, gfms in sources.items() if len(set(gfms)) > 1}
    named = {setting(machine, g, layout.GO) for g in in_modes(machine, (layout.WRITE_DAC,))
             if setting(machine, g, layout.GO) % layout.DACS in dacs}
    if len(named) > len(dacs):
        yield "one DAC by two GOs"
    if any(of_one_word(sources[dac]) for dac in dacs):
        yield "GFMs of one word"


def writer_events(machine):
    """Whether GFMs differ in their quadrant."""
    writers = in_modes(machine, (layout.WRITE_DATA,))
    if of_one_word([setting(machine, g, layout.GFM) for g in writers]):
        yield "GFMs of one word"


def reader_events(machine):
    """On how many words the readers are."""
    words = len(set(reader_words(machine)))
    yield {1: "on one word", 2: "on two words"}.get(words, "on more words")


def adding_events(machine):
    """The run modes that add to the read word."""
    read = reader_words(machine)
    on_it = [g for g in in_modes(machine, ADDING) if setting(machine, g, layout.GSUM) in read]
    yield from {f"{mode_at(machine, g):04b}" for g in on_it}


EVENTS = dict(zip(CLAUSES, (waiting_pair_events, feeder_events, writer_events, reader_events,
                            adding_events)))


def no_events(machine):
    """What is counted where orders are unequal: the clause that alone fails, and how it does."""
    clause, *others = failing(machine)
    if others:
        yield "several clauses fail"
        return
    yield f"{clause} alone fails"
    yield from (f"{clause} alone fails, {event}" for event in set(EVENTS[clause](machine)))
    if machine[layout.T] <= FEW:
        yield f"few generators, {clause} alone fails"


def events(request, answer):
    """All that is counted of a request."""
    yield "machines"
    if answer.number:
        yield f"refused by {answer.number}"
        if request.name.startswith(OTHER_COUNT) and answer.number == 2:
            yield "refused by 2 for the count"
        return
    says, t = "yes" if answer.yes else "no", request.machine[layout.T]
    yield says
    if t in (1, 2, 256):
        yield f"T {t}"
        yield f"T {t}, {says}"
    if request.pairs:
        yield "few generators, all pairs compared"
        yield f"few generators, {says}"
    if answer.yes:
        yield from ("yes, " + event for event in yes_events(request.machine))
    else:
        yield from no_events(request.machine)


class Met:
    """Counts what the requests met; in a dry run the reference tries some pairs of orders."""

    def __init__(self, dry):
        self.kinds, self.ticks, self.dry, self.bad = Counter(), Counter(), dry, 0

    def count(self, request, answer):
        """Counts a request with its answer."""
        self.kinds.update(events(request, answer))
        self.kinds["pairs of orders"] += answer.pairs
        if not answer.number:
            self.ticks[request.machine[layout.T]] += 1
        few = "few generators, all pairs compared"
        if self.dry and request.pairs and self.kinds[few] % TRIED == 0:
            self.kinds["all pairs tried on the reference"] += 1
            if every_two_orders_agree(request.machine) != bool(answer.yes):
                print(f"all pairs of orders on the reference say otherwise of {request.name}")
                self.bad = 1


def answered(request):
    """The reference's answer to a request."""
    return asked(request.machine, request.name)[1]


def main(arguments):
    """Reads the arguments; see the head of this file."""
    options = read_arguments(arguments, COUNT, SEED)
    pairs = all_requests(options.count, options.seed)

    def ask_all():
        met = Met(options.dry)
        status = compared(ANY_ORDERS, pairs, met.count, options.dry) or met.bad
        met.kinds["values of T"] = len(met.ticks)
        print(f"met: {counts(met.kinds)}\nT from {min(met.ticks)} to {max(met.ticks)}")
        return met_seldom(met.kinds, PROMISED, options.count, COUNT) or status

    return run(ANY_ORDERS, options, ask_all, pairs, answered)


if __name__ == "__main__":
    sys.exit(main(sys.argv[1:]))
