"""Compares whole passes, called from C, with the reference.

    python3 tests/passes.py [--text old] [--dry] [--fault NAME] [COUNT] [SEED]

Run from the repository root. With --text old the passes are those of the older text. Builds tests/passes.c with include/karvelorn.h and
the library for C (which it has rt make where it is missing or older than the
code) and compares each answer, the marks of sum words that clipped over, each word of the
machine, each written place and each word of delay memory. Fails too where the requests met
something too seldom. With --fault the reference has one fault of reference/faults.py on:
the comparison must fail. With --dry nothing is built or asked: it says what the requests
met, and with --fault in how many answers the fault shows.
"""

import struct
import sys
from collections import Counter

from library import (Test, compared, counts, machine_differences, met_seldom, packed,
                     read_arguments, run, show_words, unpacked)

from count_requests import OTHER_COUNT
from delay_requests import Echoes, delay_events, question_events
from pass_requests import EQUAL, EVERY, LOUD, PASS, Answer, all_requests, answered
from reference import layout
from reference import old_layout as old
from reference.machine import generator_column, generator_words, modifier_column
from texts import NEW_TEXT, OLD_TEXT

COUNT, SEED = 21000, 1978
HEAD, COUNTS = struct.Struct("<8I"), struct.Struct("<IQQ")
# So many changed words of delay memory are in an answer: there are 32 units.
CHANGED = layout.DELAY_UNITS

# How often each kind is met at least, in COUNT requests, by every text.
SHARED = {
    "passes": 20000,
    # Sum words that clipped over.
    "several words marked": 600, "equal orders, other marks": 150,
    "10 by too few words": 100, "10 by too many words": 75, "10 by a word too wide": 200,
}
PROMISED_OLD = {
    **SHARED, "passes done": 9000, "values of T": 180,
    "counter above 20 bits": 2000, "counter leaves 20 bits": 50, "counter from 2^32-1 to 0": 50,
    "large partials": 4000, "large partials, marked": 1500, "passes marked": 2500,
    "a word with a 0111 marked": 500, "equal orders": 500,
    # Every GMODE and MMODE that is built, in a turn; every word damaged; all orders.
    "GMODEs taken": 164, "MMODEs taken": 240, "words damaged": 4343,
    "orders of 1": 1, "orders of 2": 2, "orders of 3": 6, "orders of 4": 24,
    "triggered from two below": 300, "101 that stopped": 1000, "DACs fed": 5000,
    "items written": 5000, "items read": 5000,
    **{f"refused by {number}": least for number, least in
       ((1, 250), (2, 4800), (5, 100), (6, 100), (7, 100), (8, 60), (10, 500))},
    "refused by 2 for a delay unit": 80, "refused by 2 for the count": 100,
    "done, though 1978 would ask 11": 300, "done, though 1978 would ask 12": 600,
}
PROMISED = {
    **SHARED, "passes done": 12000, "values of T": 200, "delay memory changed": 5000,
    "turns in 0100 that are heard": 20000,
    "counter above 20 bits": 4000, "counter leaves 20 bits": 100, "counter from 2^32-1 to 0": 100,
    # Sum words that clipped over: in a third of the passes with large partials.
    "large partials": 6000, "large partials, marked": 2500, "passes marked": 4500,
    "several words marked": 1000, "a word with a 0111 marked": 800,
    "equal orders": 800, "equal orders, other marks": 200,
    # Units that are named.
    "line": 9000, "table": 4000, "rounded table": 4000, "inactive unit": 4000,
    "unit out of range": 8000, "unit named above T div 2 too": 5000,
    "line, a word given": 8000, "table, a word given": 4000, "rounded table, a word given": 4000,
    "line, a word came back": 3000, "line of one slot": 1500, "line, Y from Z to 0": 3000,
    "line, slot of another": 300, "table, address past the end": 2000,
    "table, answer of this pass": 60, "rounded table, rounded up": 1500,
    "rounded table, shift 0 and a low bit": 400,
    # Units that are not.
    "unit that no modifier names": 2000, "line that doesn't fit, not named": 400,
    # Refusals, by one question and by several.
    **{f"refused by {number}": least for number, least in
       ((1, 400), (2, 1000), (5, 200), (6, 200), (7, 150), (8, 80), (10, 1000), (11, 500),
        (12, 600))},
    "refused by 2 for a delay unit": 150, "refused by 2 for the count": 200,
    "10 by too few words": 200, "10 by too many words": 150,
    "10 by a word too wide": 400, "11 by X and Z": 150, "11 by Y and Z": 150,
    "12 of a line": 100, "12 of a table": 40, "12 of a rounded table": 40,
    "12 of a unit that acts as inactive": 200,
    "10 with 11": 40, "10 with 12": 100, "11 with 12": 40, "10 with 11 with 12": 50,
    "10 after another": 100, "11 after another": 40, "12 after another": 60,
}


# Requests and answers as bytes

def request_bytes(request):
    """A request as the program reads it."""
    runs, (length, fill, others) = request[1:5], request.memory
    slots = [word for pair in sorted(others.items()) for word in pair]
    head = HEAD.pack(request.operation, *map(len, runs), length, fill, len(others))
    return head + b"".join(map(packed, runs)) + packed(slots)


def changed_bytes(changed):
    """The changed words of delay memory: how many, then pairs of slot and word, filled up by 0."""
    pairs = [word for pair in changed[:CHANGED] for word in pair]
    return packed([len(changed), *pairs, *[0] * (2 * CHANGED - len(pairs))])


def answer_bytes(answer):
    """An answer as the program writes it."""
    return (COUNTS.pack(*answer[:3]) + bytes(answer.clipped) + packed(answer.machine)
            + packed(answer.places) + changed_bytes(answer.changed))


def answer_in(got, expected):
    """The answer in the program's bytes, by the lengths of the expected one; None if cut short."""
    marks_end = COUNTS.size + layout.QUADRANT_WORDS
    if len(got) < marks_end or len(got) != len(answer_bytes(expected)):
        return None
    words, length = unpacked(got[marks_end:]), len(expected.machine)
    places_end = length + len(expected.places)
    count, *pairs = words[places_end:]
    changed = list(zip(pairs[0::2], pairs[1::2]))[:count]
    return Answer(*COUNTS.unpack(got[:COUNTS.size]), list(got[COUNTS.size:marks_end]),
                  words[:length], words[length:places_end], changed)


def memory_differences(expected, got):
    """The words of delay memory that differ, among those that either says have changed."""
    one, other = dict(expected), dict(got)
    return [(f"slot {slot} of delay memory, changed", one.get(slot, "not"), other.get(slot, "not"))
            for slot in sorted({*one, *other}) if one.get(slot) != other.get(slot)]


def show(request, expected, got):
    """One difference with its request."""
    machine = request.machine
    t = machine[layout.T] if len(machine) > layout.T else "none"
    print(f"  T {t}, order {request.order}\n  items {request.items}\n  places {request.places}")
    print(f"  delay memory of {request.memory.length} words")
    answer = answer_in(got, expected)
    if answer is None:
        print("  the program gave no whole answer")
        return
    for title, given in (("reference", expected), ("program", answer)):
        print(f"  {title}: number {given.number}, read {given.read}, written {given.written}, "
              f"{len(given.changed)} words of delay memory changed")
    show_words(machine_differences(machine, expected.machine, answer.machine)
               + [(f"mark of word {i}", a, b)
                  for i, (a, b) in enumerate(zip(expected.clipped, answer.clipped)) if a != b]
               + [(f"written place {i}", a, b)
                  for i, (a, b) in enumerate(zip(expected.places, answer.places)) if a != b]
               + memory_differences(expected.changed, answer.changed))


PASSES = Test("passes", request_bytes, answer_bytes, show)


# What the requests met

def memory_fault(memory):
    """What is wrong with a delay memory, if anything is."""
    if memory.length != layout.MEMORY_WORDS:
        return "too few words" if memory.length < layout.MEMORY_WORDS else "too many words"
    wide = any(word >> layout.MEMORY_WIDTH for word in memory.others.values())
    return "a word too wide" if wide else None


def delay_questions(request):
    """Which of 10, 11 and 12 would be answered no, each by itself."""
    machine = request.machine
    failed = [10] if memory_fault(request.memory) else []
    if len(machine) == layout.MACHINE_WORDS and 1 <= machine[layout.T] <= layout.T_MOST:
        events = list(question_events(machine))
        failed += [number for number in (11, 12)
                   if any(event.startswith(str(number)) for event in events)]
    return failed


def cosines_heard(machine):
    """How many generators below T are in 0100 and have their P go to a sum word."""
    gmodes = generator_column(machine, layout.GMODE)[:machine[layout.T]]
    return sum(layout.oscillator_mode(gmode) == layout.SUM_OF_COSINES
               and layout.RUN_MODES[layout.run_mode(gmode)].envelope for gmode in gmodes)


def counter_events(counter):
    """What is counted of the pass counter."""
    if counter >> 20:
        yield "counter above 20 bits"
    if counter == (1 << 20) - 1:
        yield "counter leaves 20 bits"
    if counter == (1 << 32) - 1:
        yield "counter from 2^32-1 to 0"


def clip_events(request, answer):
    """What is counted of the marks of a pass that was done."""
    marked = sum(answer.clipped)
    if request.name in (LOUD, EQUAL):
        yield "large partials"
        if marked:
            yield "large partials, marked"
    if marked:
        yield "passes marked"
    if marked > 1:
        yield "several words marked"
    machine = request.machine
    generators = (generator_words(machine, g) for g in range(machine[layout.T]))
    read = {words[layout.GSUM] for words in generators if request.text.reference.reads(words)}
    if any(answer.clipped[word] for word in read):
        yield "a word with a 0111 marked"


def changed_modes(before, after):
    """What is counted of each generator in 100 or 101 whose run mode changed."""
    for one, other in zip(before, after):
        if one != other:
            told = old.run_mode(one) == old.WAIT
            yield "triggered from two below" if told else "101 that stopped"


def old_events(request, answer):
    """What is counted of a pass by the older text that was done, each with how often."""
    machine, t, text = request.machine, request.machine[layout.T], request.text.reference
    before, after = (generator_column(run, layout.GMODE)[:t] for run in (machine, answer.machine))
    yield from Counter(changed_modes(before, after)).items()
    yield "DACs fed", sum(text.dac_fed(generator_words(machine, g)) is not None for g in range(t))
    yield "items written", answer.written
    yield "items read", answer.read
    for number in delay_questions(request):
        yield f"done, though 1978 would ask {number}", 1


class Met:
    """Counts what the requests met."""

    def __init__(self):
        self.kinds, self.ticks = Counter(), Counter()
        self.units, self.echoes, self.equal = [], Echoes(), None
        # What is counted once, by its kind.
        self.once = {"GMODEs taken": set(), "MMODEs taken": set(), "words damaged": set()}

    def count(self, request, answer):
        """Counts a request with its answer."""
        if request.operation != PASS:
            self.kinds["fresh machines"] += 1
            return
        self.kinds["passes"] += 1
        if answer.number:
            self.count_refused(request, answer.number)
            return
        machine = request.machine
        self.kinds["passes done"] += 1
        self.kinds.update(counter_events(machine[layout.COUNTER]))
        self.ticks[machine[layout.T]] += 1
        self.kinds.update(clip_events(request, answer))
        if self.equal:
            self.kinds["equal orders"] += 1
            self.kinds["equal orders, other marks"] += answer.clipped != self.equal.clipped
        self.equal = answer if request.name == EQUAL else None
        if request.text is OLD_TEXT:
            self.count_old(request, answer)
        else:
            self.count_delays(request, answer)

    def count_old(self, request, answer):
        """Counts what a pass by the older text met."""
        machine, t = request.machine, request.machine[layout.T]
        for event, times in old_events(request, answer):
            self.kinds[event] += times
        self.once["GMODEs taken"].update(generator_column(machine, layout.GMODE)[:t])
        self.once["MMODEs taken"].update(modifier_column(machine, layout.MMODE)[:t // 2])
        if request.name.startswith("all orders"):
            self.once.setdefault(f"orders of {t}", set()).add(tuple(request.order))

    def count_delays(self, request, answer):
        """Counts what delay units and sums of cosines met."""
        machine, after = request.machine, answer.machine
        self.kinds["delay memory changed"] += bool(answer.changed)
        self.kinds["turns in 0100 that are heard"] += cosines_heard(machine)
        self.kinds.update(delay_events(machine, after))
        if request.name != EQUAL:
            self.count_echoes(machine, after)

    def count_echoes(self, machine, after):
        """Counts the words that came back, where the delay units are those that a pass left."""
        if machine[layout.DELAY_UNITS_AT:] != self.units:
            self.echoes = Echoes()
        self.kinds["line, a word came back"] += self.echoes.came_back(machine, after)
        self.units = after[layout.DELAY_UNITS_AT:]

    def count_refused(self, request, number):
        """Counts a refused pass: by which question, and which of 10, 11, 12 it fails as well."""
        self.kinds[f"refused by {number}"] += 1
        if request.name.startswith(EVERY):
            self.once["words damaged"].add(request.name)
        self.kinds["refused by 2 for a delay unit"] += number == 2 and "delay unit" in request.name
        self.kinds["refused by 2 for the count"] += request.name.startswith(OTHER_COUNT)
        if number == 10:
            self.kinds["10 by " + memory_fault(request.memory)] += 1
        if number in (11, 12):
            self.kinds.update(event for event in question_events(request.machine)
                              if event.startswith(str(number)))
        failed = delay_questions(request)
        if len(failed) > 1 and number >= 10:
            self.kinds[" with ".join(map(str, failed))] += 1
        for later in failed:
            self.kinds[f"{later} after another"] += number < 10


def main(arguments):
    """Reads the arguments; see the head of this file."""
    options = read_arguments(arguments, COUNT, SEED)
    test, pairs = PASSES.by(options), all_requests(options.count, options.seed, options.text)
    promised = PROMISED if options.text is NEW_TEXT else PROMISED_OLD

    def asked():
        met = Met()
        status = compared(test, pairs, met.count, options.dry)
        met.kinds["values of T"] = len(met.ticks)
        met.kinds.update({kind: len(found) for kind, found in met.once.items()})
        print(f"met: {counts(met.kinds)}\nT from {min(met.ticks)} to {max(met.ticks)}")
        return met_seldom(met.kinds, promised, options.count, COUNT) or status

    return run(test, options, asked, pairs, answered)


if __name__ == "__main__":
    sys.exit(main(sys.argv[1:]))
