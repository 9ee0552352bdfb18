"""The requests of tests/compares.py: pairs of orders, and passes that try what a compare says.

Settings are drawn for one of the four points or for all of them, so that each point
fails alone now and then. Each request comes with the reference's answer. Where it is
yes, the request also asks for passes from contents at random, which must end alike;
where it is no, passes by the two orders from contents that part them follow. From T 10
on these contents have delay lines at work, which must leave the same delay memory.
"""

from array import array
from typing import NamedTuple
from zlib import crc32

from delay_requests import Memory, invoke, made_word, memory_words, put_unit
from leaf_requests import biased
from pass_requests import (BAD_ORDERS, damaged_machine, good_order, swapped, walked,
                           whole_machine)
from reference import layout
from reference.delay import units_in_time
from reference.machine import put_update_ticks, run_pass
from reference.orders import compare
from reference.parts import parting
from texts import NEW_TEXT, Chance, Text

COMPARE, PASSES = range(2)
CONTENTS = 12


class Request(NamedTuple):
    """What is asked: the operation, a count of contents, a number to draw by, the runs, a name."""

    operation: int
    contents: int
    drawn: int
    machine: list
    first: list
    second: list
    items: list
    name: str
    text: Text = NEW_TEXT


class Answer(NamedTuple):
    """What is answered: the number, and yes or no; how many pairs of passes end alike, how many
    leave the same delay memory, and whether they changed it."""

    number: int
    equal: int
    alike: int
    same_memory: int
    memory_changed: int


# Settings

A, B, C = layout.RUNNING_A, layout.RUNNING_B, layout.RUNNING_C
EVERY = tuple(layout.RUN_MODES)
KINDS = {
    "triggers": (B, C, layout.WAIT),
    "DACs": (layout.WRITE_DAC, layout.WRITE_DAC, layout.WRITE_DAC, A),
    "written": (layout.WRITE_DATA, layout.WRITE_DATA, layout.WRITE_DATA, layout.PAUSE),
    "replaced": (layout.READ_DATA, A, B, C),
    "readers": (layout.READ_DATA, layout.READ_DATA, layout.WRITE_DAC, A),
    "all": EVERY,
    "some": EVERY,
}


def ticks(chance, number):
    """T: every eighth machine takes the next of 1..256, the others have few."""
    if number % 8 == 0:
        return number // 8 * 37 % 256 + 1
    return chance.choice((1, 2, 3, 4, 4, 5, 6, 6, 7, 8, 10, 12, 14, chance.randint(9, 24)))


def shared(chance, limit):
    """The numbers below a limit that are used: few or all, an end of the range among them."""
    used = chance.sample(range(limit), chance.choice((1, 2, 3, 4, limit)))
    used[0] = chance.choice((0, limit - 1))
    return used


def put_settings(chance, machine, t):
    """T, and new settings below T: few words and DACs are shared, or many. Gives their kind."""
    kind = chance.choice(tuple(KINDS))
    modes = KINDS[kind] if kind != "some" else chance.choices(EVERY, k=3)
    words, dacs = shared(chance, 64), shared(chance, 16)
    sources, quadrants = shared(chance, 64), chance.choice(((0,), (64,), (0, 64), (0, 64)))
    machine[layout.T] = t
    put_update_ticks(machine)
    for g in range(t):
        at, text = layout.generator_at(g), chance.text
        mode, envelope = chance.choice(modes), chance.randrange(4)
        machine[at + layout.GMODE] = text.modes(envelope, chance.choice(text.oscillator_modes))
        machine[at + layout.GSUM] = chance.choice(words)
        machine[at + layout.GFM] = chance.choice(quadrants) | chance.choice(sources)
        machine[at + layout.GO] = biased(chance, 20)
        text.put_dac(machine, at, chance.choice(dacs))
        text.put_mode(chance, machine, at, mode)
    return kind


# Pairs of orders

def pairs(chance, machine):
    """Pairs of good orders of a machine, with their names."""
    t = machine[layout.T]
    first = good_order(chance, t)
    far = walked(chance, machine, first)
    yield first, list(first), "the same"
    yield first, far, "exchanges that agree"
    yield first, swapped(chance, far), "one exchange more"
    for _ in range(3):
        yield first, swapped(chance, first), "one exchange"
    for _ in range(6):
        yield first, chance.sample(range(t), t), "at random"


# Refused

def bad(chance, machine, order):
    """The order changed by one of the kinds of bad orders, and its name."""
    change = chance.choice(BAD_ORDERS)
    return change(chance, machine[layout.T], order), change.__name__


def refused_pairs(chance, machine):
    """The first order bad, the second, and both."""
    good = good_order(chance, machine[layout.T])
    (one, its_name), (other, other_name) = (bad(chance, machine, good) for _ in range(2))
    yield one, good, f"first {its_name}"
    yield good, other, f"second {other_name}"
    yield one, other, f"first {its_name}, second {other_name}"


# The whole of the requests

def drawn_by(first, second):
    """The number to draw contents by, which is the orders' own."""
    return crc32(array("I", [*first, *second]).tobytes())


def units_act(machine, text):
    """Whether delay unit 0 acts if it is a line: never by the older text."""
    return int(text is NEW_TEXT and units_in_time(machine[layout.T]) > 0)


def compared(text, machine, first, second, name):
    """A compare with the reference's answer; contents are tried where it says yes."""
    number, equal = compare(machine, first, second, text.reference)
    contents = CONTENTS if equal else 0
    request = Request(COMPARE, contents, drawn_by(first, second), machine, first, second, [], name,
                      text)
    changed = units_act(machine, text) if contents else 0
    return request, Answer(number, int(equal), contents, contents, changed)


def put_changing_line(chance, contents, drawn):
    """Delay unit 0 becomes a line whose next slot holds neither 0 nor 1."""
    while True:
        put_unit(chance, contents, 0, layout.DELAY_LINE)
        x, y = contents[layout.delay_unit_at(0):layout.delay_unit_at(0) + 2]
        if made_word(drawn | 1, x + y) > 1:
            return


def put_delays(chance, contents, drawn):
    """Two modifiers below T div 2 become 00111s: on unit 0, a line that changes its slot, and on 1.

    They send a word of generator-last; in contents that part orders these are 0 or 1."""
    put_changing_line(chance, contents, drawn)
    put_unit(chance, contents, 1, chance.choice(layout.DELAY_MODES[1:]))
    for u, m in enumerate(chance.sample(range(contents[layout.T] // 2), 2)):
        at = layout.modifier_at(m)
        contents[at + layout.L0], contents[at + layout.MIN] = biased(chance, 20), biased(chance, 6)
        invoke(chance, contents, m, u)


def parted(chance, machine, first, second, name):
    """Passes by two unequal orders from contents that part them: no refusal, not alike."""
    text = chance.text
    contents, items = parting(machine, first, second, text.reference)
    drawn = drawn_by(first, second)
    if units_act(contents, text):
        put_delays(chance, contents, drawn)
    request = Request(PASSES, 0, drawn, contents, first, second, items, "parted, " + name, text)
    return request, Answer(0, 0, 0, 1, units_act(contents, text))


def tried(request):
    """The reference's answer to passes that part two orders."""
    words = memory_words(Memory(layout.MEMORY_WORDS, request.drawn | 1, {}))
    places = [0] * layout.GENERATORS
    one, other = (run_pass(request.machine, order, request.items, places, words,
                           request.text.reference)
                  for order in (request.first, request.second))
    alike = one._replace(clipped=[]) == other._replace(clipped=[])
    same = one.memory == other.memory
    return Answer(max(one.number, other.number), 0, int(alike), int(same),
                  int(one.memory != words))


def of_machine(chance, machine, number):
    """The requests of one machine: pairs of good orders, refused pairs, and a damaged machine."""
    kind = put_settings(chance, machine, ticks(chance, number))
    for first, second, name in pairs(chance, machine):
        request, answer = compared(chance.text, machine, first, second, f"{kind}, {name}")
        yield request, answer
        if not answer.equal:
            yield parted(chance, machine, first, second, request.name)
    for first, second, name in refused_pairs(chance, machine):
        yield compared(chance.text, machine, first, second, name)
    other, name = damaged_machine(machine, number, chance.text)
    order = good_order(chance, machine[layout.T])
    second = chance.choice((order, order[:-1], [0, 0]))
    yield compared(chance.text, other, order, second, name)


def all_requests(count, seed, text=NEW_TEXT):
    """So many compares, and the passes that go with them, one machine after the other."""
    chance = Chance(seed, text)
    pool = [whole_machine(chance) for _ in range(6)]
    made, number = 0, 0
    while made < count:
        for request, answer in of_machine(chance, list(chance.choice(pool)), number):
            yield request, answer
            made += request.operation == COMPARE
        number += 1
