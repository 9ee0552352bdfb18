"""The requests of tests/parts.py: pairs of orders, most of them unequal, and what is lent.

Settings are drawn as those of tests/compare_requests.py. Each request comes with the
reference's answer: the point and the place. The lent contents are not compared, since the
request leaves them open; what they must satisfy is the same for all.
"""

from typing import NamedTuple

from compare_requests import drawn_by, put_settings, refused_pairs
from delay_requests import Memory, memory_words
from pass_requests import (LENGTHS, damaged_machine, good_order, needed_lists, swapped, walked,
                           whole_machine)
from reference import layout
from reference.any_order import failing as not_all_equal
from reference.cases.old_orders import settings
from reference.machine import run_pass
from reference.orders import compare
from reference.parts import failing, named, parts, parts_refusal
from texts import NEW_TEXT, Chance, Text

# Delay memories of zeros, of ones and at random.
MEMORIES = 3


class Request(NamedTuple):
    """What is asked: a number to draw by, the runs, the lengths of what is lent, and a name."""

    drawn: int
    machine: list
    first: list
    second: list
    contents_len: int
    items_len: int
    name: str
    text: Text = NEW_TEXT


class Answer(NamedTuple):
    """What is answered: number, point and place; compare's number and yes or no; whether what was
    lent is as it was; and of contents: whether they have the settings, whether the items beyond
    the 0111s are as they were, the largest number of the passes, and how many pairs part."""

    number: int
    point: int
    place: int
    compare_number: int
    equal: int
    kept: int
    same_settings: int
    beyond_kept: int
    refused: int
    parted: int


# Answers

def answer_of(number, point, place, compared):
    """An answer, whose contents must satisfy all where a point is named."""
    compare_number, equal = compared
    contents = (0, 1, 1, 0, MEMORIES) if point else (1, 0, 0, 0, 0)
    return Answer(number, point, place, compare_number, int(equal), *contents)


def answered(request):
    """The answer by the reference's questions and points."""
    orders, text = request[1:4], request.text.reference
    number = parts_refusal(*orders, range(request.contents_len), range(request.items_len), text)
    point, place = (0, 0) if number else named(failing(*orders, text))
    return answer_of(number, point, place, compare(*orders, text))


def lent_words(drawn, length):
    """What is lent, as tests/parts.c makes it."""
    return [(i + drawn) * 2654435761 % (1 << 32) | 1 << 31 for i in range(length)]


def memories(drawn):
    """The delay memories over which contents are tried, as tests/parts.c makes them."""
    ones = (1 << layout.MEMORY_WIDTH) - 1
    yield [0] * layout.MEMORY_WORDS
    yield [ones] * layout.MEMORY_WORDS
    yield memory_words(Memory(layout.MEMORY_WORDS, drawn | 1, {}))


def tried_contents(request, answer, items):
    """What the reference's own contents satisfy."""
    machine, first, second = request[1:4]
    (readers, writers), text = needed_lists(request.text, machine), request.text.reference
    places, refused, parted = [0] * writers, 0, 0
    for words in memories(request.drawn):
        one, other = (run_pass(answer.contents, order, answer.items, places, words, text)
                      for order in (first, second))
        refused = max(refused, one.number, other.number)
        parted += (one.written, one.machine, one.places) != (
            other.written, other.machine, other.places)
    return (int(settings(answer.contents, text) == settings(machine, text)),
            int(answer.items[readers:] == items[readers:]), refused, parted)


def tried(request):
    """The reference's own answer, its contents tried as the library's are."""
    orders, text = request[1:4], request.text.reference
    contents, items = (lent_words(request.drawn, length)
                       for length in (request.contents_len, request.items_len))
    answer = parts(*orders, contents, items, text)
    number, equal = compare(*orders, text)
    kept = (answer.contents, answer.items) == (contents, items)
    found = tried_contents(request, answer, items) if answer.point else (0, 0, 0, 0)
    return Answer(*answer[:3], number, int(equal), int(kept), *found)


# The whole of the requests

def ticks(chance, number):
    """T: every tenth machine takes the next of 1..256, now and then 256, the others have some."""
    if number % 10 == 0:
        return number // 10 * 37 % 256 + 1
    if number % 50 == 5:
        return layout.T_MOST
    return chance.choice((2, 3, 4, 5, 6, 8, 10, 12, 16, 20, 24, chance.randint(9, 40)))


def items_for(chance, machine):
    """A length of the lent list: just enough items, one more, or many more."""
    return needed_lists(chance.text, machine)[0] + chance.choice((0, 0, 1, 9))


def pairs(chance, machine):
    """Pairs of good orders of a machine, with their names: two that agree, and most that don't."""
    t = machine[layout.T]
    first = good_order(chance, t)
    far = walked(chance, machine, first)
    yield first, far, "exchanges that agree"
    yield first, swapped(chance, far), "one exchange more"
    yield first, list(first), "the same"
    for _ in range(2):
        yield first, swapped(chance, first), "one exchange"
    for _ in range(9):
        yield chance.sample(range(t), t), chance.sample(range(t), t), "at random"


def good_request(chance, machine, first, second, name):
    """A request on which every question is answered yes."""
    return Request(drawn_by(first, second), machine, first, second, layout.MACHINE_WORDS,
                   items_for(chance, machine), name, chance.text)


def short_list(chance, machine):
    """A length of a lent list that is too short, or just enough where there is no 0111."""
    readers = needed_lists(chance.text, machine)[0]
    return chance.choice((max(readers - 1, 0), 0))


def refused_requests(chance, machine, number):
    """A run or list of another length, for equal and unequal orders; a bad order; a bad machine."""
    t = machine[layout.T]
    first = good_order(chance, t)
    request = good_request(chance, machine, first, chance.choice((first, first[::-1])), "lent")
    other_length = LENGTHS[number % len(LENGTHS)]
    yield request._replace(contents_len=other_length, name=f"lent run of {other_length} words")
    yield request._replace(items_len=short_list(chance, machine), name="short list")
    bad = chance.choice(tuple(refused_pairs(chance, machine)))
    lent = chance.choice((layout.MACHINE_WORDS, other_length)), short_list(chance, machine)
    yield Request(request.drawn, machine, bad[0], bad[1], *lent, bad[2], chance.text)
    other, name = damaged_machine(machine, number, chance.text)
    yield Request(request.drawn, other, first, first[:-1], *lent, name, chance.text)


# Run modes for all points at once.
MIXED = (layout.RUNNING_B, layout.RUNNING_C, layout.WAIT, layout.WAIT, layout.WRITE_DAC,
         layout.WRITE_DAC, layout.WRITE_DATA, layout.READ_DATA, layout.RUNNING_A)


def put_mixed(chance, machine, t):
    """T and new settings, on which several points may fail."""
    put_settings(chance, machine, t)
    for g in range(t):
        chance.text.put_mode(chance, machine, layout.generator_at(g), chance.choice(MIXED))
    return "mixed"


def may_part(machine, text):
    """Whether two orders of a machine are not equal: by Q-2's rule, or by number and backwards."""
    if text is NEW_TEXT:
        return bool(not_all_equal(machine))
    order = list(range(machine[layout.T]))
    return bool(failing(machine, order, order[::-1], text.reference))


def put_parting_settings(chance, machine, t):
    """T and new settings, mostly such that not all orders are equal. Gives their kind."""
    tries, draw = chance.choice((1, 8, 8, 8, 8, 8)), chance.choice((put_settings, put_mixed))
    kinds = (draw(chance, machine, t) for _ in range(tries))
    return next((kind for kind in kinds if may_part(machine, chance.text)), "any")


def of_machine(chance, machine, number):
    """The requests of one machine, each with the reference's answer."""
    kind = put_parting_settings(chance, machine, ticks(chance, number))
    for first, second, name in pairs(chance, machine):
        request = good_request(chance, machine, first, second, f"{kind}, {name}")
        # No question refuses it, so none is asked here.
        point, place = named(failing(machine, first, second, chance.text.reference))
        yield request, answer_of(0, point, place, (0, point == 0))
    for request in refused_requests(chance, machine, number):
        yield request, answered(request)


def all_requests(count, seed, text=NEW_TEXT):
    """So many requests or a few more, one machine after the other."""
    chance = Chance(seed, text)
    pool = [whole_machine(chance) for _ in range(6)]
    made, number = 0, 0
    while made < count:
        for pair in of_machine(chance, list(chance.choice(pool)), number):
            yield pair
            made += 1
        number += 1
