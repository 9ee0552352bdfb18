"""Orders by the older text: each point by hand, and settings at random tried on passes."""

import random
from itertools import permutations, product

from reference import layout
from reference import old_layout as old
from reference.cases.build import generator, machine, memory
from reference.machine import below_t, generator_words, word_ranges
from reference.old import OLD, old_compare, old_parts, old_pass

RUN, LIST = [4294967295] * 4344, [4294967295] * 9


def settings(made, text=OLD):
    """T and the settings of all generators."""
    return made[layout.T], [text.settings(generator_words(made, g))
                            for g in range(layout.GENERATORS)]


def differ(made, items, orders, slots):
    """Whether passes by two orders run and leave another machine or other written data."""
    places = [0] * below_t(made, OLD.writes)
    one, other = (old_pass(made, order, items, places, slots) for order in orders)
    assert one.number == other.number == 0
    return (one.machine, one.places) != (other.machine, other.places)


def says(generators, first, second):
    """The point and the place; the lent contents are tried, and compare must say the same."""
    made = machine(generators, words={4113: len(generators)})
    answer = old_parts(made, first, second, RUN, LIST)
    assert old_compare(made, first, second) == (0, answer.point == 0)
    if answer.point:
        assert settings(answer.contents) == settings(made)
        assert differ(answer.contents, answer.items, (first, second), memory({0: 1}))
    else:
        assert (answer.contents, answer.items) == (RUN, LIST)
    return answer.point, answer.place


def feed(dac, gfm=0):
    """A 111 that feeds a DAC; bits of GN between sign and DAC number mean nothing."""
    return generator("111 00 101", GN=dac | 1008, GO=5, GFM=gfm)


def send(gfm=0, wave="001"):
    """A 111 that writes data."""
    return generator("111 00 " + wave, GN=1024, GFM=gfm)


def read(word, wave="001"):
    """A 110."""
    return generator("110 00 " + wave, GSUM=word)


def add(word, mode="010 00 001"):
    """A generator that adds."""
    return generator(mode, GSUM=word)


B, C, WAIT = (generator(mode + " 00 001") for mode in ("011", "101", "100"))
IDLE = generator("000 00 000")


def points():
    """The first point that fails and its lowest place."""
    yield "neighbours", says([B, WAIT], [0, 1], [1, 0]), (0, 0)
    yield "two below", says([B, IDLE, WAIT], [0, 1, 2], [2, 1, 0]), (1, 2)
    yield "101", says([C, IDLE, WAIT], [0, 2, 1], [2, 0, 1]), (1, 2)
    yield "the same side", says([B, IDLE, WAIT], [0, 1, 2], [1, 0, 2]), (0, 0)
    yield "010", says([add(0), IDLE, WAIT], [0, 1, 2], [2, 1, 0]), (0, 0)
    yield "one DAC, one GFM", says([feed(7), feed(7)], [0, 1], [1, 0]), (2, 7)
    yield "two DACs", says([feed(7), feed(3)], [0, 1], [1, 0]), (0, 0)
    yield "the same last", says([feed(0), feed(0), feed(0)], [0, 1, 2], [1, 0, 2]), (0, 0)
    yield "DACs 3 and 7", says([feed(7), feed(3), feed(7), feed(3)], [0, 1, 2, 3],
                               [2, 3, 0, 1]), (2, 3)
    yield "writers of one GFM", says([send(), send()], [0, 1], [1, 0]), (3, 0)
    yield "place 1", says([send(), send(1, "101"), send(2, "101")], [0, 1, 2], [0, 2, 1]), (3, 1)
    yield "writer and feeder", says([send(), feed(0)], [0, 1], [1, 0]), (0, 0)
    yield "another last", says([read(9), read(9)], [0, 1], [1, 0]), (4, 9)
    yield "its place", says([read(9), read(2)], [0, 1], [1, 0]), (4, 2)
    yield "2 before 3", says([feed(0), feed(0), send(), send()], [0, 1, 2, 3], [3, 2, 1, 0]), (2, 0)
    for envelope, wave in product(("00", "01", "10", "11"), ("001", "010", "011", "100", "101")):
        bits = f" {envelope} {wave}"
        for run in ("010", "011", "101"):
            yield run + bits, says([read(9, wave), add(9, run + bits)], [0, 1], [1, 0]), (4, 9)
        readers = [generator("110" + bits, GSUM=9, GFM=70)] * 2
        yield "110" + bits, says(readers, [0, 1], [1, 0]), (4, 9)


def refusals():
    """The questions of a compare, and 1 and 7 of what is lent."""
    made = machine([read(9), B], words={4113: 2})
    new = machine([generator("1111 00 0000")])
    yield "5", old_compare(made, [0], [0, 1]), (5, False)
    yield "6", old_compare(made, [0, 1], [0, 0]), (6, False)
    yield "2", old_compare(new, [0], [0]), (2, False)
    yield "1", old_compare(made[1:], [0], [0]), (1, False)
    for name, run, lent, question in (("run", RUN[1:], LIST, 1), ("list", RUN, [], 7)):
        yield name, old_parts(made, [0, 1], [0, 1], run, lent), (question, 0, 0, run, lent)


# Trials: random settings for few generators, with every pair of orders.

def random_generator(chance):
    """A generator's words within their widths, two sum words and two DACs."""
    words = [chance.randint(least, most) for least, most in word_ranges(OLD)[:11]]
    mode = chance.choice(tuple(old.RUN_MODES))
    words[layout.GMODE] = mode << 5 | chance.randrange(4) << 3 | chance.randint(1, 5)
    words[layout.GSUM], words[layout.GFM] = chance.randrange(2), chance.choice((0, 1, 64, 65))
    words[layout.GN] &= 0b10000000001 | chance.getrandbits(11) & 0b01111110000
    words[layout.GQ] = chance.choice((words[layout.GQ], 0, 16777215))
    return words


def random_contents(chance, t):
    """A machine of so many generators at random, with its read items."""
    words = {place: chance.getrandbits(20) for place in range(3840, 4112)}
    made = machine([random_generator(chance) for _ in range(t)], words={**words, 4113: t})
    return made, [chance.getrandbits(32) for _ in range(t)]


def trials():
    """Orders that agree leave the same; the reference's own contents part every other pair."""
    chance, slots, equal, parted, bad = random.Random(10), memory(), 0, 0, 0
    for number in range(80):
        made, items = random_contents(chance, (2, 3, 4, 4)[number % 4])
        orders = list(permutations(range(made[4113])))
        for second in orders[1:]:
            answer = old_parts(made, orders[0], second, RUN, LIST)
            if answer.point == 0:
                equal, bad = equal + 1, bad + differ(made, items, (orders[0], second), slots)
                continue
            shown = differ(answer.contents, answer.items, (orders[0], second), slots)
            parted, bad = parted + 1, bad + (not shown)
    yield "pairs", (equal > 400, parted > 200), (True, True)
    yield "exceptions", bad, 0


GROUPS = (
    ("the older text: the four points", points),
    ("the older text: questions of a compare", refusals),
)
TRIALS = (("the older text: orders tried on passes", trials),)
