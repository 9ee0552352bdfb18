"""Comparison of two orders by the four points."""

from reference import layout
from reference.machine import generator_words, order_refusal, refusal
from reference.text import OF_1978


def register(machine, g, place):
    """One register of generator g."""
    return machine[layout.generator_at(g) + place]


def mode_of(machine, g):
    """The run mode of generator g."""
    return layout.run_mode(register(machine, g, layout.GMODE))


def in_mode(machine, order, mode):
    """The generators of an order in one run mode, in order."""
    return [g for g in order if mode_of(machine, g) == mode]


# The four points: each gives what two orders must have in common.

def in_order(machine, order):
    """The generators of an order, each with its words."""
    return ((g, generator_words(machine, g)) for g in order)


def trigger_sides(machine, order, text=OF_1978):
    """For each waiting one with a neighbour below that can trigger: whether it stands after it."""
    place = {g: at for at, g in enumerate(order)}
    sides = {}
    for g, words in in_order(machine, order):
        lower = text.side_of(g)
        if (text.waits(words) and lower is not None
                and text.can_trigger(generator_words(machine, lower))):
            sides[g] = place[lower] < place[g]
    return sides


def last_feeders(machine, order, text=OF_1978):
    """For each fed DAC: by what it is fed last, the GFM in 1978."""
    fed = {}
    for g, words in in_order(machine, order):
        if (dac := text.dac_fed(words)) is not None:
            fed[dac] = text.source(g, words)
    return fed


def written_sources(machine, order, text=OF_1978):
    """By what data are written, in order: the GFMs of the 0011 generators in 1978."""
    return [text.source(g, words) for g, words in in_order(machine, order) if text.writes(words)]


def replaced_words(machine, order, text=OF_1978):
    """For each word with a reading one: the last, its place among all of them, the adding after."""
    replaced, reader = {}, 0
    for g, words in in_order(machine, order):
        word = words[layout.GSUM]
        if text.reads(words):
            replaced[word] = (g, reader, frozenset())
            reader += 1
        elif text.adds(words) and word in replaced:
            last, at, adding = replaced[word]
            replaced[word] = (last, at, adding | {g})
    return replaced


POINTS = (trigger_sides, last_feeders, written_sources, replaced_words)


def agree(machine, first, second, text=OF_1978):
    """Whether two orders agree on the four points."""
    return all(point(machine, first, text) == point(machine, second, text) for point in POINTS)


def orders_refusal(machine, first, second, text=OF_1978):
    """Questions 1 and 2 of the machine, then 5 and 6 of each order: the first one failed, or 0."""
    return (refusal(machine, text) or order_refusal(machine, first)
            or order_refusal(machine, second))


def compare(machine, first, second, text=OF_1978):
    """A compare: its number and whether it says yes."""
    number = orders_refusal(machine, first, second, text)
    if number:
        return number, False
    return 0, agree(machine, first, second, text)
