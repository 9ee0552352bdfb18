"""Large partials, and sums at the ends of their range, for the requests of tests/passes.py."""

from leaf_requests import close, edge, fits
from reference import layout
from reference.machine import generator_words
from reference.words import low, signed

# Generators of one machine share so few sum words.
WORDS = (1, 2, 4)


def is_heard(text, words):
    """Whether P of a generator goes to a sum word."""
    return text.reference.switches(words).envelope


def put_loud_generator(chance, machine, g, shared):
    """A generator that is heard brings a large P, above or below 0, on one of few words."""
    at, text = layout.generator_at(g), chance.text
    oscillator = chance.choice(tuple(text.loud))
    gmode = text.with_oscillator(machine[at + layout.GMODE], oscillator)
    k = chance.choice(text.loud[oscillator]) + close(chance)
    v = chance.randint(3800, 4095)
    machine[at + layout.GMODE], machine[at + layout.GM] = gmode, 0
    machine[at + layout.GK] = low(text.angle_unit * k, 20)
    machine[at + layout.GP] = low(chance.randint(-70, 70), 20)
    level = text.reference.envelope(gmode, 0, machine[at + layout.GQ])
    machine[at + layout.GL] = low(v - level, 12)
    machine[at + layout.GSUM] %= shared


def put_loud(chance, machine, t):
    """Most generators below T that are heard bring a large P."""
    shared = chance.choice(WORDS)
    for g in range(t):
        if is_heard(chance.text, generator_words(machine, g)) and chance.randrange(8):
            put_loud_generator(chance, machine, g, shared)


def brought(text, machine, g):
    """P of a generator, as a signed number."""
    words = generator_words(machine, g)
    f = machine[layout.modulation_place(words[layout.GFM])]
    return signed(text.reference.generator_turn(words, f, False)[1], 20)


def at_edges(chance, machine, order, items):
    """The machine and the items with some sums close to an end of their range.

    Words of generator-this, which sums start from, and items are set."""
    machine, items, text = list(machine), list(items), chance.text
    totals, settled, read = {}, set(), 0
    for g in order:
        words = generator_words(machine, g)
        word = words[layout.GSUM]
        if not is_heard(text, words):
            continue
        p = brought(text, machine, g)
        totals[word] = totals.get(word, 0) + p
        if text.reference.reads(words):
            needed = edge(chance, 20) - p
            if fits(needed, 20) and chance.randrange(2):
                items[read] = chance.getrandbits(12) << 20 | low(needed, 20)
            read += 1
            settled.add(word)
        elif word not in settled and not chance.randrange(3):
            start = edge(chance, 20) - totals[word]
            if fits(start, 20):
                machine[layout.GENERATOR_THIS + word] = low(start, 20)
                settled.add(word)
    return machine, items


def sums_of(text, machine, order, partials):
    """For each word the sums of the partials added to it, from 0 on, up to its first 0111."""
    sums, replaced = {}, set()
    for g in order:
        words = generator_words(machine, g)
        word = words[layout.GSUM]
        if text.reference.reads(words):
            replaced.add(word)
        elif g in partials and word not in replaced:
            sums.setdefault(word, [0]).append(sums.get(word, [0])[-1] + partials[g])
    return sums


def between(text, machine, first, second):
    """The machine with generator-this words from which the highest sum by one order is just 524,287
    and by the other above it, where two orders have other highest sums."""
    other, half = list(machine), 1 << 19
    partials = {g: brought(text, machine, g) for g in first
                if text.reference.adds(generator_words(machine, g))}
    one, two = (sums_of(text, machine, order, partials) for order in (first, second))
    for word in one.keys() & two.keys():
        lower = min(one[word], two[word], key=max)
        start = half - 1 - max(lower)
        if max(one[word]) != max(two[word]) and start + min(lower) >= -half:
            other[layout.GENERATOR_THIS + word] = low(start, 20)
    return other
