"""Two bells in one ring, by hand, and rung beside each bell alone."""

import random

from reference.cases.build import generator, machine, memory, modifier, places_changed
from reference.join import dacs_used, join, words_used
from reference.machine import run_pass

SQUARE = "1111 01 0010"


def bell(generators, words=None, modifiers=()):
    """A machine of these generators, T their count."""
    return machine(generators, modifiers, {**(words or {}), 4113: len(generators)})


def partial(word, mode=SQUARE, gfm=None, **registers):
    """A generator on a word, modulated by the same unless another is named."""
    return generator(mode, GSUM=word, GFM=word if gfm is None else gfm, **registers)


def feeder(dac, word):
    """A generator that feeds a DAC from a word, and adds to none but names it."""
    return generator("0010 00 0000", GO=dac, GSUM=word, GFM=word)


def joined():
    """What comes over."""
    one = bell([partial(1, GL=9), feeder(3, 1)], {3841: 11, 3905: 12, 3842: 13, 4099: 14, 4100: 15})
    two = bell([partial(2, GL=7), feeder(4, 5)],
               {3841: 21, 3842: 22, 3906: 23, 3909: 24, 4099: 25, 4100: 26, 4101: 27, 4112: 28,
                4115: 29, 4114: 300})
    answer = join(one, two)
    yield "number", answer.number, 0
    # T 4, 265-4-8 ticks; GL, GSUM, GFM and GMODE of generator 2, and generator 3's GO, GSUM, GFM.
    changes = {22 + 7: 7, 22 + 8: 2, 22 + 9: 2, 22 + 10: 978, 33: 4, 33 + 8: 5, 33 + 9: 5,
               33 + 10: 128, 3842: 22, 3906: 23, 3909: 24, 4100: 26, 4113: 4, 4343: 253}
    yield "words", places_changed(one, answer.machine), changes
    # What the first held from its T on is written over, as far as the second goes.
    above = bell([partial(1)], {11 * 1 + 2: 5, 11 * 2 + 2: 6})
    yield "above T", places_changed(above, join(above, bell([partial(2)])).machine), {
        13: 0, 11 + 8: 2, 11 + 9: 2, 11 + 10: 978, 4113: 2, 4343: 255}


def questions():
    """1 and 2 of each, 16, 17 and 18."""
    one, two = bell([partial(1)]), bell([partial(2)])
    wide = list(two)
    wide[0] = 1 << 20
    full = bell([partial(1)] * 255)
    waits, stops = (bell([partial(2, mode + " 01 0010")]) for mode in ("1001", "1101"))
    reads, writes = (bell([partial(2), partial(2, mode + " 01 0010")]) for mode in ("0111", "0011"))
    last = [modifier("00000 11 11")] * 127 + [modifier("10100 00 00")]
    active = bell([partial(2)], modifiers=last)
    fed = bell([feeder(3, 1)])
    for name, first, second, number in (
            ("good", one, two, 0),
            ("1 of the first", one[1:], wide, 1), ("2 of the first", wide, one[1:], 2),
            ("1 of the second", one, two[1:], 1), ("2 of the second", one, wide, 2),
            ("256", full, two, 0), ("257", full, bell([partial(2)] * 2), 16),
            ("16 before 17", full, bell([partial(2, "0111 00 0000")] * 2), 16),
            ("1001 of the second", one, waits, 17), ("1001 of the first", waits, one, 0),
            ("1101 of the second", one, stops, 17), ("1101 of the first", stops, one, 0),
            ("reader", one, reads, 17), ("reader in the first", reads, one, 17),
            ("writer", one, writes, 17), ("modifier quadrant", one, bell([partial(2, gfm=66)]), 17),
            ("active modifier", one, active, 17),
            ("17 before 18", one, bell([partial(1, "0111 00 0000")]), 17),
            ("one word", one, bell([partial(1)]), 18),
            ("GFM on a word", one, bell([partial(2, gfm=1)]), 18),
            ("idle on a word", one, bell([partial(1, "0000 00 0000")]), 18),
            ("one DAC", fed, bell([feeder(3, 2)]), 18), ("two DACs", fed, bell([feeder(4, 2)]), 0),
            ("fresh twice", machine(), machine(), 18),
            ("above T", bell([partial(1)], {19: 2, 20: 2}), bell([partial(2)], {19: 1, 20: 1}), 0)):
        answer = join(first, second)
        yield name, (answer.number, answer.number == 0 or answer.machine == first), (number, True)


# Rung beside each bell alone

def drawn_bell(chance, words, dacs, following):
    """A bell of a few generators at random on some words and DACs, with random sums."""
    modes = ("1111", "1110", "1101", "1001", "0010", "0000")
    generators = []
    for g in range(chance.randint(1, 6)):
        mode = chance.choice(modes[:2] if following and not g else modes)
        generators.append(generator(
            f"{mode} {chance.randrange(4):02b} 0010", GO=chance.choice(dacs),
            GJ=chance.getrandbits(28), GK=chance.getrandbits(20), GP=chance.choice((1, 524287)),
            GQ=chance.choice((0, 16777215)), GL=chance.getrandbits(12),
            GSUM=chance.choice(words), GFM=chance.choice(words)))
    sums = {quadrant + word: chance.getrandbits(20) for quadrant in (3840, 3904) for word in words}
    return bell(generators, {**sums, **{4096 + dac: chance.getrandbits(20) for dac in dacs}})


def plays(whole, alone, at):
    """Whether the sums, DACs and generators of a bell in the whole are those it has alone."""
    t = alone[4113]
    places = [quadrant + word for quadrant in (3840, 3904) for word in words_used(alone)]
    places += [4096 + dac for dac in dacs_used(alone)]
    return (all(whole[place] == alone[place] for place in places)
            and whole[11 * at:11 * (at + t)] == alone[:11 * t])


def rung(made):
    """The machine after a pass by number."""
    done = run_pass(made, range(made[4113]), [], [], memory())
    assert done.number == 0, done.number
    return done.machine


def trials():
    """Each bell sounds as it does alone, pass after pass."""
    chance, bad = random.Random(12), 0
    for _ in range(40):
        one = drawn_bell(chance, (0, 1, 63), (0, 15), False)
        two = drawn_bell(chance, (2, 3, 62), (1, 14), True)
        whole = join(one, two).machine
        for _ in range(6):
            at = one[4113]
            bad += not (plays(whole, one, 0) and plays(whole, two, at))
            whole, one, two = rung(whole), rung(one), rung(two)
    yield "as alone", bad, 0


GROUPS = (("two bells joined", joined), ("two bells, questions", questions))
TRIALS = (("two bells rung beside each alone", trials),)
