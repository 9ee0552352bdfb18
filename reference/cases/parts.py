"""What parts two orders: the point and the place by hand, and the contents tried on passes."""

import random
from collections import Counter

from reference import layout
from reference.cases.any_orders import KINDS
from reference.cases.build import generator, machine, memory
from reference.cases.comparisons import add, feed, in_run_mode, random_settings, read, send
from reference.machine import below_t_in, refusal, run_pass
from reference.orders import compare, register
from reference.parts import parts

# A run and a read list to lend, of words that no machine has.
RUN, LIST = [4294967295] * 4344, [4294967295] * 9
B, C, WAIT = (in_run_mode(mode) for mode in ("1110", "1101", "1001"))


def with_generators(generators):
    """A machine with these generators, T their count; above them all settings are others than 0."""
    above = generator("0010 11 1000", GO=5, GSUM=63, GFM=127)
    count = len(generators)
    return machine([*generators, *[above] * (256 - count)], words={4113: count})


def settings(made):
    """T, every GMODE, GSUM and GFM, and the DAC number of each 0010."""
    found = [made[layout.T]]
    for g in range(layout.GENERATORS):
        gmode, gsum, gfm, go = (register(made, g, name) for name in
                                (layout.GMODE, layout.GSUM, layout.GFM, layout.GO))
        feeds = layout.run_mode(gmode) == layout.WRITE_DAC
        found.append((gmode, gsum, gfm, go % layout.DACS if feeds else None))
    return found


def written(done):
    """The written data of a pass."""
    return done.places[:done.written]


def shows(made, first, second, answer, lent, slots):
    """Whether the lent contents have the settings, run by both orders and part them."""
    readers = below_t_in(made, layout.READ_DATA)
    places = [0] * below_t_in(made, layout.WRITE_DATA)
    one, other = (run_pass(answer.contents, order, answer.items, places, slots)
                  for order in (first, second))
    return (refusal(answer.contents) == 0 and settings(answer.contents) == settings(made)
            and len(answer.items) == len(lent) and answer.items[readers:] == lent[readers:]
            and one.number == other.number == 0
            and (one.machine != other.machine or written(one) != written(other)))


def says(generators, first, second):
    """The point and the place, and whether the lent contents show them; or that nothing is lent."""
    made = with_generators(generators)
    answer = parts(made, first, second, RUN, LIST)
    assert answer.number == 0 and compare(made, first, second) == (0, answer.point == 0)
    if answer.point == 0:
        return 0, answer.place, (answer.contents, answer.items) == (RUN, LIST)
    slots = memory({0: 1, 65535: 1048575})
    return answer.point, answer.place, shows(made, first, second, answer, LIST, slots)


def equal():
    """For equal orders it says so and lends nothing."""
    yield "the same", says([B, WAIT], [0, 1], [0, 1]), (0, 0, True)
    yield "T 1", says([read(0)], [0], [0]), (0, 0, True)
    four = [add(1), add(1), send(1), send(1)]
    yield "adding", says(four, [0, 1, 2, 3], [3, 1, 2, 0]), (0, 0, True)


def triggers():
    """Point 1 names the waiting generator."""
    yield "1110", says([B, WAIT], [0, 1], [1, 0]), (1, 1, True)
    yield "1101", says([C, WAIT], [1, 0], [0, 1]), (1, 1, True)
    four = [B, WAIT, C, WAIT]
    yield "both", says(four, [0, 1, 2, 3], [1, 0, 3, 2]), (1, 1, True)
    yield "the second alone", says(four, [0, 1, 2, 3], [0, 1, 3, 2]), (1, 3, True)
    yield "the first alone", says(four, [3, 2, 1, 0], [3, 2, 0, 1]), (1, 1, True)


def feeders():
    """Point 2 names the lowest DAC."""
    two = [feed(7, 1), feed(3, 1), feed(7, 2), feed(3, 2)]
    yield "DACs 3 and 7", says(two, [0, 1, 2, 3], [2, 3, 0, 1]), (2, 3, True)
    yield "DAC 7", says(two, [0, 1, 2, 3], [2, 1, 0, 3]), (2, 7, True)
    # GO 16 is DAC 0; the same word of the two quadrants.
    yield "DAC 0", says([feed(16, 1), feed(0, 65)], [0, 1], [1, 0]), (2, 0, True)
    yield "DAC 15", says([feed(15, 64), feed(1048575, 0)], [0, 1], [1, 0]), (2, 15, True)


def writers():
    """Point 3 names the first place in the list, counted from 0."""
    four = [send(1), send(2), send(1), send(3)]
    yield "place 0", says(four, [0, 1, 2, 3], [1, 0, 2, 3]), (3, 0, True)
    yield "place 1", says(four, [0, 1, 2, 3], [2, 3, 0, 1]), (3, 1, True)
    yield "place 2", says(four, [0, 1, 2, 3], [2, 1, 3, 0]), (3, 2, True)
    # Others between them don't count.
    yield "among others", says([send(1), add(0), send(2)], [1, 0, 2], [2, 1, 0]), (3, 0, True)


def replaced():
    """Point 4 names the lowest sum word."""
    yield "last one", says([read(9), read(9)], [0, 1], [1, 0]), (4, 9, True)
    yield "its place", says([read(9), read(2)], [0, 1], [1, 0]), (4, 2, True)
    # Word 2 has its reader at the third place in both.
    three = [read(9), read(11), read(2)]
    yield "the higher words alone", says(three, [0, 1, 2], [1, 0, 2]), (4, 9, True)
    yield "an adding one", says([read(63), add(63)], [0, 1], [1, 0]), (4, 63, True)
    two = [read(9), add(9), read(4), add(4)]
    yield "adding ones on both", says(two, [0, 1, 2, 3], [1, 0, 3, 2]), (4, 4, True)
    # Whatever the modes are, the 0111 and the adding one sound in the contents.
    for mode in layout.OSCILLATOR_MODES:
        for envelope in ("00", "01", "10", "11"):
            bits = f" {envelope} {mode:04b}"
            reader = generator("0111" + bits, GSUM=9, GFM=70)
            adder = generator("1110" + bits, GSUM=9, GFM=5)
            yield "readers" + bits, says([reader, reader], [0, 1], [1, 0]), (4, 9, True)
            yield "adding" + bits, says([reader, adder], [1, 0], [0, 1]), (4, 9, True)


def sequence():
    """The first of the points that fail is named."""
    one, two = [B, WAIT], [feed(7, 1), feed(7, 2)]
    three, four = [send(1), send(2)], [read(9), add(9)]
    rows = ((1, 1, one, two, three, four), (2, 7, two, three, four), (3, 0, three, four),
            (1, 1, one, three), (1, 1, one, four), (2, 7, two, four))
    for point, place, *pairs in rows:
        generators = [each for pair in pairs for each in pair]
        backwards = list(range(len(generators)))[::-1]
        name = f"{len(pairs)} points from {point} on"
        yield name, says(generators, backwards[::-1], backwards), (point, place, True)
    # By the sequence of the points, not of the generators.
    yield "4 before 1", says(four + one, [0, 1, 2, 3], [1, 0, 3, 2]), (1, 3, True)


def refusals():
    """The questions of compare, then 1 and 7 of what is lent, for equal orders too."""
    made = with_generators([read(9), read(9), B])
    wide = list(made)
    wide[4118] = 2
    forth, back = [0, 1, 2], [1, 0, 2]
    rows = (
        ("short machine", made[1:], forth, back, RUN, LIST, 1),
        ("wide word", wide, forth, back, RUN, LIST, 2),
        ("short first", made, [0], [0, 0, 0], RUN[1:], [], 5),
        ("doubled first", made, [0, 0, 1], [0], RUN[1:], [], 6),
        ("short second", made, forth, [0], RUN[1:], [], 5),
        ("doubled second", made, forth, [0, 0, 1], RUN[1:], [], 6),
        ("short run", made, forth, back, RUN[1:], LIST, 1),
        ("long run", made, forth, back, RUN + [0], LIST, 1),
        ("no run", made, forth, back, [], [], 1),
        ("short list", made, forth, back, RUN, [5], 7),
        ("no list", made, forth, back, RUN, [], 7),
        ("short run, equal orders", made, forth, forth, RUN[1:], [], 1),
        ("short list, equal orders", made, forth, forth, RUN, [5], 7),
    )
    for name, words, first, second, run, items, number in rows:
        yield name, parts(words, first, second, run, items), (number, 0, 0, run, items)
    # Just enough items; those beyond the 0111s stay.
    for items in ([5, 6], [5, 6, 7, 8]):
        answer = parts(made, forth, back, RUN, items)
        good = answer.number == 0 and shows(made, forth, back, answer, items, memory())
        yield f"{len(items)} items", good, True
    idle = with_generators([B, add(1)])
    yield "no 0111, no list", parts(idle, [0, 1], [1, 0], RUN, []), (0, 0, 0, RUN, [])


# Trials: random settings, and delay memories of every kind.

def trials(count=360, often=15):
    """The lent contents part two orders over every delay memory that passes 10."""
    chance, met = random.Random(1978), Counter()
    slots = [memory(), [1048575] * layout.MEMORY_WORDS,
             [chance.getrandbits(layout.MEMORY_WIDTH) for _ in range(layout.MEMORY_WORDS)]]
    for trial in range(count):
        t = chance.choice((2, 3, 4, 6, 10, 14))
        made = random_settings(chance, t)
        modes = KINDS[trial % len(KINDS)]
        for g in range(t):
            place = layout.generator_at(g) + layout.GMODE
            made[place] = layout.with_run_mode(made[place], chance.choice(modes))
        first, second = (chance.sample(range(t), t) for _ in range(2))
        items = [chance.getrandbits(32) for _ in range(t)]
        answer = parts(made, first, second, RUN, items)
        met[answer.point] += 1
        yield f"says {trial}", compare(made, first, second), (0, answer.point == 0)
        if answer.point:
            good = shows(made, first, second, answer, items, slots[trial % 3])
            yield f"shows {trial}", good, True
    for point in range(5):
        yield f"point {point} is named {often} times", met[point] >= often, True


GROUPS = (
    ("parts, equal orders", equal),
    ("parts, triggers", triggers),
    ("parts, DACs", feeders),
    ("parts, written data", writers),
    ("parts, replaced words", replaced),
    ("parts, several points", sequence),
    ("parts, refusals", refusals),
)
TRIALS = (("parts against passes", trials),)
