"""Whether all orders are equal: each clause by hand, and the rule against all pairs of orders."""

import random
from collections import Counter

from reference import layout
from reference.any_order import CLAUSES, any_order, every_two_orders_agree, failing
from reference.cases.build import machine, modifier
from reference.cases.comparisons import add, feed, in_run_mode, random_settings, read, send
from reference.faults import switched_on
from reference.machine import put_update_ticks


def with_generators(generators, above=()):
    """A machine with T its first generators, and others from T on."""
    return machine([*generators, *above], words={4113: len(generators)})


def says(generators, above=()):
    """What the call answers of a machine with these generators."""
    return any_order(with_generators(generators, above))


YES, NO = (0, True), (0, False)


def waiting_pairs():
    """No 1001 has a 1110 or 1101 just below it."""
    b, c, wait, a = (in_run_mode(mode) for mode in ("1110", "1101", "1001", "1111"))
    yield "1110", says([b, wait]), NO
    yield "1101", says([c, wait]), NO
    yield "1111", says([a, wait]), YES
    yield "two waiting", says([wait, wait]), YES
    yield "upper neighbour", says([wait, b]), YES
    yield "not neighbours", says([b, a, wait]), YES
    yield "the last two", says([a, a, c, wait]), NO
    yield "across T", says([a, b], [wait]), YES
    yield "above T", says([a, a], [b, wait]), YES
    # Generator 255 starts at 2,805; its GMODE is 1110 00 0000.
    made = machine([wait, a], words={2815: 0b1110000000, 4113: 256})
    yield "0 has no neighbour below", any_order(made), YES


def feeders_and_writers():
    """The feeders of each DAC share one GFM, and so do all writers."""
    yield "one DAC, two GFMs", says([feed(3, 1), feed(3, 2)]), NO
    yield "one DAC, one GFM", says([feed(3, 1), feed(3, 1)]), YES
    yield "two DACs, two GFMs", says([feed(3, 1), feed(4, 2)]), YES
    # 19 = 16 + 3 and 1,048,563 = 65,535 * 16 + 3: DAC 3.
    yield "DAC by low bits", says([feed(3, 1), feed(19, 2)]), NO
    yield "DAC by low bits, GFM shared", says([feed(3, 1), feed(1048563, 1)]), YES
    yield "two quadrants", says([feed(3, 1), feed(3, 65)]), NO
    yield "far apart", says([feed(3, 1), feed(4, 2), feed(3, 1), feed(3, 2)]), NO
    yield "feeder above T", says([feed(3, 1), feed(4, 2)], [feed(3, 2)]), YES
    yield "not a feeder", says([feed(3, 1), in_run_mode("0000", GO=3, GFM=2)]), YES
    yield "writers, two GFMs", says([send(1), send(2)]), NO
    yield "writers, one GFM", says([send(1), send(1), send(1)]), YES
    yield "writers, two quadrants", says([send(1), send(65)]), NO
    yield "writer above T", says([send(1), send(1)], [send(2)]), YES
    yield "writer and feeder", says([send(1), feed(3, 2)]), YES


def readers():
    """At most one reader, and no adding generator on its word."""
    yield "one", says([read(1), send(1)]), YES
    yield "two on one word", says([read(1), read(1)]), NO
    yield "two on two words", says([read(1), read(2)]), NO
    yield "second above T", says([read(1), add(2)], [read(1)]), YES
    for mode in ("1111", "1110", "1101"):
        adding = in_run_mode(mode, GSUM=1)
        yield mode + " after", says([read(1), adding]), NO
        yield mode + " before", says([adding, read(1)]), NO
        yield mode + " on another word", says([read(2), adding]), YES
        yield mode + " above T", says([read(1), add(2)], [adding]), YES
    for mode in ("0000", "0001", "1001", "0010", "0011"):
        yield mode + " does not add", says([read(1), in_run_mode(mode, GSUM=1)]), YES
    yield "adding without a reader", says([add(1), add(1)]), YES
    yield "reader above T", says([add(1), add(1)], [read(1)]), YES


def one_tick():
    """With T at 1 the answer is yes, whatever stands above."""
    others = [in_run_mode("1001"), send(1), send(2), feed(0, 1), feed(0, 2), read(0), read(1)]
    for mode in layout.RUN_MODES:
        yield f"T 1, {mode:04b}", says([in_run_mode(f"{mode:04b}")], others), YES


def refusals():
    """Questions 1 and 2, and no others; refused, it says no."""
    good = machine(words={4113: 2})
    wide = list(good)
    wide[4118] = 2
    yield "good", any_order(good), (0, True)
    yield "fresh", any_order(machine()), (0, True)
    yield "lengths", [any_order([0] * n) for n in (0, 4119, 4343, 4345)], [(1, False)] * 4
    yield "short and wide", any_order(wide[1:]), (1, False)
    yield "wide word", any_order(wide), (2, False)
    # T 2 with N 265: 255. A T set by itself leaves the count of another.
    yield "count", any_order(good[:4343] + [256]), (2, False)
    for t in (0, 257):
        yield f"T {t}", any_order(machine(words={4113: t})), (2, False)
    # Generator 255 is in run mode 0100, which is not built.
    yield "mode above T", any_order(machine(words={2815: 0b0100000000})), (2, False)
    # Modifiers 0 and 1 name unit 0, a line with Y above Z: neither 11 nor 12 is asked.
    twice = machine(modifiers=[modifier("00111 00 00")] * 2, words={4113: 16, 4120: 1, 4122: 8})
    yield "11 and 12 not asked", any_order(twice), (0, True)


# Trials: random settings, some of them from T on and in generator 255.

A, B, C = layout.RUNNING_A, layout.RUNNING_B, layout.RUNNING_C
# Run modes for each clause, and all of them.
KINDS = ((B, C, layout.WAIT, A), (layout.WRITE_DAC, layout.WRITE_DAC, A),
         (layout.WRITE_DATA, layout.WRITE_DATA, A), (layout.READ_DATA, layout.WAIT, A),
         (layout.READ_DATA, A, B, C), tuple(layout.RUN_MODES))
SHOWING = ("only_1110_triggers", "pair_across_t", "neighbour_of_0", "feeders_by_generator",
           "readers_by_word", "adders_above_t")


def random_small(chance):
    """A machine with T up to 4 and random settings."""
    t, modes = chance.choice((1, 2, 2, 2, 3, 3, 3, 4)), chance.choice(KINDS)
    made = random_settings(chance, t + 2)
    made[layout.T] = t
    put_update_ticks(made)
    for g in (*range(t + 2), layout.GENERATORS - 1):
        place = layout.generator_at(g) + layout.GMODE
        made[place] = layout.with_run_mode(made[place], chance.choice(modes))
    return made


def trials(count=4000, often=100):
    """The rule says what all pairs of orders say; each clause alone and each fault counts."""
    chance, met = random.Random(1978), Counter()
    for trial in range(count):
        made = random_small(chance)
        every = every_two_orders_agree(made)
        yield f"all pairs {trial}", any_order(made), (0, every)
        met[failing(made)] += 1
        for fault in SHOWING:
            with switched_on(fault):
                met[fault] += (not failing(made)) != every
    for clause in CLAUSES:
        yield f"{clause} alone fails {often} times", met[(clause,)] >= often, True
    for fault in SHOWING:
        yield f"{fault} is caught 10 times", met[fault] >= 10, True
    yield f"all clauses hold {often} times", met[()] >= often, True


GROUPS = (
    ("any order, waiting pairs", waiting_pairs),
    ("any order, DACs and written data", feeders_and_writers),
    ("any order, readers", readers),
    ("any order, T 1", one_tick),
    ("any order, refusals", refusals),
)
TRIALS = (("any order against all pairs of orders", trials),)
