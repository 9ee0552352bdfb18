"""The requests of tests/any_orders.py: machines whose orders are all equal, and others.

Settings below T are drawn so that every clause holds, then changed so that one chosen clause
fails, or none, or anything is drawn. Settings from T on are drawn so that clauses would fail
if these generators counted. Each request comes with the reference's answer; where T is at
most 4 it also asks for every pair of orders.
"""

from math import factorial
from typing import NamedTuple

from leaf_requests import biased
from pass_requests import LENGTHS, damaged_machine, whole_machine
from reference import layout
from reference.any_order import CLAUSES, any_order
from reference.machine import put_update_ticks
from texts import Chance

# Every pair of orders is tried with T at most FEW. From T on, NEXT generators have drawn settings.
FEW, NEXT = 4, 8


class Request(NamedTuple):
    """What is asked: whether every pair of orders is tried, the machine, and a name."""

    pairs: int
    machine: list
    name: str


class Answer(NamedTuple):
    """What is answered: the number, and yes or no; how many pairs of orders were compared, and
    whether every compare said yes."""

    number: int
    yes: int
    pairs: int
    all_equal: int


# Settings of one generator

A, B, C = layout.RUNNING_A, layout.RUNNING_B, layout.RUNNING_C
ADDING, TRIGGERING = (A, B, C), (B, C)
EVERY = tuple(layout.RUN_MODES)
# Drawn from where all modes are: those that clauses are about come more often.
MODES = EVERY + (layout.WRITE_DAC, layout.WRITE_DAC, layout.WRITE_DATA, layout.WAIT)


def setting(machine, g, register):
    """A setting of a generator."""
    return machine[layout.generator_at(g) + register]


def put(machine, g, register, word):
    """Puts a setting of a generator."""
    machine[layout.generator_at(g) + register] = word


def mode_at(machine, g):
    """The run mode of a generator."""
    return layout.run_mode(setting(machine, g, layout.GMODE))


def put_mode(machine, g, mode):
    """Puts the run mode, the other mode bits kept."""
    put(machine, g, layout.GMODE, layout.with_run_mode(setting(machine, g, layout.GMODE), mode))


def put_dac(machine, g, dac):
    """Puts the DAC number, the other bits of GO kept."""
    put(machine, g, layout.GO, setting(machine, g, layout.GO) >> 4 << 4 | dac)


def other_than(chance, limit, used):
    """A number below a limit that is not used: often one bit away from a used one."""
    free = [n for n in range(limit) if n not in used]
    bit = 1 << chance.randrange(limit.bit_length() - 1)
    near = [n for n in free if n ^ bit in used]
    return chance.choice(near if near and chance.randrange(2) else free)


# Settings on which every clause holds

class Plan(NamedTuple):
    """What generators share: DACs, a GFM for each and one for all writers, and the read word."""

    dacs: list
    sources: list
    written: int
    word: int


def draw_plan(chance):
    """A plan with few DACs or all; now and then several have one GFM."""
    dacs = chance.sample(range(layout.DACS), chance.choice((1, 2, layout.DACS)))
    few = [biased(chance, 6) | chance.choice((0, 64)) for _ in range(chance.choice((1, 3, 16)))]
    sources = chance.choices(few, k=layout.DACS)
    return Plan(dacs, sources, chance.choice(few), biased(chance, 6))


def put_planned(chance, machine, g, mode, plan):
    """A generator in a run mode, with what the plan says of this mode; its other words are any."""
    bits = chance.randrange(4) << 4 | chance.choice(layout.OSCILLATOR_MODES)
    put(machine, g, layout.GMODE, mode << 6 | bits)
    dac = chance.choice(plan.dacs)
    put(machine, g, layout.GO, biased(chance, 20) >> 4 << 4 | dac)
    gfm, word = chance.randrange(128), chance.choice((plan.word, biased(chance, 6)))
    if mode == layout.WRITE_DAC:
        gfm = plan.sources[dac]
    if mode == layout.WRITE_DATA:
        gfm = plan.written
    if mode == layout.READ_DATA:
        word = plan.word
    if mode in ADDING:
        word = other_than(chance, 64, {plan.word})
    put(machine, g, layout.GFM, gfm)
    put(machine, g, layout.GSUM, word)


def put_holding(chance, machine, t, plan):
    """Settings below T on which every clause holds; half of the machines have one reader."""
    modes = chance.choice((MODES, chance.choices(EVERY, k=3), chance.choices(MODES, k=2)))
    unread = [mode for mode in modes if mode != layout.READ_DATA] or [layout.PAUSE]
    reader = chance.randrange(t) if chance.randrange(2) else None
    for g in range(t):
        mode = layout.READ_DATA if g == reader else chance.choice(unread)
        if mode == layout.WAIT and g > 0 and mode_at(machine, g - 1) in TRIGGERING:
            mode = chance.choice((layout.INACTIVE, layout.PAUSE, A))
        put_planned(chance, machine, g, mode, plan)


# One clause fails: each changes settings on which all hold, and T is 2 or more.

def two(chance, t):
    """Two generators below T: any, or neighbours, or the outermost."""
    g = chance.randrange(t - 1)
    return chance.choice((chance.sample(range(t), 2), [g, g + 1], [0, t - 1]))


def end_waiting(machine, t, g):
    """A generator that waits below T no longer does."""
    if g < t and mode_at(machine, g) == layout.WAIT:
        put_mode(machine, g, layout.PAUSE)


def fail_waiting_pair(chance, machine, t, plan):
    """One waits on a lower neighbour that can trigger."""
    g = chance.choice((1, t - 1, chance.randrange(1, t)))
    put_planned(chance, machine, g - 1, chance.choice(TRIGGERING), plan)
    put_planned(chance, machine, g, layout.WAIT, plan)


def fail_feeders(chance, machine, t, plan):
    """Two feeders of one DAC have different GFMs, often but for one bit."""
    one, other = two(chance, t)
    for g in (one, other):
        put_planned(chance, machine, g, layout.WRITE_DAC, plan)
    dac = setting(machine, one, layout.GO) % layout.DACS
    put_dac(machine, other, dac)
    put(machine, other, layout.GFM, other_than(chance, 128, {plan.sources[dac]}))


def fail_writers(chance, machine, t, plan):
    """Two writers have different GFMs, often but for one bit."""
    one, other = two(chance, t)
    for g in (one, other):
        put_planned(chance, machine, g, layout.WRITE_DATA, plan)
    put(machine, other, layout.GFM, other_than(chance, 128, {plan.written}))


def fail_readers(chance, machine, t, plan):
    """Two readers on one word, or on two words; no adding generator is on them."""
    one, other = two(chance, t)
    for g in (one, other):
        put_planned(chance, machine, g, layout.READ_DATA, plan)
    if chance.randrange(2):
        put(machine, other, layout.GSUM, other_than(chance, 64, {plan.word}))
    read = {setting(machine, g, layout.GSUM) for g in (one, other)}
    for g in range(t):
        if mode_at(machine, g) in ADDING and setting(machine, g, layout.GSUM) in read:
            put(machine, g, layout.GSUM, other_than(chance, 64, read))


def fail_adding(chance, machine, t, plan):
    """One reader, and a generator that adds to its word."""
    readers = [g for g in range(t) if mode_at(machine, g) == layout.READ_DATA]
    one, other = two(chance, t)
    if readers:
        one = readers[0]
        other = chance.choice([g for g in range(t) if g != one])
    put_planned(chance, machine, one, layout.READ_DATA, plan)
    put_planned(chance, machine, other, chance.choice(ADDING), plan)
    put(machine, other, layout.GSUM, plan.word)
    end_waiting(machine, t, other + 1)


FAILING = dict(zip(CLAUSES, (fail_waiting_pair, fail_feeders, fail_writers, fail_readers,
                             fail_adding)))


def put_any(chance, machine, t):
    """Settings below T of which several clauses may fail: few modes, words and DACs."""
    modes = chance.choices(EVERY, k=chance.randint(1, 4))
    words, sources = chance.sample(range(64), 2), chance.sample(range(128), 2)
    for g in range(t):
        bits = chance.randrange(4) << 4 | chance.choice(layout.OSCILLATOR_MODES)
        put(machine, g, layout.GMODE, chance.choice(modes) << 6 | bits)
        put(machine, g, layout.GSUM, chance.choice(words))
        put(machine, g, layout.GFM, chance.choice(sources))
        put_dac(machine, g, chance.choice((3, 7)))


# Settings from T on, which don't count

def put_above(chance, machine, t, plan):
    """From T on, in the next few and in the last: readers, adding ones on the read word, and
    feeders and writers with any GFM."""
    above = range(t, layout.GENERATORS)
    for g in {*above[:NEXT], *above[-2:]}:
        mode = chance.choice((layout.READ_DATA, *ADDING, layout.WRITE_DAC, layout.WRITE_DATA))
        put_planned(chance, machine, g, mode, plan)
        put(machine, g, layout.GSUM, chance.choice((plan.word, biased(chance, 6))))
        put(machine, g, layout.GFM, chance.randrange(128))


def put_border(chance, machine, t, plan):
    """T-1 can trigger and T waits."""
    if t < layout.GENERATORS:
        put_planned(chance, machine, t - 1, chance.choice(TRIGGERING), plan)
        put_mode(machine, t, layout.WAIT)


def put_ends(chance, machine, t, plan):
    """Generator 0 waits and 255 can trigger."""
    put_planned(chance, machine, layout.GENERATORS - 1, chance.choice(TRIGGERING), plan)
    put_planned(chance, machine, 0, layout.WAIT, plan)


# The whole of the requests

def ticks(chance, number):
    """T: by turns the next of 1..256, now and then 256 itself, mostly few."""
    if number % 7 == 1:
        return number // 7 * 37 % 256 + 1
    if number % 16 == 0:
        return layout.T_MOST
    return chance.choice((1, 2, 2, 2, 3, 3, 3, 3, 4, 4, 4, 4, chance.randint(5, 40)))


def asked(machine, name):
    """A request with the reference's answer."""
    number, yes = any_order(machine)
    few = not number and machine[layout.T] <= FEW
    pairs = factorial(machine[layout.T]) ** 2 if few else 0
    return Request(int(few), machine, name), Answer(number, int(yes), pairs, int(few and yes))


def put_failing(chance, machine, t, plan, clauses):
    """Settings below T on which all clauses hold, then each of some is made to fail in turn."""
    put_holding(chance, machine, t, plan)
    for clause in clauses:
        if t > 1:
            FAILING[clause](chance, machine, t, plan)


def machines_of(chance, pool, number):
    """Machines of one T, with names: all clauses hold, each alone fails, two fail, and any."""
    t = ticks(chance, number)
    plan, base = draw_plan(chance), list(chance.choice(pool))
    base[layout.T] = t
    put_update_ticks(base)
    put_above(chance, base, t, plan)
    put_holding(chance, base, t, plan)
    yield base, "all hold"
    for put_end in (put_border, put_ends):
        machine = list(base)
        put_end(chance, machine, t, plan)
        yield machine, put_end.__name__
    for clauses in (*zip(CLAUSES), chance.sample(tuple(CLAUSES), 2)):
        machine = list(base)
        put_failing(chance, machine, t, plan, clauses)
        yield machine, " and ".join(clauses)
    machine = list(base)
    put_any(chance, machine, t)
    yield machine, "any"


def refused(machine, number):
    """A damaged machine with its name: every sixth is of another length, some with both."""
    other, name = damaged_machine(machine, number)
    if number % 12 == 1:
        length = LENGTHS[number // 12 % len(LENGTHS)]
        other, name = (other + other)[:length], f"{name}; {length} words"
    return other, name


def all_requests(count, seed):
    """So many machines or a few more, those of one T after the other."""
    chance = Chance(seed)
    pool = [whole_machine(chance) for _ in range(6)]
    made, number = 0, 0
    while made < count:
        machines = list(machines_of(chance, pool, number))
        machines.append(refused(chance.choice(machines)[0], number))
        for machine, name in machines:
            yield asked(machine, name)
        made += len(machines)
        number += 1
