"""The requests of tests/joins.py: pairs of bells, most of which may be joined, and some rung for long."""

from typing import NamedTuple

from leaf_requests import biased
from pass_requests import damaged_machine, put_controls, whole_machine
from reference import layout
from reference.join import join
from texts import Chance

# Every so many pairs are rung, for so many passes, and in every other so many again with changes.
RUNG_EVERY, PASSES, CHANGED_EVERY = 10, 200, 7
RUN_MODES = (layout.RUNNING_A, layout.RUNNING_B, layout.RUNNING_C, layout.WAIT, layout.WRITE_DAC,
             layout.INACTIVE, layout.PAUSE)


class Request(NamedTuple):
    """What is asked: a number to draw by, passes, after how many each time something is changed, the
    machines, and a name for people."""

    drawn: int
    passes: int
    every: int
    first: list
    second: list
    name: str


class Answer(NamedTuple):
    """What is answered: the number and the first machine; the largest number of a pass, and how many
    words of the first and of the second bell were not those it has alone."""

    number: int
    machine: list
    refused: int = 0
    first_others: int = 0
    second_others: int = 0


# Bells

def ticks(chance):
    """T of both: mostly few, now and then up to 256 together, or one more."""
    if chance.randrange(12):
        return chance.randint(1, 8), chance.randint(1, 8)
    t = chance.choice((1, 2, 128, 254, 255, chance.randint(1, 255)))
    return t, max(256 - t + chance.choice((0, 0, 1)), 1)


def put_bell(chance, machine, t, words, dacs, overflowing):
    """A bell of T generators on some words and DACs; those above have any settings."""
    for g in range(t):
        at = layout.generator_at(g)
        chance.text.put_mode(chance, machine, at, chance.choice(RUN_MODES))
        machine[at + layout.GSUM], machine[at + layout.GFM] = chance.choice(words), chance.choice(words)
        machine[at + layout.GO] = biased(chance, 20)
        chance.text.put_dac(machine, at, chance.choice(dacs))
        if overflowing:
            machine[at + layout.GQ] = chance.choice((0, (1 << 24) - 1))
            machine[at + layout.GP] = chance.choice((1, (1 << 20) - 1, 1 << 19, (1 << 19) - 1))
    put_controls(chance, machine, t)


def pair(chance, pool, overflowing):
    """Two machines that may be joined, as far as their T allows; they share out words and DACs."""
    machines = [list(chance.choice(pool)) for _ in range(2)]
    words, dacs = chance.sample(range(64), 64), chance.sample(range(16), 16)
    cut, cut_dac = chance.choice((1, 3, 8, 32, 63)), chance.choice((1, 2, 8, 15))
    shares = ((words[:cut], dacs[:cut_dac]), (words[cut:], dacs[cut_dac:]))
    for machine, t, share in zip(machines, ticks(chance), shares):
        put_bell(chance, machine, t, *share, overflowing)
    first = chance.choice((layout.RUNNING_A, layout.RUNNING_B, layout.WRITE_DAC, layout.INACTIVE))
    chance.text.put_mode(chance, machines[1], 0, first)
    return machines


# What a question refuses: each changes one of two machines

def generator_below_t(chance, machine):
    """The place of a generator below T, often the last."""
    t = machine[layout.T]
    return layout.generator_at(chance.choice((t - 1, chance.randrange(t))))


def reads_or_writes(chance, one, other):
    """A reader or writer below T."""
    mode = chance.choice((layout.READ_DATA, layout.WRITE_DATA))
    chance.text.put_mode(chance, one, generator_below_t(chance, one), mode)


def modifier_quadrant(chance, one, other):
    """A GFM of the modifier quadrant below T."""
    one[generator_below_t(chance, one) + layout.GFM] |= 64


def active_modifier(chance, one, other):
    """A modifier is active, also above T div 2."""
    m = chance.choice((0, 127, one[layout.T] // 2 % 128, chance.randrange(128)))
    one[layout.modifier_at(m) + layout.MMODE] |= chance.choice((0b00010, 0b00111, 0b10100)) << 4


def waits_first(chance, one, other):
    """Generator 0 waits, or stops; refused of the second alone."""
    chance.text.put_mode(chance, one, 0, chance.choice((layout.WAIT, layout.RUNNING_C)))


def shared_word(chance, one, other):
    """A word of the other's, by GSUM or GFM, of an idle generator too."""
    registers = layout.GSUM, layout.GFM
    word = other[generator_below_t(chance, other) + chance.choice(registers)] % 64
    one[generator_below_t(chance, one) + chance.choice(registers)] = word


def shared_dac(chance, one, other):
    """A DAC that both may feed."""
    dac = chance.randrange(16)
    for machine in (one, other):
        at = generator_below_t(chance, machine)
        chance.text.put_mode(chance, machine, at, layout.WRITE_DAC)
        chance.text.put_dac(machine, at, dac)


def unlike_above(chance, one, other):
    """What stands at T counts for nothing: a reader, a shared word and DAC there."""
    if one[layout.T] < layout.GENERATORS:
        at = layout.generator_at(one[layout.T])
        one[at + layout.GSUM], one[at + layout.GFM] = other[layout.GSUM], 64 | other[layout.GFM]
        chance.text.put_mode(chance, one, at, chance.choice((layout.READ_DATA, layout.WRITE_DAC)))


CHANGES = (reads_or_writes, modifier_quadrant, active_modifier, waits_first, shared_word, shared_word,
           shared_dac, unlike_above)


def with_changes(chance, machines, number):
    """Two machines changed in one or two ways, or damaged; and a name."""
    if number % 5 == 4:
        which = chance.randrange(2)
        machines[which], name = damaged_machine(machines[which], number)
        return machines, f"{name}, machine {which}"
    changes = chance.choices(CHANGES, k=chance.choice((1, 1, 2)))
    for change in changes:
        change(chance, *chance.choice((machines, machines[::-1])))
    return machines, ", ".join(change.__name__ for change in changes)


# The whole of the requests

def answered(request):
    """The reference's answer; each bell sounds as it does alone."""
    return Answer(*join(request.first, request.second))


def idle_modifiers(machine):
    """The machine with every modifier inactive, whatever its scales."""
    for m in range(layout.MODIFIERS):
        machine[layout.modifier_at(m) + layout.MMODE] &= 0b1111
    return machine


def all_requests(count, seed):
    """So many pairs: of five two are changed; every tenth is rung, half of these overflow all the time."""
    chance = Chance(seed)
    pool = [idle_modifiers(whole_machine(chance)) for _ in range(8)]
    for number in range(count):
        rung = number % RUNG_EVERY == 0
        machines, name = pair(chance, pool, number // RUNG_EVERY % 2 == 0), "good"
        if number % 5 in (3, 4):
            machines, name = with_changes(chance, machines, number)
        every = CHANGED_EVERY if number // RUNG_EVERY % 4 > 1 else 0
        request = Request(number + 1, PASSES * rung, every * rung, *machines, name)
        yield request, answered(request)
