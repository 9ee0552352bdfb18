"""The requests of tests/keeps.py: lists of changes to one machine, with the reference's answers."""

from typing import NamedTuple

from compare_requests import put_settings
from pass_requests import damaged_machine, put_controls, whole_machine
from reference import keep, layout
from reference.any_order import failing
from reference.machine import fresh_machine, refusal
from texts import Chance

FOLLOWING, AT_RANDOM, ARBITRARY = range(3)
WORD = (1 << 32) - 1
# So many changes in a list: that follow, at random, with arbitrary arrays.
LISTED, DRAWN = 40, 800


class Request(NamedTuple):
    """What is asked: the operation, a number to draw by, the machine, how many changes, those that
    follow, and a name for people."""

    operation: int
    drawn: int
    machine: list
    count: int
    changes: list
    name: str


class Answer(NamedTuple):
    """What is answered: keep's number; of each change its number and the kept answer, this one not
    with arbitrary arrays; how many left something wrong; the machine."""

    number: int
    given: list
    wrong: int
    machine: list


# Changes

def about_t(chance, t):
    """A generator below T; now and then one at T, any other, or none."""
    if chance.randrange(6):
        return chance.randrange(t)
    return chance.choice((t - 1, t, t + 1, 0, 255, 256, chance.randrange(256), WORD))


def drawn_change(chance, t):
    """A change, mostly one that question 2 lets through: its kind, generator and value."""
    kind = chance.choice((keep.GMODE,) * 5 + (keep.GSUM,) * 3 + (keep.GFM,) * 2
                         + (keep.DAC,) * 2 + (keep.TICK_MORE, keep.TICK_FEWER))
    if not chance.randrange(40):
        kind = chance.choice((6, 7, 255, WORD))
    value = {
        keep.GMODE: chance.choice(chance.text.gmodes), keep.DAC: chance.choice((0, 1, 15)),
        keep.GSUM: chance.choice((0, 1, 63)), keep.GFM: chance.choice((0, 1, 64, 127)),
    }.get(kind, chance.getrandbits(32))
    if not chance.randrange(15):
        value = chance.choice((16, 64, 128, 1024, chance.randrange(1024), chance.getrandbits(32)))
    return kind, about_t(chance, t), value


def first_machine(chance, pool, number):
    """A machine to begin with: fresh, or any with few generators or many."""
    if number % 4 == 0:
        return fresh_machine()
    machine = list(chance.choice(pool))
    t = chance.choice((1, 2, 3, 4, 5, 6, 8, 12, 255, 256) if number % 3 else (2, 3, 4))
    put_settings(chance, machine, t)
    put_controls(chance, machine, t)
    return machine


# Requests

def followed(machine, changes, answers):
    """The machine after changes, and of each the number and, if asked for, the kept answer."""
    number, alike = keep.keep(machine)
    given = []
    for change in changes:
        after = None if number else keep.changed_machine(machine, *change)
        refused = number or (2 if after is None else 0)
        machine = machine if after is None else after
        if answers and not refused:
            alike = not failing(machine)
        given += [refused, int(alike)] if answers else [refused]
    return machine, given


def answered(request):
    """The reference's answer."""
    number = refusal(request.machine)
    if request.operation == AT_RANDOM:
        return Answer(number, [], 0, request.machine)
    machine, given = followed(request.machine, request.changes, request.operation == FOLLOWING)
    return Answer(number, given, 0, machine)


def changes_of(chance, machine):
    """A list of changes; T goes with them."""
    t, changes = machine[layout.T], []
    for _ in range(LISTED):
        change = drawn_change(chance, max(min(t, 256), 1))
        t += {keep.TICK_MORE: 1, keep.TICK_FEWER: -1}.get(change[0], 0)
        changes.append(change)
    return changes


def request_of(chance, pool, number):
    """The next request: changes that follow, with arbitrary arrays, at random; now and then damaged."""
    machine, operation = first_machine(chance, pool, number), (FOLLOWING, ARBITRARY)[number % 2]
    if number % 5 == 4:
        return Request(AT_RANDOM, number, machine, DRAWN, [], "at random")
    changes, name = changes_of(chance, machine), "changes"
    if number % 20 == 3:
        machine, name = damaged_machine(machine, number // 20)
        operation = FOLLOWING
    return Request(operation, number, machine, len(changes), changes, name)


def all_requests(count, seed):
    """So many lists, each with the reference's answer."""
    chance = Chance(seed)
    pool = [whole_machine(chance) for _ in range(6)]
    for number in range(count):
        request = request_of(chance, pool, number)
        yield request, answered(request)
