"""The requests of tests/chains.py: chains of modifiers, good and damaged, and chains put to use in a pass."""

from typing import NamedTuple

from delay_requests import Memory
from pass_requests import PASS
from pass_requests import Request as PassRequest
from reference import layout
from reference.cases.build import HALF, modifier
from reference.cases.chains import chains, runs_of
from reference.chain import chain_numbers
from reference.machine import fresh_machine, put_update_ticks
from texts import Chance

WORD = (1 << 32) - 1
HELD = [1000 + place for place in range(layout.MODIFIERS)]


class Request(NamedTuple):
    """What is asked: the two runs, and a name for people."""

    entries: list
    names: list
    name: str


def answered(request):
    """The reference's answer."""
    return chain_numbers(request.entries, request.names, HELD)


# Chains

def drawn_chain(chance, size, early, named):
    """A chain: so many of its entries in ten are early, and each names up to so many before it."""
    chain = []
    for i in range(size):
        count = chance.randrange(named + 1) if i else 0
        reach = chance.choice((i, i, min(i, 4)))
        names = [i - 1 - chance.randrange(reach) for _ in range(count)]
        chain.append(("early" if chance.randrange(10) < early else "late", names))
    return chain


def sizes(chance, number):
    """A size, and how early and how named: small ones, all sizes to 140, and those about to pass 127."""
    kind = number % 4
    if kind == 0:
        return chance.randrange(12), chance.randrange(11), chance.randrange(4)
    if kind == 1:
        return number // 4 % 141, chance.choice((0, 0, 1)), chance.choice((0, 1, 2))
    if kind == 2:
        return chance.randint(28, 40), 10, chance.choice((1, 2, 8))
    return chance.randint(8, 128), chance.randrange(4), chance.choice((0, 1, 3))


# Damage: each gives the two runs changed, or as they are where that can't be

def bad_name(chance, entries, names):
    """A name becomes its own entry's, a later one's or one outside."""
    names, size = list(names), len(entries) // 2
    if names:
        at = chance.randrange(len(names))
        own = next(i for i in range(size) if entries[2 * i + 1] > at)
        names[at] = chance.choice((own, own + 1, size - 1, size, size + 1, WORD))
    return entries, names


def bad_word(chance, entries, names):
    """A word of an entry is another."""
    entries = list(entries)
    if entries:
        at = chance.randrange(len(entries))
        entries[at] = chance.choice((0, 1, 2, 3, entries[at] + 1, max(entries[at] - 1, 0), len(names), WORD))
    return entries, names


def cut(chance, entries, names):
    """A word too few or too many, of entries or names."""
    return chance.choice(((entries[:-1], names), (entries, names[:-1]), (entries, names + [0]),
                          (entries + [0], names), (entries[1:], names), (entries[:-2], names)))


DAMAGE = (bad_name, bad_name, bad_word, cut)


def all_requests(count, seed):
    """All chains of up to four entries, then so many at random, a third of them damaged."""
    chance = Chance(seed)
    for size in range(5):
        for chain in chains(size):
            request = Request(*runs_of(chain), f"of {size}")
            yield request, answered(request)
    for number in range(count):
        entries, names = runs_of(drawn_chain(chance, *sizes(chance, number)))
        name = f"drawn {number}"
        if number % 3 == 2:
            damage = chance.choice(DAMAGE)
            entries, names = damage(chance, entries, names)
            name += f", {damage.__name__}"
        request = Request(list(entries), list(names), name)
        yield request, answered(request)


# Put to use: entry i adds bit i into modifier-this word 0 and keeps in L1 what it read there by A

USED_MOST = 18
THIS_0 = 0b10 << 6
# B of all entries: generator-last word 1 holds one half.
B_HALF = 1


def used_modifier(chance, early, bit):
    """A modifier that adds a bit and keeps A, its L1 being the bit at first, or that sum's with A.

    Amplitude modulation and four quadrants read A early, latch and two poles late. Two poles
    replaces the word by it with the bit."""
    registers = dict(M1=HALF, L1=bit, MIN=THIS_0, MRM=B_HALF)
    if early:
        mode = chance.choice(("11001 01 01", "11000 01 01"))
        return modifier(mode, **{**registers, "MRM": 0 if mode.startswith("11001") else B_HALF})
    if chance.randrange(2):
        return modifier("00100 00 01", **registers)
    return modifier("01000 00 01", **{**registers, "MSUM": 64})


def used_machine(chance, chain, numbers, mixing):
    """A machine of T 256 whose modifiers at these numbers are the chain's entries.

    The last one, if it is early and mixing is asked for, puts A into word 1 by mixing."""
    machine = fresh_machine()
    machine[layout.T], machine[layout.GENERATOR_LAST + B_HALF] = layout.T_MOST, 1 << 18
    put_update_ticks(machine)
    for i, ((read, _), m) in enumerate(zip(chain, numbers)):
        words = used_modifier(chance, read == "early", 1 << i)
        if mixing and i == len(chain) - 1:
            words = modifier("10100 01 00", M0=HALF, MIN=THIS_0, MSUM=1)
        machine[layout.modifier_at(m):layout.modifier_at(m + 1)] = words
    return machine


def seen_by(after, chain, numbers, i, mixing):
    """What entry i read by A, as a pass left it."""
    if mixing and i == len(chain) - 1:
        return after[layout.MODIFIER_LAST + 1]
    return after[layout.modifier_at(numbers[i]) + layout.L1]


def lowered(chain, numbers):
    """Numbers with one early reader, bound by a name and with room below it, lower by one; its place,
    the name that binds it; or None."""
    for i, (read, names) in enumerate(chain):
        binding = [j for j in names if read == "early" and numbers[j] + 4 == numbers[i]]
        if binding and numbers[i] - 1 not in numbers:
            return [*numbers[:i], numbers[i] - 1, *numbers[i + 1:]], i, binding[0]
    return None


class Use(NamedTuple):
    """A chain put to use: the pass, the chain, its numbers, whether its last entry mixes; and of some
    readers which entry's bit they must find, or have lost."""

    request: PassRequest
    chain: list
    numbers: list
    mixing: bool
    wanted: list


def drawn_use(chance):
    """A chain whose numbers pass 15, with these."""
    while True:
        chain = drawn_chain(chance, chance.randint(2, USED_MOST), chance.randrange(2, 9), 3)
        answer = chain_numbers(*runs_of(chain), HELD)
        if answer.number == 0:
            return chain, answer.numbers[:len(chain)]


def uses_of(chance, number):
    """One chain put to use: by its numbers each reader finds the bit of every entry that it names;
    with one early reader lowered, that one loses it."""
    chain, numbers = drawn_use(chance)
    mixing = number % 3 == 0 and chain[-1][0] == "early"
    every = [(i, j, True) for i, (_, names) in enumerate(chain) for j in names]
    cases = [(numbers, every)]
    if found := lowered(chain, numbers):
        moved, i, j = found
        cases.append((moved, [(i, j, False)]))
    for placed, wanted in cases:
        machine = used_machine(Chance(number), chain, placed, mixing)
        request = PassRequest(PASS, machine, list(range(layout.T_MOST)), [], [],
                              Memory(layout.MEMORY_WORDS, 0, {}), f"use {number}")
        yield Use(request, chain, placed, mixing, wanted)


def is_met(use, after):
    """Whether all that is wanted of a use holds in the machine that a pass left."""
    return all((seen_by(after, use.chain, use.numbers, i, use.mixing) >> j & 1 == 1) == seen
               for i, j, seen in use.wanted)


def all_uses(count, seed):
    """So many chains put to use, or twice as many passes."""
    chance = Chance(seed)
    for number in range(count):
        yield from uses_of(chance, number)
