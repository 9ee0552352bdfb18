"""Short ways to write down generators, modifiers, delay units, machines and delay memories.

Signed numbers are allowed.
"""

from reference import layout
from reference.layout import GENERATOR_NAMES, MODIFIER_NAMES
from reference.machine import fresh_machine, put_update_ticks, zero_memory
from reference.words import low, signed

# A coefficient whose high 20 bits are 262,144, one half: at scale 1 it multiplies
# by 1, at scale 2 by 2, at scale 3 by 4, and at scale 0 it makes x floor((x+1)/2).
HALF = 268435456


def bits(text):
    """The number that bits with blanks between them spell."""
    return int(text.replace(" ", ""), 2)


def generator(mode, **registers):
    """A generator's eleven words from its mode bits and registers; the rest is 0."""
    registers["GMODE"] = bits(mode)
    return [low(registers.get(name, 0), width)
            for name, width in zip(GENERATOR_NAMES, layout.GENERATOR_WIDTHS)]


def modifier(mode, **registers):
    """A modifier's eight words from its mode bits and registers; the rest is 0."""
    registers["MMODE"] = bits(mode)
    return [low(registers.get(name, 0), width)
            for name, width in zip(MODIFIER_NAMES, layout.MODIFIER_WIDTHS)]


def delay_unit(mode, x=0, y=0, z=0, words=(0, 0, 0)):
    """A delay unit's seven words from its mode bits, its registers and the words on their way."""
    return [low(value, width)
            for value, width in zip((x, y, z, bits(mode), *words), layout.DELAY_UNIT_WIDTHS)]


def memory(words=None):
    """A delay memory of zeros with some words by slot."""
    made = zero_memory()
    for slot, value in (words or {}).items():
        made[slot] = low(value, layout.MEMORY_WIDTH)
    return made


def machine(generators=(), modifiers=(), words=None, units=()):
    """A fresh machine with its first generators, modifiers and units, then other words by place.

    The count of update ticks is that of T and N."""
    made = fresh_machine()
    for g, eleven in enumerate(generators):
        made[layout.generator_at(g):layout.generator_at(g + 1)] = eleven
    for m, eight in enumerate(modifiers):
        made[layout.modifier_at(m):layout.modifier_at(m + 1)] = eight
    for u, seven in enumerate(units):
        made[layout.delay_unit_at(u):layout.delay_unit_at(u + 1)] = seven
    for place, value in (words or {}).items():
        made[place] = low(value, 20)
    put_update_ticks(made)
    return made


def changed(before, after, names):
    """The words that changed, by name, with their new contents."""
    return {name: new for name, old, new in zip(names, before, after) if old != new}


def places_changed(before, after):
    """The words of a machine that changed, by place."""
    return changed(before, after, range(len(before)))


def number(word):
    """The signed number of a 20-bit word."""
    return signed(word, 20)
