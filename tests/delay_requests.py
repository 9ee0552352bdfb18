"""Delay units and delay memories for the requests of the tests, and what a pass did with them.

A delay memory is written down by a number that its words are made from, and by those
words that are others: tests/runs.h makes the same words of it.
"""

from functools import lru_cache
from typing import NamedTuple

from leaf_requests import biased
from reference import layout
from reference.delay import (acting_line, acts_inactive, line_fits, table_address, unit_words,
                             units_in_time, units_named)
from reference.words import low

WORD = (1 << 32) - 1


# Delay memories

class Memory(NamedTuple):
    """A delay memory: its length, the number that it is made from, and the other words by slot."""

    length: int
    fill: int
    others: dict


LENGTH_MOST = 2 * layout.MEMORY_WORDS
CHUNK = 1024


def made_word(fill, slot):
    """The word of a slot, made from a number: 0 makes them all 0."""
    return (slot + fill) * 2654435761 % (1 << 32) >> 12 if fill else 0


@lru_cache(maxsize=8)
def made_words(fill):
    """All words made from a number."""
    return [made_word(fill, slot) for slot in range(LENGTH_MOST)]


def memory_words(memory):
    """All words of a delay memory."""
    words = made_words(memory.fill)[:memory.length]
    for slot, word in memory.others.items():
        words[slot] = word
    return words


def with_words(memory, others):
    """The delay memory with other words in some slots."""
    return memory._replace(others={**memory.others, **others})


def changed_words(before, after):
    """The slots in which two delay memories of one length differ, with the later words."""
    changed = []
    if before == after:
        return changed
    for first in range(0, len(before), CHUNK):
        if before[first:first + CHUNK] != after[first:first + CHUNK]:
            changed += [(slot, after[slot]) for slot in range(first, min(first + CHUNK, len(after)))
                        if before[slot] != after[slot]]
    return changed


def drawn_memory(chance):
    """A delay memory of 65,536 words: zeros, or others, some of them extreme."""
    fill = chance.choice((0, 1, 1978, 65521))
    slots = (0, 1, 65534, 65535, *chance.sample(range(layout.MEMORY_WORDS), 20), *range(8, 20))
    return Memory(layout.MEMORY_WORDS, fill, {slot: biased(chance, 20) for slot in slots})


# Delay units

SMALL_AREA = 24


def drawn_line(chance):
    """X, Y and Z of a line that fits: mostly so short that words come back soon."""
    z = chance.choice((0, 0, 1, 1, 2, 3, 4, 6, chance.randint(0, 12)))
    if not chance.randrange(12):
        z = chance.choice((1000, 65534, 65535, chance.randrange(layout.MEMORY_WORDS)))
    most = layout.MEMORY_WORDS - 1 - z
    small = min(chance.randrange(SMALL_AREA), most)
    x = chance.choice((small, small, chance.randint(0, most), most))
    return x, chance.choice((0, z, chance.randint(0, z))), z


def drawn_table(chance):
    """X, Y and Z of a table: of Z only the low 4 bits count, of Y none."""
    shift = chance.choice((0, 0, 1, 2, 4, 14, 15, 15, 15, chance.randrange(16)))
    small = chance.randrange(SMALL_AREA)
    x = chance.choice((0, 65535, small, small, biased(chance, 16)))
    return x, biased(chance, 16), low(biased(chance, 16), 12) << 4 | shift


def drawn_anywhere(chance):
    """X, Y and Z of any contents."""
    return biased(chance, 16), biased(chance, 16), biased(chance, 16)


LINES_MOSTLY = (layout.DELAY_LINE,) * 7 + layout.DELAY_MODES
TABLES_MOSTLY = (layout.TABLE, layout.TABLE_ROUNDED) * 2 + layout.DELAY_MODES


def put_unit(chance, machine, u, p):
    """A unit in a mode, with three words on their way."""
    draw = {layout.DELAY_LINE: drawn_line, layout.TABLE: drawn_table,
            layout.TABLE_ROUNDED: drawn_table}.get(p, drawn_anywhere)
    words = [biased(chance, 20) for _ in range(3)]
    at = layout.delay_unit_at(u)
    machine[at:at + layout.DELAY_UNIT_WORDS] = [*draw(chance), p, *words]


def put_units(chance, machine):
    """All units in modes of every kind; now and then one has any X, Y and Z."""
    modes = chance.choice((LINES_MOSTLY, LINES_MOSTLY, TABLES_MOSTLY, layout.DELAY_MODES))
    for u in range(layout.DELAY_UNITS):
        put_unit(chance, machine, u, chance.choice(modes))
        if not chance.randrange(8):
            at = layout.delay_unit_at(u)
            machine[at:at + 3] = drawn_anywhere(chance)


def invoke(chance, machine, m, u):
    """Modifier m becomes a 00111 on a unit; its other registers stay."""
    at = layout.modifier_at(m)
    machine[at + layout.MMODE] = layout.INVOKE_DELAY_UNIT << 4 | low(machine[at + layout.MMODE], 4)
    machine[at + layout.MRM] = u | chance.choice((0, 32, 64, 96, 128, 160))


def put_stray(chance, machine, first):
    """Some modifiers from the first on become 00111s on any unit, the same ones among them."""
    for m in range(first, layout.MODIFIERS):
        if not chance.randrange(6):
            invoke(chance, machine, m, chance.choice((0, 1, 31, chance.randrange(32))))


def named_anew(chance, t):
    """Units for 00111s in a pass: mostly those that act, none twice."""
    acting = min(units_in_time(t), layout.DELAY_UNITS)
    inside, outside = list(range(acting)), list(range(acting, layout.DELAY_UNITS))
    chance.shuffle(inside)
    chance.shuffle(outside)
    units = inside[:chance.choice((1, 2, 4, 8, 32))] + outside[:chance.choice((0, 1, 1, 3))]
    chance.shuffle(units)
    return units


def invokes(machine, m):
    """Whether a modifier is a 00111."""
    mmode = machine[layout.modifier_at(m) + layout.MMODE]
    return layout.function(mmode) == layout.INVOKE_DELAY_UNIT


def unit_of(machine, m):
    """The unit that a modifier names if it is a 00111."""
    return layout.delay_unit(machine[layout.modifier_at(m) + layout.MRM])


def invoking(machine):
    """All modifiers that are 00111s, by number."""
    mmodes = machine[layout.MODIFIERS_AT + layout.MMODE:layout.GENERATOR_THIS:layout.MODIFIER_WORDS]
    return [m for m, mmode in enumerate(mmodes) if mmode >> 4 == layout.INVOKE_DELAY_UNIT]


def put_invoking(chance, machine, t):
    """Some modifiers below T div 2 become 00111s, each on a unit of its own; their lines fit."""
    units = named_anew(chance, t)
    for m in sorted(chance.sample(range(t // 2), min(t // 2, len(units)))):
        invoke(chance, machine, m, units.pop())
    for u in units_named(machine):
        if acting_line(machine, u) and not line_fits(machine, u):
            at = layout.delay_unit_at(u)
            machine[at:at + 3] = drawn_line(chance)


# Refusals: each gives a copy of the machine that a question refuses, or None where it cannot

def past_end(chance, x, y, z):
    """X + Z is 65,536 or more."""
    z = max(z, 1)
    return chance.choice((layout.MEMORY_WORDS - z, 65535)), min(y, z), z


def index_past(chance, x, y, z):
    """Y is above Z."""
    z = min(z, 65534)
    return x, chance.choice((z + 1, 65535, chance.randint(z + 1, 65535))), z


def with_bad_line(chance, machine):
    """A line that is named and acts reaches past delay memory, or has its index past its slots."""
    units = [u for u in units_named(machine) if u < units_in_time(machine[layout.T])]
    if not units:
        return None
    other = list(machine)
    u = chance.choice([u for u in units if acting_line(machine, u)] or units)
    at = layout.delay_unit_at(u)
    other[at:at + 3] = chance.choice((past_end, index_past))(chance, *other[at:at + 3])
    other[at + layout.P] = layout.DELAY_LINE
    return other


def with_unit_twice(chance, machine):
    """Two modifiers below T div 2 name one unit: in range or not, in any mode."""
    count = machine[layout.T] // 2
    if count < 2:
        return None
    other, (first, second) = list(machine), chance.sample(range(count), 2)
    if not invokes(other, first):
        invoke(chance, other, first, chance.choice((0, 31, chance.randrange(32))))
    invoke(chance, other, second, unit_of(other, first))
    return other


MEMORY_LENGTHS = (0, 1, 4343, 65535, 65537, 65600, LENGTH_MOST)
WIDE_SLOTS = (0, 1, 4342, 32767, 32768, 65534, 65535)


def bad_memory(chance, memory, number):
    """A delay memory of another length, or with a word of 2^20 or more, and its name."""
    if number % 2:
        length = MEMORY_LENGTHS[number // 2 % len(MEMORY_LENGTHS)]
        others = {slot: word for slot, word in memory.others.items() if slot < length}
        return Memory(length, memory.fill, others), f"delay memory of {length} words"
    slot = chance.choice((*WIDE_SLOTS, chance.randrange(layout.MEMORY_WORDS)))
    word = chance.choice((1 << 20, 1 << 20 | biased(chance, 20), 1 << 31, WORD))
    return with_words(memory, {slot: word}), f"delay memory with {word} in slot {slot}"


# Damage to a unit, by the form of tests/pass_requests.py: name, place, bits that stay, bits set

def unit_damages():
    """Each register of some units too wide, and each P that is not built."""
    for u in (0, 1, 16, layout.DELAY_UNITS - 1):
        at = layout.delay_unit_at(u)
        for register, width in enumerate(layout.DELAY_UNIT_WIDTHS):
            for bit in (width, 31):
                name = f"{layout.DELAY_UNIT_NAMES[register]} of delay unit {u}, bit {bit}"
                yield name, at + register, WORD, 1 << bit
        for p in sorted(set(range(16)) - set(layout.DELAY_MODES)):
            yield f"P {p:04b} of delay unit {u}", at + layout.P, 0, p


# What a pass did

KIND_NAMES = {layout.DELAY_LINE: "line", layout.TABLE: "table",
              layout.TABLE_ROUNDED: "rounded table"}


def question_events(machine):
    """What questions 11 and 12 would be answered no for, each by itself."""
    named = units_named(machine)
    for x, y, z in {tuple(unit_words(machine, u)[:3]) for u in named if acting_line(machine, u)}:
        if x + z >= layout.MEMORY_WORDS:
            yield "11 by X and Z"
        if y > z:
            yield "11 by Y and Z"
    for u in {u for u in named if named.count(u) > 1}:
        kind = KIND_NAMES.get(unit_words(machine, u)[layout.P], "unit in no built mode")
        yield "12 of a " + ("unit that acts as inactive" if acts_inactive(machine, u) else kind)


def line_events(x, y, z, put):
    """What is counted of a line: its slots, and whether another line has put into its slot."""
    if y == z:
        yield "line, Y from Z to 0"
    if z == 0:
        yield "line of one slot"
    if x + y in put:
        yield "line, slot of another"


def table_events(x, z, p, word, put):
    """What is counted of a table: its shift and rounding, its address and who put what is there."""
    shift = low(z, 4)
    slot = table_address(x, z, p, word)
    if slot < x:
        yield "table, address past the end"
    if slot in put:
        yield "table, answer of this pass"
    if p == layout.TABLE_ROUNDED and shift == 0 and word & 1:
        yield "rounded table, shift 0 and a low bit"
    if p == layout.TABLE_ROUNDED and shift and word >> shift - 1 & 1:
        yield "rounded table, rounded up"


def unit_events(machine, after, m, u, put):
    """What is counted of a unit that modifier m names; put are the slots of lines so far."""
    x, y, z, p, first, _, _ = unit_words(machine, u)
    if p == layout.DELAY_INACTIVE:
        yield "inactive unit"
    if u >= units_in_time(machine[layout.T]):
        yield "unit out of range"
    if acts_inactive(machine, u):
        return
    yield KIND_NAMES[p]
    if first:
        yield KIND_NAMES[p] + ", a word given"
    if p == layout.DELAY_LINE:
        yield from line_events(x, y, z, put)
        put.add(x + y)
    else:
        # What modifier m sent stands in its L1.
        yield from table_events(x, z, p, after[layout.modifier_at(m) + layout.L1], put)


def delay_events(machine, after):
    """What is counted of a pass that was done."""
    put, half, named, above = set(), machine[layout.T] // 2, set(), set()
    for m in invoking(machine):
        u = unit_of(machine, m)
        if m < half:
            yield from unit_events(machine, after, m, u, put)
        (named if m < half else above).add(u)
    idle = [u for u in range(layout.DELAY_UNITS)
            if u not in named and not acts_inactive(machine, u)]
    if idle:
        yield "unit that no modifier names"
    if any(acting_line(machine, u) and not line_fits(machine, u) for u in idle):
        yield "line that doesn't fit, not named"
    if named & above:
        yield "unit named above T div 2 too"


class Echoes:
    """Counts the words that come back to their modifier Z+3 passes later, in passes in a row."""

    def __init__(self):
        self.sent = {}

    def came_back(self, machine, after):
        """How many words, not 0, came back in a pass that was done."""
        count = 0
        for m in invoking(machine):
            u = unit_of(machine, m)
            if m < machine[layout.T] // 2 and acting_line(machine, u):
                _, _, z, _, first, _, _ = unit_words(machine, u)
                sent = self.sent.setdefault(u, [])
                count += first != 0 and len(sent) >= z + 3 and sent[-(z + 3)] == first
                sent.append(after[layout.modifier_at(m) + layout.L1])
        return count
