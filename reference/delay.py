"""Delay units, by "Delay units" of the 1978 text and request Q-1 of document 02.

A modifier in function 00111 names a unit. DM is the word that the unit gives as the
modifier's turn begins, then the word that it takes as the turn ends.
"""

from reference import layout
from reference.faults import faults
from reference.words import low, signed


def delay_mode_built(p):
    """Whether a P is built."""
    return p in layout.DELAY_MODES


def unit_words(machine, u):
    """The seven words of a unit."""
    return machine[layout.delay_unit_at(u):layout.delay_unit_at(u + 1)]


# Which units act

def units_in_time(t):
    """How many units, from 0 on, a pass has ticks for: (T-6) div 4, none when T is below 10."""
    if faults.small_t_wraps:
        return low(t - 6, 32) // 4
    return max(t - 6, 0) // 4


def acts_inactive(machine, u):
    """Whether a unit is in the inactive mode, or acts as if it were."""
    p = unit_words(machine, u)[layout.P]
    return p == layout.DELAY_INACTIVE or u >= units_in_time(machine[layout.T])


def units_named(machine):
    """The units that the 00111 modifiers below T div 2 name, in the sequence of these modifiers."""
    named = []
    for m in range(machine[layout.T] // 2):
        at = layout.modifier_at(m)
        if layout.function(machine[at + layout.MMODE]) == layout.INVOKE_DELAY_UNIT:
            named.append(layout.delay_unit(machine[at + layout.MRM]))
    return named


# Questions 10 to 12

def memory_refusal(memory):
    """Question 10 of a delay memory: 0 or 10."""
    good = len(memory) == layout.MEMORY_WORDS and max(memory) < 1 << layout.MEMORY_WIDTH
    return 0 if good else 10


def acting_line(machine, u):
    """Whether a unit is a delay line that doesn't act as inactive."""
    return unit_words(machine, u)[layout.P] == layout.DELAY_LINE and not acts_inactive(machine, u)


def line_fits(machine, u):
    """Whether a delay line's slots lie within delay memory and its index within its slots."""
    x, y, z = unit_words(machine, u)[:3]
    return x + z < layout.MEMORY_WORDS and y <= z


def units_refusal(machine):
    """Questions 11 and 12 of the units that are named: 0, 11 or 12."""
    named = units_named(machine)
    lines = [u for u in named if acting_line(machine, u)]
    if not all(line_fits(machine, u) for u in lines):
        return 11
    alone = lines if faults.only_lines_named_once else named
    return 12 if len(set(alone)) < len(alone) else 0


# A unit's turn, which is its modifier's

def word_given(machine, u):
    """DM as the modifier's turn begins: the word next due, or 0 of a unit that acts as inactive."""
    return 0 if acts_inactive(machine, u) else unit_words(machine, u)[layout.FIRST]


def table_address(x, z, p, word):
    """Where a table's answer stands: the shifted word, rounded in 1011, its right 16 bits plus X."""
    shift = low(z, 4)
    shifted = (signed(word, 20) if faults.sign_shifted_in else word) >> shift
    if p == layout.TABLE_ROUNDED and shift > 0:
        shifted += word >> shift - 1 & 1
    if p == layout.TABLE_ROUNDED and shift == 0 and faults.rounded_at_shift_0:
        shifted += word & 1
    return (low(shifted, 16) + x) % layout.MEMORY_WORDS


def line_step(x, y, z, second, third, memory, word):
    """A delay line puts a word into delay memory, in place; gives Y and the three words after it."""
    stepped = 0 if y == z else y + 1
    slot = x + (stepped if faults.y_stepped_before_word else y)
    leaving = memory[slot]
    memory[slot] = word
    if faults.leaving_word_third:
        return stepped, second, third, leaving
    return stepped, second, leaving, 0


def take_word(machine, memory, u, word):
    """A unit takes DM as the modifier's turn ends, in place; one that acts as inactive does not."""
    if acts_inactive(machine, u):
        return
    x, y, z, p, _, second, third = unit_words(machine, u)
    if p == layout.DELAY_LINE:
        after = line_step(x, y, z, second, third, memory, word)
    else:
        answer = memory[table_address(x, z, p, word)]
        after = (y, second, answer, 0) if faults.table_answer_early else (y, second, third, answer)
    y, *words = after
    machine[layout.delay_unit_at(u):layout.delay_unit_at(u + 1)] = [x, y, z, p, *words]
