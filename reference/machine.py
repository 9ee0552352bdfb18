"""The machine: a fresh one, its questions, and a pass.

The turns, delay units, sum words, products and tables have files of their own; the turns,
products and tables are offered here too. What a text says for itself is asked of it: of the text
of 1978 where none is named.
"""

from functools import lru_cache
from operator import le
from typing import NamedTuple

from reference import layout
from reference.delay import delay_mode_built, memory_refusal, take_word, word_given
from reference.faults import faults
from reference.generator import generator_turn
from reference.layout import oscillator_mode_built, run_mode_built
from reference.modifier import (delay_turn, function_built, integer_product, modifier_turn,
                                product)
from reference.sums import add_to, all_marks, mark, no_marks, replace_by
from reference.tables import exponential, sine
from reference.text import OF_1978
from reference.words import low

__all__ = [
    "exponential", "fresh", "fresh_machine", "function_built", "generator_turn",
    "integer_product", "modifier_turn", "order_refusal", "oscillator_mode_built",
    "pass_refusal", "product", "refusal", "run_mode_built", "run_pass", "sine", "zero_memory",
]


# The count of update ticks

def update_ticks(t, n):
    """How many commands fit in a pass: N-T-8, or 0 if that is negative."""
    if faults.count_by_7:
        return max(n - t - 7, 0)
    if faults.count_wraps:
        return low(n - t - layout.OVERHEAD_TICKS, 32)
    count = max(n - t - layout.OVERHEAD_TICKS, 0)
    return 0 if faults.count_1_is_0 and count == 1 else count


def put_update_ticks(machine):
    """Puts the count of the machine's own T and N, in place."""
    machine[layout.UPDATE_TICKS] = update_ticks(machine[layout.T], machine[layout.N])


# A fresh machine, and a delay memory of zeros

def zero_memory():
    """A delay memory of zeros, as the bench program's is at first."""
    return [0] * layout.MEMORY_WORDS


def fresh_machine():
    """The words of a fresh machine: zero but for T, N and their count."""
    machine = [0] * layout.MACHINE_WORDS
    machine[layout.T] = layout.FRESH_T
    machine[layout.N] = layout.FRESH_N
    put_update_ticks(machine)
    return machine


def fresh(run):
    """Makes the run a fresh machine; asks only question 1."""
    if len(run) != layout.MACHINE_WORDS:
        return 1, list(run)
    return 0, fresh_machine()


# Questions 1 and 2

def source_built(address):
    """Whether a MIN or MRM has top bits other than 11."""
    return layout.source_quadrant(address) in layout.MODIFIER_SOURCES


@lru_cache(maxsize=None)
def word_ranges(text=OF_1978):
    """The least and the greatest value of every word, in sequence."""
    def wide(width):
        return 0, (1 << width) - 1
    ranges = [wide(w) for w in text.generator_widths] * layout.GENERATORS
    ranges += [wide(w) for w in layout.MODIFIER_WIDTHS] * layout.MODIFIERS
    ranges += [wide(layout.SUM_WIDTH)] * (4 * layout.QUADRANT_WORDS)
    ranges += [wide(20)] * layout.DACS
    ranges += [wide(20), (layout.T_LEAST, layout.T_MOST), (layout.N_LEAST, layout.N_MOST)]
    ranges += [wide(layout.COUNTER_WIDTH), wide(1), wide(layout.LINGER_WIDTH), wide(1)]
    ranges += [wide(w) for w in layout.DELAY_UNIT_WIDTHS] * layout.DELAY_UNITS
    # The count is T's and N's: count_agrees asks about it.
    ranges += [wide(32)]
    return ranges


@lru_cache(maxsize=None)
def bounds(text):
    """The least values of all words, and the greatest."""
    return tuple(zip(*word_ranges(text)))


RANGES = word_ranges()


def column(run, at, step, count):
    """One register's words in all generators, modifiers or delay units."""
    return run[at:at + step * count:step]


def generator_column(run, register):
    """One register's words in all 256 generators."""
    return column(run, register, layout.GENERATOR_WORDS, layout.GENERATORS)


def modifier_column(run, register):
    """One register's words in all 128 modifiers."""
    return column(run, layout.MODIFIERS_AT + register, layout.MODIFIER_WORDS, layout.MODIFIERS)


def delay_unit_column(run, register):
    """One register's words in all 32 delay units."""
    return column(run, layout.DELAY_UNITS_AT + register, layout.DELAY_UNIT_WORDS,
                  layout.DELAY_UNITS)


def modes_built(run, text):
    """Whether all modes are built and no MIN or MRM has top bits 11."""
    gmodes = set(generator_column(run, layout.GMODE))
    mmodes = set(modifier_column(run, layout.MMODE))
    sources = set(modifier_column(run, layout.MIN)) | set(modifier_column(run, layout.MRM))
    return (all(map(text.gmode_built, gmodes)) and all(map(text.function_built, mmodes))
            and all(map(source_built, sources))
            and all(map(delay_mode_built, set(delay_unit_column(run, layout.P)))))


def count_agrees(run):
    """Whether the count of update ticks is that of the machine's own T and N."""
    return (faults.count_not_asked
            or run[layout.UPDATE_TICKS] == update_ticks(run[layout.T], run[layout.N]))


def refusal(run, text=OF_1978):
    """Questions 1 and 2 of a run of words: 0, 1 or 2."""
    if len(run) != layout.MACHINE_WORDS:
        return 1
    least, most = bounds(text)
    in_range = all(map(le, least, run)) and all(map(le, run, most))
    if faults.counter_asked_by_20_bits and run[layout.COUNTER] >> 20:
        return 2
    return 0 if in_range and modes_built(run, text) and count_agrees(run) else 2


# Questions 5 to 8, and those of a pass

def order_refusal(machine, order):
    """Questions 5 and 6 of one order: 0, 5 or 6."""
    t = machine[layout.T]
    if len(order) != t:
        return 5
    return 0 if sorted(order) == list(range(t)) else 6


def below_t_in(machine, mode):
    """How many generators below T are in a run mode."""
    gmodes = generator_column(machine, layout.GMODE)[:machine[layout.T]]
    return sum(layout.run_mode(gmode) == mode for gmode in gmodes)


def generator_words(machine, g):
    """The eleven words of generator g."""
    at = layout.generator_at(g)
    return machine[at:at + layout.GENERATOR_WORDS]


def below_t(machine, holds):
    """How many generators below T have what is asked of their words."""
    return sum(holds(generator_words(machine, g)) for g in range(machine[layout.T]))


def pass_refusal(machine, order, items, places, memory, text=OF_1978):
    """The first question that a pass fails, or 0."""
    number = refusal(machine, text) or order_refusal(machine, order)
    if number:
        return number
    if len(items) < below_t(machine, text.reads):
        return 7
    if len(places) < below_t(machine, text.needs_place):
        return 8
    return memory_refusal(memory) or text.units_refusal(machine)


# The pass

class Passed(NamedTuple):
    """What a pass answers: its number, the counts read and written, and a mark for each
    generator-this word, 1 if a sum into it left its range; then what it leaves."""

    number: int
    read: int
    written: int
    clipped: list
    machine: list
    places: list
    memory: list


def take_generator(machine, g, told, items, written, clipped, text):
    """One generator's turn in place; items is what is left to read. Gives whether it triggers."""
    words, at = generator_words(machine, g), layout.generator_at(g)
    f = machine[layout.modulation_place(words[layout.GFM])]
    after, p, triggers, sent = text.generator_turn(words, f, told)
    machine[at:at + layout.GENERATOR_WORDS] = after
    words = text.acting(words, told)
    if text.writes(words):
        written.append(sent)
    if (dac := text.dac_fed(words)) is not None:
        machine[layout.DACS_AT + dac] = sent
    word = words[layout.GSUM]
    place = layout.GENERATOR_THIS + word
    if text.adds(words):
        mark(clipped, word, add_to(machine, place, p), replaced=False)
    if text.reads(words):
        mark(clipped, word, replace_by(machine, place, p, items.pop(0)), replaced=True)
    return triggers


def take_generators(machine, order, items, text):
    """All generators in their order, in place; gives the count read, the items written, marks."""
    left, written, triggered, clipped = list(items), [], set(), no_marks()
    for g in order:
        told = text.neighbour(g) in triggered
        if take_generator(machine, g, told, left, written, clipped, text):
            triggered.add(g)
    return len(items) - len(left), written, clipped


def word_read(machine, address, view):
    """The word at a MIN or MRM; view is modifier-this as this read sees it."""
    quadrant = layout.MODIFIER_SOURCES[layout.source_quadrant(address)]
    place = layout.sum_address(address)
    return view[place] if quadrant == layout.MODIFIER_THIS else machine[quadrant + place]


def take_modifier(machine, m, early, late, memory, text):
    """One modifier's turn in place, with its early and late view of modifier-this."""
    at = layout.modifier_at(m)
    words = machine[at:at + layout.MODIFIER_WORDS]
    mmode = words[layout.MMODE]
    a_late = text.late_a(mmode) and not (faults.delay_a_early and text.invokes(mmode))
    a = word_read(machine, words[layout.MIN], late if a_late else early)
    if text.invokes(mmode):
        # MRM names a delay unit; there is no B.
        unit = layout.delay_unit(words[layout.MRM])
        after, s, sent = delay_turn(words, a, 0, word_given(machine, unit))
        take_word(machine, memory, unit, sent)
    else:
        after, s = text.modifier_turn(words, a, word_read(machine, words[layout.MRM], early))
    machine[at:at + layout.MODIFIER_WORDS] = after
    place = layout.MODIFIER_THIS + layout.sum_address(words[layout.MSUM])
    if layout.replaces(words[layout.MSUM]):
        machine[place] = s
    else:
        add_to(machine, place, s)


def take_modifiers(machine, memory, text):
    """Modifiers 0..(T div 2)-1 by number with their delay units, in place."""
    views = []
    for m in range(machine[layout.T] // 2):
        # views[n] is modifier-this after the writes of all modifiers below n.
        views.append(machine[layout.MODIFIER_THIS:layout.MODIFIER_THIS + layout.QUADRANT_WORDS])
        early = views[max(m - layout.EARLY_DISTANCE + 1, 0)]
        if faults.early_read_sees_previous:
            early = views[m]
        take_modifier(machine, m, early, views[m], memory, text)


def next_number(counter):
    """The counter with 1 added."""
    if faults.counter_stays and counter == (1 << layout.COUNTER_WIDTH) - 1:
        return counter
    return low(counter + 1, 20 if faults.counts_in_20_bits else layout.COUNTER_WIDTH)


def close(machine):
    """Copies both this-pass quadrants to last, clears them and counts the pass, in place."""
    size = layout.QUADRANT_WORDS
    for this, last in ((layout.GENERATOR_THIS, layout.GENERATOR_LAST),
                       (layout.MODIFIER_THIS, layout.MODIFIER_LAST)):
        machine[last:last + size] = machine[this:this + size]
        machine[this:this + size] = [0] * size
    machine[layout.COUNTER] = next_number(machine[layout.COUNTER])


def run_pass(machine, order, items, places, memory, text=OF_1978):
    """A pass over a delay memory; what it was handed stays as it is."""
    number = pass_refusal(machine, order, items, places, memory, text)
    if number:
        marks = all_marks() if faults.marks_in_refusal else no_marks()
        return Passed(number, 0, 0, marks, list(machine), list(places), list(memory))
    after, memory_after = list(machine), list(memory)
    read, written, clipped = take_generators(after, order, items, text)
    take_modifiers(after, memory_after, text)
    close(after)
    places_after = written + list(places)[len(written):]
    return Passed(0, read, len(written), clipped, after, places_after, memory_after)
