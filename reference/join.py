"""Two bells in one ring: request Q-12 of document 02, for machines of 1978.

The second's generators follow the first's T; its sum words and DACs in use come with them.
"""

from typing import NamedTuple

from reference import layout
from reference.faults import faults
from reference.machine import generator_words, put_update_ticks, refusal, update_ticks
from reference.text import OF_1978

T_MOST = layout.T_MOST


class Joined(NamedTuple):
    """The call's answer: its number, and the first machine as it is left."""

    number: int
    machine: list


# What a bell uses

def generators_of(machine):
    """The words of its generators below T."""
    count = layout.GENERATORS if faults.join_above_t_counted else machine[layout.T]
    generators = [generator_words(machine, g) for g in range(count)]
    if faults.join_idle_not_counted:
        generators = [words for words in generators if not OF_1978.in_mode(words, layout.INACTIVE)]
    return generators


def words_used(machine):
    """The sum words that a bell uses: GSUM or GFM of a generator below T."""
    registers = (layout.GSUM,) if faults.join_gfm_not_used else (layout.GSUM, layout.GFM)
    return {words[register] for words in generators_of(machine) for register in registers}


def dacs_used(machine):
    """The DACs that a bell feeds."""
    return {OF_1978.dac_fed(words) for words in generators_of(machine)} - {None}


# The questions

def has_active_modifier(machine):
    """Whether any of the 128 modifiers is active."""
    count = machine[layout.T] // 2 if faults.join_modifiers_below_half else layout.MODIFIERS
    mmodes = (machine[layout.modifier_at(m) + layout.MMODE] for m in range(count))
    return any(layout.function(mmode) != layout.NO_FUNCTION for mmode in mmodes)


def stands_alone(machine):
    """Whether it has no reader, writer or modifier-quadrant GFM below T, nor an active modifier."""
    generators = [generator_words(machine, g) for g in range(machine[layout.T])]
    return not has_active_modifier(machine) and not any(
        OF_1978.reads(words) or OF_1978.writes(words) or words[layout.GFM] >= layout.QUADRANT_WORDS
        for words in generators)


def may_follow(machine):
    """Whether a bell's generator 0 may get a neighbour below: it never waits for one."""
    first = generator_words(machine, 0)
    return not (OF_1978.waits(first) and not faults.join_wait_let_through
                or OF_1978.in_mode(first, layout.RUNNING_C) and not faults.join_1101_let_through)


def question_16(first, second):
    """Whether both have room."""
    most = T_MOST + 1 if faults.join_257_let_through else T_MOST
    return first[layout.T] + second[layout.T] <= most


def question_17(first, second):
    """Whether both stand alone and the second may follow."""
    alone = stands_alone(first) and (faults.join_17_of_first_alone or stands_alone(second))
    return alone and may_follow(first if faults.join_asked_of_first else second)


def question_18(first, second):
    """Whether they share no sum word and no DAC."""
    return (words_used(first).isdisjoint(words_used(second))
            and dacs_used(first).isdisjoint(dacs_used(second)))


def join_refusal(first, second):
    """The first question that is answered no, or 0."""
    number = refusal(first) or refusal(second)
    if number:
        return number
    asked = [(16, question_16), (17, question_17), (18, question_18)]
    if faults.join_17_before_16:
        asked[0], asked[1] = asked[1], asked[0]
    if faults.join_18_before_17:
        asked[1], asked[2] = asked[2], asked[1]
    return next((number for number, holds in asked if not holds(first, second)), 0)


# The joined machine

def brought_places(second):
    """The places of the second's sum words, this and last, and of its DAC words that come over."""
    quadrants = [layout.GENERATOR_THIS, layout.GENERATOR_LAST]
    if faults.join_this_not_brought:
        quadrants.remove(layout.GENERATOR_THIS)
    if faults.join_last_not_brought:
        quadrants.remove(layout.GENERATOR_LAST)
    dacs = range(layout.DACS) if faults.join_all_dacs_brought else dacs_used(second)
    places = {quadrant + word for quadrant in quadrants for word in words_used(second)}
    return places if faults.join_dacs_not_brought else places | {layout.DACS_AT + d for d in dacs}


def put_ticks(joined, first, second):
    """T and the count of update ticks, in place."""
    if not faults.join_t_of_first:
        joined[layout.T] = first[layout.T] + second[layout.T]
    put_update_ticks(joined)
    if faults.join_ticks_of_first_t:
        joined[layout.UPDATE_TICKS] = first[layout.UPDATE_TICKS]
    if faults.join_ticks_by_second_n:
        joined[layout.UPDATE_TICKS] = update_ticks(joined[layout.T], second[layout.N])


def joined_machine(first, second):
    """The first machine with the second's bell in it."""
    joined = list(first)
    at = layout.generator_at(first[layout.T] + faults.join_one_too_high)
    block = layout.generator_at(second[layout.T])
    joined[at:at + block] = second[:block]
    for place in brought_places(second):
        joined[place] = second[place]
    if faults.join_quadrants_exchanged:
        for word in words_used(second):
            this, last = layout.GENERATOR_THIS + word, layout.GENERATOR_LAST + word
            joined[this], joined[last] = second[last], second[this]
    put_ticks(joined, first, second)
    return joined[:layout.MACHINE_WORDS]


def join(first, second):
    """The call."""
    number = join_refusal(first, second)
    return Joined(number, list(first) if number else joined_machine(first, second))
