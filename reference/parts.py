"""What parts two orders: request Q-8 of document 02.

The first of the four points that fails is named, with the lowest place at which it fails, and
contents that show it are lent. Which contents is left open by the request.
"""

from typing import NamedTuple

from reference import layout
from reference.faults import faults
from reference.machine import below_t, fresh_machine, generator_words, put_update_ticks
from reference.orders import POINTS, orders_refusal
from reference.text import OF_1978


class Parts(NamedTuple):
    """The call's answer: its number; the point, 1 to 4, and the place, both 0 for equal orders and
    in a refusal; and the run and the read list as they are left."""

    number: int
    point: int
    place: int
    contents: list
    items: list


# The point and the place

def differing(one, other):
    """The places, in sequence, at which what a point gives for two orders differs."""
    keys = sorted(one) if isinstance(one, dict) else range(len(one))
    return [key for key in keys if one[key] != other[key]]


def failing(machine, first, second, text=OF_1978):
    """For each point that two orders fail, by its number, the places at which they do."""
    places = {number: differing(point(machine, first, text), point(machine, second, text))
              for number, point in enumerate(POINTS, 1)}
    return {number: found for number, found in places.items() if found}


def named(failed):
    """The first point that fails with its lowest place: a generator, DAC, place or sum word."""
    if not failed:
        return 0, 0
    point = max(failed) if faults.last_point_named else min(failed)
    place = max(failed[point]) if faults.highest_place_named else min(failed[point])
    if point == 1 and faults.neighbour_named:
        place -= 1
    if point == 3 and faults.written_places_from_1:
        place += 1
    return point, place


# Contents that part two orders. They have the settings of the machine; their other words are
# those of a fresh machine, save that every generator's V is 0, so that none sounds unless it is
# made to. Modifiers are inactive, so that no delay memory refuses a pass by 11 or 12.

def silent(machine, text=OF_1978):
    """A fresh machine with the same settings, in which no generator sounds."""
    bare = fresh_machine()
    bare[layout.T] = machine[layout.T]
    put_update_ticks(bare)
    for g in range(machine[layout.T] if faults.settings_below_t_alone else layout.GENERATORS):
        at = layout.generator_at(g)
        for register, value in text.settings(generator_words(machine, g)).items():
            bare[at + register] = value
        if faults.old_contents_set_gn and text is not OF_1978:
            bare[at + layout.GN] = 1
        bare[at + layout.GL] = asymptote(machine[at + layout.GMODE], 0, text)
    return bare


def asymptote(gmode, v, text=OF_1978):
    """The GL that gives V at GQ 0."""
    return (v - text.envelope(gmode, 0, 0)) % 4096


def sound(machine, g, text):
    """Makes generator g sound: W and V not 0, whatever its modes, in place.

    In 1978's 0100 s is 1, since GN is 0, and d is 4,095: W is 1."""
    if faults.silent_contents:
        return
    at = layout.generator_at(g)
    gmode = machine[at + layout.GMODE]
    machine[at + layout.GL] = asymptote(gmode, 4095, text)
    machine[at + layout.GK] = text.sounding_gk
    if text.takes_j(gmode):
        machine[at + layout.GJ] = text.sounding_gk << 8
    if text.is_pulse_train(gmode):
        # Step 1 leaves its range: 524,287 + 1.
        machine[at + layout.GJ] = 524287 << 8
        machine[layout.modulation_place(machine[at + layout.GFM])] = 1


def part_trigger(bare, g, one, other, text):
    """The neighbour below of the generator on different sides triggers."""
    at = layout.generator_at(text.side_of(g))
    bare[at + layout.GQ], bare[at + layout.GP] = (1 << 24) - 1, 1


def part_source(bare, place, source, other_source, text):
    """Only what is sent by the first order's source is not 0."""
    text.put_source(bare, source)


def part_replaced(bare, word, one, other, text):
    """The last 0111, its item, or an adding one after it alone sounds; gives the item's place."""
    (last, at, adding), (other_last, other_at, other_adding) = one, other
    if last != other_last:
        sound(bare, last, text)
        return None
    if at != other_at:
        return at
    sound(bare, min(adding ^ other_adding), text)
    return None


PARTING = (part_trigger, part_source, part_source, part_replaced)


def parting(machine, first, second, text=OF_1978):
    """Contents and read items that part two orders that disagree, else None."""
    for point, part in zip(POINTS, PARTING):
        one, other = point(machine, first, text), point(machine, second, text)
        if places := differing(one, other):
            bare, place = silent(machine, text), places[0]
            sounding_item = part(bare, place, one[place], other[place], text)
            readers = below_t(machine, text.reads)
            return bare, [int(at == sounding_item) for at in range(readers)]
    return None


# The call

def parts_refusal(machine, first, second, contents, items, text=OF_1978):
    """The questions of compare, then 1 of the lent run and 7 of the lent list, by their lengths."""
    number = orders_refusal(machine, first, second, text)
    if number:
        return number
    if faults.lent_asked_if_unequal and not failing(machine, first, second, text):
        return 0
    if len(contents) != layout.MACHINE_WORDS:
        return 1
    short = len(items) < below_t(machine, text.reads)
    return 7 if short and not faults.short_list_taken else 0


def parts(machine, first, second, contents, items, text=OF_1978):
    """The call, with a run and a read list lent for contents."""
    number = parts_refusal(machine, first, second, contents, items, text)
    if number:
        return Parts(number, 0, 0, list(contents), list(items))
    point, place = named(failing(machine, first, second, text))
    if not point:
        left = silent(machine, text) if faults.equal_orders_lend else list(contents)
        return Parts(0, 0, 0, left, list(items))
    lent, read = parting(machine, first, second, text)
    return Parts(0, point, place, lent, read + list(items)[len(read):])
