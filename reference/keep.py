"""Partials that come and go: request Q-13 of document 02, for machines of 1978.

The kept answer is Q-2's, worked out from the machine as it then is. What else the library keeps
beside it is its own.
"""

from typing import NamedTuple

from reference import layout
from reference.any_order import any_order
from reference.faults import faults
from reference.machine import put_update_ticks, refusal

# The kinds of changes, by their numbers.
GMODE, GSUM, GFM, DAC, TICK_MORE, TICK_FEWER = range(6)
REGISTERS = {GMODE: layout.GMODE, GSUM: layout.GSUM, GFM: layout.GFM}
STEPS = {TICK_MORE: 1, TICK_FEWER: -1}


class Changed(NamedTuple):
    """The call's answer: its number, the machine as it is left, and the kept answer."""

    number: int
    machine: list
    alike: bool


def put_change(machine, kind, generator, value):
    """Makes a change in place, whether or not question 2 then fails; gives whether there is such a
    change."""
    if kind in STEPS:
        machine[layout.T] += STEPS[kind]
        if not faults.change_leaves_ticks:
            put_update_ticks(machine)
        return True
    if kind not in (*REGISTERS, DAC):
        return faults.change_of_any_kind
    if generator >= layout.GENERATORS + faults.change_of_generator_256:
        return False
    at = layout.generator_at(generator)
    if kind in REGISTERS:
        machine[at + REGISTERS[kind]] = value
        return True
    others = 0 if faults.change_loses_go else machine[at + layout.GO] // layout.DACS * layout.DACS
    machine[at + layout.GO] = others + value
    return value < layout.DACS + faults.change_to_dac_16


def changed_machine(machine, kind, generator, value):
    """A good machine after a change, or None where the change is refused."""
    changed = list(machine)
    there_is = put_change(changed, kind, generator, value)
    return changed if there_is and refusal(changed) == 0 else None


def keep(machine):
    """The call that makes what is kept: its number, and the answer."""
    return any_order(machine)


def change(machine, kind, generator, value):
    """The call, with what is kept being the machine's own; all refusals of the change are 2."""
    number, kept = any_order(machine)
    if number:
        return Changed(number, list(machine), kept)
    changed = changed_machine(machine, kind, generator, value)
    if changed is None:
        left = list(machine)
        if faults.change_kept_in_refusal:
            put_change(left, kind, generator, value)
        return Changed(2, left, kept)
    return Changed(0, changed, any_order(changed)[1])
