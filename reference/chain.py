"""Numbers for a chain of modifiers: request Q-11 of document 02.

The list comes as two runs of words. In entries, each entry has two: 1 where its read is early and
0 where it is late, then where its names end in the other run; they begin where those of the entry
before it end.
"""

from typing import NamedTuple

from reference.faults import faults
from reference.layout import EARLY_DISTANCE, MODIFIERS

LATE_DISTANCE = 1
NUMBER_MOST = MODIFIERS - 1
ENTRY_WORDS = 2


class Entry(NamedTuple):
    """An entry: whether its read is early, and the entries whose writes it must see."""

    early: bool
    names: list


class Chained(NamedTuple):
    """The call's answer: its number, and the run for the numbers as it is left."""

    number: int
    numbers: list


# The list, question 14

def entry_of(entries, names, i):
    """An entry of the list, or None where it doesn't fit."""
    early, end = entries[ENTRY_WORDS * i:ENTRY_WORDS * (i + 1)]
    start = entries[ENTRY_WORDS * i - 1] if i else 0
    if faults.chain_names_of_before and i > 1:
        start = entries[ENTRY_WORDS * (i - 1) - 1]
    if early > 1 or not start <= end <= len(names):
        return None
    named, most = names[start:end], i
    if faults.chain_names_itself:
        most = i + 1
    if faults.chain_names_outside and i:
        size = len(entries) // ENTRY_WORDS
        named = [name if name < size else 0 for name in named]
    return Entry(early == 1, named) if all(name < most for name in named) else None


def listed(entries, names):
    """The entries of a list that fits, else None."""
    if len(entries) % ENTRY_WORDS:
        return None
    last = entries[-1] if entries else 0
    if last != len(names) and not (faults.chain_names_left_over and last < len(names)):
        return None
    found = [entry_of(entries, names, i) for i in range(len(entries) // ENTRY_WORDS)]
    return None if None in found else found


# The earliest numbers, question 15

def distance(entry):
    """How far below its reader a writer must be."""
    if entry.early:
        return 3 if faults.chain_early_by_3 else EARLY_DISTANCE
    return EARLY_DISTANCE if faults.chain_late_by_4 else LATE_DISTANCE


def earliest(chain):
    """The earliest number of each entry, from those of the entries it waits on, the one before it
    among them."""
    found = []
    for i, entry in enumerate(chain):
        waited = [found[j] + distance(entry) for j in entry.names if j < i]
        if i and not faults.chain_before_not_waited:
            waited.append(found[i - 1] + (0 if faults.chain_equal_numbers else 1))
        found.append(max(waited, default=0))
    return found


def chain_refusal(entries, names):
    """Questions 14 and 15: the first that is answered no, or 0."""
    chain = listed(entries, names)
    if chain is None:
        long = len(entries) // ENTRY_WORDS > MODIFIERS
        return 15 if faults.chain_15_before_14 and long else 14
    most = NUMBER_MOST + 1 if faults.chain_128_let_through else NUMBER_MOST
    return 15 if max(earliest(chain), default=0) > most else 0


def chain_numbers(entries, names, numbers):
    """The call, with a run of 128 words for the numbers."""
    number = chain_refusal(entries, names)
    if number and not faults.chain_written_in_refusal:
        return Chained(number, list(numbers))
    found = earliest(listed(entries, names) or [])[:MODIFIERS]
    return Chained(number, found + list(numbers)[len(found):])
