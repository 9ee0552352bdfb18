"""The text of a chain of modifiers: a line for each, in the sequence in which they are to be numbered.

    NAME[=NUMBER] [early | late [NAME ..]]

A name, with the modifier's present number in a bench file where it has one; whether it reads modifier-this early or late; and the
modifiers before it whose writes it must see. A name alone reads nobody. Blanks or commas part the words; empty lines and what
follows a # don't count.
"""

import re
from typing import NamedTuple, Optional

import questions
from command_line import Ending, read_file
from reference.layout import MODIFIERS

EARLY, LATE = "early", "late"
FORM = "NAME[=NUMBER] early or late, and the names of those whose writes it must see"
PARTS = re.compile(r"[\s,]+")
OUTSIDE = 2 ** 32 - 1  # the place of a name that no line has


class Entry(NamedTuple):
    """A modifier of the chain: its line, its name, its present number or None, whether its read is early, and whom it must see."""
    line: int
    name: str
    present: Optional[int]
    early: bool
    sees: list


def entry_of(number, line):
    """The entry of a line, or None where it has none."""
    words = [word for word in PARTS.split(line.partition("#")[0]) if word]
    if not words:
        return None
    name, equals, present = words[0].partition("=")
    if not name or name in (EARLY, LATE):
        raise Ending(f"line {number}: begins with {words[0]!r}, and not with a name: {FORM}")
    if equals and not (re.fullmatch("[0-9]{1,3}", present) and int(present) < MODIFIERS):
        raise Ending(f"line {number}: {words[0]!r}: a present number goes from 0 to {MODIFIERS - 1}")
    if len(words) > 1 and words[1] not in (EARLY, LATE):
        raise Ending(f"line {number}: {name} is followed by {words[1]!r}, and not by early or late: {FORM}")
    wrong = next((word for word in words[2:] if "=" in word or word in (EARLY, LATE)), None)
    if wrong:
        raise Ending(f"line {number}: {wrong!r} is not a name: {FORM}")
    return Entry(number, name, int(present) if equals else None, words[1:2] == [EARLY], words[2:])


def read_chain(path):
    """The entries of a chain's text. Ends in words where it is none; whom they name is not judged here."""
    data = read_file(path, questions.FILE_MOST + 1)
    if len(data) > questions.FILE_MOST:
        raise Ending(f"{path} has more than {questions.FILE_MOST} bytes")
    try:
        lines = data.decode("utf-8-sig").splitlines()
    except UnicodeDecodeError as error:
        raise Ending(f"{path}: byte {error.start + 1} is no UTF-8: save it as plain text") from None
    try:
        entries = [entry for entry in (entry_of(number, line) for number, line in enumerate(lines, 1)) if entry]
        for what, those in (("the name", [entry.name for entry in entries]), ("the present number", [entry.present for entry in entries])):
            for at, one in enumerate(those):
                if one is not None and one in those[:at]:
                    raise Ending(f"line {entries[at].line}: {what} {one} is that of line {entries[those.index(one)].line} too")
    except Ending as ending:
        raise Ending(f"{path}: {ending}", ending.status) from None
    if not entries:
        raise Ending(f"{path} names no modifier: a line for each has {FORM}")
    return entries


# As the library takes it

def request(chain):
    """The two runs of words: for each entry 1 or 0 and where its names end; and the names, by their places in the list."""
    at = {entry.name: place for place, entry in enumerate(chain)}
    words, names = [], []
    for entry in chain:
        names += [at.get(name, OUTSIDE) for name in entry.sees]
        words += [int(entry.early), len(names)]
    return words, names


def misnamed(chain):
    """Why a chain is refused with 14: whom an entry may not name, with its line."""
    at = {entry.name: place for place, entry in enumerate(chain)}
    for place, entry in enumerate(chain):
        for name in entry.sees:
            if name == entry.name:
                yield f"line {entry.line}: {entry.name} names itself"
            elif name not in at:
                yield f"line {entry.line}: {entry.name} names {name}, and no line begins with that"
            elif at[name] > place:
                yield f"line {entry.line}: {entry.name} names {name}, which stands later, in line {chain[at[name]].line}: put it before"
