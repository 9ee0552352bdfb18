"""The foundry's table of rings: by how many cents a turn of 0.4 mm at each ring moves each partial; and what a cut makes of a bell.

The first head is `ring`, the others are names of partials; a row is a ring. An empty cell, or a partial without a column, is a figure
that the foundry doesn't have: nothing is put in its place. Read as tables of partials are (table_reader.py). Needs no library.
"""

import copy
import math
from dataclasses import dataclass, field

from command_line import Ending, Status, read_file
from ratios import BEATING, cents, strike_note
from table_reader import decoded, number, rows_of, without_empty_end

HEAD = "ring"
TURN = "0.4 mm"
CENTS_MOST = 1200.0
BASE = "nominal"  # cents off just are counted from this one
UNCHANGED = 0.05  # what moves by fewer cents is neither better nor worse


@dataclass
class Rings:
    """The table: the partials that have a column, and of each ring, by name, the cents of those that have a figure."""
    partials: list
    cents: dict


def read_rings(path):
    """The table of rings of a file."""
    try:
        return rings_of(decoded(read_file(path)))
    except Ending as ending:
        raise ending if ending.status == Status.UNREAD else Ending(f"{path}: {ending}", ending.status) from None


def rings_of(text):
    separator, found = rows_of(text)
    if not found:
        raise Ending(f"the table of rings is empty: the first line must have {HEAD} and the names of partials")
    heads = without_empty_end(found[0], 0)
    if heads[0].text.lower() != HEAD:
        raise heads[0].wrong(f"the first head must be {HEAD}: {heads[0].text!r}")
    names = [cell.text for cell in heads[1:]]
    for cell in heads[1:]:
        if not cell.text or names.count(cell.text) > 1:
            raise cell.wrong(f"a partial's name that is empty or there twice: {cell.text!r}")
    if not names:
        raise Ending(f"line {heads[0].line}: there is no column of a partial")
    bodies = [without_empty_end(cells, len(heads)) for cells in found[1:]]
    comma = separator != "," and any("," in cell.text for cells in bodies for cell in cells[1:])
    rings = Rings(names, {})
    for cells in bodies:
        ring = cells[0]
        if len(cells) != len(heads):
            raise cells[-1].wrong(f"{len(cells)} columns where the first line has {len(heads)}")
        if not ring.text or not ring.text.isprintable() or "/" in ring.text or ring.text[0] == "." or ring.text in rings.cents:
            raise ring.wrong(f"a ring's name that is empty, was there before, begins with a point or has a / or what can't be printed: {ring.text!r}")
        rings.cents[ring.text] = {name: number(cell, f"the cents of {name}", comma, -CENTS_MOST, CENTS_MOST) for name, cell in zip(names, cells[1:]) if cell.text}
    if not rings.cents:
        raise Ending("the table of rings has no ring")
    return rings


def cut_rows(rows, moved, turns):
    """The rows of a bell after so many turns at a ring that moves partials by these cents; those without a figure stay."""
    after = copy.deepcopy(rows)
    for row in after:
        row.hz *= 2 ** (turns * moved.get(row.name, 0.0) / 1200)
    return after


@dataclass
class Bell:
    """A bell as it is or after a cut: of each partial its Hz and its cents off just, nan where no figure tells; strike note, beats and the measure."""
    ring: str
    hz: dict = field(default_factory=dict)
    off: dict = field(default_factory=dict)
    strike: float = math.nan
    beats: dict = field(default_factory=dict)
    measure: float = math.nan


def doublets(rows):
    """Pairs of partials that beat: each with the next above it."""
    ordered = sorted(rows, key=lambda row: row.hz)
    return [(one.name, other.name) for one, other in zip(ordered, ordered[1:]) if 0 < other.hz - one.hz <= BEATING]


def judged(ring, rows, known, ratios, pairs):
    """A bell from its rows, of which those in known have a figure."""
    bell = Bell(ring, {row.name: row.hz if row.name in known else math.nan for row in rows})
    base = bell.hz[BASE] / ratios[BASE]
    bell.off = {name: cents(hz, base * ratios[name]) for name, hz in bell.hz.items() if name in ratios}
    told = [row for row in rows if row.name in known]
    bell.strike = strike_note(told) if BASE in known else math.nan
    bell.beats = {pair: abs(bell.hz[pair[1]] - bell.hz[pair[0]]) for pair in pairs}
    others = [off for name, off in bell.off.items() if name != BASE]
    bell.measure = math.sqrt(sum(off * off for off in others) / len(others)) if others else 0.0
    return bell


def need_nominal(rows, ratios):
    """A bell without a nominal has no strike note to be judged by."""
    if BASE not in ratios or all(row.name != BASE for row in rows):
        raise Ending(f"there is no {BASE}, from which cents off just and the strike note are counted")


def bells_of(rows, rings, turns, ratios):
    """The bell as it is, and after a cut at each ring: those with a measure first, the least first."""
    need_nominal(rows, ratios)
    rows = [row for row in rows if not row.noise]
    pairs = doublets(rows)
    before = judged("as it is", rows, {row.name for row in rows}, ratios, pairs)
    after = [judged(ring, cut_rows(rows, moved, turns), moved.keys(), ratios, pairs) for ring, moved in rings.cents.items()]
    return before, sorted(after, key=lambda bell: (math.isnan(bell.measure), bell.measure))


def changes(before, after):
    """The partials that come nearer to their just ratio, and those that go away from it."""
    told = [(name, abs(after.off[name]) - abs(before.off[name])) for name in before.off if name != BASE and not math.isnan(after.off[name])]
    return [name for name, more in told if more < -UNCHANGED], [name for name, more in told if more > UNCHANGED]


def lacking(rows, moved):
    """The partials of a bell for which a ring has no figure."""
    return [row.name for row in rows if not row.noise and row.name not in moved]
