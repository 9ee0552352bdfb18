"""Tables of partials as people and spreadsheets write them.

Columns are parted by commas, semicolons or tabs, whichever the line of heads has; where it isn't the comma, numbers may have a
decimal comma. A byte-order mark, capital letters in heads, empty rows and empty columns at the end are no matter. Everything that
is not understood is told with its line and column.
"""

import csv
import io
import math
import re
from dataclasses import dataclass, field

from command_line import Ending, read_file

HEADS, CHANNEL = ("name", "hz", "db", "t60"), "channel"
CHANNELS = ("left", "right", "both")
SEPARATORS = ("\t", ";", ",")  # the first of these that the heads have
SEPARATOR_LINE = re.compile(r"sep=([\t;,])\r?\n", re.I)  # a line by which a spreadsheet says it
NUMBER = re.compile(r"[+-]?(\d+\.?\d*|\.\d+)([eE][+-]?\d+)?", re.ASCII)
QUIET = 200  # levels are within so many dB
NOISE = "noise"


@dataclass
class Row:
    """A row of the table, and what the registers make of it."""
    name: str
    hz: float  # 0 for noise
    db: float
    t60: float
    channel: str
    line: int
    generators: list = field(default_factory=list)
    gj: int = 0
    gm: int = 0
    gp: int = 0
    gq: int = 0

    @property
    def noise(self):
        return self.hz == 0


@dataclass
class Cell:
    """A cell's text and where it stands, columns counted from 1."""
    text: str
    line: int
    column: int
    head: str = ""

    def wrong(self, cause):
        """An ending that says where and why."""
        return Ending(f"line {self.line}, column {self.column}{f' ({self.head})' if self.head else ''}: {cause}")


def decoded(data):
    """A table's text. Spreadsheets write UTF-8 or UTF-16 with a byte-order mark, or UTF-8 without one."""
    if data[:2] in (b"\xff\xfe", b"\xfe\xff"):
        try:
            return data.decode("utf-16")
        except UnicodeDecodeError as error:
            raise Ending(f"byte {error.start}: not UTF-16, as the byte-order mark says") from None
    try:
        return data.decode("utf-8-sig")
    except UnicodeDecodeError as error:
        before = data[:error.start]
        line, start = before.count(b"\n") + 1, before.rfind(b"\n") + 1
        column = 1 + sum(data[start:error.start].count(separator.encode()) for separator in SEPARATORS)
        raise Ending(f"line {line}, column {column}: the byte {data[error.start]:02X} is no UTF-8: save the table as \"CSV UTF-8\"") from None


def separator_of(text):
    """The separator, and how many lines say nothing else."""
    said = SEPARATOR_LINE.match(text)
    if said:
        return said[1], 1
    heads = next((line for line in text.splitlines() if line.strip() and not line.lstrip().startswith("#")), "")
    return next((separator for separator in SEPARATORS if separator in heads), ","), 0


def rows_of(text):
    """The separator, and the rows that have something in them, each a list of cells; lines that start with # are skipped."""
    separator, skipped = separator_of(text)
    reader, rows, line = csv.reader(io.StringIO(text, newline=""), delimiter=separator, strict=True), [], 1
    try:
        for cells in reader:
            if line > skipped and any(cell.strip() for cell in cells) and not cells[0].lstrip().startswith("#"):
                rows.append([Cell(cell.strip(), line, column) for column, cell in enumerate(cells, 1)])
            line = reader.line_num + 1
    except csv.Error as error:
        raise Ending(f"line {line}: {error}") from None
    return separator, rows


def without_empty_end(cells, width):
    """A row's cells without empty ones past the last head."""
    while len(cells) > width and not cells[-1].text:
        cells = cells[:-1]
    return cells


def heads_of(cells):
    """The heads by column: name, hz, db, t60 and perhaps channel, in any sequence."""
    cells = without_empty_end(cells, 0)
    names = [cell.text.lower() for cell in cells]
    for at, (cell, name) in enumerate(zip(cells, names)):
        if name not in (*HEADS, CHANNEL):
            raise cell.wrong(f"not a head of a table: {cell.text!r}; heads are {', '.join(HEADS)} and, if there is one, {CHANNEL}")
        if name in names[:at]:
            raise cell.wrong(f"the head {name} is there twice")
    missing = [name for name in HEADS if name not in names]
    if missing:
        raise Ending(f"line {cells[0].line}: the heads lack {', '.join(missing)}: the first line must have {', '.join(HEADS)} and, if there is one, {CHANNEL}")
    return names


def number(cell, what, comma, least, most=math.inf):
    """A number of the table, above the least and below the most."""
    text = cell.text
    if comma and "." in text:
        raise cell.wrong(f"{what} has a point in a table with decimal commas: {text!r}")
    if comma and text.count(",") == 1:
        text = text.replace(",", ".")
    if not NUMBER.fullmatch(text):
        raise cell.wrong(f"{what} is not a number: {cell.text!r}")
    value = float(text)
    if not least < value < most:
        raise cell.wrong(f"{what} must be above {least:g}{'' if most == math.inf else f' and below {most:g}'}: {cell.text}")
    return value


def decimal_commas(separator, rows, heads):
    """Whether numbers have decimal commas: some have a comma, which isn't the separator."""
    places = [at for at, head in enumerate(heads) if head in HEADS[1:]]
    return separator != "," and any("," in cells[at].text for cells in rows for at in places)


def row_of(by_head, line, comma, names):
    """A row from its cells by head."""
    name, hz = by_head["name"], by_head["hz"]
    if not name.text.isprintable():
        raise name.wrong(f"a name with a character that can't be printed: {name.text!r}")
    if not name.text or name.text in names:
        raise name.wrong(f"a name that is empty or was there before: {name.text!r}")
    channel = by_head[CHANNEL].text.lower() if CHANNEL in by_head else "both"
    if channel not in CHANNELS:
        raise by_head[CHANNEL].wrong(f"the channel must be left, right or both: {by_head[CHANNEL].text!r}")
    noise = hz.text.lower() == NOISE
    if noise and channel != "both":
        raise by_head[CHANNEL].wrong("noise goes to both channels")
    return Row(name.text, 0.0 if noise else number(hz, "the frequency", comma, 0), number(by_head["db"], "the level", comma, -QUIET, QUIET),
               number(by_head["t60"], "the decay", comma, 0), channel, line)


def read_table(path):
    """The rows of a table."""
    separator, found = rows_of(decoded(read_file(path)))
    if not found:
        raise Ending(f"the table is empty: the first line must have {', '.join(HEADS)} and, if there is one, {CHANNEL}")
    heads = heads_of(found[0])
    rows, bodies = [], [without_empty_end(cells, len(heads)) for cells in found[1:]]
    for cells in bodies:
        if len(cells) != len(heads):
            raise cells[min(len(cells), len(heads) + 1) - 1].wrong(f"{len(cells)} columns where the first line has {len(heads)}")
        for cell, head in zip(cells, heads):
            cell.head = head
    comma = decimal_commas(separator, bodies, heads)
    for cells in bodies:
        rows.append(row_of(dict(zip(heads, cells)), cells[0].line, comma, [row.name for row in rows]))
        if rows[-1].noise and any(row.noise for row in rows[:-1]):
            raise cells[heads.index("hz")].wrong("the table has more than one row of noise")
    if not rows:
        raise Ending("the table has no partial")
    return rows
