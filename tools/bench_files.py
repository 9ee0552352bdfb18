"""Bench files of both texts as the planner's commands (show, same, renumber) take them: the machine that a file begins with, its
commands, and the names of its partials.

A text= line says which text a file follows; without one it is that of 1978. The rest is read by tools/questions.py. Places, widths
and built codes are the reference's.
"""

import math
import os
from typing import NamedTuple

import questions
from command_line import Ending, Status, read_file
from compared import PARTIAL
from machine_words import UNITS, name_of
from partials import TICK, report_beside
from reference import layout
from reference import old_layout as old
from reference.machine import source_built, word_ranges
from reference.old import OLD, TEXTS
from reference.ring import first_machine
from reference.text import OF_1978
from reference.words import signed
from table_reader import read_table

TEXT = b"text="
QUESTION_13 = "Is the text that the first line names old or 1978?"
CLOSE_HZ, CLOSE_CENTS = 0.001, 1.0  # a report has three places; a table's row is met within a cent
READ_MOST = questions.FILE_MOST + 1


class Named(NamedTuple):
    """What a report or a table says of a generator: its partial's name, its Hz (None for noise), and where that stands."""
    name: str
    hz: float
    source: str


class BenchFile:
    """A bench file: its text, passes, commands as line and number, and the words of its machine before the first pass."""

    def __init__(self, path, text, bench, shift):
        self.path, self.text, self.passes = path, text, bench.passes
        self.lines_before = shift  # a text= line is not counted by the reader of the rest
        self.words = [(place, value) for place, value, _ in bench.words]
        self.commands = [(line + shift, command) for line, command in bench.commands]
        self.machine = first_machine(self.words)
        self.names, self.doubts = {}, []

    @property
    def is_old(self):
        return self.text is OLD

    @property
    def t(self):
        return self.machine[layout.T]

    @property
    def n(self):
        return self.machine[layout.N]

    @property
    def rate(self):
        """Passes a second."""
        return 1 / (TICK * self.n)

    def generator(self, g):
        """The eleven words of a generator."""
        at = layout.generator_at(g)
        return self.machine[at:at + layout.GENERATOR_WORDS]

    def modifier(self, m):
        """The eight words of a modifier."""
        at = layout.modifier_at(m)
        return self.machine[at:at + layout.MODIFIER_WORDS]

    def run_mode(self, g):
        return run_mode(self.text, self.machine[layout.generator_at(g) + layout.GMODE])

    mode = run_mode  # as compare calls it

    def hz(self, g):
        """A generator's frequency, negative where it turns backwards."""
        return signed(self.machine[layout.generator_at(g) + layout.GJ] >> 8, 20) / 2 ** 20 * self.rate

    def called(self, g):
        """A generator by its number, with its partial."""
        return f"generator {g} ({self.names[g]})" if g in self.names else f"generator {g}"


def run_mode(text, gmode):
    """The run mode of a GMODE as 1978 has it; the older text's by what it is switched as."""
    return old.SWITCHED_AS[old.run_mode(gmode)] if text is OLD else layout.run_mode(gmode)


# Reading

def parted(data):
    """The value of a text= line (None where there is none) and the rest."""
    line, newline, rest = data.partition(b"\n")
    return (line[len(TEXT):], rest) if newline and line.startswith(TEXT) else (None, data)


def parsed(path, data):
    """The bench file, or nothing with the number of the question that it fails and why."""
    value, rest = parted(data)
    shift = 0 if value is None else 1
    if len(data) > questions.FILE_MOST:
        return None, 9, questions.Fault(0, f"the file has more than {questions.FILE_MOST} bytes")
    bench, fault = questions.read(rest)
    if fault:
        return None, 9, fault._replace(line=fault.line + shift if fault.line else 0)
    if value == OLD.name and bench.commands:
        return None, 9, questions.Fault(bench.commands[0][0] + shift, "a file of the older text has no commands")
    text = OF_1978 if value is None else TEXTS.get(value)
    if text is None:
        return None, 13, questions.Fault(1, f"the text is {questions.shown(value)!r}", b"")
    return BenchFile(path, text, bench, shift), 0, None


def old_fault(place, value):
    """What a word of the older text has and may not have, or nothing."""
    least, most = word_ranges(OLD)[place]
    if not least <= value <= most:
        return f"{value}, {f'{least} to {most}' if least else f'at most {most}'}"
    for start, count, names, kind in UNITS:
        if start <= place < start + count * len(names):
            register = names[(place - start) % len(names)]
            if register == "GMODE" and not OLD.gmode_built(value):
                return f"{value}: run mode {old.run_mode(value):03b} with oscillator mode {old.oscillator_mode(value):03b}, which isn't built"
            if register == "MMODE" and not OLD.function_built(value):
                return f"{value}: function {layout.function(value):05b}, which isn't built"
            if register in ("MIN", "MRM") and not source_built(value):
                return f"{value}: top bits 11, which name no quadrant: 00, 01 or 10"
            if kind == "delay unit" and register == "P" and value not in layout.DELAY_MODES:
                return f"{value}: mode {value:04b}, built are {questions.built(layout.DELAY_MODES, 4)}"
    return None


def machine_faults(bench_file):
    """The words with which a file's machine fails question 2."""
    wrong_of = old_fault if bench_file.is_old else questions.word_fault
    for place, value in sorted(dict(bench_file.words).items()):
        wrong = wrong_of(place, value)
        if wrong:
            yield f"{name_of(place)} (word {place}) has {wrong}"


def question(number):
    """A question of docs/FILE.md, or the one that comes with the older text."""
    return questions.QUESTIONS.get(number, QUESTION_13 if number == 13 else "")


def read(path, data=None):
    """The bench file at a path. Ends with a refusal in words where it is none, or where its machine doesn't pass question 2."""
    data = read_file(path, READ_MOST) if data is None else data
    found, number, fault = parsed(path, data)
    if fault:
        raise Ending(f"{path} doesn't pass question {number}: {question(number)}\n  {fault}")
    causes = list(machine_faults(found))
    if causes:
        shown = causes if len(causes) <= questions.SHOWN + 1 else causes[:questions.SHOWN] + [f"and {len(causes) - questions.SHOWN} words more"]
        raise Ending("\n".join([f"The machine of {path} doesn't pass question 2: {question(2)}", *(f"  {cause}" for cause in shown)]))
    return found


# Names

def report_rows(path):
    """The rows of a report: name, generators and Hz (None for noise), and the gain that its first line has. Nothing where there is no report."""
    try:
        with open(path, encoding="utf-8", errors="replace") as file:
            lines = file.read().splitlines()
    except OSError:
        return [], None
    rows = [(row[1], [int(g) for g in row[2].split(",")], float(row[3]) if row[3] else None) for row in map(PARTIAL.match, lines) if row]
    _, found, gain = lines[0].rpartition("; gain ") if lines else ("", "", "")
    try:
        return rows, float(gain.removesuffix(" dB")) if found else None
    except ValueError:
        return rows, None


def sends(bench_file, g):
    """Whether a generator feeds a DAC or writes data, and so rings nothing itself."""
    return bench_file.run_mode(g) in (layout.WRITE_DAC, layout.WRITE_DATA)


def is_as_reported(bench_file, g, hz):
    """Whether a generator is what a report's row says."""
    return g < bench_file.t and not sends(bench_file, g) and bench_file.run_mode(g) != layout.INACTIVE and abs(bench_file.hz(g) - (hz or 0)) <= CLOSE_HZ


def name_by_report(bench_file, path):
    """Names from a report, each where its pitch agrees; where one doesn't, that is kept as a doubt."""
    rows, _ = report_rows(path)
    for name, generators, hz in rows:
        for g in generators:
            if is_as_reported(bench_file, g, hz):
                bench_file.names[g] = name
            else:
                says = f"{path} says that generator {g} is {name}, {'noise' if hz is None else f'{hz:.3f} Hz'}"
                bench_file.doubts.append(f"{says}: there is no such generator below T" if g >= bench_file.t else f"{says}: here it is {pitch_or_mode(bench_file, g)}")
    return bool(rows)


def pitch_or_mode(bench_file, g):
    """A generator in a few words."""
    if sends(bench_file, g):
        return "one that feeds a DAC" if bench_file.text.dac_fed(bench_file.generator(g)) is not None else "one that writes data"
    return "inactive" if bench_file.run_mode(g) == layout.INACTIVE else f"{bench_file.hz(g):.3f} Hz"


def name_by_table(bench_file, path):
    """Names from a table, for running generators within a cent of one row alone."""
    try:
        rows = [row for row in read_table(path) if not row.noise]
    except Ending:
        return
    for g in range(bench_file.t):
        hz = bench_file.hz(g)
        if hz > 0 and bench_file.text.adds(bench_file.generator(g)):
            near = [row for row in rows if abs(cents(hz, row.hz)) <= CLOSE_CENTS or abs(hz - row.hz) <= bench_file.rate / 2 ** 21]
            if len(near) == 1:
                bench_file.names[g] = near[0].name


def cents(hz, other):
    """How many cents a frequency is above another."""
    return 1200 * math.log2(hz / other)


def name_partials(bench_file):
    """Names from the report beside a file, else from the table beside it."""
    if bench_file.path == "-":
        return
    table = os.path.splitext(bench_file.path)[0] + ".csv"
    if not name_by_report(bench_file, report_beside(bench_file.path)) and os.path.isfile(table):
        name_by_table(bench_file, table)


def need_1978(bench_file, command):
    """Ends where a command knows files of 1978 alone."""
    if bench_file.is_old:
        raise Ending(f"{bench_file.path} is a file of the older text, and {command} knows files of 1978 alone", Status.REFUSED)
