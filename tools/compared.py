#!/usr/bin/env python3
"""What the program sorted finds of a bench file, in words: may it be rung with its generators in another order?

    karvelorn compare FILE [ORDER-FILE]

The program compares the order by number with a second one, that of ORDER-FILE or else that by pitch. It alone decides; the
words of FILE are looked at only to say what stands behind its findings. Generators are named by the report of
tools/partials.py beside FILE (NAME.report), if the pitches there are those of FILE.
"""

import os
import re
import subprocess

import heard
import partials as tables
import questions
from building import built
from command_line import Ending, Parser, Status, read_file, say, start, tell
from machine_words import name_of
from reference import layout
from rung import said_by

ENTRIES_SHOWN, NAMES_SHOWN = 12, 6

# Run modes.
PAUSE, TO_DAC, WRITES, READS, WAITS, STOPS, TRIGGERS = 0b0001, 0b0010, 0b0011, 0b0111, 0b1001, 0b1101, 0b1110
ADDING = (STOPS, TRIGGERS, 0b1111)
# The run modes 000 to 110 of the older text by these; 111 sends.
SWITCHED_AS, OLD_SENDS = (0b0000, PAUSE, 0b1111, TRIGGERS, WAITS, STOPS, READS), 0b111

NOT_SO = "what the program sorted found isn't so in the file"
ORDER_FILE = questions.ORDER_FILE

POINT = re.compile(r"point=([1-4]) place=(\d+) (word|written)=(\d+)")
ENTRY = re.compile(r"order=(\d+)")
# A partial's line in the report: its name, its generators, and its Hz if it isn't noise.
PARTIAL = re.compile(r"(.*\S)\s+(\d+(?:,\d+)*)\s+(?:noise|(\d+\.\d+)\s+[+-]\d+\.\d+)\s+\S+\s+[+-]\S+\s+\S+\s+[+-]\S+%")


def joined(parts):
    """Parts as a list in words."""
    return parts[0] if len(parts) == 1 else f"{', '.join(parts[:-1])} and {parts[-1]}"


def first_of(parts):
    """The first parts of a list, and how many more there are."""
    return parts if len(parts) <= NAMES_SHOWN + 1 else parts[:NAMES_SHOWN] + [f"{len(parts) - NAMES_SHOWN} more"]


def sentence(text):
    """Text with a capital letter."""
    return text[0].upper() + text[1:]


class Bell:
    """The machine of a bench file as it begins, its commands, and the names of its partials by generator."""

    def __init__(self, text):
        bench, _ = questions.read(text)
        self.words = {place: value for place, value, _ in bench.words}
        self.commands = bench.commands
        self.is_old = bench.is_old
        self.t = self.words.get(layout.T, layout.FRESH_T)
        self.names = {}

    def register(self, g, name):
        return self.words.get(layout.generator_at(g) + layout.GENERATOR_NAMES.index(name), 0)

    def mode(self, g):
        """A generator's run mode; that of the older text by the one of 1978 that it is switched as, and 111 by the sign of GN."""
        if not self.is_old:
            return self.register(g, "GMODE") >> 6
        run = self.register(g, "GMODE") >> 5
        return (WRITES if self.register(g, "GN") >> 10 else TO_DAC) if run == OLD_SENDS else SWITCHED_AS[run]

    def dac(self, g):
        """The DAC that a generator feeds where it feeds one."""
        return self.register(g, "GN" if self.is_old else "GO") % 16

    def neighbour(self, g):
        """The generator whose trigger reaches g; below 0 where there is none."""
        return g - (2 if self.is_old else 1)

    def pitch(self, g):
        """A generator's Hz, where it turns forwards."""
        return (self.register(g, "GJ") >> 8) / 2 ** 20 / (tables.TICK * self.words.get(layout.N, layout.FRESH_N))

    def in_mode(self, order, mode):
        return [g for g in order if self.mode(g) == mode]

    # Words for its parts.

    def number(self, g):
        """A generator's number, with its partial."""
        return f"{g} ({self.names[g]})" if g in self.names else f"{g}"

    def generators(self, those):
        """Generators by their numbers, with their partials."""
        return ("generator " if len(those) == 1 else "generators ") + joined(first_of([self.number(g) for g in those]))

    def sum_word(self, word):
        """A sum word, with the partials that add to it or wait to."""
        those = [self.names[g] for g in range(self.t) if g in self.names and self.register(g, "GSUM") == word and self.mode(g) in (*ADDING, WAITS)]
        return f"sum word {word}" + (f" ({joined(first_of(those))})" if those else "")

    def source(self, g):
        """What a generator sends to a DAC or writes: the sum word that its GFM names; in the older text its own angle."""
        if self.is_old:
            return "its own angle"
        quadrant, word = divmod(self.register(g, "GFM"), 64)
        return f"modifier-last sum word {word}" if quadrant else f"generator-last {self.sum_word(word)}"

    def order(self, order):
        """An order: partials by name, numbers that follow each other together, and no more than its beginning."""
        entries, at = [], 0
        while at < len(order):
            end = at + 1
            while end < len(order) and order[end] == order[end - 1] + 1 and not {order[at], order[end]} & self.names.keys():
                end += 1
            if end - at < 3:
                end = at + 1
            entries.append((f"{order[at]} to {order[end - 1]}" if end > at + 1 else f"{order[at]} {self.names.get(order[at], '')}".strip(), end - at))
            at = end
        if len(entries) > ENTRIES_SHOWN + 1:
            return ", ".join(text for text, _ in entries[:ENTRIES_SHOWN]) + f" and {sum(count for _, count in entries[ENTRIES_SHOWN:])} more"
        return ", ".join(text for text, _ in entries)


def name_partials(bell, path):
    """Takes the partials' names from a report, if there is one; none where a pitch there isn't that of the file."""
    try:
        with open(path, encoding="utf-8", errors="replace") as file:
            rows = [row.groups() for row in map(PARTIAL.match, file) if row]
    except OSError:
        return
    for name, generators, hz in rows:
        for g in map(int, generators.split(",")):
            if g >= bell.t or abs(bell.pitch(g) - float(hz or 0)) > 0.001 or bell.mode(g) in (TO_DAC, WRITES):
                tell("compare", f"no partials are named: in {path} generator {g} is {name}, and in the bench file it isn't")
                bell.names = {}
                return
            bell.names[g] = name


# What stands behind each point. The first order is by number.

def differing(ours, theirs):
    """What the orders have where they differ."""
    if ours == theirs:
        raise ValueError
    return ours, theirs


def point_1(bell, waiting, second):
    lower = bell.neighbour(waiting)
    differing(second.index(lower) > second.index(waiting), False)
    return f"generator {bell.number(waiting)} waits for generator {bell.number(lower)}, which the second order takes after it: a trigger of generator {lower} no longer starts it."


def point_2(bell, dac, second):
    one, other = differing(*([g for g in bell.in_mode(order, TO_DAC) if bell.dac(g) == dac][-1] for order in (range(bell.t), second)))
    return f"DAC {dac} is fed last by another generator: by number generator {bell.number(one)} sends it {bell.source(one)}, in the second order generator {bell.number(other)} sends it {bell.source(other)}."


def point_3(bell, item, second):
    one, other = differing(*(bell.in_mode(order, WRITES)[item] for order in (range(bell.t), second)))
    return f"item {item} of the written data (counted from 0) comes from another generator: by number generator {bell.number(one)} writes {bell.source(one)}, in the second order generator {bell.number(other)} writes {bell.source(other)}."


def point_4(bell, word, second):
    def on_word(g):
        return bell.register(g, "GSUM") == word

    def kept(order, last):
        return {g for g in order[order.index(last):] if on_word(g) and bell.mode(g) in ADDING}
    first = list(range(bell.t))
    last, other = ([g for g in bell.in_mode(order, READS) if on_word(g)][-1] for order in (first, second))
    if last != other:
        return f"{bell.sum_word(word)} is replaced last by another generator: by number by generator {bell.number(last)}, in the second order by generator {bell.number(other)}."
    start = f"generator {bell.number(last)} replaces {{}} last in both orders, "
    item, other = (bell.in_mode(order, READS).index(last) for order in (first, second))
    if item != other:
        return start.format(bell.sum_word(word)) + f"but with another read item (counted from 0): by number item {item}, in the second order item {other}."
    ours, theirs = differing(kept(first, last), kept(second, last))
    sides = [f"{bell.generators(sorted(those))} {'adds' if len(those) == 1 else 'add'} {side}" for those, side in ((ours - theirs, "after it by number and before it in the second order"), (theirs - ours, "before it by number and after it in the second order")) if those]
    return start.format(f"sum word {word}") + f"and only what is added after it stays: {joined(sides)}."


# How far "equal" reaches. It is about a pass with the file's modes, sum words, DACs and T; so it is about every pass, unless these change.

def changing(bell, second):
    """The generators that a trigger can put into another mode, with which the orders may not be equal."""
    at = {g: place for place, g in enumerate(second)}
    moving = [g for g in range(bell.t) if bell.mode(g) in (WAITS, STOPS)]
    last = {bell.register(g, "GSUM"): g for g in bell.in_mode(range(bell.t), READS)}
    for g in moving:
        reader = last.get(bell.register(g, "GSUM"), g)
        lower = bell.neighbour(g)
        if (lower in moving or lower >= 0 and bell.mode(lower) == TRIGGERS) and at[lower] > at[g] or (g < reader) != (at[g] < at[reader]):
            yield g


def sets(bell, command):
    """Whether a command can change modes, sum words or DACs of generators below T, or T."""
    code, g = command >> 8 & 0b1111, command & 0b11111111
    if code == 0b0000 and not g >> 7:  # MISC: W and P
        return any(command & 0b100 and bell.mode(h) in (WAITS, STOPS) or command & 0b010 and bell.mode(h) == PAUSE for h in range(bell.t))
    if code == 0b0001 and g >> 7:  # TICKS: Q
        return not command & 0b1000
    return g < bell.t and (code == 0b1000 and not command >> 30 & 1 or code == 0b1010 and command >> 30 != 0b11 or code == 0b1011 and bell.mode(g) == TO_DAC)


def limits(bell, second):
    """What may change the answer "equal" while the file rings."""
    moved = list(changing(bell, second))
    if moved:
        yield f"Only until a trigger changes {bell.generators(moved)}: with another mode there the orders may part."
    line = next((line for line, command in bell.commands if sets(bell, command)), 0)
    if line:
        yield f"Only until commands change modes, sum words, DACs or T, the first of them in line {line} of the file."


def order_line(bell, second, order_file):
    """The second order in words."""
    same = ", the same as by number" if second == list(range(bell.t)) else ""
    return f"The second order, {f'from {order_file}' if order_file else 'by pitch'}{same}: {bell.order(second)}."


def found(program, text, order_file):
    """The lines that the program prints."""
    command = [program] + ([order_file] if order_file else [])
    try:
        done = subprocess.run(command, input=text, stdout=subprocess.PIPE, stderr=subprocess.PIPE, close_fds=False)  # an order file may be a descriptor
    except OSError as error:
        raise Ending(f"cannot run {program}: {error.strerror}", Status.MISSING) from None
    if done.returncode or done.stderr:
        raise said_by("sorted", done.stderr.decode(errors="replace").strip() or f"the program sorted ended with status {done.returncode}")
    return done.stdout.decode("ascii", "replace").splitlines()


def refusal(line, file, order_file, text):
    """A refusal in words, or nothing where the line is none."""
    if line == "order-refused=9":
        return [f"{order_file} is no order file: {ORDER_FILE}."]
    name, _, number = line.partition("=")
    if name != "refused" or number not in map(str, questions.QUESTIONS):
        return None
    number = int(number)
    if number in (5, 6):
        head, = questions.refusal(order_file or "The order by pitch", number, text)
        return [f"{head} T is {Bell(text).t} in {file}."]
    return questions.refusal(f"The machine of {file}" if number == 2 else file, number, text)


def behind(bell, point, second):
    """What stands behind a point that fails, and where it shows."""
    try:
        cause = (point_1, point_2, point_3, point_4)[int(point[1]) - 1](bell, int(point[2]), second)
        where = name_of(int(point[4]), bell.names) if point[3] == "word" else f"item {point[4]} of the written data"
    except (LookupError, ValueError):
        raise Ending(NOT_SO, Status.FAULT) from None
    return [sentence(cause), f"Shown by an example with the file's modes, sum words and DACs: after a pass by each order the first difference is in {where}."]


# This very file, rung by both orders

def frames_words(frame):
    """A frame of a sound in words."""
    left, right = (int.from_bytes(frame[at:at + 3], "little", signed=True) // 16 for at in (0, 3))
    return f"left={left} right={right}"


def two_sounds(text, second):
    """Whether the sounds of this very file by number and by the second order are the same bytes: a sentence, by ringing both."""
    program, = built("compare", "wav")
    order = heard.Order("second", "".join(f"order={g}\n" for g in second).encode())
    (one, refused), (other, refused_too) = heard.outcome(program, text), heard.outcome(program, text, order)
    if refused or refused_too:
        said = [f"{who} {f'it is refused ({told})' if told else 'it sounds'}" for who, told in (("by number", refused), ("in the second order", refused_too))]
        return f"This very file makes no sound in either order: {refused}." if refused == refused_too else f"This very file: {' and '.join(said)}."
    if one == other:
        passes = (len(one) - heard.WAVE_HEADER) // heard.FRAME
        return f"This very file sounds the same in both orders: {passes} frames, bit for bit." if passes else "This very file has no passes, and so no sound."
    at = next(at for at in range(heard.WAVE_HEADER, len(one), heard.FRAME) if one[at:at + heard.FRAME] != other[at:at + heard.FRAME])
    return (f"This very file sounds otherwise in the second order from frame {(at - heard.WAVE_HEADER) // heard.FRAME + 1} on: "
            f"{frames_words(one[at:at + heard.FRAME])} becomes {frames_words(other[at:at + heard.FRAME])}.")


def compared(program, file, order_file=None, rung=None):
    """What was found, in words, and the exit status; with what is said of this very file, where that is asked."""
    text = read_file(file, questions.FILE_MOST + 1)
    lines = found(program, text, order_file)
    refused = refusal(lines[0], file, order_file, text) if len(lines) == 1 else None
    if refused:
        return refused, Status.REFUSED
    entries, point = [ENTRY.fullmatch(line) for line in lines[:-1]], POINT.fullmatch(lines[-1]) if lines else None
    if not lines or not all(entries) or not (point or lines[-1] == "equal"):
        raise Ending(f"the program sorted printed what is not known here: {lines[-1:]}", Status.FAULT)
    bell, second = Bell(text), [int(entry[1]) for entry in entries]
    if sorted(second) != list(range(bell.t)):
        raise Ending(NOT_SO, Status.FAULT)
    name_partials(bell, tables.report_beside(file))
    said = [order_line(bell, second, order_file)]
    this = [rung(text, second)] if rung else []
    if point:
        return said + ["No: the two orders can ring differently.", *behind(bell, point, second), *this], Status.NO
    until = list(limits(bell, second))
    return said + [f"Yes{', as the file begins' if until else ''}: the same bell in both orders.", *until, *this], Status.UNTIL if until else Status.DONE


def answer(program, file, order_file=None, rung=None):
    """Prints what was found; answers the status."""
    said, status = compared(program, file, order_file, rung)
    say("\n".join(said))
    return status


def parser():
    """What may be asked."""
    asked = Parser("compare", "Says whether a bench file rings the same bell with its generators by number and in a second order: by pitch, or as in ORDER-FILE.\n"
                   "0 is yes, 1 no; a yes that holds only until a trigger or a command has 7, and a line \"Only until ..\" says until which. That is for all contents\n"
                   "of a file with these modes, sum words, DACs and T; the last line says whether this very file, rung by both orders, sounds the same.",
                   "karvelorn compare bell.txt")
    asked.add_argument("file", metavar="FILE", help="a bench file, - for standard input")
    asked.add_argument("order", metavar="ORDER-FILE", nargs="?", help="a line order=G for each generator, as they are taken")
    return asked


def is_stream(path):
    """Whether a file can be read once only: a pipe, a device."""
    return os.path.exists(path) and not os.path.isfile(path) and not os.path.isdir(path)


def main(arguments):
    asked = parser().parse_args(arguments)
    for path in (asked.file, asked.order):
        if path not in (None, "-") and not is_stream(path):
            read_file(path, 1)
    program, _ = built("compare", "sorted", "wav")
    return answer(program, asked.file, asked.order, two_sounds)


if __name__ == "__main__":
    start("compare", main)
