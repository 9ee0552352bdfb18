#!/usr/bin/env python3
"""The generators of a bench file moved to other numbers; words, commands and the report follow them.

    karvelorn renumber FILE [--by-pitch | ORDER-FILE | NAME=NUMBER ..] -o NEW

NEW is written only if it rings as FILE does, line for line: the proved program ring rings both. What parts the two numberings for other
contents is told by the proved program sorted.
"""

import os
import re
import tempfile

import bench_files
import compared
import questions
from as_rung import rung_lines
from building import built
from command_line import Ending, Parser, Status, read_file, say, start, tell
from command_words import TICKS, code_of, course, names_generator
from outputs import destination, same_file, write_whole
from partials import report_beside, unlike
from reference import layout
from rewriting import rewritten, set_older_aside
from suspects import those
from wiring import MOVING, TRIGGERING, Wiring

CHANGE = re.compile(r"(.+)=(\d{1,3})")
ORDER_LINE = re.compile(rb"order=(0|[1-9]\d{0,2})")
SHOWN = 12


# Which number each generator gets: new_of by the old number

def by_order(order):
    """The generator that an order takes first becomes 0, and so on."""
    return {g: number for number, g in enumerate(order)}


def meant(file, name):
    """The generator that a name or a number means."""
    if name.isdecimal():
        return int(name)
    found = sorted(g for g, partial in file.names.items() if partial == name)
    if len(found) != 1:
        cause = f"is {those('generator', found)}: name them by number" if found else f"names no generator here; named are {', '.join(dict.fromkeys(file.names.values())) or 'none (there is no report or table of this file beside it)'}"
        raise Ending(f"{name} {cause}", Status.MISUSED)
    return found[0]


def by_changes(file, changes):
    """Some generators get the numbers asked for; those that they drive out get, in sequence, the numbers that became free."""
    new_of = {}
    for text in changes:
        name, number = CHANGE.fullmatch(text).groups()
        g, number = meant(file, name), int(number)
        if g >= file.t or number >= file.t:
            raise Ending(f"{text}: generators are renumbered below T = {file.t}", Status.MISUSED)
        if g in new_of or number in new_of.values():
            raise Ending(f"{text}: a generator or a number that was there before", Status.MISUSED)
        new_of[g] = number
    taken, moved = set(new_of.values()), set(new_of)
    free = sorted(moved - taken)
    for g in range(file.t):
        if g not in moved:
            new_of[g] = free.pop(0) if g in taken else g
    return new_of


def order_of(new_of):
    """The old numbers in the sequence of the new ones."""
    return sorted(new_of, key=new_of.get)


def own_order(path, t):
    """An order file of an old file, for which the program sorted isn't asked."""
    lines = read_file(path, questions.FILE_MOST).split(b"\n")
    found = [ORDER_LINE.fullmatch(line) for line in lines[:-1]]
    order = [int(line[1]) for line in found if line]
    if lines[-1] or not all(found) or sorted(order) != list(range(t)):
        raise Ending(f"{path} is no order of {t} generators: {compared.ORDER_FILE}")
    return order


def asked_of_sorted(file, data, order_file):
    """The order that the program sorted compares with that by number, and what it finds: nothing where the orders are equal."""
    program, = built("renumber", "sorted")
    lines = compared.found(program, data, order_file)
    refused = compared.refusal(lines[0], file.path, order_file, data) if len(lines) == 1 else None
    if refused:
        raise Ending("\n".join(refused))
    entries = [compared.ENTRY.fullmatch(line) for line in lines[:-1]]
    point = compared.POINT.fullmatch(lines[-1]) if lines else None
    order = [int(entry[1]) for entry in entries if entry]
    if sorted(order) != list(range(file.t)) or not (point or lines[-1] == "equal"):
        raise Ending(f"the program sorted printed what is not known here: {lines[-1:]}", Status.FAULT)
    bell = compared.Bell(data)
    bell.names = file.names
    return order, compared.behind(bell, point, order)[0] if point else None


def wanted(file, data, asked):
    """The new numbers, and what parts the two orders for other contents (None: nothing)."""
    changes = [text for text in asked.changes if CHANGE.fullmatch(text)]
    files = [text for text in asked.changes if not CHANGE.fullmatch(text)]
    if bool(changes) + bool(files) + asked.by_pitch != 1 or len(files) > 1:
        raise Ending("ask for one of --by-pitch, an order file, or NAME=NUMBER ..", Status.MISUSED)
    if file.is_old:
        if asked.by_pitch:
            raise Ending("--by-pitch is for files of 1978: name the numbers, or an order file", Status.REFUSED)
        return (by_order(own_order(files[0], file.t)) if files else by_changes(file, changes)), None
    if not changes:
        order, parted = asked_of_sorted(file, data, files[0] if files else None)
        return by_order(order), parted
    new_of = by_changes(file, changes)
    with tempfile.TemporaryDirectory(prefix="karvelorn-") as folder:
        path = os.path.join(folder, "order")
        with open(path, "w", encoding="ascii") as order_file:
            order_file.write("".join(f"order={g}\n" for g in order_of(new_of)))
        return new_of, asked_of_sorted(file, data, path)[1]


# What can't follow

def neighbours(wiring, new_of):
    """Pairs in which one may set off the other must stay such pairs, and no other may become one."""
    file, old_of = wiring.file, {number: g for g, number in new_of.items()}
    waiting = {g for g in range(wiring.t_most) if wiring.modes(g) & set(MOVING)}
    triggering = {g for g in range(wiring.t_most) if wiring.modes(g) & set(TRIGGERING)}
    for g in sorted(waiting):
        lower = wiring.text.neighbour(g)
        number = new_of.get(g, g)
        below = wiring.text.neighbour(number)
        now = None if below is None else old_of.get(below, below)
        apart = "two below" if file.is_old else "just below"
        if lower in triggering and now != lower:
            yield f"{file.called(lower)} can set off {file.called(g)}, which waits: it must stand {apart} it, and would be {new_of.get(lower, lower)} with {number}"
        elif now in triggering and now != lower:
            yield f"{file.called(now)}, which can trigger, would stand {apart} {file.called(g)}, which waits, and would set it off"


def across_t(wiring, new_of):
    """A command that sets a lower T leaves out the generators from there on: none may move across it."""
    for taken in wiring.course.taken:
        if taken.after and code_of(taken.command) == TICKS and layout.T in taken.places:
            t = (taken.command >> 12 & 0x3FF) + 1
            moved = [g for g in range(wiring.t) if (g < t) != (new_of[g] < t)]
            if moved:
                yield f"the command in line {taken.line} sets T to {t}, and {those('generator', moved)} would move across it"


# The new file

def new_text(data, new_of):
    """The bench file with the new numbers."""
    def place(old):
        g, register = divmod(old, layout.GENERATOR_WORDS)
        return layout.generator_at(new_of.get(g, g)) + register

    def command(old):
        g = names_generator(old)
        return old if g is None else old & ~0xFF | new_of.get(g, g)
    return rewritten(data, place, command)


def new_report(path, new_of):
    """The report with the new numbers."""
    lines = read_file(path).decode("utf-8", "surrogateescape").split("\n")
    for at, line in enumerate(lines):
        row = compared.PARTIAL.match(line)
        if row:
            numbers = ",".join(str(new_of.get(int(g), int(g))) for g in row[2].split(","))
            lines[at] = line[:row.end(1)] + numbers.rjust(max(row.end(2) - row.end(1), len(numbers) + 2)) + line[row.end(2):]
    return "\n".join(lines).encode("utf-8", "surrogateescape")


def check_moved(file, new, new_of):
    """NEW's machine is FILE's with its generators moved."""
    expected = list(file.machine)
    for g, number in new_of.items():
        expected[layout.generator_at(number):layout.generator_at(number) + layout.GENERATOR_WORDS] = file.generator(g)
    if new.machine != expected:
        raise Ending("the new file's machine isn't the old one's with its generators moved", Status.FAULT)


def rung_alike(file, data, text, parted):
    """How many lines FILE and NEW print alike; ends where they differ."""
    program, = built("renumber", "ring")
    (ours, refused), (theirs, refused_too) = rung_lines(program, data), rung_lines(program, text)
    if refused == 9:
        raise Ending("the program ring here doesn't know files with a text= line: what rings can't be compared, and nothing is written", Status.MISSING)
    for number, (one, other) in enumerate(zip(ours, theirs), 1):
        if one != other:
            why = f"\n{parted}" if parted else ""
            raise Ending(f"renumbered so, {file.path} rings otherwise from pass {number} on ({one.decode().split(' ', 1)[1].strip()} becomes {other.decode().split(' ', 1)[1].strip()}): nothing is written{why}")
    if (len(ours), refused) != (len(theirs), refused_too):
        raise Ending(f"renumbered so, {file.path} is refused elsewhere (pass {len(ours) + 1} becomes {len(theirs) + 1}): nothing is written")
    return len(ours), refused


# The command

def moved_words(file, new_of):
    """Who has which number now."""
    moved = [f"{g}{f' {file.names[g]}' if g in file.names else ''} is now {number}" for g, number in sorted(new_of.items()) if g != number]
    if not moved:
        return "no generator gets another number"
    return ", ".join(moved[:SHOWN]) + (f" and {len(moved) - SHOWN} more" if len(moved) > SHOWN else "")


def parser():
    """What may be asked."""
    asked = Parser("renumber", "Moves the generators of a bench file to other numbers; words, commands and the report beside it follow. What can't follow is refused: a generator\n"
                   "that waits and the one that sets it off must stay neighbours. FILE and NEW are rung, and NEW is written only if their lines are the same.",
                   "karvelorn renumber bell.txt tierce=3 quint=2 -o new.txt\nkarvelorn renumber bell.txt --by-pitch -o new.txt")
    asked.add_argument("file", metavar="FILE", help="a bench file")
    asked.add_argument("changes", metavar="ORDER-FILE | NAME=NUMBER", nargs="*", help="lines order=G, the first G becomes generator 0 and so on; or partials (or numbers) with the numbers they get. "
                       "Those that are driven out get the numbers that become free, in sequence")
    asked.add_argument("--by-pitch", action="store_true", help="in the order by pitch of karvelorn compare")
    asked.add_argument("-o", dest="new", metavar="NEW", required=True, help="the new bench file; its report goes beside it (NAME.report)")
    return asked


def main(arguments):
    asked = parser().parse_intermixed_args(arguments)
    inputs = [asked.file, report_beside(asked.file), *asked.changes]
    if same_file(asked.new, report_beside(asked.new)):
        raise Ending(f"{asked.new} can't be the bench file: the report goes there", Status.MISUSED)
    for path in (asked.new, report_beside(asked.new)):
        destination(path, inputs)
    data = read_file(asked.file, questions.FILE_MOST + 1)
    file = bench_files.read(asked.file, data)
    bench_files.name_partials(file)
    new_of, parted = wanted(file, data, asked)
    wiring = Wiring(file, course(file, file.passes))
    causes = [*neighbours(wiring, new_of), *across_t(wiring, new_of)]
    if causes:
        raise Ending("\n".join([f"{asked.file} can't be renumbered so, and nothing is written:", *(f"  {cause}" for cause in causes)]))
    text = new_text(data, new_of)
    check_moved(file, bench_files.read(asked.new, text), new_of)
    passes, refused = rung_alike(file, data, text, parted)
    contents, has_report = {asked.new: text}, os.path.isfile(report_beside(asked.file)) and not file.doubts
    if has_report:
        contents[report_beside(asked.new)] = new_report(report_beside(asked.file), new_of)
    elif file.doubts:
        tell("renumber", f"no report is written: {file.doubts[0]}")
    other = unlike(asked.new, text)
    write_whole(contents, inputs)
    set_older_aside("renumber", asked.new, ([] if has_report else [".report"]) + ([".wav", ".png"] if other else []))
    say("\n".join(summary(file, asked.new, new_of, passes, refused, parted)))
    return Status.DONE


def summary(file, new, new_of, passes, refused, parted):
    """What is said of the new file."""
    yield moved_words(file, new_of)
    yield f"{new} rings as {file.path}: " + (f"the same lines in {passes} passes" + (f", and both are refused with {refused} then" if refused else "") if passes or not refused else f"both are refused with {refused} at once")
    if parted:
        yield f"It rings alike as it is; with other contents the two could part: {parted}"


if __name__ == "__main__":
    start("renumber", main)
