#!/usr/bin/env python3
"""Two bench files made one, in which each bell sounds as it does alone.

    karvelorn join A B -o C [--apart]

The proved library joins the two machines (karvelorn_join) and decides what is refused; the words of the files are looked at only to say
why. C is written only after both bells and C were rung through the library: the DACs that each bell feeds are those it has alone, pass
after pass, and the proved program ring prints of C what the library rings.
"""

import math
import os

import bench_files
import hosts
import questions
from as_rung import rung_lines
from building import built
from command_line import Ending, Parser, Status, read_file, say, start, tell
from compared import PARTIAL
from outputs import destination, same_file, write_whole
from partials import TICK, report_beside, unlike
from reference import layout
from reference.words import signed
from registers import RUN_WORDS, function_of
from rewriting import set_older_aside, text_of
from suspects import span, those

HEARD = (0, 1)  # the DACs whose words ring prints and wav sounds
HELP = """Joins two bench files without commands to one in which each bell sounds as it does alone: the generators of B follow those of A, with the sum words
and DACs that B uses; all else is A's, N too. C has the passes of the longer one. Both may not use the same sum word or DAC; a bell uses the words
that GSUM and GFM of its generators below T name. --apart first moves what both use in B to free words and DACs, and says which. To make a bell on
words and DACs of its own, see karvelorn partials --words and --dacs."""


class Bell:
    """One of the two files: its machine, and what its generators use."""

    def __init__(self, path):
        self.file = bench_files.read(path, read_file(path, bench_files.READ_MOST))
        self.path, self.machine, self.t = path, list(self.file.machine), self.file.t
        bench_files.need_1978(self.file, "join")
        if self.file.commands:
            raise Ending(f"{path} has commands (line {self.file.commands[0][0]}): join knows files without commands alone, since C has one counter and one T")
        bench_files.name_partials(self.file)

    def word(self, g, register):
        return self.machine[layout.generator_at(g) + register]

    def mode(self, g):
        return layout.run_mode(self.word(g, layout.GMODE))

    def sum_words(self):
        """The generators that use each sum word: as GSUM, or as GFM of the generators' quadrant."""
        found = {}
        for g in range(self.t):
            for word in {self.word(g, layout.GSUM), self.word(g, layout.GFM)}:
                found.setdefault(word, []).append(g)
        return {word: found[word] for word in sorted(found) if word < layout.QUADRANT_WORDS}

    def dacs(self):
        """The generators that feed each DAC."""
        found = {}
        for g in range(self.t):
            if self.mode(g) == layout.WRITE_DAC:
                found.setdefault(self.word(g, layout.GO) % layout.DACS, []).append(g)
        return dict(sorted(found.items()))


# Refusals in words

def cannot_join(bell):
    """What a bell that is joined may not have: readers, writers, words of the modifiers, active modifiers."""
    for mode, does in ((layout.READ_DATA, "reads data"), (layout.WRITE_DATA, "writes data")):
        for g in range(bell.t):
            if bell.mode(g) == mode:
                yield f"{bell.path}: {bell.file.called(g)} {does} ({mode:04b})"
    for g in range(bell.t):
        if bell.word(g, layout.GFM) >= layout.QUADRANT_WORDS:
            yield f"{bell.path}: GFM of {bell.file.called(g)} names modifier-last sum word {bell.word(g, layout.GFM) % layout.QUADRANT_WORDS}"
    for m in range(layout.MODIFIERS):
        mmode = bell.machine[layout.modifier_at(m) + layout.MMODE]
        if layout.function(mmode):
            yield f"{bell.path}: modifier {m} is active ({function_of(bell.file.text, mmode).name})"


def cannot_follow(bell):
    """A second bell whose generator 0 would wait for the first's last one."""
    if bell.mode(0) in (layout.WAIT, layout.RUNNING_C):
        yield f"{bell.path}: {bell.file.called(0)} {RUN_WORDS[bell.mode(0)]} ({bell.mode(0):04b}): the first bell's last generator would stand below it and could set it off"


def shared(first, second):
    """Sum words and DACs that both use, with their users."""
    for kind, ours, theirs in (("sum word", first.sum_words(), second.sum_words()), ("DAC", first.dacs(), second.dacs())):
        for one in sorted(ours.keys() & theirs.keys()):
            yield f"{kind} {one}: {first.path} by {those('generator', ours[one])}, {second.path} by {those('generator', theirs[one])}"


def causes(number, first, second):
    """Why two bells are refused with a number."""
    if number == 16:
        return [f"{first.path} has T = {first.t} and {second.path} T = {second.t}: {first.t + second.t} together"]
    if number == 17:
        return [*cannot_join(first), *cannot_join(second), *cannot_follow(second)]
    return [*shared(first, second), "--apart moves those of the second to free ones"] if number == 18 else []


def refusal(number, first, second):
    """A refusal of the library in words."""
    found = causes(number, first, second)
    shown = found if len(found) <= 13 else found[:12] + [f"and {len(found) - 12} more"]
    return Ending("\n".join([f"{first.path} and {second.path} can't be joined: question {number}: {questions.QUESTIONS.get(number, '')}", *(f"  {cause}" for cause in shown)]))


# Apart

def free_places(kind, ours, theirs, most):
    """Another place for each that both use: the lowest that neither does."""
    taken, moved = ours.keys() | theirs.keys(), {}
    for one in sorted(ours.keys() & theirs.keys()):
        moved[one] = next((place for place in range(most) if place not in taken), None)
        if moved[one] is None:
            raise Ending(f"the two can't be put apart: all {most} {kind}s are in use")
        taken = taken | {moved[one]}
    return moved


def moved_block(machine, at, moved):
    """Moves words within a block of the machine, in place: what stood at the old places is 0 then."""
    held = {place: machine[at + place] for place in moved}
    for place in moved:
        machine[at + place] = 0
    for place, to in moved.items():
        machine[at + to] = held[place]


def move_apart(first, second):
    """Moves the sum words and DACs of the second that the first uses too, in place; answers where to."""
    words = free_places("sum word", first.sum_words(), second.sum_words(), layout.QUADRANT_WORDS)
    dacs = free_places("DAC", first.dacs(), second.dacs(), layout.DACS)
    for g in range(second.t):
        at = layout.generator_at(g)
        for register in (layout.GSUM, layout.GFM):
            second.machine[at + register] = words.get(second.machine[at + register], second.machine[at + register])
        if second.mode(g) == layout.WRITE_DAC:
            go = second.machine[at + layout.GO]
            second.machine[at + layout.GO] = go - go % layout.DACS + dacs.get(go % layout.DACS, go % layout.DACS)
    for quadrant in (layout.GENERATOR_THIS, layout.GENERATOR_LAST):
        moved_block(second.machine, quadrant, words)
    moved_block(second.machine, layout.DACS_AT, dacs)
    return words, dacs


def apart_words(second, words, dacs):
    """Where the second's sum words and DACs are now."""
    moved = [f"{kind} {one} is now {to}" for kind, places in (("sum word", words), ("DAC", dacs)) for one, to in sorted(places.items())]
    return f"{second.path}: {', '.join(moved)}" if moved else f"{second.path}: nothing has to be moved apart"


# Rung beside each alone

def rung_alike(first, second, text, machine, passes, dacs):
    """Rings both bells alone and C; ends where a DAC of a bell isn't as it is alone. The second's alone is as its file has it."""
    both, refused = hosts.dac_words("join", machine, passes)
    for bell, moved in ((first, {}), (second, dacs)):
        alone, refused_alone = hosts.dac_words("join", bell.file.machine, passes)
        used = {d: moved.get(d, d) for d in {bell.file.generator(g)[layout.GO] % layout.DACS for g in range(bell.t) if bell.mode(g) == layout.WRITE_DAC}}
        wrong = [at for at, (row, own) in enumerate(zip(both, alone), 1) if any(row[to] != own[d] for d, to in used.items())]
        if refused or refused_alone or len(alone) != passes or len(both) != passes or wrong:
            raise Ending(f"joined, {bell.path} isn't as it is alone (from pass {wrong[0] if wrong else min(len(alone), len(both)) + 1} on): nothing is written", Status.FAULT)
    program, = built("join", "ring")
    lines, refused = rung_lines(program, text)
    printed = [b" left=%d right=%d\n" % tuple(signed(row[d], 20) for d in HEARD) for row in both]
    if refused or [line[line.index(b" "):] for line in lines] != printed:
        raise Ending("the program ring doesn't ring the new file as the library does: nothing is written", Status.FAULT)


# The report

def report_rows(bell, shift):
    """The rows of a bell's report with its numbers in C, and its file's name beside each partial's."""
    path = report_beside(bell.path)
    if not os.path.isfile(path) or bell.file.doubts:
        if bell.file.doubts:
            tell("join", f"the partials of {bell.path} aren't in the new report: {bell.file.doubts[0]}")
        return
    stem = os.path.splitext(os.path.basename(bell.path))[0]
    for line in read_file(path).decode("utf-8", "replace").splitlines():
        row = PARTIAL.match(line)
        if row:
            yield f"{row[1]} ({stem})", ",".join(str(int(g) + shift) for g in row[2].split(",")), line[row.end(2):]


def joined_report(first, second, machine, passes):
    """The report of C: the rows of both; nothing where there are none."""
    rows = [*report_rows(first, 0), *report_rows(second, first.t)]
    if not rows:
        return None
    width, rate = max(len(name) for name, _, _ in rows), 1 / (TICK * machine[layout.N])
    lines = [f"{passes} passes of N = {machine[layout.N]} ticks: {rate:.2f} passes a second, {passes / rate:.3f} s", *(f"{name:{width}}  {numbers:>10}{rest}" for name, numbers, rest in rows)]
    return "\n".join([*lines, ""]).encode()


# What is said

def side(dac):
    """A DAC by number, with its side where it is heard."""
    return f"DAC {dac}{(' (left)', ' (right)')[dac] if dac in HEARD else ''}"


def place_words(first, second, new, machine, passes):
    """Where each bell is in the new file."""
    yield f"{new}: {passes} passes, T = {machine[layout.T]}, N = {machine[layout.N]}"
    for bell, start_ in ((first, 0), (second, first.t)):
        fed = bell.dacs()
        yield (f"  {bell.path}: generators {start_} to {start_ + bell.t - 1}; sum words {span(list(bell.sum_words()))}; "
               + (f"{' and '.join(map(side, fed))}, in each pass as it is alone" if fed else "it feeds no DAC"))


def doubts(first, second, new, machine):
    """What sounds otherwise than the two files may have been meant."""
    n, other = machine[layout.N], second.file.n
    if n != other:
        cents = 1200 * math.log2(other / n)
        yield f"{second.path} has N = {other}, and {new} has {n}: pass for pass it is the same, but {abs(cents):.1f} cents {'higher' if cents > 0 else 'lower'} and {'shorter' if cents > 0 else 'longer'} than alone"
    for bell in (first, second):
        fed = list(bell.dacs())
        if fed and not set(fed) & set(HEARD):
            yield f"{bell.path} feeds {' and '.join(map(side, fed))}: run and hear give DAC 0 and DAC 1 alone, so that it is heard through the library only"
    if n < machine[layout.T] + layout.OVERHEAD_TICKS:
        yield f"N = {n} is less than T + 8 = {machine[layout.T] + layout.OVERHEAD_TICKS}: the machine of 1978 needs so many ticks for a pass"


def parser():
    """What may be asked."""
    asked = Parser("join", HELP, "karvelorn join low.txt high.txt -o both.txt\nkarvelorn join low.txt high.txt -o both.txt --apart")
    asked.add_argument("first", metavar="A", help="a bench file of 1978 without commands")
    asked.add_argument("second", metavar="B", help="another one, or the same")
    asked.add_argument("-o", dest="new", metavar="C", required=True, help="the new bench file; its report, of both, goes beside it (NAME.report) where they have one")
    asked.add_argument("--apart", action="store_true", help="first move sum words and DACs of B that A uses too to free ones, the lowest")
    return asked


def main(arguments):
    asked = parser().parse_args(arguments)
    if "-" in (asked.first, asked.second):
        raise Ending("name two files: standard input is none of them", Status.MISUSED)
    if same_file(asked.new, report_beside(asked.new)):
        raise Ending(f"{asked.new} can't be the bench file: the report goes there", Status.MISUSED)
    inputs = [asked.first, asked.second, report_beside(asked.first), report_beside(asked.second)]
    for path in (asked.new, report_beside(asked.new)):
        destination(path, inputs)
    first, second = Bell(asked.first), Bell(asked.second)
    words, dacs = move_apart(first, second) if asked.apart else ({}, {})
    number, machine = hosts.joined("join", first.machine, second.machine)
    if number:
        raise refusal(number, first, second)
    passes = max(first.file.passes, second.file.passes)
    text = text_of(machine, passes)
    if bench_files.read(asked.new, text).machine != machine:
        raise Ending("the new file's machine isn't the joined one", Status.FAULT)
    rung_alike(first, second, text, machine, passes, dacs)
    other, report = unlike(asked.new, text), joined_report(first, second, machine, passes)
    write_whole({asked.new: text, **({report_beside(asked.new): report} if report else {})}, inputs)
    set_older_aside("join", asked.new, [*([] if report else [".report"]), *([".wav", ".png"] if other else [])])
    wrong = list(doubts(first, second, asked.new, machine))
    say("\n".join([*([apart_words(second, words, dacs)] if asked.apart else []), *place_words(first, second, asked.new, machine, passes), *(f"! {doubt}" for doubt in wrong)]))
    return Status.UNLIKE if wrong else Status.DONE


if __name__ == "__main__":
    start("join", main)
