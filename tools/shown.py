#!/usr/bin/env python3
"""A bench file in words: what each generator, modifier, delay unit and command does, and what looks wrong.

    karvelorn show FILE [--graph FILE.svg]

Words and numbers are those of the registers as the file begins. The proved program ring rings the file once: a refusal, and how loud
DAC 0 and DAC 1 are, come from it.
"""

import os
import re

import bench_files
import compared
import hosts
import questions
from as_rung import as_rung
from command_line import Ending, Parser, Status, read_file, say, start, tell
from command_words import DELAY_MODES, address
from marks import Differs, first_marks, may_clip
from outputs import destination, set_aside, write_whole
from reference import any_order, layout
from reference.delay import acts_inactive, unit_words, units_in_time
from reference.machine import update_ticks
from reference.words import signed
from registers import (ENVELOPE_RANGE, OF_J, RUN_WORDS, decibels, envelope, envelope_code, envelope_of, formula, function_of, is_decay, note_of, plain, run_code, seconds, t60, time_words, wave_code,
                       wave_level, wave_of)
from suspects import named_units, seen, suspects, those, writers
from wiring import EARLY, LAST, LATE, MOVING, SENDERS, TRIGGERING, Wiring, modifier_reads, modulation_word, sum_word, takes_f

LINE = re.compile(rb"pass=\d+ left=(-?\d+) right=(-?\d+)\n")
FULL_SCALE = 2 ** 19
SLOW = 20000  # passes that the reference rings in some seconds
HELP = """Says in words what a bench file does: its generators, modifiers, delay units, sum words, DACs and commands, whether any order of its
generators rings alike, and, in lines that begin with !, what looks wrong.

words of the trade:
  pass      one sample: every generator and modifier has its turn once; then commands are taken
  tick      195 ns, the time of a step of the machine. A pass lasts N ticks, so there are 10^9 / (195 N) passes a second
  T         how many generators have a turn in a pass: those below T; of the modifiers those below T div 2
  N         how many ticks a pass lasts; N - T - 8 commands fit in it
  register  a number that the machine keeps: a generator has eleven (GJ its pitch, GQ and GP its envelope, GSUM, GFM, GMODE ..), a modifier eight
  sum word  a place where signals are added: 64 for generators, 64 for modifiers. What is added in a pass (-this) is read in the next (-last);
            modifiers also read modifier-this: early ones see the writes of modifiers at least 4 below, late ones of all below

Levels: 0 dB is the most that one generator gives, of DACs what 20 bits hold; of a sine the level is that of its fundamental. T60 is the time to
fall by 60 dB. Notes are tempered, A4 has 440 Hz. In formulas 1 is 2^19, unless they are in whole numbers. Names come from the report or the
table beside the file, where pitches agree."""


# Generators

def pitch_words(file, g, words):
    """Pitch, and what changes it."""
    if wave_of(file.text, words[layout.GMODE]) in OF_J:
        return f"its angle is J: GJ's {signed(words[layout.GJ] >> 8, 20)} and the word at GFM"
    hz, go = file.hz(g), signed(words[layout.GO], 20)
    if hz:
        note, off = note_of(abs(hz))
        text = f"{abs(hz):.3f} Hz ({note} {off:+.1f} cents){' backwards' if hz < 0 else ''}"
    else:
        text = "doesn't turn (GJ 0)"
    turns = file.text.switches(words).oscillator
    return text + (f", {'rising' if go > 0 else 'falling'} by {plain(abs(go) / 2 ** 28 * file.rate ** 2)} Hz a second" if go and turns else "")


def level_words(file, words):
    """The level at first."""
    level = decibels(wave_level(file.text, words[layout.GMODE], words[layout.GN], words[layout.GM]) * envelope(file.text, words).first / 64)
    return f"{level:.2f} dB at first" if level > -400 else "silent at first"


def envelope_words(file, words):
    """How the envelope goes."""
    text, gmode, gp, rate = file.text, words[layout.GMODE], signed(words[layout.GP], 20), file.rate
    way, (plus, exponential) = envelope(text, words), envelope_of(text, gmode)
    q = "exponential of GQ" if exponential else "GQ's high 12 bits"
    v = f"V = {q}" if plus and not words[layout.GL] else f"V = {words[layout.GL]} {'+' if plus else '-'} {q}"
    head = f"envelope {envelope_code(text, gmode)}: {v}"
    free = bench_files.run_mode(text, gmode) in (*TRIGGERING, layout.WAIT)
    if not gp:
        return f"{head}, which stays (GP 0)"
    if is_decay(text, words):
        said = f"{head}, {'T60' if gp > 0 else 'rises by 60 dB in'} {time_words(t60(gp, rate))}"
        said += "" if gp > 0 or free else f", to V {way.last} after {seconds(way.passes, rate)}"
    else:
        said = f"{head}, from {way.first} to {way.last} in {seconds(way.passes, rate)}"
    if free:
        waits, again = bench_files.run_mode(text, gmode) == layout.WAIT, bench_files.run_mode(text, gmode) == layout.RUNNING_B
        said += f"; its end comes {f'{way.passes + 1} passes after it is set off' if waits else f'in pass {way.passes + 1}'} ({seconds(way.passes + 1, rate)})"
        said += f", then every {plain(ENVELOPE_RANGE / abs(gp))} passes" if again else ""
    return said + ("; V wraps on its way" if way.wraps else "")


def modulation_words(wiring, words):
    """What modulates a generator."""
    word = modulation_word(words[layout.GFM])
    if not takes_f(wiring.text, words):
        return ""
    if word not in wiring.possible:
        return f"no modulation (nothing writes {sum_word(word)})"
    by = wiring.writers.get(word)
    return f"modulated by {sum_word(word)}, from {writers(by, wiring.file.names)}" if by else f"modulated by {sum_word(word)} once a command makes somebody write it"


def output_words(wiring, g, words):
    """Where a generator's sound goes, who sets it off and whom it sets off."""
    file, mode = wiring.file, wiring.file.run_mode(g)
    word = sum_word(("g", words[layout.GSUM]))
    if mode == layout.WAIT:
        lower = wiring.sets_off(g)
        yield f"adds into {word} once {file.called(lower)} sets it off" if lower is not None else f"would add into {word}; no generator sets it off"
    elif mode == layout.READ_DATA:
        yield f"replaces {word} by its wave and the next read item"
    elif file.text.adds(words):
        yield f"adds into {word}"
    upper = wiring.triggered_by(g)
    if mode in (*TRIGGERING, layout.WAIT) and upper is not None:
        yield f"sets off {file.called(upper)}"


def sender_words(wiring, words):
    """What a generator sends, and where."""
    dac, word = wiring.text.dac_fed(words), modulation_word(words[layout.GFM])
    where = "writes data:" if dac is None else f"feeds DAC {dac} with"
    if not takes_f(wiring.text, words):
        return f"{where} its angle GK, {signed(words[layout.GK], 20)}, which stays"
    turned = signed(words[layout.GJ] >> 8, 20) if wiring.file.is_old else 0
    by = wiring.writers.get(word)
    return f"{where} {f'{turned} + ' if turned else ''}{sum_word(word)}" + (f", from {writers(by, wiring.file.names)}" if by else "")


def generator_lines(wiring, g):
    """A generator in words."""
    file, words = wiring.file, wiring.file.generator(g)
    mode, gmode, code = file.run_mode(g), words[layout.GMODE], run_code(file.text, words[layout.GMODE])
    if mode in SENDERS:
        return [f"{file.called(g)}: {sender_words(wiring, words)} ({code})"]
    if mode == layout.PAUSE:
        return [f"{file.called(g)}: pauses ({code})"]
    wave = wave_of(file.text, gmode) + (f" of GN {words[layout.GN]}" if wave_of(file.text, gmode) == "sum of cosines" else "")
    lines = [f"{file.called(g)}: {RUN_WORDS[mode]} ({code}); {wave} ({wave_code(file.text, gmode)})",
             f"    {pitch_words(file, g, words)}; {level_words(file, words)}; {envelope_words(file, words)}"]
    return lines + ["    " + "; ".join(filter(None, [*output_words(wiring, g, words), modulation_words(wiring, words)]))]


def generators(wiring):
    """All generators below T; those that are inactive in one line."""
    idle = [g for g in range(wiring.t) if wiring.file.run_mode(g) == layout.INACTIVE]
    for g in range(wiring.t):
        if g not in idle:
            yield from generator_lines(wiring, g)
    if idle:
        yield f"{those('generator', idle)}: inactive"


# Modifiers and delay units

def read_words(wiring, m, read, register):
    """An input of a modifier: its word, when it is read, and from whom."""
    text = f"{read.by} = {address(wiring.file.modifier(m)[register])}"
    text += {EARLY: ", early", LATE: ", late", LAST: ""}[read.when]
    by = wiring.writers.get(read.word, [])
    if read.when != LAST:
        found = seen(m, read, [number for _, number in by])
        return f"{text}: from {those('modifier', found)}" if found else f"{text}: from nobody, 0"
    return f"{text}: from {writers(by, wiring.file.names)}" if by else f"{text}: from nobody"


def modifier_lines(wiring, m):
    """A modifier in words."""
    text, words = wiring.text, wiring.file.modifier(m)
    mmode = words[layout.MMODE]
    function = function_of(text, mmode)
    yield f"modifier {m}: {function.name} ({layout.function(mmode):05b}, AA {layout.left_scale(mmode)}, BB {layout.right_scale(mmode)}): {formula(text, words)}"
    inputs = [read_words(wiring, m, read, layout.MIN if read.by == "A" else layout.MRM) for read in modifier_reads(text, m, words)]
    kept = [f"{name} = {signed(words[register], 20)}" for name, register in (("L0", layout.L0), ("L1", layout.L1)) if name in function.takes.split() and words[register]]
    if inputs or kept:
        yield "    " + "; ".join([*inputs, *([", ".join(kept) + " at first"] if kept else [])])
    yield f"    {'replaces' if layout.replaces(words[layout.MSUM]) else 'adds into'} modifier sum word {words[layout.MSUM] & 63}"


def modifiers(wiring):
    """All modifiers below T div 2; those that are inactive in one line."""
    active = wiring.active_modifiers()
    for m in active:
        yield from modifier_lines(wiring, m)
    idle = sorted(set(range(wiring.t // 2)) - set(active))
    if idle:
        yield f"{those('modifier', idle)}: inactive"


def delay_units(wiring):
    """The delay units that are named or set."""
    file = wiring.file
    named = {u: m for m, u in named_units(wiring).items()}
    for u in range(layout.DELAY_UNITS):
        x, y, z, p = unit_words(file.machine, u)[:4]
        if u not in named and p == layout.DELAY_INACTIVE or file.is_old:
            continue
        if p == layout.DELAY_LINE:
            what = f"delay line of words {x} to {x + z}: a word comes back after {z + 3} passes ({seconds(z + 3, file.rate)}); it is at word {x + y}"
        elif p == layout.DELAY_INACTIVE:
            what = "inactive"
        else:
            what = f"{DELAY_MODES[p]}, from word {x} on, at the incoming word shifted right {z % 16} places; the answer comes after 3 passes ({seconds(3, file.rate)})"
        acts = "" if p == layout.DELAY_INACTIVE or not acts_inactive(file.machine, u) else f"; acts as inactive, since T leaves time for {units_in_time(file.t)} units"
        yield f"delay unit {u}: {what}; " + (f"invoked by modifier {named[u]}" if u in named else "no modifier invokes it: it does nothing") + acts


# Sum words, DACs, commands, orders

def reader_words(wiring, word):
    """Who reads a sum word."""
    readers = wiring.readers.get(word, ())
    sending = [g for kind, g, _ in (r for r in readers if r[0] == "generator") if wiring.file.run_mode(g) in SENDERS]
    turned = [g for kind, g, _ in (r for r in readers if r[0] == "generator") if g not in sending]
    taking = [f"modifier {m} ({read.by}{'' if read.when == LAST else f', {read.when}'})" for kind, m, read in readers if kind == "modifier"]
    return ", ".join(filter(None, [sending and those("generator", sending), turned and f"{those('generator', turned)} (modulation)", *taking]))


def sum_words(wiring):
    """Every sum word that is written, with its readers."""
    for word in sorted(wiring.writers):
        by, read = wiring.writers[word], reader_words(wiring, word)
        yield f"{sum_word(word)}: written by {writers(by, wiring.file.names)}; " + (f"read by {read}" if read else "nobody reads it")


def loudest(lines, side):
    """The loudest pass of a DAC and its word there; nothing where it is silent."""
    best, at = 0, None
    for number, line in enumerate(lines, 1):
        value = abs(int(LINE.fullmatch(line)[side]))
        if value > best:
            best, at = value, number
    return (best, at) if at else None


def dacs(wiring, lines):
    """What each DAC gets, and how loud the two that are heard are."""
    feeders = wiring.feeders()
    for dac in sorted(feeders.keys() | ({0, 1} if lines else set())):
        feeding = feeders.get(dac, [])
        text = f"DAC {dac}{(' (left)', ' (right)')[dac] if dac < 2 else ''}: " + (f"fed by {those('generator', feeding)}" if feeding else "fed by nobody")
        if dac < 2 and lines:
            found = loudest(lines, dac + 1)
            text += f"; loudest in pass {found[1]}, {found[0]} ({decibels(found[0], FULL_SCALE):.2f} dB)" if found else "; silent in every pass"
        yield text


def commands(wiring):
    """Each command: after which pass it is taken, and what it sets."""
    for taken in wiring.course.taken:
        head = f"line {taken.line} ({taken.command:08X})"
        yield f"{head}, after pass {taken.after} ({taken.at:.6f} s): {taken.words}" if taken.after else f"{head}: never taken"
    if wiring.course.refused:
        line, number, after = wiring.course.refused
        yield f"line {line}: refused with {number} after pass {after}: {bench_files.question(number)} The ringing ends there."


CLAUSES = {
    "waiting pair": lambda w: [f"{w.file.called(g)} waits, and {w.file.called(g - 1)} below it can trigger" for g in range(1, w.t) if w.file.run_mode(g) == layout.WAIT and w.file.run_mode(g - 1) in TRIGGERING],
    "feeders": lambda w: [f"{those('generator', feeding)} feed DAC {dac} from different words" for dac, feeding in sorted(w.feeders().items()) if len({w.file.generator(g)[layout.GFM] for g in feeding}) > 1],
    "writers": lambda w: [f"{those('generator', in_mode(w, layout.WRITE_DATA))} write data from different words"],
    "readers": lambda w: [f"{those('generator', in_mode(w, layout.READ_DATA))} read data: at most one may"],
    "adding": lambda w: [f"{those('generator', adding_to(w, word))} {'adds' if len(adding_to(w, word)) == 1 else 'add'} into {sum_word(('g', word))}, which a reader replaces" for word in replaced(w) if adding_to(w, word)],
}


def in_mode(wiring, mode):
    return [g for g in range(wiring.t) if wiring.file.run_mode(g) == mode]


def replaced(wiring):
    """The sum words of generators that read data."""
    return sorted({wiring.file.generator(g)[layout.GSUM] for g in in_mode(wiring, layout.READ_DATA)})


def adding_to(wiring, word):
    return [g for g in range(wiring.t) if wiring.file.text.adds(wiring.file.generator(g)) and wiring.file.generator(g)[layout.GSUM] == word]


def orders(wiring):
    """Whether any order of the generators rings alike (request Q-2), and what makes it fail."""
    file = wiring.file
    if file.is_old:
        yield "whether any order rings alike is asked of files of 1978 alone"
        return
    failing, alike = any_order.failing(file.machine), hosts.any_order("show", file.machine)
    if alike not in (None, not failing):
        raise Ending("the library and the reference differ about orders", Status.FAULT)
    by = "" if alike is not None else " (by the rule of Q-2; the library, which decides it, isn't built here)"
    if failing:
        yield f"not every order of the generators rings alike{by}: " + "; ".join(cause for clause in failing for cause in CLAUSES[clause](wiring))
        return
    yield f"any order of the generators rings alike{', as the file begins' if order_changes(wiring) else ''}{by}"
    yield from order_changes(wiring)


def order_changes(wiring):
    """What may end that every order rings alike."""
    file = wiring.file
    moved = [g for g in range(1, wiring.t) if file.run_mode(g) in MOVING and file.run_mode(g - 1) in (*MOVING, layout.RUNNING_B)]
    waiting = [g for word in replaced(wiring) for g in in_mode(wiring, layout.WAIT) if file.generator(g)[layout.GSUM] == word]
    lines = [taken.line for taken in wiring.course.taken if taken.after and compared.sets(file, taken.command)]
    return ([f"    until a trigger changes {those('generator', sorted({*moved, *waiting}))}"] if moved or waiting else []) + ([f"    until the command in line {lines[0]} changes modes, sum words, DACs or T"] if lines else [])


# Rung once

def clipped(wiring, lines):
    """Words that leave their range, by the marks of the passes."""
    candidates = may_clip(wiring)
    if not candidates:
        return [], "no sum word of the generators can leave its 20 bits"
    if not lines:
        return [], ""
    if len(lines) > SLOW:
        tell("show", f"looking for clipped words in up to {len(lines)} passes: this takes a while")
    try:
        found, passes = first_marks(wiring, candidates, lines)
    except Differs as pass_:
        raise Ending(f"the reference and the program ring differ in pass {pass_.args[0]}", Status.FAULT) from None
    marked = [f"{sum_word(('g', word))} clips: its sum leaves 20 bits first in pass {number} ({seconds(number, wiring.file.rate)})" for word, number in sorted(found.items())]
    return marked, f"no sum word of the generators leaves its 20 bits in the {passes} passes"


def refusal_words(refused, passes):
    """A refusal in the ringing."""
    return f"the ringing is refused with {refused} in pass {passes + 1}: {bench_files.question(refused)}"


# All of it

def head(file, wiring):
    """The file as a whole."""
    length = f"{file.passes} passes of N = {file.n} ticks: {file.rate:.2f} passes a second, {seconds(file.passes, file.rate)}"
    if any(layout.N in taken.places for taken in wiring.course.taken):
        length += " if no command changed N"
    yield f"{file.path}: by the {'older text' if file.is_old else 'text of 1978'}; {length}"
    yield f"T = {file.t}: generators 0 to {file.t - 1}" + (f", modifiers 0 to {file.t // 2 - 1}" if file.t > 1 else ", no modifiers") + ("" if file.is_old else f"; {update_ticks(file.t, file.n)} commands fit in a pass")
    if file.machine[layout.COUNTER]:
        yield f"the pass counter begins with {file.machine[layout.COUNTER]}"


def section(title, lines):
    """A part with its title, if there is anything in it."""
    lines = list(lines)
    return ["", title, *lines] if lines else []


def described(file, data):
    """The wiring, all lines, and the status."""
    bench_files.name_partials(file)
    rung = as_rung("show", file, data)
    wiring = Wiring(file, rung.course)
    wrong, quiet = clipped(wiring, rung.lines)
    looks = [*([refusal_words(rung.refused, len(rung.lines))] if rung.refused else []), *file.doubts, *suspects(wiring), *wrong]
    said = [*head(file, wiring), *section("generators", generators(wiring)), *section("modifiers", modifiers(wiring)), *section("delay units", delay_units(wiring)),
            *section("sum words", sum_words(wiring)), *section("DACs", dacs(wiring, rung.lines)), *section("commands", commands(wiring)), *section("orders", orders(wiring)), ""]
    if not rung.known:
        said.append("not rung: the program ring here doesn't know files with a text= line")
    elif quiet and not wrong:
        said.append(quiet)
    said += [f"! {sentence}" for sentence in looks] or ["nothing looks wrong"]
    return wiring, said, Status.REFUSED if rung.refused else Status.UNLIKE if looks else Status.DONE


def parser():
    """What may be asked."""
    asked = Parser("show", HELP, "karvelorn show bell.txt\nkarvelorn show bell.txt --graph bell.svg")
    asked.add_argument("file", metavar="FILE", help="a bench file, of 1978 or of the older text; - for standard input")
    asked.add_argument("--graph", metavar="FILE.svg", help="also draw it: generators, sum words, modifiers, delay units and DACs with arrows (needs graphviz)")
    return asked


def main(arguments):
    asked = parser().parse_args(arguments)
    if asked.graph:
        if os.path.splitext(asked.graph)[1].lower() != ".svg":
            raise Ending(f"{asked.graph}: the graph is written as SVG: name it .svg", Status.MISUSED)
        destination(asked.graph, [asked.file])
    data = read_file(asked.file, questions.FILE_MOST + 1)
    try:
        file = bench_files.read(asked.file, data)
        wiring, said, status = described(file, data)
        if asked.graph:
            write_graph(asked, wiring)
    except BaseException:
        if asked.graph:
            keep_older(asked.graph)
        raise
    say("\n".join(said))
    return status


def write_graph(asked, wiring):
    """Writes the graph; one that somebody else made is kept under another name."""
    from graphed import made_here, picture
    drawn = picture(wiring)
    if os.path.lexists(asked.graph) and not made_here(asked.graph):
        keep_older(asked.graph)
    write_whole({asked.graph: drawn}, [asked.file])
    tell("show", f"wrote {asked.graph}")


def keep_older(graph):
    """A graph that isn't this file's gets another name."""
    aside = set_aside(graph)
    if aside:
        tell("show", f"{graph} was there from before and is not of this file: it is now {os.path.basename(aside)}")


if __name__ == "__main__":
    start("show", main)
