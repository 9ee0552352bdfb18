#!/usr/bin/env python3
"""Is a bench file still the bell of a table? Each row is looked for among the file's generators, by pitch, level and decay.

    karvelorn same TABLE FILE

Registers are compared with what `karvelorn partials` makes of the rows at the file's N. With the report beside FILE (NAME.report) each
generator must also ring the partial whose name the report gives to its number.
"""

import math
import os
import statistics
from typing import NamedTuple

import bench_files
import questions
from as_rung import as_rung
from command_line import Ending, Parser, Status, read_file, say, start
from command_words import TIMER, code_of
from partials import CENTS, DECAY, LEVEL, peak_of, report_beside, set_registers
from reference import layout
from reference.words import signed
from registers import decibels, is_decay, t60, wave_level, wave_of
from table_reader import read_table
from wiring import Wiring, modulation_word, sum_word, takes_f

CHANNELS = {"left": {0}, "right": {1}, "both": {0, 1}}
SIDES = ("left", "right")


class Voice(NamedTuple):
    """What a generator rings: Hz (0 for the envelope of noise), level in dB, T60, GP, and the DACs 0 and 1 that it reaches."""
    g: int
    hz: float
    db: float
    t60: float
    gp: int
    heard: set

    @property
    def pitch(self):
        return f"{self.hz:.2f} Hz" if self.hz else "noise"


# The file

def oddities(wiring, g):
    """Why a generator's registers don't say what it rings."""
    file, words = wiring.file, wiring.file.generator(g)
    word = modulation_word(words[layout.GFM])
    if takes_f(wiring.text, words) and word in wiring.possible:
        yield f"is modulated by {sum_word(word)}"
    if signed(words[layout.GO], 20):
        yield "glides (GO isn't 0)"
    if file.run_mode(g) != layout.RUNNING_A:
        yield "has an envelope that begins anew or waits"
    if not is_decay(wiring.text, words):
        yield "has an envelope that is no decay"
    if not file.hz(g) and (wave_of(wiring.text, words[layout.GMODE]) != "square" or any(kind == "generator" for kind, _, _ in wiring.readers.get(("g", words[layout.GSUM]), ()))):
        yield "doesn't turn and is no envelope of noise"
    if file.hz(g) and wave_of(wiring.text, words[layout.GMODE]) != "sine":
        yield f"is a {wave_of(wiring.text, words[layout.GMODE])} and no sine"


def voice_of(wiring, g, heard):
    """A generator's voice."""
    file, words = wiring.file, wiring.file.generator(g)
    v = wiring.text.envelope(words[layout.GMODE], words[layout.GL], words[layout.GQ])
    noise = not file.hz(g)
    peak = 128 * v if noise else wave_level(wiring.text, words[layout.GMODE], words[layout.GN], words[layout.GM]) * v / 64
    gp = signed(words[layout.GP], 20)
    return Voice(g, abs(file.hz(g)), decibels(peak), t60(gp, file.rate) if gp > 0 else math.inf, gp, heard)


def voices(wiring):
    """The generators that are heard, and what is odd about them."""
    reached = {dac: wiring.fed_by(dac) for dac in (0, 1)}
    found, odd = [], []
    for g in range(wiring.t):
        words = wiring.file.generator(g)
        heard = {dac for dac in (0, 1) if ("g", words[layout.GSUM]) in reached[dac]}
        if wiring.file.run_mode(g) in (layout.RUNNING_A, layout.RUNNING_B, layout.RUNNING_C, layout.WAIT) and heard:
            found.append(voice_of(wiring, g, heard))
            odd += [f"generator {g} {cause}" for cause in oddities(wiring, g)]
    return found, odd


# Rows and voices

def set_rows(rows, rate, gain):
    """What the registers make of the rows."""
    for row in rows:
        set_registers(row, rate, gain)


def row_hz(row, rate):
    """A row's Hz as its registers have it."""
    return 0.0 if row.noise else (row.gj >> 8) / 2 ** 20 * rate


def apart(voice, row, rate):
    """How far a voice's pitch is from a row's, in Hz; infinite where it isn't the same."""
    hz = row_hz(row, rate)
    if not hz or not voice.hz:
        return 0.0 if hz == voice.hz else math.inf
    off = abs(voice.hz - hz)
    return off if off <= rate / 2 ** 20 * 1.01 or abs(bench_files.cents(voice.hz, hz)) <= CENTS else math.inf


def level_off(voice, row):
    """How many dB a voice's level is above a row's."""
    return voice.db - decibels(peak_of(row))


def decays_alike(voice, row):
    """Whether a voice falls as a row does."""
    return abs(voice.gp - row.gp) <= 1 or voice.gp > 0 and abs(row.gp / voice.gp - 1) <= DECAY


def like(voice, row):
    """Whether level and decay are a row's."""
    return abs(level_off(voice, row)) <= LEVEL and decays_alike(voice, row)


def nearest(voice, rows, rate):
    """The row of a voice's pitch, or None; of two at one pitch the one with its level and decay."""
    near = [row for row in rows if apart(voice, row, rate) < math.inf]
    return min(near, key=lambda row: (round(apart(voice, row, rate), 9), not like(voice, row), abs(level_off(voice, row)))) if near else None


def gain_of(found, rows, rate, reported):
    """The gain: the report's, else the one with which most levels agree."""
    if reported is not None:
        return reported
    set_rows(rows, rate, 0.0)
    offs = [level_off(voice, row) for voice in found if (row := nearest(voice, rows, rate))]
    return statistics.median(offs) if offs else 0.0


# What is wrong

def rings_words(voice, rows, rate):
    """What a voice rings, by the rows of the table."""
    row = nearest(voice, rows, rate)
    return f"rings {voice.pitch}, which is {row.name if row else 'no row of the table'}"


def manner_words(voice, row, rows):
    """How a voice's level and decay are not its row's."""
    other = next((other for other in rows if other is not row and like(voice, other)), None)
    if abs(level_off(voice, row)) > LEVEL:
        yield f"level {voice.db:.2f} dB, and {row.name} comes to {decibels(peak_of(row)):.2f} dB"
    if not decays_alike(voice, row):
        yield f"T60 {voice.t60:.3f} s, and {row.name} has {row.t60:.3f} s"
    if other:
        yield f"level and decay are those of {other.name}"


def by_report(file, found, rows, rate, report):
    """Generators that don't ring the partial that the report gives them."""
    by_name, by_number = {row.name: row for row in rows}, {voice.g: voice for voice in found}
    for name, generators, hz in report:
        said = "noise" if hz is None else f"{hz:.2f} Hz"
        for g in generators:
            voice, row = by_number.get(g), by_name.get(name)
            if row is None:
                yield f"generator {g} is {name} in the report ({said}), and the table has no such row."
            elif voice is None:
                yield f"generator {g} is {name} in the report ({said}) and isn't heard in the file{f': {bench_files.pitch_or_mode(file, g)}' if g < file.t else ''}."
            elif nearest(voice, rows, rate) is not row:
                yield f"generator {g} is {name} in the report ({said}) and {rings_words(voice, rows, rate)}."
    listed = {g for _, generators, _ in report for g in generators}
    for voice in found:
        if voice.g not in listed:
            yield f"generator {voice.g} {rings_words(voice, rows, rate)}, and the report doesn't have it."
    for row in rows:
        if row.name not in [name for name, _, _ in report]:
            yield f"the report has no {row.name}."


def by_sound(found, rows, rate):
    """Rows that aren't there once on each of their sides, and voices that are no row."""
    rung = {row.name: [] for row in rows}
    for voice in found:
        row = nearest(voice, rows, rate)
        if row is None:
            yield f"generator {voice.g} {rings_words(voice, rows, rate)}."
            continue
        rung[row.name].append(voice)
        wrong = "; ".join(manner_words(voice, row, rows))
        if wrong:
            yield f"generator {voice.g} rings {voice.pitch}, which is {row.name}, in another manner: {wrong}."
    for row in rows:
        hits = sorted(dac for voice in rung[row.name] for dac in voice.heard)
        if not hits:
            near = min((voice for voice in found if voice.hz and not row.noise), key=lambda voice: abs(math.log(voice.hz / row.hz)), default=None)
            yield f"no generator rings {row.name} ({'noise' if row.noise else f'{row.hz:.2f} Hz'})" + (f"; the nearest is generator {near.g}, {near.pitch}." if near else ".")
        elif hits != sorted(CHANNELS[row.channel]):
            yield f"{row.name} is rung {row.channel if row.channel != 'both' else 'on both sides'} in the table, and here {' and '.join(SIDES[dac] for dac in hits)} (generators {', '.join(str(voice.g) for voice in rung[row.name])})."


# The command

def changes(wiring):
    """The first command that sets more than the counter or DX."""
    return next((taken for taken in wiring.course.taken if taken.after and code_of(taken.command) != TIMER and set(taken.places) - {layout.DX} | ({0} if code_of(taken.command) == "00000" and taken.command & 0b110 else set())), None)


def answer(table, path):
    """What is said, and the status."""
    try:
        rows = read_table(table)
    except Ending as ending:
        raise ending if ending.status == Status.UNREAD else Ending(f"{table}: {ending}", ending.status) from None
    data = read_file(path, questions.FILE_MOST + 1)
    file = bench_files.read(path, data)
    bench_files.need_1978(file, "same")
    rung = as_rung("same", file, data)
    if rung.refused or not rung.known:
        raise Ending(f"{path} isn't rung whole: refused with {rung.refused} in pass {len(rung.lines) + 1}: {bench_files.question(rung.refused)}" if rung.known else f"{path}: the program ring here doesn't know files with a text= line")
    wiring = Wiring(file, rung.course)
    found, odd = voices(wiring)
    report, reported_gain = bench_files.report_rows(report_beside(path)) if path != "-" else ([], None)
    gain = gain_of(found, rows, file.rate, reported_gain)
    set_rows(rows, file.rate, gain)
    wrong = [*by_report(file, found, rows, file.rate, report)] if report else []
    wrong += [sentence for sentence in by_sound(found, rows, file.rate)] + [f"{sentence}: its registers alone don't say what it rings." for sentence in odd]
    if wrong:
        return [f"No: {sentence}" for sentence in dict.fromkeys(wrong)], Status.NO
    said = [f"generator {voice.g}: {nearest(voice, rows, file.rate).name}, {voice.pitch}, {voice.db - gain:.2f} dB, T60 {voice.t60:.3f} s" for voice in found]
    said += [f"Levels are by a gain of {gain:.2f} dB{', the report has it' if reported_gain is not None else ', by which they agree'}."]
    first = changes(wiring)
    if first:
        return said + [f"Yes, as the file begins: each row of {table} is rung in {path}, and nothing else.", f"Only until the command in line {first.line}, taken after pass {first.after}: {first.words}."], Status.UNTIL
    numbers = f", under the numbers of {os.path.basename(report_beside(path))}" if report else ""
    return said + [f"Yes: each row of {table} is rung in {path}{numbers}, and nothing else."], Status.DONE


def parser():
    """What may be asked."""
    asked = Parser("same", "Is a bench file still the bell of a table? Each row is looked for among the generators that are heard, by the pitch, level and decay of their\n"
                   f"registers (within {CENTS:g} cent or a step of the register, {LEVEL:g} dB, {100 * DECAY:g} %), and with the report beside FILE by number too: 0 is yes, 1 no, with what sits where\n"
                   "another should. A yes that holds only until a command has 7. Of modifiers on the way to the DACs only that they lead there is looked at.",
                   "karvelorn same bell.csv bell.txt")
    asked.add_argument("table", metavar="TABLE", help="the table of partials from which the file was made")
    asked.add_argument("file", metavar="FILE", help="a bench file of 1978, - for standard input")
    return asked


def main(arguments):
    asked = parser().parse_args(arguments)
    said, status = answer(asked.table, asked.file)
    say("\n".join(said))
    return status


if __name__ == "__main__":
    start("same", main)
