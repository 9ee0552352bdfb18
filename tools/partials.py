#!/usr/bin/env python3
"""From a table of partials to a bench file, with a report of what the registers make of each. (Of a recording: to the table, as
`karvelorn measure` does.)

    karvelorn partials TABLE -o FILE [--rate HZ | --seconds S] [--passes N] [--gain DB] [--words L,R,E,S] [--dacs D[,D]]
    karvelorn partials RECORDING -o TABLE.csv [--ratios R] [--highest HZ]

TABLE has a line `name,hz,db,t60` or `name,hz,db,t60,channel` and then one for each partial: its name, its frequency in
Hz, its level in dB (0 is the most that one generator gives), the time in seconds in which it falls by 60 dB, and `left`,
`right` or `both` (the default). One row may have `noise` as its frequency: the stroke, noise whose peak has that level.
Lines that start with # are skipped. Tables as spreadsheets write them are read too (tools/table_reader.py).

The rate in passes a second is 10^9 / (195 N): --rate asks for the nearest one, --seconds for the N with which the passes
last so long (N = 265 where neither is given). --gain DB is added to all levels; without it the levels are lowered, if need
be, until the sum of all peaks fits the 20 bits of a DAC. --words and --dacs put a bell on sum words and DACs of its own. The report goes to standard output and, for `compare`, beside
the bench file: NAME.report for NAME.txt. An error says what is wrong and where, and writes nothing.
"""

import math
import os
from argparse import ArgumentTypeError
from typing import NamedTuple

from command_line import Ending, Parser, Status, read_file, say, start, tell
from outputs import destination, made_here, same_file, set_aside, write_whole
from reference import layout
from sounds import is_sound
from table_reader import QUIET, read_table

Wrong = Ending  # what is wrong with a table or with what is asked for

TICK = 195e-9
MOST_BYTES, MOST_PASSES = 65536, 65535
FULL = 4095 * 4093 / 64  # the peak of a generator at its loudest
RANGE = 2 ** 19 - 1  # the most that a DAC word holds
HALVING = 20 * math.log10(2)  # a halving in dB; the envelope halves for each 2^20 of GQ
CENTS, LEVEL, DECAY = 1.0, 0.5, 0.05  # what counts as reached: within so many cents, dB, and so much of the decay
QUIETEST = 16  # a peak below which rounding to whole numbers changes the decay by more than that
MASKED = 0.035  # a quieter partial is masked where the lines of louder ones may reach so much of its peak: then its decay may be off by 5 %
STEPS = 1024  # so many steps of the envelope make a halving: the size of the exponential's table

TO_DAC, RUNNING = 0b0010, 0b1111
LEVEL_PLUS_EXPONENTIAL, SINE, SQUARE = 0b11, 0b0000, 0b0010
NOISE, FOUR_QUADRANT, MIXING, REPLACE = 0b00010, 0b11000, 0b10100, 1 << 6
GENERATOR_LAST, MODIFIER_LAST, MODIFIER_THIS = 0 << 6, 1 << 6, 2 << 6
UNITY = 1 << 18  # a coefficient that with a scale of 1 multiplies by exactly 1


class Places(NamedTuple):
    """The sum words of a bell (left or both, right, the envelope of the noise, and one that nothing adds into: no frequency modulation), and the DACs it feeds."""
    words: tuple = (0, 1, 2, 63)
    dacs: tuple = (0, 1)


def wave_peak(gm):
    """The amplitude of the fundamental of a sine whose magnitude is shifted right by gm places."""
    quarter = [min(4095, int(4096 * math.sin((2 * j + 1) * math.pi / 8192))) >> gm for j in range(2048)]
    return sum(w * math.sin((2 * j + 1) * math.pi / 8192) for j, w in enumerate(quarter)) / 1024


PEAKS = [wave_peak(gm) for gm in range(10)]


def envelope(gq):
    """V of envelope mode 11 with GL 0: the exponential of GQ's high bits."""
    h = gq * STEPS >> 20
    return int(4093 * 2 ** (-(h % STEPS) / STEPS)) >> (h // STEPS)


def set_registers(row, rate, gain):
    """GJ, GM, GP and GQ that come nearest to a row."""
    peak = FULL * 10 ** ((row.db + gain) / 20)
    row.gp = round(min(60 / HALVING * 2 ** 20 / (rate * row.t60), 2 ** 19 - 1))
    if row.noise:
        level = peak / 128  # peaks of noise times envelope: 4 * 32 * V
    else:
        row.gj = round(row.hz / rate * 2 ** 20) << 8
        row.gm = max([gm for gm in range(len(PEAKS)) if peak * 64 / PEAKS[gm] <= 4093] or [0])
        level = peak * 64 / PEAKS[row.gm]
    row.gq = min(2 ** 24 - 1, max(0, round(math.log2(4093 / level) * 2 ** 20)))


def peak_of(row):
    """The peak of a row as its registers hold it."""
    return 128 * envelope(row.gq) if row.noise else PEAKS[row.gm] * envelope(row.gq) / 64


def lines_of(row, rate):
    """The lines that a row's steps leave in the spectrum: frequency and peak. The envelope falls in steps, the wave is read at the high 13 of GK's 20 bits, and its magnitude is cut to whole numbers."""
    j = row.gj >> 8
    hz, peak = j / 2 ** 20 * rate, peak_of(row)
    for k in range(1, 33):
        yield from ((hz + side * k * row.gp * STEPS / 2 ** 20 * rate, peak * (2 ** (1 / STEPS) - 1) / (2 * math.pi * k)) for side in (1, -1))
        yield from ((hz + side * k * j % 128 / 128 * rate, peak / (8192 * k)) for side in (1, -1))
        yield (2 * k + 1) * hz, peak * 2 / math.pi * 2 ** row.gm / (4096 * (2 * k + 1))


def masked(row, rows, rate, seconds):
    """Whether the lines of louder partials may reach so much of a row's peak that its level or decay can't be told."""
    reach = 0.0
    for louder in rows:
        if row.noise or louder.noise or peak_of(louder) <= peak_of(row) or {louder.channel, row.channel} == {"left", "right"}:
            continue
        width = 3 * math.log(10) * (1 / louder.t60 + 1 / row.t60) + 2 / seconds
        for hz, peak in lines_of(louder, rate):
            apart = abs(min(hz % rate, -hz % rate) - row.hz)
            reach += peak * min(1.0, width / (2 * math.pi * apart + 1e-9))
    return reach > MASKED * peak_of(row)


def reached(row, rows, rate, gain, seconds):
    """What a row becomes, of all rows: its Hz and how many cents that is off, its dB, its decay, and what isn't reached."""
    hz = (row.gj >> 8) / 2 ** 20 * rate
    cents = 0.0 if row.noise or hz == 0 else 1200 * math.log2(hz / row.hz)
    peak = peak_of(row)
    db = 20 * math.log10(peak / FULL) - gain if peak else -math.inf
    t60 = 60 / HALVING * 2 ** 20 / (rate * row.gp) if row.gp else math.inf
    missed = []
    if abs(cents) > CENTS or (hz == 0 and not row.noise):
        missed.append("frequency")
    if abs(db - row.db) > LEVEL:
        missed.append("level")
    if abs(t60 / row.t60 - 1) > DECAY:
        missed.append("decay")
    if peak < QUIETEST:
        missed.append("too quiet to decay evenly")
    if masked(row, rows, rate, seconds):
        missed.append("masked by the steps of louder ones")
    return hz, cents, db, t60, missed


def add_generator(words, g, run, gsum, gfm, go=0, gj=0, gm=0, gp=0, gq=0, wave=SINE):
    gmode = run << 6 | LEVEL_PLUS_EXPONENTIAL << 4 | wave
    for j, value in enumerate((go, gj, 0, 0, gm, gp, gq, 0, gsum, gfm, gmode)):
        words[layout.generator_at(g) + j] = value


def add_modifier(words, m, function, m0=0, m1=0, l0=0, l1=0, a=0, b=0, to=0, aa=0, bb=0):
    for j, value in enumerate((m0 << 10, m1 << 10, l0, l1, a, b, REPLACE | to, function << 4 | aa << 2 | bb)):
        words[layout.modifier_at(m) + j] = value


def lay_out(rows, n, places=Places()):
    """The words of the machine. One sum word is the left channel and one the right; where all partials are on both, the first is both."""
    apart = any(row.channel != "both" for row in rows)
    if apart and len(places.dacs) < 2:
        raise Wrong("a bell with partials on one side feeds two DACs, and one is named", Status.MISUSED)
    left, right, envelope_word, silent = places.words
    words, g = {}, 0
    noise = [row for row in rows if row.noise]
    for row in rows:
        for gsum in [] if row.noise else {"left": [left], "right": [right], "both": [left, right] if apart else [left]}[row.channel]:
            add_generator(words, g, RUNNING, gsum, silent, gj=row.gj, gm=row.gm, gp=row.gp, gq=row.gq)
            row.generators.append(g)
            g += 1
    sources = [GENERATOR_LAST | left, GENERATOR_LAST | (right if apart else left)][:len(places.dacs)]
    for row in noise:
        # The envelope is a constant wave in a word of its own; modifiers make noise, its product with the envelope, and the mixes.
        add_generator(words, g, RUNNING, envelope_word, silent, gp=row.gp, gq=row.gq, wave=SQUARE)
        row.generators.append(g)
        g += 1
        add_modifier(words, 0, NOISE, m0=4093, l0=12345, l1=1, to=0, aa=2)
        add_modifier(words, 4, FOUR_QUADRANT, m1=UNITY, a=MODIFIER_THIS | 0, b=GENERATOR_LAST | envelope_word, to=1, aa=2, bb=1)
        for side, source in enumerate(sources):
            add_modifier(words, 8 + side, MIXING, m0=UNITY, m1=UNITY, a=source, b=MODIFIER_THIS | 1, to=2 + side, aa=1, bb=1)
        sources = [MODIFIER_LAST | 2 + side for side in range(len(sources))]
    for dac, source in zip(places.dacs, sources):
        add_generator(words, g, TO_DAC, left, source, go=dac)
        g += 1
    t = max(g, 20) if noise else g
    if g > layout.GENERATORS:
        raise Wrong(f"{g} generators are needed, {len(sources)} of them for the DACs, and there are {layout.GENERATORS}")
    if n < t + layout.OVERHEAD_TICKS:
        raise Wrong(f"a pass of {n} ticks is too short for {t} generators: {t + layout.OVERHEAD_TICKS} are needed, or a lower rate")
    words[layout.T], words[layout.N] = t, n
    return words


def ticks(rate, seconds, passes):
    """N by the wanted rate or length."""
    if rate is not None and seconds is not None:
        raise Wrong("ask for a rate or for a length, not for both", Status.MISUSED)
    n = layout.FRESH_N
    if rate is not None:
        n = round(1 / (TICK * rate)) if rate > 0 else 0
    if seconds is not None:
        n = round(seconds / (TICK * passes)) if passes else 0
    if not layout.N_LEAST <= n <= layout.N_MOST:
        raise Wrong(f"that needs passes of {n} ticks, and N goes from {layout.N_LEAST} to {layout.N_MOST}: rates from {1 / TICK / layout.N_MOST:.0f} to {1 / TICK / layout.N_LEAST:.0f} Hz, at most {layout.N_MOST * TICK * MOST_PASSES:.1f} s")
    return n


def sum_of_peaks(rows):
    """The most that a channel's word can be asked to hold."""
    return max(sum(peak_of(row) for row in rows if row.channel in (side, "both")) for side in ("left", "right"))


def fit(rows, rate, gain):
    """Sets the registers of all rows; answers the gain. Where none is asked for, it is lowered until the sum of all peaks fits."""
    for row in rows:
        if not row.noise and row.hz >= rate / 2:
            raise Wrong(f"line {row.line}: {row.name} at {row.hz:g} Hz needs more than {2 * row.hz:.0f} passes a second, and there are {rate:.0f}")
    loudest = max(row.db for row in rows)
    most = min(-loudest, 0.0) if gain is None else gain
    while True:
        for row in rows:
            set_registers(row, rate, most)
        if gain is not None or sum_of_peaks(rows) <= RANGE:
            return most
        most -= 20 * math.log10(sum_of_peaks(rows) / RANGE) + 0.01


def report(rows, n, passes, gain):
    """The lines of the report."""
    rate = 1 / (TICK * n)
    yield f"{passes} passes of N = {n} ticks: {rate:.2f} passes a second, {passes / rate:.3f} s; gain {gain:.2f} dB"
    width = max(len(row.name) for row in rows)
    yield f"{'partial':{width}}  generators       Hz   cents      dB    off  T60 in s    off  not reached with the registers' steps"
    for row in rows:
        hz, cents, db, t60, missed = reached(row, rows, rate, gain, passes / rate)
        pitch = f"{'noise':>9} {'':7}" if row.noise else f"{hz:9.3f} {cents:+7.3f}"
        yield f"{row.name:{width}}  {','.join(map(str, row.generators)):>10} {pitch} {db:7.2f} {db - row.db:+6.2f}  {t60:8.3f} {100 * (t60 / row.t60 - 1):+5.1f}%  {', '.join(missed)}".rstrip()
    over = 20 * math.log10(sum_of_peaks(rows) / RANGE)
    for row in rows:
        if row.gq == 0 and row.db + gain > 0.01:
            yield f"clips: {row.name} is louder than a generator can be, by {row.db + gain:.2f} dB"
    yield f"clips: the sum of all peaks is {over:.2f} dB above the 20 bits of a DAC" if over > 0 else f"nothing clips: the sum of all peaks is {-over:.2f} dB below the 20 bits of a DAC"


def bench_text(words, passes):
    """The bench file. Words that a fresh machine has anyway are left out."""
    text = f"passes={passes}\n" + "".join(f"word={place}:{value}\n" for place, value in sorted(words.items()) if value)
    if len(text) > MOST_BYTES:
        raise Wrong(f"the bench file would have {len(text)} bytes, more than {MOST_BYTES}")
    return text


def report_beside(file):
    """Where the report of a bench file stands: NAME.report for NAME.txt."""
    return os.path.splitext(file)[0] + ".report"


def make(table, passes=MOST_PASSES, rate=None, seconds=None, gain=None, places=Places()):
    """The bench file of a table, and the report's lines; its rows, with their registers, and N and the gain."""
    return make_of_rows(read_table(table), passes, rate, seconds, gain, places)


def make_of_rows(rows, passes=MOST_PASSES, rate=None, seconds=None, gain=None, places=Places()):
    """The same of a table's rows."""
    if not 1 <= passes <= MOST_PASSES:
        raise Wrong(f"a bell has 1 to {MOST_PASSES} passes: {passes}", Status.MISUSED)
    n = ticks(rate, seconds, passes)
    gain = fit(rows, 1 / (TICK * n), gain)
    if sum_of_peaks(rows) == 0:
        raise Wrong("nothing would be heard: every partial is too quiet")
    text = bench_text(lay_out(rows, n, places), passes)
    return text, list(report(rows, n, passes, gain)), rows, n, gain


# The command

def positive(text):
    """A rate or a length on the command line."""
    if not 1e-9 < float(text) < 1e9:
        raise ValueError
    return float(text)


def level(text):
    """A gain on the command line."""
    if not abs(float(text)) <= QUIET:
        raise ValueError
    return float(text)


def numbers(text, count, most, what):
    """Different numbers on the command line, parted by commas."""
    found = text.split(",")
    if not all(one.isdecimal() and int(one) <= most for one in found) or len(set(map(int, found))) != len(found) or len(found) not in count:
        raise ArgumentTypeError(f"{what}, different ones from 0 to {most}: {text}")
    return tuple(map(int, found))


def words_asked(text):
    """The sum words of a bell."""
    return numbers(text, (4,), layout.QUADRANT_WORDS - 1, "four sum words")


def dacs_asked(text):
    """The DACs of a bell."""
    return numbers(text, (1, 2), layout.DACS - 1, "one or two DACs")


def parser():
    """What may be asked."""
    asked = Parser("partials", "Makes a bench file of a table of measured partials: each becomes a generator. The report says what the registers make of each, what\n"
                   "clips and what they can't reach; it is printed and stands beside the bench file (NAME.report). Of a recording (WAVE or FLAC, told by its\n"
                   "first bytes) it makes the table, as karvelorn measure does.",
                   "karvelorn partials recording.flac -o bell.csv\nkarvelorn partials bell.csv -o bell.txt --seconds 6")
    asked.add_argument("table", metavar="TABLE", help="lines name,hz,db,t60[,channel], as a spreadsheet writes them or by hand; or a recording")
    asked.add_argument("-o", dest="file", metavar="FILE", required=True, help="the bench file; of a recording the table, NAME.csv")
    asked.add_argument("--passes", metavar="N", type=int, default=MOST_PASSES, help=f"how many passes, 1 to {MOST_PASSES} (so many where this isn't asked)")
    asked.add_argument("--rate", metavar="HZ", type=positive, help="about so many passes a second")
    asked.add_argument("--seconds", metavar="S", type=positive, help="the passes last about so long")
    asked.add_argument("--gain", metavar="DB", type=level, help=f"added to all levels, {-QUIET} to {QUIET}; without it levels are lowered until nothing clips")
    asked.add_argument("--words", metavar="L,R,E,S", type=words_asked, help="the bell's sum words: left (or both), right, the noise's envelope, and one that nothing adds into (0,1,2,63 where this isn't asked); "
                       "for karvelorn join, whose bells share none")
    asked.add_argument("--dacs", metavar="D[,D]", type=dacs_asked, help="the DACs it feeds, left and right, or one where all partials are on both sides (0,1 where this isn't asked)")
    asked.add_argument("--ratios", metavar="R", help="of a recording: names by ratios to the prime: just, tempered, or a file of lines name,ratio (just where this isn't asked)")
    asked.add_argument("--highest", metavar="HZ", type=positive, help="of a recording: what is above isn't looked at")
    return asked


def is_recording(path):
    """Whether a file that is there begins as sounds do."""
    try:
        return path != "-" and os.path.isfile(path) and is_sound(read_file(path, 4))
    except Ending:
        return False


def of_recording(asked):
    """The table of a recording, as `measure` makes it."""
    import measuring
    if asked.rate or asked.seconds or asked.gain or asked.passes != MOST_PASSES or asked.words or asked.dacs:
        raise Ending(f"{asked.table} is a recording, of which a table is made: --passes, --rate, --seconds, --gain, --words and --dacs are for a table, of which a bench file is made", Status.MISUSED)
    if not asked.file.lower().endswith(".csv"):
        raise Ending(f"{asked.table} is a recording, of which a table is made: name it NAME.csv, not {asked.file}", Status.MISUSED)
    more = [("--ratios", asked.ratios), ("--highest", asked.highest)]
    return measuring.main([asked.table, "-o", asked.file, *(str(word) for name, value in more if value is not None for word in (name, value))])


def beside(file, ending):
    """The file of another ending beside a bench file."""
    return os.path.splitext(file)[0] + ending


def set_older_aside(file, endings, ours_alone):
    """Sets aside what stands beside a bench file and isn't this one's, so that nobody takes it for that."""
    for path in (beside(file, ending) for ending in endings):
        if os.path.isfile(path) and (made_here(path) or not ours_alone):
            try:
                tell("partials", f"{path} is not of this table: it is now {os.path.basename(set_aside(path))}")
            except Ending as ending:
                tell("partials", str(ending))


def unlike(file, text):
    """Whether a bench file that is there has another text."""
    try:
        with open(file, "rb") as older:
            return older.read() != text
    except OSError:
        return True


def main(arguments):
    asked = parser().parse_args(arguments)
    if is_recording(asked.table):
        return of_recording(asked)
    if asked.ratios is not None or asked.highest is not None:
        raise Ending(f"--ratios and --highest are for a recording, and {asked.table} is none", Status.MISUSED)
    report_at = report_beside(asked.file)
    if same_file(report_at, asked.file) or same_file(report_at, asked.table):
        raise Ending(f"{report_at} can't be the table or the bench file: the report goes there", Status.MISUSED)
    for path in (asked.file, report_at):
        destination(path, [asked.table])
    if not os.path.lexists(asked.table):
        read_file(asked.table)
    try:
        try:
            text, lines, _, _, _ = make(asked.table, asked.passes, asked.rate, asked.seconds, asked.gain, Places(asked.words or Places().words, asked.dacs or Places().dacs))
        except Ending as ending:
            raise Ending(f"{asked.table}: {ending}", ending.status) from None
        other = unlike(asked.file, text.encode())
        write_whole({asked.file: text.encode(), report_at: ("\n".join(lines) + "\n").encode()}, [asked.table])
    except BaseException:
        set_older_aside(asked.file, (".report",), False)
        set_older_aside(asked.file, (".wav", ".png"), True)
        raise
    if other:
        set_older_aside(asked.file, (".wav", ".png"), True)
    say("\n".join(lines))
    return Status.DONE


if __name__ == "__main__":
    start("partials", main)
