"""The circle closes: from a table of partials to a bench file, rung by `wav`, and analysed. What is measured is what is in
the sound, and what isn't as the table says is told.

    /usr/bin/python3 tests/circle.py [PROGRAM]      (PROGRAM: wav where none is named; needs numpy and scipy)

Bells, doublets, close sets, strokes and channels: each partial is found without the table's help, gets its own name, and is
within 1 cent or 0.1 Hz, 0.5 dB and 5 % of its decay (10 % where it is more than 40 dB below the loudest), or the report names
it as not reachable with the registers' steps, or it is told to be unsure (at most 1 in 100); and no other partial is found. Of partials 46 to 60 dB down none is missed or wrong, though some may be told to be unsure. Doublets
without a table, of 0.03 to 1.1 beats: two are found, each right or told not to be told apart, or one that is told not to be one;
or one without a word, and then they are within 0.15 of a beat. Short sounds: two partials nearer than half a beat are said not to be told apart. Tables that are
stale or another bell's, rows missing and rows too many: each such row and each such peak is told, and no other. Shows too
that it can fail: beside tables that are off by a little more, every partial is found wanting.
"""

import copy
import math
import random
import subprocess
import sys
import tempfile
from pathlib import Path

ROOT = Path(__file__).resolve().parent.parent
sys.path.insert(0, str(ROOT / "tools"))
import analysis  # noqa: E402
import naming  # noqa: E402
import partials as tables  # noqa: E402
import places  # noqa: E402
import sounds  # noqa: E402

# Each bell: so many partials, N, and the seed of its numbers.
BELLS = [(5, 265, 1), (8, 400, 2), (12, 200, 3), (20, 265, 4), (40, 265, 5), (40, 128, 6)]
DOUBLETS, CLOSE, STROKES, SIDES, SHORT, STALE, QUIET, ONE = 10, 2, 5, 4, 12, 400, 10, 40  # so many of each
HIGHEST = 60.0  # levels of a bell spread over so many dB
SOFT, SOFT_DECAY = 40.0, 0.1  # of a partial so many dB below the loudest the decay comes back within this part of it
NAMED_MOST, TOLD_MOST = 0.15, 0.01  # no more than these parts of all partials may be named as not reachable, or told to be unsure
ONE_MOST = 0.15  # doublets of fewer beats may count as one


def bell(draw, count, n):
    """The rows of a bell: partials that are at least 25 Hz apart, the highest at 0 dB and the lowest at -60."""
    top = 0.45 / (tables.TICK * n)
    rows = []
    while len(rows) < count:
        hz = 60 * (min(top, 6000) / 60) ** draw.random()
        if all(abs(hz - other[1]) > 25 for other in rows):
            level = 0.0 if not rows else -HIGHEST if len(rows) == 1 else -HIGHEST * draw.random()
            rows.append((f"p{len(rows)}", hz, level, 0.5 * 40 ** draw.random()))
    return rows


def doublets(draw, least, most):
    """The rows of a bell of three doublets 0.2 to 10 Hz apart and two single partials, and an N with which the sound lasts so many beats of the slowest one."""
    gaps = [0.2 * 50 ** draw.random() for _ in range(3)]
    beats = least + (most - least) * draw.random()
    seconds = min(beats / min(gaps), 13.0)
    n = max(100, math.ceil(seconds / (tables.TICK * tables.MOST_PASSES)))
    rows = [("hum", draw.uniform(150, 200), -8.0, 14.0), ("nominal", draw.uniform(850, 900), -4.0, 3.2)]
    for i, gap in enumerate(gaps):
        hz = draw.uniform(300, 330) * 1.8 ** i
        level = -6 - 10 * draw.random()
        rows += [(f"d{i}", hz, level, draw.uniform(2.5, 14)), (f"d{i}-b", hz + gap, level - 20 * draw.random(), draw.uniform(2.5, 14))]
    return rows, n


def quiet(draw, n):
    """The rows of a bell of which all partials but two are 46 to 60 dB down."""
    return [(name, hz, 0.0 if i == 0 else -draw.uniform(0, 10) if i == 1 else -draw.uniform(46, 60), t60) for i, (name, hz, _, t60) in enumerate(bell(draw, draw.randint(4, 16), n))]


def close(draw, n):
    """A hundred partials, each 3 % above the last, within 20 dB."""
    first = draw.uniform(80, 150)
    return [(f"p{i}", first * 1.03 ** i, -20 * draw.random(), draw.uniform(2.5, 14)) for i in range(100)]


def rung(program, text, folder):
    """The sound of a bench file."""
    done = subprocess.run([program], input=text.encode(), stdout=subprocess.PIPE, stderr=subprocess.PIPE, check=True)
    assert done.stdout and not done.stderr, f"wav refused a file of the tool: {done.stderr!r}"
    path = Path(folder, "bell.wav")
    path.write_bytes(done.stdout)
    return sounds.read(str(path))


def linger(number):
    """TIMER with TT 10: no further commands until the pass counter is the number."""
    return number << 12 | 0b00010 << 7 | 0b10 << 3


def load_gq(g, value):
    """GQ of generator g, left-adjusted."""
    return value >> 4 << 12 | 0b0011 << 8 | g


class Sound:
    """A table that was rung and measured: its rows, its strokes, and what the tool says of both."""

    def __init__(self, program, folder, rows, n, strokes=(), passes=tables.MOST_PASSES):
        table = Path(folder, "bell.csv")
        width = len(rows[0])
        table.write_text(",".join(("name", "hz", "db", "t60", "channel")[:width]) + "\n" + "".join(",".join(map(str, row)) + "\n" for row in rows))
        text, _, self.rows, ticks, self.gain = tables.make(str(table), passes=passes, rate=1 / (tables.TICK * n))
        assert ticks == n
        for at in strokes:
            text += f"command={linger(at):08X}\n" + "".join(f"command={load_gq(g, row.gq):08X}\n" for row in self.rows for g in row.generators)
        self.rate, channels = rung(program, text, folder)
        self.exact = 1 / (tables.TICK * n)
        assert self.rate == round(self.exact) and len(channels) == passes
        self.measured = analysis.measure(channels, self.rate)
        self.bare = copy.deepcopy(self.measured)
        self.seconds = passes / self.exact

    def told(self, rows):
        """What is said of the sound beside some rows."""
        self.measured = copy.deepcopy(self.bare)
        naming.name_all(self.measured, rows)
        return naming.findings(self.measured, rows, None, True)

    def unreached(self):
        """The rows that the report names as not reachable."""
        return [row for row in self.rows if tables.reached(row, self.rows, self.exact, self.gain, self.seconds)[4]]

    def off(self, row, p, cents=0.0, db=0.0, decay=1.0):
        """What is off, of a row moved by so much: its frequency by more than 1 cent or 0.1 Hz, its level by 0.5 dB, its decay by 5 %."""
        off = []
        hz = p.hz * self.exact / self.rate * 2 ** (cents / 1200)
        if abs(hz - row.hz) > analysis.within(row.hz):
            off.append("frequency")
        if abs(p.db + 20 * math.log10(2 ** 19 / tables.FULL) - self.gain - row.db + db) > tables.LEVEL:
            off.append("level")
        soft = row.db < max(other.db for other in self.rows) - SOFT
        if abs(p.t60 / row.t60 * decay - 1) > (SOFT_DECAY if soft else tables.DECAY):
            off.append("decay")
        return off + (["told"] if p.near or p.unsure else [])


def faults_of(sound, what, counts):
    """What doesn't come back of a sound beside its own table, in each stroke; and whether a table that is off would be seen. Partials that are told to be unsure are counted."""
    words = sound.told(sound.rows)
    unreached, told = sound.unreached(), counts["told"]
    for stroke in sound.measured:
        for row in sound.rows:
            found = [p for p in stroke.partials if p.row is row]
            if row in unreached:
                continue
            if not found:
                yield f"{what}: {row.name}, {row.hz:.3f} Hz {row.db:.2f} dB {row.t60:.3f} s, was not found"
                continue
            off = sound.off(row, found[0])
            if "told" in off:
                counts["told"] += 1
            elif off:
                yield f"{what}: {row.name}: {', '.join(off)}: {row.hz:.3f} Hz {row.db:.2f} dB {row.t60:.3f} s was measured as {found[0]} in a sound of {sound.seconds:.2f} s"
            elif not (sound.off(row, found[0], cents=2.1 * max(1, 1200 * math.log2(1 + 0.1 / row.hz))) and sound.off(row, found[0], db=1.1) and sound.off(row, found[0], decay=1.2)):
                yield f"{what}: {row.name}: a table that is off was not told apart"
        for p in stroke.partials:
            if not p.row and not p.near and not p.unsure:
                yield f"{what}: {p.hz:.3f} Hz {p.db:.2f} dB {p.t60:.3f} s is not in the table"
    if words and not unreached and counts["told"] == told:
        yield f"{what}: said {words}"


def stroke_faults(sound, at, what):
    """Whether the strokes are found where they are."""
    begins = [stroke.begin for stroke in sound.measured]
    if len(begins) != len(at) + 1 or any(abs(b - a / sound.rate) > 0.003 for b, a in zip(begins[1:], at)):
        yield f"{what}: strokes at {[a / sound.rate for a in at]} were found at {begins}"


def side_faults(sound, what):
    """Whether each partial is said to be on its channel."""
    for stroke in sound.measured:
        for p in stroke.partials:
            if p.row and p.channel != p.row.channel:
                yield f"{what}: {p.name} is on {p.row.channel} and was found on {p.channel}"


def quiet_faults(sound, what, counts):
    """Of quiet partials: each is found, and what isn't within its promise is told to be unsure."""
    sound.told(sound.rows)
    unreached = sound.unreached()
    for stroke in sound.measured:
        for row in (row for row in sound.rows if row not in unreached):
            found = [p for p in stroke.partials if p.row is row]
            counts["quiet"] += 1
            if not found:
                yield f"{what}: {row.name}, {row.hz:.3f} Hz {row.db:.2f} dB {row.t60:.3f} s, was not found; limit {stroke.heard:.1f} dB"
            elif "told" in sound.off(row, found[0]):
                counts["unsure"] += 1
            elif sound.off(row, found[0]):
                yield f"{what}: {row.name}: {sound.off(row, found[0])}: {row} was measured as {found[0]}"
        yield from (f"{what}: {p} is not in the table" for p in stroke.partials if not p.row)


def one_faults(sound, gap, what, counts):
    """Of a doublet without a table: two are found, each right or told not to be told apart, or one where they are nearer than is printed."""
    for stroke in sound.measured:
        near = [p for p in stroke.partials if abs(p.hz - sound.rows[1].hz) < 5]
        if len(near) == 1 and not near[0].near and not near[0].unsure:
            counts["one"] += 1
            if gap > ONE_MOST / (stroke.end - stroke.clear):
                yield f"{what}: {gap:.3f} Hz apart, {sound.seconds:.2f} s: counted as one, {near}"
        for p in near if len(near) > 1 else []:
            if not p.near and not p.unsure and min(abs(p.hz * sound.exact / sound.rate - row.hz) for row in sound.rows[1:]) > analysis.within(p.hz):
                yield f"{what}: {gap:.3f} Hz apart, {sound.seconds:.2f} s: {p} is neither"


def short_faults(sound, what):
    """Of doublets in sounds that last less than half a beat: no number is given, and it is said."""
    words = sound.told(sound.rows)
    for stroke in sound.measured:
        for p in stroke.partials:
            if p.row and p.row.name.startswith("d") and not p.near:
                yield f"{what}: {p.name} was measured as {p}, in {sound.seconds:.2f} s"
    if not any("told apart" in sentence for sentence in words):
        yield f"{what}: said {words}"


def wrong_table(draw, sound, other):
    """A wrong table beside a sound: its kind, its rows, the names of those that are wrong, and how many peaks have no row; none where a wrong row happens to be near a peak."""
    rows, kind = [copy.copy(row) for row in sound.rows], draw.choice(["stale", "missing", "many", "other", "equal"])
    lost = draw.sample(rows, draw.randint(1, max(1, len(rows) // 3)))
    if kind == "missing":
        return kind, [row for row in rows if row not in lost], set(), len(lost)
    if kind == "equal":
        rows.append(copy.copy(lost[0]))
        rows[-1].name = "twin"
        return kind, rows, {lost[0].name, "twin"}, 0
    if kind == "stale":
        for row in lost:
            row.hz *= 2 ** (draw.choice([-1, 1]) * draw.uniform(4, 100) / 1200)
    elif kind == "many":
        for row in lost:
            row.hz, row.name = row.hz * 2 ** (draw.uniform(10, 90) / 1200), row.name + "-more"
        rows = [copy.copy(row) for row in sound.rows] + lost
    else:
        rows = lost = [copy.copy(row) for row in other.rows]
    if any(abs(row.hz - p.hz) < 2 * naming.reach(p.hz) for row in lost for p in sound.bare[0].partials):
        return None
    return kind, rows, {row.name for row in lost}, {"stale": len(lost), "many": 0, "other": len(sound.bare[0].partials)}[kind]


def table_faults(sound, kind, rows, wrong, wanted):
    """Whether all that is wrong in a table is told, and nothing else."""
    words = sound.told(rows)
    for name in wrong:
        if not any(f" {name}," in sentence or name in sentence.split() for sentence in words):
            yield f"a {kind} table: {name} isn't told: {words}"
    for row in rows:
        if row.name not in wrong and any(f"row {row.name}," in sentence for sentence in words):
            yield f"a {kind} table: {row.name} is told, though that row is right: {words}"
    without = sum(sentence.startswith("no row for the peak") for sentence in words)
    if without != wanted:
        yield f"a {kind} table: {without} peaks without a row are told, and there are {wanted}: {words}"


def all_faults(program, folder, counts):
    """Every sound and every table; counts partials, and those named as not reachable."""
    bells = [(Sound(program, folder, bell(random.Random(seed), count, n), n), f"bell {seed}") for count, n, seed in BELLS]
    for seed in range(DOUBLETS):
        rows, n = doublets(random.Random(f"doublets {seed}"), 1.0, 3.0)
        bells.append((Sound(program, folder, rows, n), f"doublets {seed}"))
    for seed in range(CLOSE):
        bells.append((Sound(program, folder, close(random.Random(f"close {seed}"), 300), 300), f"close set {seed}"))
    for seed in range(STROKES):
        draw = random.Random(f"strokes {seed}")
        at = [draw.randint(20000, 25000), draw.randint(42000, 46000)][:1 + seed % 2]
        rows = [(name, hz, db, t60) for name, hz, db, t60 in bell(draw, 6, 400) if db > -50]
        sound = Sound(program, folder, [(name, hz, db, max(1.0, t60)) for name, hz, db, t60 in rows], 400, at)
        bells.append((sound, f"strokes {seed}"))
        yield from stroke_faults(sound, at, f"strokes {seed}")
    for seed in range(SIDES):
        draw = random.Random(f"sides {seed}")
        sound = Sound(program, folder, [(name, hz, db / 2, t60, draw.choice(["left", "right", "both"])) for name, hz, db, t60 in bell(draw, 6, 265)], 265)
        bells.append((sound, f"sides {seed}"))
        sound.told(sound.rows)
        yield from side_faults(sound, f"sides {seed}")
    for sound, what in bells:
        counts["partials"] += len(sound.rows)
        counts["named"] += len(sound.unreached())
        yield from faults_of(sound, what, counts)
    for seed in range(SHORT):
        draw = random.Random(f"short {seed}")
        gap, hz = draw.uniform(0.2, 1.2), draw.uniform(300, 1000)
        rows = [("hum", 150.0, -8.0, 14.0), ("d0", hz, -6.0, draw.uniform(2.5, 14)), ("d0-b", hz + gap, -6 - 12 * draw.random(), draw.uniform(2.5, 14))]
        yield from short_faults(Sound(program, folder, rows, 265, passes=int(draw.uniform(0.25, 0.45) / gap / (tables.TICK * 265))), f"short {seed}")
    for seed in range(QUIET):
        draw = random.Random(f"quiet {seed}")
        n = draw.choice([128, 200, 265, 400])
        yield from quiet_faults(Sound(program, folder, quiet(draw, n), n), f"quiet {seed}", counts)
    for seed in range(ONE):
        draw = random.Random(f"one {seed}")
        gap, hz = 0.03 * 40 ** draw.random(), draw.uniform(300, 1000)
        rows = [("hum", 150.0, -8.0, 14.0), ("d0", hz, -6.0, draw.uniform(2.5, 14)), ("d0-b", hz + gap, -6 - 20 * draw.random(), draw.uniform(2.5, 14))]
        passes = min(tables.MOST_PASSES, max(int(0.25 / (tables.TICK * 265)), int(draw.uniform(0.03, 1.1) / gap / (tables.TICK * 265))))
        yield from one_faults(Sound(program, folder, rows, 265, passes=passes), gap, f"one {seed}", counts)
    draw = random.Random("tables")
    single = [sound for sound, what in bells if what.startswith("bell") and not sound.unreached()]
    judged = 0
    while judged < STALE:
        sound, other = draw.sample(single, 2)
        table = wrong_table(draw, sound, other)
        if table:
            judged += 1
            yield from table_faults(sound, *table)


def main():
    program = sys.argv[1] if len(sys.argv) > 1 else str(places.program("wav"))
    counts = {"partials": 0, "named": 0, "told": 0, "quiet": 0, "unsure": 0, "one": 0}
    with tempfile.TemporaryDirectory() as folder:
        faults = list(all_faults(program, folder, counts))
    print("\n".join(faults))
    for what, most in (("named", NAMED_MOST), ("told", TOLD_MOST)):
        if counts[what] > most * counts["partials"]:
            faults.append("too many")
            print(f"{counts[what]} of {counts['partials']} partials are {'named as not reachable' if what == 'named' else 'told to be unsure'}")
    print(f"{len(BELLS)} bells, {DOUBLETS} sounds with 3 doublets each, {CLOSE} close sets, {STROKES} sounds of 2 or 3 strokes, {SIDES} of two channels: {counts['partials']} partials, "
          f"{counts['named']} named as not reachable with the registers' steps, {counts['told']} told to be unsure; {SHORT} short sounds, {STALE} wrong tables; "
          f"{counts['quiet']} partials beside quiet ones, {counts['unsure']} told to be unsure; {ONE} doublets without a table, {counts['one']} counted as one; {len(faults)} wrong")
    sys.exit(1 if faults else 0)


if __name__ == "__main__":
    main()
