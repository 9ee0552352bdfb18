#!/usr/bin/env python3
"""A sound as one picture: the waveform, the spectrum with its partials by name, and how each partial decays.

    /usr/bin/python3 tools/picture.py SOUND -o FILE.png [--table TABLE.csv]

What `karvelorn hear` calls. Prints the partials that are in the sound and what they leave unexplained. A table of partials gives
names to the peaks that are near its rows; without one they are found from the just ratios. Where something doesn't agree or can't
be told, that is said in lines that begin with `!` and marked in the picture, and the status is that of a sound that is unlike
(tools/statuses.py). Needs numpy, scipy and matplotlib.
"""

import io
import math
import os

from command_line import Ending, Parser, Status, need_libraries, say, start, tell

try:
    need_libraries(("numpy", "scipy", "matplotlib"), "no picture was made")
except Ending as ending:
    tell("picture", str(ending))
    raise SystemExit(int(ending.status)) from None

import matplotlib  # noqa: E402
matplotlib.use("Agg")
import matplotlib.pyplot as plt  # noqa: E402
import numpy as np  # noqa: E402

import analysis  # noqa: E402
import naming  # noqa: E402
import recording  # noqa: E402
from outputs import destination, made_here, write_whole  # noqa: E402
from table_reader import read_table  # noqa: E402

SIDES = ("left (DAC 0)", "right (DAC 1)")
MARK = "crimson"


def lines_of(stroke):
    """The table of a stroke's partials as text."""
    wide = max([10, *(len(p.name) for p in stroke.partials)])
    yield f"{'partial':{wide}}    Hz       cents off just     dB  channel  T60 in s"
    for p in stroke.partials:
        if p.near:
            yield f"{p.name or '-':{wide}} {'?':>9}  {'':14} {'?':>7}  {p.channel:7}  {'?':>8}  can't be told apart from {' and '.join(naming.called(q) for q in p.near)}"
            continue
        hz, db, t60 = ("?" if what in p.unsure else text for what, text in (("hz", f"{p.hz:.3f}"), ("db", f"{p.db:.1f}"), ("t60", f"{p.t60:.2f}" if p.t60 < math.inf else "none")))
        off = "" if math.isnan(p.cents) else f"{round(p.cents, 1) + 0.0:+8.1f}"
        other = naming.beat_of(p, stroke.partials)
        beat = f"  beat of {other.hz - p.hz:.2f} Hz with {naming.called(other)}" if other and not other.near and not ({"hz"} & (p.unsure | other.unsure)) else ""
        beat = f"  more than one partial near {p.hz:.1f} Hz" if p.several else beat
        yield f"{p.name or '-':{wide}} {hz:>9}  {off:>14} {db:>7}  {p.channel:7}  {t60:>8}{beat}"
    if stroke.noise:
        yield f"{'noise':{wide}} {'':9}  {'':14} {stroke.noise[0]:7.1f}  {'':7}  {stroke.noise[1]:8.2f}  until {stroke.clear - stroke.begin:.3f} s"
    after = f" after {stroke.clear - stroke.begin:.3f} s" if stroke.clear > stroke.begin else ""
    below = f" below {stroke.highest:g} Hz" if stroke.highest < math.inf else ""
    yield f"unexplained: {stroke.residual:.1f} dB of the sound{below}{after}"
    yield f"limits: {naming.limits(stroke)}"


def report(measured, found):
    """What is printed: the strokes, the partials of each that was measured, and what doesn't agree."""
    struck, damped = ([f"{stroke.begin:.3f}" for stroke in measured if stroke.softer is softer] for softer in (False, True))
    if len(measured) > 1:
        yield f"{len(struck)} stroke{'s' if len(struck) > 1 else ''}, at {', '.join(struck)} s{'; damped at ' + ', '.join(damped) + ' s' if damped else ''}: each part is measured by itself"
    for stroke in measured:
        if not stroke.short:
            if len(measured) > 1:
                yield f"from {stroke.begin:.3f} to {stroke.end:.3f} s:"
            yield from lines_of(stroke)
    yield from (f"! {sentence}" for sentence in found)


def label_of(p, table):
    """A partial's name and how far it is off its just ratio."""
    lost = " (no row)" if table and not p.row else ""
    return (p.name or f"{p.hz:.0f} Hz") + ("" if math.isnan(p.cents) else f" {round(p.cents, 1) + 0.0:+.1f}") + (" ?" if p.near or p.unsure else "") + lost


def draw_wave(axes, channels, rate, measured):
    times = np.arange(len(channels)) / rate
    same = np.array_equal(channels[:, 0], channels[:, -1])
    for side in range(1 if same else channels.shape[1]):
        axes.plot(times, channels[:, side], lw=0.3, label="left and right" if same else SIDES[side], alpha=1 if side == 0 else 0.6)
    for stroke in measured if len(measured) > 1 else []:
        axes.axvline(stroke.begin, color=MARK, lw=0.8, ls="--")
    axes.set(xlabel="time in s", ylabel="amplitude, full scale 1", xlim=(0, times[-1]), title="Waveform" + (f"; {len(measured)} strokes (dashed)" if len(measured) > 1 else ""))
    for line in axes.legend(loc="upper right").get_lines():
        line.set_linewidth(2)


def draw_spectrum(axes, sound, rate, found, colours, rows):
    """The spectrum with its partials; what has no row, and rows that have no peak, are marked."""
    hz, db = analysis.spectrum(sound, rate)
    at = [p.hz for p in found] + [row.hz for row in rows]
    low, high = (min(at) / 1.6, max(at) * 1.8) if at else (20, rate / 2)
    seen = (hz > min(low, rate / 4)) & (hz < min(high, rate / 2))
    top = db[seen].max()
    axes.plot(hz[seen], db[seen], lw=0.6, color="0.35")
    many = {"rotation": 60 if len(found) > 8 else 45, "fontsize": 8 if len(found) <= 16 else 6}
    for p, colour in zip(found, colours):
        height = db[np.argmin(np.abs(hz - p.hz))]
        lost = rows and not p.row
        axes.plot([p.hz], [height], "X" if lost or p.near else "o", ms=7 if lost or p.near else 4, color=MARK if lost or p.near else colour)
        axes.annotate(label_of(p, rows), (p.hz, height), xytext=(0, 6), textcoords="offset points", color=MARK if lost else colour, **many)
    for row in rows:
        if all(p.row is not row for p in found):
            axes.axvline(row.hz, color=MARK, lw=0.8, ls="--")
            axes.annotate(f"{row.name}: no peak", (row.hz, top - 85), xytext=(2, 0), textcoords="offset points", color=MARK, **many)
    axes.set(xlabel="frequency in Hz", ylabel="level in dB, full scale 0", ylim=(top - 90, top + 28), xscale="log",
             title="Spectrum; beside each name: cents from the just ratio (hum 0.5, prime 1, tierce 1.2, quint 1.5, nominal 2)")
    axes.xaxis.set_major_formatter(matplotlib.ticker.ScalarFormatter())
    axes.xaxis.set_minor_formatter(matplotlib.ticker.ScalarFormatter())
    axes.tick_params(axis="x", which="both", labelsize=8)


def draw_decay(axes, channels, rate, found, colours):
    for i, (p, colour) in enumerate(zip(found, colours)):
        times, low = analysis.envelope_at(channels[:, -1 if p.channel == "right" else 0], rate, p.hz, 0.15)
        level = 20 * np.log10(np.abs(low) + 1e-9)
        t60 = "?" if p.near or "t60" in p.unsure else f"{p.t60:.2f} s"
        axes.plot(times, level, lw=1.2, ls=("-", "--", "-.", ":")[i // 10 % 4], color=colour, label=f"{p.name or f'{p.hz:.0f} Hz'}: {t60}")
    top = max((p.db for p in found), default=0)
    axes.set(xlabel="time in s", ylabel="level in dB, full scale 0", title="Decay of each partial; beside each name: the time to fall by 60 dB", ylim=(top - 75, top + 5), xlim=(0, len(channels) / rate))
    if found:
        axes.legend(loc="upper right", fontsize=8 if len(found) <= 12 else 5, ncol=1 + len(found) // 13)


def main_stroke(measured):
    """The stroke that the picture is about: the longest."""
    return max(measured, key=lambda stroke: stroke.end - stroke.clear)


def draw(title, channels, rate, measured, rows, found):
    """The picture, as the bytes of a file."""
    plt.rcParams.update({"font.size": 9, "axes.grid": True, "grid.alpha": 0.3, "axes.titlesize": 9, "savefig.dpi": 150})
    figure, axes = plt.subplots(3, 1, figsize=(8.3, 10.5), height_ratios=(1, 1.4, 1.4), layout="constrained")
    stroke = main_stroke(measured)
    left = "" if stroke.short else f"; {stroke.residual:.1f} dB unexplained"
    figure.suptitle(f"{title}: {len(channels)} frames at {rate} Hz, {len(channels) / rate:.2f} s{left}", fontsize=11)
    if found:
        figure.supxlabel("\n".join([*found[:8], *([f"and {len(found) - 8} more"] if len(found) > 8 else [])]), color=MARK, fontsize=7, ha="left", x=0.02)
    colours = [plt.get_cmap("tab10")(i % 10) for i in range(len(stroke.partials))]
    draw_wave(axes[0], channels, rate, measured)
    part = channels[int(round(stroke.begin * rate)):int(round(stroke.end * rate))]
    louder = part[:, np.argmax((part ** 2).sum(0))]
    draw_spectrum(axes[1], louder, rate, stroke.partials, colours, rows)
    draw_decay(axes[2], part, rate, stroke.partials, colours)
    drawn = io.BytesIO()
    figure.savefig(drawn, format="png")
    plt.close(figure)
    return drawn.getvalue()


def seen(sound, table):
    """Measures a sound and draws it; answers the picture, the lines of the report, and whether all agrees."""
    rows = read_table(table) if table else []
    rate, channels = analysis.read_sound(sound)
    ours = made_here(sound)
    measured = analysis.measure(channels, rate) if ours else recording.measured_strokes(channels, rate)
    noise = next((row for row in rows if row.noise), None)
    rows = [row for row in rows if not row.noise]
    naming.name_all(measured, rows)
    found = naming.findings(measured, rows, noise, table, naming.RESIDUAL if ours else naming.RECORDED_RESIDUAL)
    return draw(os.path.basename(sound), channels, rate, measured, rows, found), list(report(measured, found)), not found


def parser():
    """What may be asked."""
    asked = Parser("picture", "Measures a sound and draws it: waveform, spectrum and decays.", "tools/picture.py bell.wav -o bell.png --table bell.csv")
    asked.prog = "tools/picture.py"
    asked.add_argument("sound", metavar="SOUND", help="WAVE or FLAC, of one or two channels")
    asked.add_argument("-o", dest="picture", metavar="PICTURE", required=True, help="the picture, a PNG file")
    asked.add_argument("--table", metavar="CSV", help="a table of partials that gives them their names")
    return asked


def main(arguments):
    asked = parser().parse_args(arguments)
    inputs = [path for path in (asked.sound, asked.table) if path]
    destination(asked.picture, inputs)
    try:
        picture, lines, agrees = seen(asked.sound, asked.table)
    except analysis.SUMS_FAIL as error:
        raise analysis.unmeasured(asked.sound, error) from None
    write_whole({asked.picture: picture}, inputs)
    say("\n".join(lines))
    return Status.DONE if agrees else Status.UNLIKE


if __name__ == "__main__":
    start("picture", main)
