#!/usr/bin/env python3
"""Which ring to cut, by table and by ear.

    karvelorn cut TABLE --rings RINGS [--turns N] [--ring R]..

RINGS is the foundry's own table (rings.py). Printed is what a cut at each ring makes of the bell: each partial's cents off just, the
strike note, the beats, what gets better and worse; sorted by one measure. Of each ring that is chosen come bench file and sound, one
sound of before, a second's silence and after, and a picture of both spectra. Table and sounds need no library, the picture numpy,
scipy and matplotlib.
"""

import copy
import io
import math
import os

import heard
import partials
import sounds
from command_line import Ending, Parser, Status, need_libraries, read_file, say, start, tell
from outputs import destination, write_whole
from ratios import RATIOS, ratios_of
from rings import BASE, TURN, bells_of, changes, cut_rows, lacking, read_rings
from table_reader import read_table

SECONDS, ABOVE = 6.0, 2.2  # a sound lasts so long, or less where its highest partial needs more passes a second: so many times its Hz
SILENCE = 1.0
ABOUT = 15.0  # around a partial so many cents are drawn, and as many more as any moves
TURNS_MOST = 1000.0


# The table

def shown(value, form):
    """A number, or a question mark where it isn't known."""
    return "?" if math.isnan(value) else format(round(value, 3) + 0.0, form)


def lines_of(before, after, turns):
    """What is printed: a line for the bell as it is, and one for each ring."""
    width = max(len(bell.ring) for bell in [before, *after])
    columns = [max(8, len(name)) for name in before.off]
    beats = [f"beat of {one} and {other}" for one, other in before.beats]
    yield f"{turns:g} turn{'' if turns == 1 else 's'} of {TURN} at each ring; cents off just, counted from half the {BASE}"
    yield "  ".join([f"{'ring':{width}}  measure", *(f"{name:>{wide}}" for name, wide in zip(before.off, columns)), "strike note", *beats])
    for bell in [before, *after]:
        cells = [f"{shown(off, '+.1f'):>{wide}}" for off, wide in zip(bell.off.values(), columns)]
        beating = [f"{shown(beat, '.3f') + ' Hz':>{len(head)}}" for beat, head in zip(bell.beats.values(), beats)]
        yield "  ".join([f"{bell.ring:{width}}  {shown(bell.measure, '.1f'):>7}", *cells, f"{shown(bell.strike, '.2f') + ' Hz':>11}", *beating])
    yield f"measure: the root mean square of the cents off just, without the {BASE}'s. It is one measure only, and knows nothing of levels, decays and beats."
    for bell in after:
        better, worse = changes(before, bell)
        yield f"ring {bell.ring}: better {', '.join(better) or '-'}; worse {', '.join(worse) or '-'}"


def unknown(rows, rings, chosen):
    """What isn't known, in words."""
    for ring, moved in rings.cents.items():
        lost = lacking(rows, moved)
        if lost:
            yield f"ring {ring} has no figure for {', '.join(lost)}{': in its sound they stay where they are' if ring in chosen else ''}"
    others = [name for name in rings.partials if all(row.name != name for row in rows)]
    if others:
        yield f"the bell has no partial {', '.join(others)}, for which the table of rings has figures"


# Bench files and sounds

def seconds_for(rows, seconds):
    """The length to ask for: what is asked, or the usual one where the highest partial allows it."""
    if seconds is not None:
        return seconds
    highest = max((row.hz for row in rows), default=0.0)
    return min(SECONDS, partials.MOST_PASSES / max(ABOVE * highest, 1.0))


def bench_files(bells, seconds):
    """The bench files and reports of several bells, by name: of one length and one gain, so that levels can be compared."""
    seconds = min(seconds_for(rows, seconds) for rows in bells.values())
    gain = min(partials.make_of_rows(copy.deepcopy(rows), seconds=seconds)[4] for rows in bells.values())
    made = {name: partials.make_of_rows(copy.deepcopy(rows), seconds=seconds, gain=gain) for name, rows in bells.items()}
    return {name: (text, "\n".join(lines) + "\n") for name, (text, lines, *_) in made.items()}


def table_text(rows):
    """A table of partials, as `partials` reads it."""
    lines = [",".join((row.name if not set(row.name) & set(',"\n') else '"' + row.name.replace('"', '""') + '"', "noise" if row.noise else f"{row.hz:.3f}", f"{row.db:g}", f"{row.t60:g}", row.channel)) for row in rows]
    return "\n".join(["name,hz,db,t60,channel", *lines]) + "\n"


def in_sequence(first, second):
    """One sound of two, with a silence between them."""
    rate, before = sounds.frames_of(first)
    _, after = sounds.frames_of(second)
    return sounds.wave_file(rate, before + bytes(6 * int(SILENCE * rate)) + after)


def both_spectra(before, after, ring, bells, names):
    """A picture of both spectra, whole and around each partial, as the bytes of a file; bells are that before and that after, as the table has them."""
    import matplotlib
    matplotlib.use("Agg")
    import matplotlib.pyplot as plt
    import numpy as np
    import analysis
    plt.rcParams.update({"font.size": 8, "axes.grid": True, "grid.alpha": 0.3, "savefig.dpi": 150})
    figure = plt.figure(figsize=(8.3, 6.2), layout="constrained")
    grid = figure.add_gridspec(2, len(names), height_ratios=(1.2, 1))
    whole, close = figure.add_subplot(grid[0, :]), [figure.add_subplot(grid[1, i]) for i in range(len(names))]
    reach = ABOUT + max((abs(1200 * math.log2(bells[1].hz[name] / bells[0].hz[name])) for name in names if bells[1].hz[name] == bells[1].hz[name]), default=0.0)
    placed, top = [hz for bell in bells for hz in bell.hz.values() if hz == hz], -math.inf
    for sound, label, colour in ((before, "before", "0.35"), (after, f"after ring {ring}", "crimson")):
        rate, frames = sounds.frames_of(sound)
        found = sounds.pcm_numbers(frames, 24).reshape(-1, 2)
        hz, db = analysis.spectrum(found[:, (found ** 2).sum(0).argmax()], rate)
        seen = (hz > min(placed) / 1.3) & (hz < max(placed) * 1.2)
        top = max(top, db[seen].max())
        whole.plot(hz[seen], db[seen], lw=0.7, color=colour, label=label)
        for axes, name in zip(close, names):
            away = 1200 * np.log2(np.maximum(hz, 1e-9) / bells[0].hz[name])
            axes.plot(away[np.abs(away) < reach], db[np.abs(away) < reach], lw=1, color=colour)
    whole.set(xlabel="Hz", ylabel="level in dB, full scale 0", ylim=(top - 80, top + 4), title=f"Spectra before and after ring {ring}; below around each partial, in cents from where it is")
    whole.legend(loc="upper right")
    for axes, name in zip(close, names):
        one, other = (bell.hz[name] for bell in bells)
        axes.set(xlim=(-reach, reach), title=f"{name}\n{'no figure' if other != other else f'{1200 * math.log2(other / one):+.1f} cents'}")
    drawn = io.BytesIO()
    figure.savefig(drawn, format="png")
    plt.close(figure)
    return drawn.getvalue()


def files_of(base, chosen, picture):
    """The paths of all results: of the bell before, then of each ring."""
    paths = [f"{base}.before{ending}" for ending in (".txt", ".report", ".wav")]
    endings = (".csv", ".txt", ".report", ".wav", ".both.wav", *((".png",) if picture else ()))
    return paths + [f"{base}.ring-{ring}{ending}" for ring in chosen for ending in endings]


def make_files(command, base, rows, rings, chosen, turns, seconds):
    """Bench files, reports, tables and sounds of the bell before and after each chosen ring: bytes by path."""
    bells = {"before": rows, **{f"ring-{ring}": cut_rows(rows, rings.cents[ring], turns) for ring in chosen}}
    made = {}
    for name, (text, report) in bench_files(bells, seconds).items():
        made[f"{base}.{name}.txt"], made[f"{base}.{name}.report"] = text.encode(), report.encode()
        made[f"{base}.{name}.wav"] = heard.sound_of_text(command, f"{base}.{name}.txt", text.encode())
    for ring in chosen:
        made[f"{base}.ring-{ring}.csv"] = table_text(bells[f"ring-{ring}"]).encode()
        made[f"{base}.ring-{ring}.both.wav"] = in_sequence(made[f"{base}.before.wav"], made[f"{base}.ring-{ring}.wav"])
    return made


# The command

def turns_asked(text):
    """How many turns, on the command line."""
    if not 0 < float(text) <= TURNS_MOST:
        raise ValueError
    return float(text)


def parser():
    """What may be asked."""
    asked = Parser("cut", "Says what a cut at each ring would make of a bell, by the foundry's own table of rings; of the rings that are chosen bench files, sounds\n"
                   "(NAME.before.wav, NAME.ring-R.wav, and NAME.ring-R.both.wav: before, a second's silence, after) and a picture of both spectra\n"
                   "(NAME.ring-R.png) are made beside the table. Nothing is made up: a partial for which a ring has no figure is told, with status 8.",
                   "karvelorn cut bell.csv --rings rings.csv\nkarvelorn cut bell.csv --rings rings.csv --turns 2 --ring 3")
    asked.add_argument("table", metavar="TABLE", help="the bell's partials: name,hz,db,t60[,channel]")
    asked.add_argument("--rings", metavar="RINGS", required=True, help=f"heads ring,NAME,NAME..; a row for each ring: its name, and by how many cents a turn of {TURN} moves each partial")
    asked.add_argument("--turns", metavar="N", type=turns_asked, default=1.0, help="so many turns, each by the figures of one (1 where this isn't asked)")
    asked.add_argument("--ring", metavar="R", dest="chosen", action="append", default=[], help="a ring of which the files are made; may be asked more than once")
    asked.add_argument("-o", dest="base", metavar="BASE", help="the beginning of the files' names (TABLE without its ending where this isn't asked)")
    asked.add_argument("--seconds", metavar="S", type=partials.positive, help=f"the sounds last about so long ({SECONDS:g}, or less where the highest partial needs that)")
    asked.add_argument("--ratios", metavar="R", default="just", help="just, tempered, or a file of lines name,ratio (just where this isn't asked)")
    asked.add_argument("--no-picture", action="store_true", help="no picture, for which libraries are needed")
    return asked


def read_all(table, rings, chosen, ratios):
    """The bell's rows, the rings and the ratios; what is chosen must be there."""
    try:
        rows = read_table(table)
    except Ending as ending:
        raise ending if ending.status == Status.UNREAD else Ending(f"{table}: {ending}", ending.status) from None
    known = read_rings(rings)
    for ring in chosen:
        if ring not in known.cents:
            raise Ending(f"there is no ring {ring} in {rings}; there are {', '.join(known.cents)}", Status.MISUSED)
    return rows, known, ratios_of(ratios)


def judged(table, rows, known, turns, ratios):
    try:
        return bells_of(rows, known, turns, ratios)
    except Ending as ending:
        raise Ending(f"{table}: {ending}", ending.status) from None


def main(arguments):
    asked = parser().parse_args(arguments)
    chosen = list(dict.fromkeys(asked.chosen))
    inputs = [asked.table, asked.rings] + ([] if asked.ratios in RATIOS else [asked.ratios])
    base = asked.base or os.path.splitext(asked.table)[0]
    for path in (asked.table, asked.rings):
        read_file(path, 1)
    results = files_of(base, chosen, not asked.no_picture) if chosen else []
    for path in results:
        destination(path, inputs)
    rows, known, ratios = read_all(asked.table, asked.rings, chosen, asked.ratios)
    before, after = judged(asked.table, rows, known, asked.turns, ratios)
    if chosen:
        write_results(asked, base, results, rows, known, chosen, (before, after), inputs)
    unsaid = list(unknown(rows, known, chosen))
    say("\n".join([*lines_of(before, after, asked.turns), *(f"! {sentence}" for sentence in unsaid)]))
    if chosen and not asked.no_picture:
        need_libraries(heard.LIBRARIES, "no picture was made")
    return Status.UNLIKE if unsaid else Status.DONE


def write_results(asked, base, results, rows, known, chosen, bells, inputs):
    """Makes and writes the files of the chosen rings; what stood there before is set aside first."""
    asides = heard.set_older_aside(results)
    try:
        try:
            made = make_files("cut", base, rows, known, chosen, asked.turns, asked.seconds)
        except Ending as ending:
            raise Ending(f"{asked.table}: {ending}", ending.status) from None
        if not asked.no_picture and not missing_libraries():
            for ring in chosen:
                both = bells[0], next(bell for bell in bells[1] if bell.ring == ring)
                made[f"{base}.ring-{ring}.png"] = both_spectra(made[f"{base}.before.wav"], made[f"{base}.ring-{ring}.wav"], ring, both, bells[0].off)
        write_whole(made, inputs)
        for path in made:
            tell("cut", f"wrote {path}")
    finally:
        heard.kept(asides, "cut")


def missing_libraries():
    """Whether the picture can't be drawn here."""
    try:
        need_libraries(heard.LIBRARIES, "")
    except Ending:
        return True
    return False


if __name__ == "__main__":
    start("cut", main)
