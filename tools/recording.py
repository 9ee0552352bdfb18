"""The partials of a recording: of its longest stroke, with their names, the strike note, beats, and what is unsure (measuring.py).

Names are given by ratios to the prime. What the recording doesn't let be told is a comment in the table, so that no bench file is
made of it. Needs numpy and scipy, and for FLAC soundfile.
"""

import math

import numpy as np

import analysis
import naming
import strokes
from command_line import Ending, Status
from ratios import strike_note

ECHO = 0.4  # what begins so soon after a stroke is its echo
SETTLED = 0.15  # partials are measured from so many seconds after a stroke on, at the earliest: its noise and the first echoes are over
WAITS = 3  # so many times it is looked for where its echoes have settled
HIGHEST = 8000.0  # what is above so many Hz is not looked at, where nothing else is asked
NEAR = 120.0  # a ratio names the loudest partial within so many cents
MAINS = (50.0, 60.0)
CLIPPED = 3  # so many samples one after the other at the peak are clipped
DECAY = 0.1  # a decay is told within so much


def clipped(channels):
    """How many times a channel stays at its peak for several samples."""
    count = 0
    for side in range(channels.shape[1]):
        at = np.abs(channels[:, side]) >= np.abs(channels[:, side]).max() * (1 - 1e-4)
        runs = np.diff(np.flatnonzero(np.diff(np.concatenate([[0], at.astype(int), [0]]))))[::2]
        count += int((runs >= CLIPPED).sum())
    return count


def loudness(channels):
    """The root of the mean square."""
    return float(np.sqrt((channels ** 2).mean()))


def strokes_in(channels, rate):
    """The strokes of a recording: without what is before the first, each with its echo; and the level of what is before."""
    found = strokes.strokes_of(channels, rate)
    before = None
    if len(found) > 1 and loudness(channels[found[0].begin:found[0].end]) < 0.2 * loudness(channels[found[1].begin:found[1].begin + int(SETTLED * rate)]):
        before = channels[found[0].begin:found[0].end]
        found = found[1:]
    joined = []
    for s in found:
        if joined and s.begin - joined[-1].begin < ECHO * rate:
            joined[-1] = strokes.Stroke(joined[-1].begin, s.clear, s.end)
        else:
            joined.append(s)
    return [strokes.Stroke(s.begin, min(max(s.clear, s.begin + int(SETTLED * rate)), s.end), s.end) for s in joined], before


def waited_out(channels, rate, stroke):
    """A stroke from where the echoes of the room have settled."""
    side = int(np.argmax((channels[stroke.begin:stroke.end] ** 2).sum(0)))
    for _ in range(WAITS):
        sound = channels[stroke.begin:min(stroke.end, stroke.clear + int(analysis.SETTLING_SECONDS * rate)), side]
        before = stroke.clear - stroke.begin
        later = int(analysis.settles(sound, rate, before) * rate) if len(sound) - before > 2 * analysis.SHORTEST * rate else 0
        if not later:
            break
        stroke = strokes.Stroke(stroke.begin, stroke.clear + later, stroke.end)
    return stroke


def measured_stroke(channels, rate, stroke, highest):
    """A stroke, measured from where its echoes have settled."""
    done = analysis.measure_stroke(channels, rate, waited_out(channels, rate, stroke), highest, DECAY, analysis.LEFT_OF_ONE_RECORDED)
    done.noise = ()  # what is before is echoes too
    return done


def measured_strokes(channels, rate, highest=HIGHEST):
    """The strokes of a recording, each measured by itself."""
    done = []
    for stroke in strokes_in(channels, rate)[0]:
        done.append(measured_stroke(channels, rate, stroke, min(highest, rate / 2)))
        done[-1].softer = analysis.is_softer(channels, rate, stroke.begin)
    return done


def mains_in(partials):
    """The partials that are the mains' hum: they don't decay, and are multiples of 50 or 60 Hz."""
    return [p for p in partials if (p.t60 > 40 or "t60" in p.unsure) and any(abs(p.hz - f * round(p.hz / f)) < 0.3 and round(p.hz / f) in range(1, 13) for f in MAINS)]


def name(partials, ratios):
    """Gives names by ratios: the prime is that with which most have a name, and the loudest."""
    def named_from(base):
        chosen = {}
        for word, ratio in ratios.items():
            near = [i for i, p in enumerate(partials) if abs(naming.cents(p.hz, base * ratio)) < NEAR and i not in chosen.values()]
            if near:
                chosen[word] = max(near, key=lambda i: partials[i].db)
        return chosen

    tries = [named_from(p.hz / ratio) for p in partials for ratio in ratios.values()]
    best = max(tries, key=lambda chosen: (len(chosen), sum(partials[i].db for i in chosen.values())), default={})
    for word, i in best.items():
        partials[i].name = word
    for number, p in enumerate(partials, 1):
        beside = [q for q in partials if q.name in best and abs(q.hz - p.hz) < naming.BEATING]
        taken = {q.name for q in partials}
        free = (word for word in (*(f"{q.name} b" for q in beside[:1]), f"partial {number}", *(f"partial {number} {more}" for more in range(2, 99))) if word not in taken)
        p.name = p.name or next(free)


def told(p):
    """Whether a partial's frequency and decay are told."""
    return not p.near and not p.unsure and p.t60 < math.inf


def loudest_of(partials):
    """The level that the table has as 0 dB."""
    return max((p.db for p in partials if told(p)), default=0.0)


def table_of(partials):
    """The table: rows of what is told, comments of what is not."""
    yield "name,hz,db,t60"
    loudest = loudest_of(partials)
    for p in partials:
        row = f"{p.name},{p.hz:.3f},{p.db - loudest:.2f},{p.t60:.3f}"
        yield row if told(p) else f"# unsure: {row}"


def measured(channels, rate, ratios, highest):
    """The partials of a recording's longest stroke, named; lines that tell of it, and sentences of what is unsure."""
    found, before = strokes_in(channels, rate)
    stroke = max(found, key=lambda s: s.end - s.clear)
    done = measured_stroke(channels, rate, stroke, highest)
    if done.short:
        raise Ending(f"too short to measure: {done.end - done.clear:.3f} s of sound, and {analysis.SHORTEST:g} s are needed", Status.UNLIKE)
    mains = mains_in(done.partials)
    done.partials = [p for p in done.partials if p not in mains]
    name(done.partials, ratios)
    lines = [f"{len(found)} stroke{'s' if len(found) > 1 else ''}, measured from {done.clear:.3f} to {done.end:.3f} s; {done.residual:.1f} dB of the sound below {highest:g} Hz unexplained", naming.limits(done, loudest_of(done.partials))]
    if before is not None:
        lines.append(f"before the stroke: what is heard is {20 * math.log10(np.abs(channels).max() / (loudness(before) + 1e-9)):.1f} dB below the peak")
    pitch = strike_note([p for p in done.partials if not p.near and "hz" not in p.unsure])
    lines += [] if math.isnan(pitch) else [f"strike note: {pitch:.3f} Hz, from nominal, superquint and octave nominal as far as they are told"]
    for p in done.partials:
        other = naming.beat_of(p, done.partials)
        lines += [f"beat of {other.hz - p.hz:.3f} Hz: {p.name} and {other.name}"] if other and told(p) and told(other) else []
    words = [f"hum of the mains at {', '.join(f'{p.hz:.1f}' for p in mains)} Hz is left out"] if mains else []
    words += [f"{len(found)} strokes: only the longest is measured"] if len(found) > 1 else []
    words += [f"clipped {clipped(channels)} times: levels and peaks may be wrong"] if clipped(channels) else []
    words += naming.not_told(done)
    words += [f"{done.residual:.1f} dB of the sound are unexplained, more than {naming.RECORDED_RESIDUAL:g} dB"] if done.residual > naming.RECORDED_RESIDUAL else []
    return done.partials, lines, words
