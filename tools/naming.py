"""Names for measured partials, from a table's rows or from the just ratios, and in words what doesn't agree: rows without
a peak, peaks without a row, what can't be told apart, and how much of the sound is left unexplained.
"""

import math

import numpy as np
from scipy import optimize

import analysis
from ratios import BEATING, cents

NAMES = {"hum": 0.5, "prime": 1.0, "tierce": 1.2, "quint": 1.5, "nominal": 2.0}
ROW_CENTS, ROW_HERTZ = 2.0, 0.2  # a row names a peak within so many cents, or so many Hz where that is more
RATIO_CENTS = 80.0  # a just ratio names a peak within so many cents
RESIDUAL, RECORDED_RESIDUAL = -40.0, -20.0  # more than this, in dB of the sound or of a recording, may not be left unexplained: noise 50 dB below the peak leaves about -30


def reach(hz):
    """How far from a row's frequency its peak may be."""
    return max(ROW_HERTZ, hz * (2 ** (ROW_CENTS / 1200) - 1))


def name_by_table(partials, rows):
    """Gives each row's name to the nearest peak within reach (or within what it may be off), each to one: as many rows as can be, and then the nearest."""
    if not partials or not rows:
        return
    apart = np.array([[abs(p.hz - row.hz) / max(reach(row.hz), p.spread) for p in partials] for row in rows])
    for r, i in zip(*optimize.linear_sum_assignment(np.where(apart <= 1, apart, 1e6))):
        if apart[r, i] <= 1:
            partials[i].row, partials[i].name = rows[r], rows[r].name


def share_rows(partials, rows, seconds):
    """Marks a partial whose row can't be told from another, which has no peak of its own, in a sound of so many seconds."""
    named = [p.row for p in partials if p.row]
    for row in rows:
        near = [p for p in partials if p.row and abs(p.hz - row.hz) <= reach(row.hz) and abs(p.row.hz - row.hz) * seconds < analysis.BEAT]
        if row not in named and near:
            min(near, key=lambda p: abs(p.hz - row.hz)).near.append(row)


def name_by_ratio(partials):
    """Names from the just ratios: the prime is the one that gives most partials a name, and the loudest ones."""
    def named_from(base):
        named = {}
        for name, ratio in NAMES.items():
            near = [(-p.db, i) for i, p in enumerate(partials) if abs(cents(p.hz, base * ratio)) < RATIO_CENTS and i not in named.values()]
            if near:
                named[name] = min(near)[1]
        return named

    tries = [named_from(p.hz / ratio) for p in partials for ratio in NAMES.values()]
    if tries:
        best = max(tries, key=lambda named: (len(named), sum(partials[i].db for i in named.values())))
        for name, i in best.items():
            partials[i].name = name
        for p in partials:
            beside = [q for q in partials if q.name in NAMES and abs(q.hz - p.hz) < BEATING and abs(cents(p.hz, q.hz)) < RATIO_CENTS]
            if not p.name and len(beside) == 1 and f"{beside[0].name}-b" not in (q.name for q in partials):
                p.name = f"{beside[0].name}-b"


def set_cents(partials):
    """How far each named partial is from its just ratio to the prime."""
    base = [p.hz for p in partials if p.name == "prime" and not p.near and "hz" not in p.unsure]
    for p in partials:
        if base and p.name in NAMES and not p.near and "hz" not in p.unsure:
            p.cents = cents(p.hz, base[0] * NAMES[p.name])


def name_all(measured, rows):
    """Names the partials of all strokes; without rows from the just ratios."""
    for stroke in measured:
        if rows:
            name_by_table(stroke.partials, rows)
            share_rows(stroke.partials, rows, stroke.end - stroke.clear)
        else:
            name_by_ratio(stroke.partials)
        set_cents(stroke.partials)


def called(p):
    """A partial or a row by its name, or by its frequency."""
    return p.name or f"{p.hz:.3f} Hz"


def limits(stroke, top=0.0):
    """What may escape a measurement, in words: how near two partials may be, and how quiet one, beside a level that counts as 0 dB."""
    apart = math.ceil(100 * analysis.BEAT / (stroke.end - stroke.clear)) / 100
    return f"two partials less than {apart:.2f} Hz apart may count as one, with wrong numbers; one below {stroke.heard - top:.1f} dB may be missed (T60 {analysis.HEARD_T60:g} s)"


def beat_of(p, partials):
    """The partial with which one beats that is next above it, if any."""
    above = [q for q in partials if 0 < q.hz - p.hz <= BEATING and (q.channel == p.channel or "both" in (p.channel, q.channel))]
    return min(above, key=lambda q: q.hz, default=None)


def equal_rows(rows):
    """Of rows with the same frequency, in words."""
    for hz in sorted({row.hz for row in rows}):
        same = [row.name for row in rows if row.hz == hz]
        if len(same) > 1:
            yield f"{' and '.join(same)} have the same frequency in the table, {hz:g} Hz: they can't be told apart"


def lost_rows(rows, peaks):
    """Of rows without a peak, in words. (Of one that can't be told from another it is said elsewhere.)"""
    shared = [row for p in peaks for row in p.near if not isinstance(row, analysis.Partial)]
    for row in rows:
        if any(p.row is row for p in peaks) or any(row is other for other in shared):
            continue
        nearest = min(peaks, key=lambda p: abs(cents(p.hz, row.hz)), default=None)
        beside = f"; the nearest peak is {nearest.hz:.3f} Hz, {cents(nearest.hz, row.hz):+.1f} cents from it" if nearest else ""
        yield f"no peak for the row {row.name}, {row.hz:g} Hz{beside}"


def lost_peaks(rows, peaks):
    """Of peaks without a row, in words, each once."""
    said = []
    for p in peaks:
        if not p.row and not any(abs(p.hz - hz) < reach(hz) for hz in said):
            said.append(p.hz)
            yield f"no row for the peak at {p.hz:.3f} Hz"


def noise_words(measured, noise):
    """Of noise that the table hasn't. (Soft noise of the table may not be heard beside its partials: of that nothing is said.)"""
    if noise is None and any(stroke.noise for stroke in measured):
        yield "no row for the noise of the stroke"


def not_told(stroke):
    """Of partials that can't be told apart and of numbers that are unsure, in words."""
    seconds = stroke.end - stroke.clear
    said = set()
    for p in stroke.partials:
        if p.near:
            names = sorted({called(q) for q in [p, *p.near]})
            if tuple(names) not in said:
                said.add(tuple(names))
                yield f"{' and '.join(names)} can't be told apart in {seconds:.2f} s of sound"
        elif p.several:
            yield f"{called(p)}: its peak is not that of one partial: two or more there can't be told apart in {seconds:.2f} s of sound"
        elif p.unsure:
            what = {"hz": "frequency", "db": "level", "t60": "decay"}
            yield f"{called(p)}: {' and '.join(what[u] for u in what if u in p.unsure)} can't be told in {seconds:.2f} s of sound"


def findings(measured, rows, noise, table, most=RESIDUAL):
    """All that doesn't agree, in words; rows are the table's, if there is one, without its noise. So many dB may be left unexplained."""
    peaks = [p for stroke in measured for p in stroke.partials]
    whole = [stroke for stroke in measured if not stroke.short]
    if not whole:
        longest = max((stroke.end - stroke.clear for stroke in measured), default=0.0)
        return [f"too short to measure: {f'of {len(measured)} strokes the longest lasts' if len(measured) > 1 else 'the sound lasts'} {longest:.3f} s, and {analysis.SHORTEST:g} s are needed"]
    words = [f"the stroke at {stroke.begin:.3f} s is too short to measure: {stroke.end - stroke.clear:.3f} s" for stroke in measured if stroke.short]
    words += [f"no partial is found in {stroke.end - stroke.clear:.2f} s of sound from {stroke.clear:.3f} s on" for stroke in whole if not stroke.partials]
    if table:
        words += [*equal_rows(rows), *lost_rows(rows, peaks), *lost_peaks(rows, peaks), *noise_words(measured, noise)]
    for stroke in whole:
        words += not_told(stroke)
        if stroke.residual > most:
            words.append(f"the partials leave {stroke.residual:.1f} dB of the sound unexplained, more than {most:g} dB: what is printed is not the whole sound")
    return words
