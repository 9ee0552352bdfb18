"""The partials of a sound, as they are in it: of each stroke and each channel the damped sines that explain it, and what
they leave. What is looked for doesn't depend on any table; names come afterwards (naming.py).

Needs numpy and scipy; levels are in dB below the largest number that a 20-bit word holds, at the stroke's beginning.
"""

import math
from dataclasses import dataclass, field

import numpy as np
from scipy import signal

import damped
import sounds
import strokes
from command_line import Ending, Status

FEWEST, SLOWEST = 256, 2000  # a sound has so many samples, and so many in a second
SHORTEST = 0.2  # a stroke with fewer seconds is not measured
SPAN, QUIETEST = 66.0, -84.0  # a partial is at most so many dB below the loudest, and is above this level
SHORTEST_T60 = 0.25  # and lasts so long
BEAT = 0.75  # two partials are told apart if the sound lasts so much of a beat
MASKED = 35.0  # nearer than that, one that is so many dB softer is what the louder one's steps leave
CENTS, HERTZ, LEVEL, DECAY = 1.0, 0.1, 0.5, 0.05  # what is sure: within a cent or 0.1 Hz, 0.5 dB, and so much of the decay,
SURE, SURE_BESIDE = 3.0, 8.0  # so many standard deviations wide; beside another whose peak overlaps, more
LASTING = 0.005  # what falls by less than e to this does not decay
DAMPED = 0.03  # a damping is judged by so many seconds before and after it
HEARD_T60, HEARD_MARGIN = 2.0, 3.0  # a partial of such a T60 is found if it is so many dB above where it stands out of what is left
SETTLING, SETTLING_MOST, UNSETTLED = 0.05, 0.4, 0.01  # whether echoes still come in is judged by frames of so many seconds, in so much of the sound, by so much of its amplitude
SETTLING_LEAST_HZ, SETTLING_ABOVE, SETTLING_SECONDS = 500.0, 1.2, 3.0  # up to that, or to so many times the loudest peak, in so much of the sound
# What is left around the peak of one partial is at most so many dB of it: in a sound of this machine, by how many dB the partial
# falls within it, and in a recording. Where it is more, and so much more than farther off, the peak is that of two or more.
LEFT_OF_ONE, LEFT_OF_ONE_RECORDED = ((20.0, -74.0), (45.0, -68.0), (math.inf, -57.0)), ((math.inf, -40.0),)
LEFT_ABOVE, LEFT_OF_LOUDEST = 12.0, -75.0  # and more than this of the loudest peak, beside which the steps of others are small
NOISE_PEAK = math.sqrt(3)  # even noise has so many times its root mean square as its peak


@dataclass
class Partial:
    """A partial as it was measured."""
    hz: float
    db: float
    t60: float  # infinite where it doesn't decay
    channel: str = "both"
    unsure: set = field(default_factory=set)  # which of hz, db and t60 the sound doesn't tell
    spread: float = 0.0  # how many Hz its frequency may be off
    near: list = field(default_factory=list)  # the partials, or the table's rows, from which it can't be told apart
    several: bool = False  # its peak is not that of one partial
    name: str = ""
    cents: float = math.nan  # off the just ratio of its name
    row: object = None  # the table's row that names it


@dataclass
class Measured:
    """A stroke as it was measured: when it begins and ends, from when on it is without noise, what it has and what is left."""
    begin: float
    clear: float
    end: float
    partials: list = field(default_factory=list)
    residual: float = 0.0  # in dB of the sound
    heard: float = -math.inf  # in dB: a partial with a T60 of HEARD_T60 that is below may be missed
    noise: tuple = ()  # level and T60
    softer: bool = False  # it is no stroke but what is left after a damping
    highest: float = math.inf  # what is above so many Hz was not looked at

    @property
    def short(self):
        return self.end - self.clear < SHORTEST


def read_sound(path):
    """The rate of a sound that can be measured, and its channels as numbers from -1 to 1."""
    rate, channels = sounds.read(path)
    if len(channels) < FEWEST or not channels.any():
        raise Ending(f"{path} has too little sound to be measured: {len(channels)} frames{'' if channels.any() else ', all 0'}", Status.UNLIKE)
    if rate < SLOWEST:
        raise Ending(f"{path} has {rate} samples a second: from {SLOWEST} on a sound can be measured", Status.UNLIKE)
    return rate, channels


def unmeasured(path, error):
    """The ending of a measurement whose sums fail."""
    return Ending(f"{path} can't be measured: {error}", Status.UNLIKE)


SUMS_FAIL = (np.linalg.LinAlgError, ArithmeticError, MemoryError)


def spectrum(sound, rate):
    """Frequencies, and levels in dB: a lasting sine of the largest range has 0."""
    window = damped.falling_window(len(sound))
    size = 1 << (len(sound) - 1).bit_length() + 1
    level = np.abs(np.fft.rfft(sound * window, size)) * 2 / window.sum()
    return np.fft.rfftfreq(size, 1 / rate), 20 * np.log10(np.maximum(level, 1e-9))


def envelope_at(sound, rate, hz, seconds=0.12):
    """Times, and the sound's amplitude and phase near a frequency there, relative to that frequency."""
    window = signal.windows.blackmanharris(max(1, min(len(sound) // 3, max(64, int(seconds * rate)))))
    window /= window.sum()
    turned = sound * np.exp(-2j * np.pi * hz * np.arange(len(sound)) / rate)
    low = 2 * signal.fftconvolve(turned, window, mode="valid")
    step = max(1, len(window) // 16)
    return (np.arange(len(low))[::step] + len(window) / 2) / rate, low[::step]


def within(hz):
    """The distance within which a frequency is the same: 0.1 Hz, or a cent where that is more."""
    return max(HERTZ, hz * (2 ** (CENTS / 1200) - 1))


def listed(fit, lead):
    """Which damped sines of a fit are partials, by number, and their levels as the stroke begins, so many samples before."""
    decays = -fit.exponents.real
    db = 20 * np.log10(np.abs(fit.amplitudes) + 1e-30) + 20 / math.log(10) * decays * lead
    loud = (db > max(db.max(initial=-math.inf) - SPAN, QUIETEST)) & (damped.DECAY_TO_T60 > SHORTEST_T60 * decays * fit.rate)
    hz = fit.exponents.imag * fit.rate / (2 * np.pi)
    chosen = []
    for i in sorted(np.nonzero(loud)[0], key=lambda i: -db[i]):
        if all(abs(hz[i] - hz[j]) * fit.seconds > BEAT or db[i] > db[j] - MASKED for j in chosen):
            chosen.append(i)
    return sorted(chosen, key=lambda i: hz[i]), db


def overlap(p, other, seconds):
    """Whether the peaks of two partials overlap in a sound of so many seconds."""
    return other is not p and abs(p.hz - other.hz) < 3 / seconds + 3 / p.t60 + 3 / other.t60


def is_several(fit, i, left_of_one):
    """Whether the peak of a damped sine is not that of one: it leaves too much around its frequency."""
    place, reach = fit.places()[i], max(3.0, 2 * fit.widths()[i])
    inside = slice(max(1, int(place - reach)), int(place + reach) + 2)
    around = [fit.left[max(1, int(place - 8 * reach)):max(1, int(place - 2 * reach))], fit.left[int(place + 2 * reach):int(place + 8 * reach)]]
    own = fit.amplitudes[i] / 2 * damped.response(fit.exponents[i], fit.turns[inside], fit.count)
    left, usual = energy(fit.left[inside]) / len(own), np.median(np.abs(np.concatenate(around)) ** 2) / math.log(2)
    falls = -20 / math.log(10) * fit.exponents[i].real * fit.count
    most = next(most for below, most in left_of_one if falls < below)
    loudest = damped.heights(fit).max() ** 2
    return bool(left > 10 ** (most / 10) * energy(own) / len(own) and left > 10 ** (LEFT_ABOVE / 10) * usual and left > 10 ** (LEFT_OF_LOUDEST / 10) * loudest)


def partials_of(fit, lead, decay, left_of_one):
    """The partials of a fit, with what can't be told of each: a decay is told within such a part of it."""
    chosen, db = listed(fit, lead)
    off_exponents, off_amplitudes = damped.spreads(fit)
    decays = np.maximum(-fit.exponents.real * fit.rate, 1e-9)
    lasting = decays * fit.seconds < LASTING
    found = [Partial(fit.exponents[i].imag * fit.rate / (2 * np.pi), float(db[i]), math.inf if lasting[i] else damped.DECAY_TO_T60 / decays[i]) for i in chosen]
    for i, p in zip(chosen, found):
        beside = any(overlap(p, other, fit.seconds) for other in found)
        sure = SURE_BESIDE if beside else SURE
        off = sure * off_exponents[i] * fit.rate
        unsure = {"hz": off > 2 * math.pi * within(p.hz), "db": sure * off_amplitudes[i] > 10 ** (LEVEL / 20) - 1, "t60": off > decay * decays[i] and not lasting[i]}
        p.unsure, p.spread = {what for what, is_unsure in unsure.items() if is_unsure}, off / (2 * math.pi)
        p.several = not beside and is_several(fit, i, left_of_one)
        p.unsure |= set(unsure) if p.several else set()
    mark_near(found, fit.seconds)
    return found


def mark_near(found, seconds):
    """Marks the partials that can't be told apart: nearer than a beat of the sound, or with peaks that overlap of which both are unsure, or the louder one is."""
    for p in found:
        p.near = [other for other in found if other is not p and (abs(p.hz - other.hz) * seconds < BEAT or (overlap(p, other, seconds) and other.unsure and (p.unsure or p.db < other.db)))]


def joined(left, right):
    """The partials of two channels, each once: that of the louder channel."""
    rest, both = list(right), []
    for p in left:
        same = [q for q in rest if abs(q.hz - p.hz) < within(p.hz) and (p.unsure or q.unsure or abs(1 / q.t60 - 1 / p.t60) < 0.2 / p.t60 + 0.001)]
        p.channel = "left"
        if same:
            q = min(same, key=lambda q: abs(q.hz - p.hz))
            rest.remove(q)
            p, q = (p, q) if p.db > q.db else (q, p)
            p.channel = "both" if p.db - q.db < 0.05 else p.channel
        both.append(p)
    return sorted(both + rest, key=lambda p: p.hz)


def energy(bins):
    return np.vdot(bins, bins).real


def left_by(fit, lead):
    """The energy that the partials of a fit leave unexplained."""
    rest = damped.Fit(fit.sound, fit.rate, fit.highest)
    chosen = listed(fit, lead)[0]
    rest.add(fit.exponents[chosen], fit.amplitudes[chosen])
    return energy(rest.left)


def heard_from(fit, lead):
    """The level at the stroke's beginning, so many samples before, below which a partial may be missed."""
    stands_out = 20 * math.log10(damped.quietest(fit, HEARD_T60) + 1e-30) + HEARD_MARGIN + 60 * lead / fit.rate / HEARD_T60
    loudest = listed(fit, lead)[1].max(initial=-math.inf)
    return max(stands_out, loudest - SPAN, QUIETEST)


def settles(sound, rate, before):
    """The second from which on what partials leave of a sound, after so many samples of it, stays small: it has come down to what it stays at, or to a part of the sound. Judged up to a little above the loudest peak."""
    hz, level = spectrum(sound, rate)
    top = max(SETTLING_LEAST_HZ, SETTLING_ABOVE * hz[np.argmax(np.where(hz > damped.LOWEST, level, -math.inf))])
    fewer = max(1, int(rate / (2.5 * top)))
    slow = signal.resample_poly(sound, 1, fewer) if fewer > 1 else sound
    fit = damped.explained(slow[before // fewer:], rate / fewer)
    size = int(SETTLING * fit.rate)
    left, level = (strokes.frame_levels(np.fft.irfft(bins, fit.count)[:, None], size) for bins in (fit.left, fit.bins))
    most = int(SETTLING_MOST * len(left))
    loud = left[:most] > np.maximum(2 * np.median(left[len(left) // 3:]), UNSETTLED * level[:most]) if most else np.zeros(0, bool)
    return float((np.flatnonzero(loud)[-1] + 1) * SETTLING) if loud.any() else 0.0


def noise_of(sound, fit, lead, rate):
    """Level and T60 of the noise before a fit's sound begins, so many samples long: what its partials don't explain there."""
    chosen = listed(fit, lead)[0]
    before = np.arange(-lead, 0)
    partials = sum((fit.amplitudes[i] * np.exp(fit.exponents[i] * before)).real for i in chosen)
    levels = strokes.frame_levels((sound - partials)[:, None], max(2, int(strokes.FRAME * rate)))
    fall, start = np.polyfit((np.arange(len(levels)) + 0.5) * strokes.FRAME, np.log(levels + 1e-9), 1) if len(levels) > 1 else (-math.inf, -math.inf)
    return 20 / math.log(10) * start + 20 * math.log10(NOISE_PEAK), damped.DECAY_TO_T60 / -fall if fall < 0 else math.inf


def measure_stroke(channels, rate, stroke, highest=math.inf, decay=DECAY, left_of_one=LEFT_OF_ONE):
    """A stroke's partials up to so many Hz, of each channel by itself, and what they leave; decays are told within such a part, and what one partial leaves is at most so much."""
    done = Measured(stroke.begin / rate, stroke.clear / rate, stroke.end / rate, highest=highest)
    if done.short:
        return done
    lead, sides, left, whole = stroke.clear - stroke.begin, [], 0.0, 0.0
    same = all(np.array_equal(channels[:, 0], channels[:, side]) for side in range(channels.shape[1]))
    for side in range(1 if same else 2):
        fit = damped.explained(channels[stroke.clear:stroke.end, side], rate, highest)
        sides.append(partials_of(fit, lead, decay, left_of_one))
        done.heard = max(done.heard, heard_from(fit, lead))
        left, whole = left + left_by(fit, lead), whole + energy(fit.bins)
        if lead and not done.noise:
            done.noise = noise_of(channels[stroke.begin:stroke.clear, side], fit, lead, rate)
    for p in sides[1] if not same else []:
        p.channel = "right"
    done.partials = sides[0] if same else joined(*sides)
    done.residual = 10 * math.log10(left / whole + 1e-30) if whole else 0.0
    return done


def is_softer(channels, rate, at):
    """Whether a sound is softer from a sample on than before it: a damping, and no stroke."""
    size = int(DAMPED * rate)
    before, after = channels[max(0, at - size):at], channels[at:at + size]
    return bool(len(before) == size and (after ** 2).mean() < (before ** 2).mean() / 2)


def measure(channels, rate):
    """The strokes of a sound, each measured by itself."""
    done = []
    for stroke in strokes.strokes_of(channels, rate):
        done.append(measure_stroke(channels, rate, stroke))
        done[-1].softer = is_softer(channels, rate, stroke.begin)
    return done
