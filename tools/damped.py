"""Damped sines in a sound: how many there are, and the exponent and amplitude of each, fitted together.

A damped sine of n samples, Re(a e^(s k)), has a Fourier transform that is known in closed form: a simple pole. So the sound
is transformed once, and everything else is done on bins: peaks are looked for in what is not explained yet, poles are read
off the bins around a peak (Loewner's pencil) and then moved until they come nearest (Gauss and Newton's method, damped),
group by group, until no peak is left. Needs numpy and scipy.
"""

import math
from dataclasses import dataclass, field

import numpy as np
from scipy import fft, linalg, ndimage, signal

DECAY_TO_T60 = 3 * math.log(10)  # an amplitude that falls by e^-d in a second falls by 60 dB in 3 ln 10 / d seconds
LOWEST = 15.0  # nothing is looked for below so many Hz
SHORTEST_T60 = 0.15  # what dies away faster is no partial
FAINTEST = 10 ** (-70 / 20)  # nor is what is so much softer than the loudest, as far as its peak can tell
OWN_ERROR = 10 ** (-58 / 20)  # so much of a partial's own peak may be left by steps of its envelope: no partial of its own
ABOVE_FLOOR = 5.0  # a peak stands so many times above the median around it
LARGEST_GROUP = 8  # so many partials are moved together
ROUNDS = 12
SETTLED = 1e-3  # a move that takes away less than this part of what is left is none


@dataclass
class Fit:
    """A sound's transform, the damped sines found in it, and what they leave."""
    sound: np.ndarray
    rate: float
    highest: float = math.inf  # what is above so many Hz is not looked at
    exponents: np.ndarray = field(default_factory=lambda: np.zeros(0, complex))  # per sample
    amplitudes: np.ndarray = field(default_factory=lambda: np.zeros(0, complex))

    def __post_init__(self):
        self.sound = self.sound[:fast_length(len(self.sound))]
        self.count = len(self.sound)
        self.bins = np.fft.rfft(self.sound)[:int(min(self.highest / self.rate, 0.5) * self.count) + 1]
        self.turns = np.exp(-2j * np.pi * np.arange(len(self.bins)) / self.count)
        self.left = self.bins.copy()

    @property
    def seconds(self):
        return self.count / self.rate

    def add(self, exponents, amplitudes, sign=-1):
        """Takes damped sines out of what is left, or puts them back (sign 1)."""
        for s, a in zip(exponents, amplitudes):
            self.left += sign / 2 * (a * response(s, self.turns, self.count) + np.conj(a) * response(np.conj(s), self.turns, self.count))

    def places(self):
        """The bin, in fractions, of each damped sine."""
        return self.exponents.imag * self.count / (2 * np.pi)

    def widths(self):
        """Half the width of each peak, in bins."""
        return 1 - self.exponents.real * self.count / (2 * np.pi)


def fast_length(count):
    """The most samples, up to a count, that are transformed fast."""
    while fft.next_fast_len(count) != count:
        count -= 1
    return count


def response(s, turns, count):
    """The transform of e^(s k), k below count, at bins."""
    return (1 - np.exp(s * count)) / (1 - np.exp(s) * turns)


def slope(s, turns, count):
    """How that transform changes with s."""
    below = 1 - np.exp(s) * turns
    return (-count * np.exp(s * count) + (1 - np.exp(s * count)) * np.exp(s) * turns / below) / below


def pencil(values, turns, order):
    """The poles that bins' values tell of: exponents, by Loewner's pencil."""
    a, b = slice(0, None, 2), slice(1, None, 2)
    apart = turns[a][:, None] - turns[b][None, :]
    level = (values[a][:, None] - values[b][None, :]) / apart
    shifted = ((turns * values)[a][:, None] - (turns * values)[b][None, :]) / apart
    try:
        left, _, right = np.linalg.svd(level)
        left, right = left[:, :order].conj().T, right[:order].conj().T
        found = linalg.eigvals(left @ shifted @ right, left @ level @ right)
    except (linalg.LinAlgError, ValueError):
        return np.zeros(0, complex)
    found = found[np.isfinite(found) & (np.abs(found) > 1e-9)]
    return -np.log(found)


def amplitudes_of(exponents, values, turns, count):
    """The amplitudes with which damped sines come nearest to bins' values, and what is left of these."""
    waves = np.stack([response(s, turns, count) for s in exponents], 1) / 2
    found = np.linalg.lstsq(waves, values, rcond=1e-14)[0]
    return found, values - waves @ found


def moved(exponents, values, turns, count, rate, rounds=8):
    """Exponents moved to where they come nearest to bins' values; the amplitudes there, and the energy left."""
    amplitudes, error = amplitudes_of(exponents, values, turns, count)
    energy, damping = np.vdot(error, error).real, 1e-3
    slowest, fastest = -DECAY_TO_T60 / (1e4 * rate), -DECAY_TO_T60 / (SHORTEST_T60 / 4 * rate)
    low, high = sorted(np.abs(np.angle(turns[[0, -1]])))
    for _ in range(rounds):
        waves = np.stack([response(s, turns, count) / 2 for s in exponents] + [a * slope(s, turns, count) / 2 for s, a in zip(exponents, amplitudes)], 1)
        lengths = np.sqrt((np.abs(waves) ** 2).sum(0)) + 1e-300
        waves /= lengths
        step = np.linalg.solve(waves.conj().T @ waves + max(damping ** 2, 1e-14) * np.eye(waves.shape[1]), waves.conj().T @ error) / lengths
        trial = exponents + step[len(exponents):]
        trial = np.clip(trial.real, fastest, slowest) + 1j * np.clip(trial.imag, low, high)
        new_amplitudes, new_error = amplitudes_of(trial, values, turns, count)
        new_energy = np.vdot(new_error, new_error).real
        if new_energy < energy:
            settled = energy - new_energy < 1e-7 * energy
            exponents, amplitudes, error, energy, damping = trial, new_amplitudes, new_error, new_energy, damping / 10
            if settled:
                break
        else:
            damping *= 10
            if damping > 1e4:
                break
    return exponents, amplitudes, energy


def falling_window(length, part=20):
    """A window that rises in a twentieth of its length and then falls: what is loud at first counts as that."""
    rise = max(1, length // part)
    return np.concatenate([signal.windows.blackmanharris(2 * rise)[:rise], signal.windows.blackmanharris(2 * (length - rise))[length - rise:]])


def floor_around(level, reach):
    """The median of a spectrum around each bin, from blocks of so many bins."""
    blocks = max(1, len(level) // reach)
    medians = np.array([np.median(part) for part in np.array_split(level, blocks)])
    medians = ndimage.median_filter(medians, 3, mode="nearest")
    return np.interp(np.arange(len(level)), (np.arange(blocks) + 0.5) * len(level) / blocks, medians)


def heights(fit):
    """How high the peak of each damped sine is."""
    return np.abs(fit.amplitudes) / 2 * np.abs(1 - np.exp(fit.exponents.real * fit.count)) / np.abs(1 - np.exp(fit.exponents.real))


def own_errors(fit, places):
    """What may be left at some bins by the steps of those damped sines that are found already."""
    if not len(fit.exponents):
        return np.zeros(len(places))
    near = fit.widths()[None, :] / np.maximum(fit.widths()[None, :], np.abs(places[:, None] - fit.places()[None, :]))
    return OWN_ERROR * (heights(fit)[None, :] * near).max(1)


def peaks_left(fit, loudest, part):
    """The places, in bins, of the peaks in what is left that may be partials: the highest first."""
    window = falling_window(fit.count, part)
    level = np.abs(np.fft.rfft(np.fft.irfft(fit.left, fit.count) * window, 2 * fit.count))
    found, _ = signal.find_peaks(level)
    places = found / 2
    least = np.maximum(ABOVE_FLOOR * floor_around(level, 400)[found], FAINTEST * loudest / 2 * 0.5 * fit.rate / DECAY_TO_T60)
    good = (level[found] > least) & (level[found] > own_errors(fit, places)) & (places * fit.rate / fit.count > LOWEST)
    places, heights = places[good], level[found][good]
    chosen = []
    for i in np.argsort(heights)[::-1]:
        if heights[i] < heights.max() / 100:
            break
        if all(abs(places[i] - other) > 6 for other in chosen):
            chosen.append(places[i])
    return chosen


def quietest(fit, t60):
    """The amplitude above which a damped sine with this T60 stands out of what is left, wherever it is: where that is loudest."""
    window = falling_window(fit.count)
    level = np.abs(np.fft.rfft(np.fft.irfft(fit.left, fit.count) * window, 2 * fit.count))[int(2 * LOWEST * fit.count / fit.rate):2 * len(fit.left) - 1]
    height = np.dot(window, np.exp(-DECAY_TO_T60 / (t60 * fit.rate) * np.arange(fit.count))) / 2
    return ABOVE_FLOOR * floor_around(level, 400).max(initial=0.0) / height


def band_of(fit, places, widths):
    """The bins around some places."""
    reach = np.clip(8 * widths, 16, 240)
    low = max(1, int(np.min(places - reach)))
    return slice(low, max(low + 8, min(len(fit.left) - 1, int(np.max(places + reach)) + 1)))


def own_bins(fit, members, band):
    """What some damped sines, and nothing that is found beside them, have in a band."""
    return fit.left[band] + sum((a / 2 * response(s, fit.turns[band], fit.count) for s, a in zip(fit.exponents[members], fit.amplitudes[members])), np.zeros(1))


def replace(fit, members, exponents, amplitudes):
    """Takes some damped sines away and puts others in their place."""
    fit.add(fit.exponents[members], fit.amplitudes[members], 1)
    fit.add(exponents, amplitudes)
    keep = np.ones(len(fit.exponents), bool)
    keep[members] = False
    fit.exponents = np.concatenate([fit.exponents[keep], exponents])
    fit.amplitudes = np.concatenate([fit.amplitudes[keep], amplitudes])


def guesses(fit, members, place, band, own):
    """First guesses of the exponents that make up some bins: those of the members and one more near a place."""
    inside = (2 * np.pi * band.start / fit.count, 2 * np.pi * band.stop / fit.count)
    slow = -DECAY_TO_T60 / (SHORTEST_T60 * fit.rate)

    def usable(found):
        found = np.minimum(found.real, -0.1 / fit.count) + 1j * found.imag
        return found[(found.imag > inside[0]) & (found.imag < inside[1]) & (found.real > slow)]

    turns, near = fit.turns[band], fit.exponents[members]
    wanted = len(members) + 1
    start = np.array([2j * np.pi * place / fit.count - 2 / fit.count])
    one = usable(pencil(fit.left[band], turns, 2))
    if len(one):
        start = one[[np.argmin(np.abs(one.imag - start[0].imag))]]
    yield np.concatenate([near, start])
    for order in (wanted, wanted + 1, wanted + 3):
        found = usable(pencil(own, turns, order))
        if len(found) > wanted:
            amplitudes, _ = amplitudes_of(found, own, turns, fit.count)
            energy = np.abs(amplitudes) ** 2 / -found.real
            found = found[np.argsort(energy)[::-1][:wanted]]
        if len(found) == wanted:
            yield found


def take(fit, place):
    """Explains a peak at a place by one more damped sine there, moved together with those beside it; whether it could."""
    members = np.nonzero(np.abs(fit.places() - place) < np.maximum(8, 2 * fit.widths()))[0]
    band = band_of(fit, np.append(fit.places()[members], place), np.append(fit.widths()[members], 2.0))
    own, turns = own_bins(fit, members, band), fit.turns[band]
    before = np.vdot(fit.left[band], fit.left[band]).real
    tries = [moved(guess, own, turns, fit.count, fit.rate, 20) for guess in guesses(fit, members, place, band, own)]
    tries = [(exponents, *more) for exponents, *more in tries if DECAY_TO_T60 > SHORTEST_T60 * fit.rate * np.max(-exponents.real)]
    exponents, amplitudes, energy = min(tries, key=lambda t: t[2], default=(None, None, before))
    if before - energy <= 30 * energy / len(own):
        return False
    replace(fit, members, exponents, amplitudes)
    return True


def spare(fit, one):
    """Takes one damped sine away, if those beside it, moved, explain the sound without it; whether they do."""
    others = np.nonzero(np.abs(fit.places() - fit.places()[one]) < np.maximum(8, 2 * fit.widths()))[0]
    others = others[others != one]
    members = np.append(others, one)
    if not len(others):
        return False
    strongest = others[np.argmax(heights(fit)[others])]
    apart = np.abs(fit.places()[others] - fit.places()[one]).min()
    if heights(fit)[one] > heights(fit)[strongest] / 10 and apart > fit.widths()[members].max():
        return False
    band = band_of(fit, fit.places()[members], fit.widths()[members])
    own, turns = own_bins(fit, members, band), fit.turns[band]
    tries = [moved(guess, own, turns, fit.count, fit.rate, 20) for guess in guesses(fit, others[:-1], fit.places()[others[-1]], band, own) if len(guess) == len(others)]
    tries.append(moved(fit.exponents[others], own, turns, fit.count, fit.rate, 20))
    exponents, amplitudes, energy = min(tries, key=lambda t: t[2])
    allowed = max(2 * np.vdot(fit.left[band], fit.left[band]).real, (OWN_ERROR * heights(fit)[strongest]) ** 2 * np.pi * fit.widths()[strongest])
    if energy > allowed:
        return False
    replace(fit, members, exponents, amplitudes)
    return True


def prune(fit):
    """Takes away the damped sines that the ones beside them make needless; whether there were any."""
    pruned = False
    for s in fit.exponents[np.argsort(heights(fit))]:
        at = np.nonzero(fit.exponents == s)[0]
        if len(at) and spare(fit, at[0]):
            pruned = True
    return pruned


def groups(fit):
    """Damped sines whose peaks overlap, together."""
    order = np.argsort(fit.places())
    places, widths = fit.places()[order], fit.widths()[order]
    parts, part = [], [0] if len(order) else []
    for i in range(1, len(order)):
        if places[i] - places[i - 1] > max(10, 2 * (widths[i] + widths[i - 1])) or len(part) == LARGEST_GROUP:
            parts.append(order[part])
            part = []
        part.append(i)
    return parts + ([order[part]] if part else [])


def settle(fit, sweeps):
    """Moves all damped sines but the faintest, group by group, until what is left no longer changes."""
    for _ in range(sweeps):
        settled = True
        faint = FAINTEST * np.abs(fit.amplitudes).max(initial=0)
        for members in [fit.exponents[part] for part in groups(fit) if np.abs(fit.amplitudes[part]).max() > faint]:
            at = np.nonzero(np.isin(fit.exponents, members))[0]
            band = band_of(fit, fit.places()[at], fit.widths()[at])
            before = np.vdot(fit.left[band], fit.left[band]).real
            exponents, amplitudes, energy = moved(fit.exponents[at], own_bins(fit, at, band), fit.turns[band], fit.count, fit.rate, 3)
            if before - energy > SETTLED * before:
                replace(fit, at, exponents, amplitudes)
                settled = False
        if settled:
            break


def look(fit, given_up):
    """Explains peak after peak, until no one is left."""
    part = 20
    for _ in range(ROUNDS):
        loudest = np.abs(fit.amplitudes).max() if len(fit.amplitudes) else np.abs(fit.sound).max()
        places = [p for p in peaks_left(fit, loudest, part) if all(abs(p - other) > 1 for other in given_up)]
        if not places and part == 300:
            break
        if not places:
            part = 300
        for place in places:
            if not take(fit, place):
                given_up.append(place)
        settle(fit, 3)


def explained(sound, rate, highest=math.inf):
    """The damped sines of a sound, up to so many Hz."""
    fit = Fit(sound, rate, highest)
    given_up = []
    look(fit, given_up)
    settle(fit, 20)
    if prune(fit):
        settle(fit, 5)
        look(fit, given_up)
        settle(fit, 20)
    return fit


def spreads(fit):
    """How far each exponent, and each amplitude as a part of itself, may be off: the standard deviations that what is left in the bins around it allows."""
    of_exponents, of_amplitudes = np.zeros(len(fit.exponents)), np.zeros(len(fit.exponents))
    for at in groups(fit):
        band = band_of(fit, fit.places()[at], fit.widths()[at])
        turns, left = fit.turns[band], fit.left[band]
        waves = np.stack([response(s, turns, fit.count) / 2 for s in fit.exponents[at]] + [a * slope(s, turns, fit.count) / 2 for s, a in zip(fit.exponents[at], fit.amplitudes[at])], 1)
        lengths = np.sqrt((np.abs(waves) ** 2).sum(0))
        waves = waves / lengths
        inverse = np.linalg.pinv(waves.conj().T @ waves, rcond=1e-15)
        error = np.vdot(left, left).real / len(left)
        off = np.sqrt(np.abs(np.diag(inverse)) * error / 2) / lengths
        of_amplitudes[at], of_exponents[at] = off[:len(at)] / np.abs(fit.amplitudes[at]), off[len(at):]
    return of_exponents, of_amplitudes
