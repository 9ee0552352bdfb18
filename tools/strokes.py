"""The strokes of a sound: where each begins, and how long its noise lasts.

A sum of damped sines follows from its own past: each sample is a fixed combination of those before it. Where it doesn't, as
the error of the best such combination shows, something new has begun: a stroke, or noise. Needs numpy and scipy.
"""

from dataclasses import dataclass

import numpy as np
from scipy import ndimage, signal

ORDER = 160  # so many samples before foretell the next
FRAME = 0.004  # the error is judged by frames of so many seconds
RISE = 10 ** (14 / 20)  # a stroke's error stands so far above that of the frames before it
PART = 10 ** (-40 / 20)  # and above so much of the sound there,
FAINTEST = 10 ** (-55 / 20)  # and of the loudest frame of all
APART = 6  # strokes are more than so many frames apart
NOISE_MOST = 0.3  # the noise of a stroke lasts at most so much of it,
NOISE_LEAST = 10 ** (-42 / 20)  # and begins with at least so much of the sound


@dataclass
class Stroke:
    """A stroke: the sample at which it begins, that at which its noise has died away, and that at which it ends."""
    begin: int
    clear: int
    end: int


def foretelling(sound, order):
    """The error with which each sample is foretold by those before it, with the one combination that is best for all."""
    count = len(sound)
    first = np.array([np.dot(sound[order:], sound[order - i:count - i]) for i in range(order + 1)])
    matrix = np.zeros((order + 1, order + 1))
    matrix[0] = first
    for i in range(order):
        ends = sound[order - 1 - i] * sound[order - 1 - np.arange(order)] - sound[count - 1 - i] * sound[count - 1 - np.arange(order)]
        matrix[i + 1, 1:] = matrix[i, :-1] + ends
        matrix[i + 1, 0] = first[i + 1]
    if not matrix[0, 0]:
        return np.zeros(count)
    right, below = matrix[1:, 0], matrix[1:, 1:] + 1e-11 * matrix[0, 0] * np.eye(order)
    weights = np.linalg.solve(below, right)
    return signal.lfilter(np.concatenate([[1.0], -weights]), [1.0], sound)


def frame_levels(sound, size):
    """The root of the mean square of each frame."""
    count = len(sound) // size
    return np.sqrt((sound[:count * size].reshape(count, size, -1) ** 2).sum(2).mean(1))


def begins(errors, error, level, size):
    """The samples at which strokes begin, from the errors by sample and by frame: the first is 0."""
    found = [0]
    loudest = level.max()
    for i in range(3, len(error)):
        if error[i] < RISE * error[max(0, i - 12):i - 1].max() or error[i] < FAINTEST * loudest or error[i] < PART * level[i]:
            continue
        near = np.abs(errors[(i - 1) * size:(i + 1) * size]).max(1)
        at = (i - 1) * size + int(np.argmax(near > near.max() / 5))
        if at - found[-1] > APART * size:
            found.append(at)
    return found


def cleared(error, level, size, begin, end):
    """The sample from which on a stroke is without noise: where its error has come down to what it stays at."""
    first, last = begin // size, max(begin // size + 1, end // size)
    around = ndimage.maximum_filter1d(level[first:last], 15)  # a frame may fall on a beat or into a slow wave
    heard = around > 1e-5 * around.max()
    part = np.where(heard, error[first:last], 0.0) / np.where(heard, around, 1.0)
    usual = 4 * np.percentile(part[heard], 20) if heard.any() else 0.0
    ring = (begin + ORDER) // size + 2 - first
    most = max(ring + 1, int(NOISE_MOST * len(part)))
    quiet = ring + int(np.argmax(np.append(part[ring:most] <= usual, True)))
    return (first + quiet) * size if (part[ring:quiet] > NOISE_LEAST).sum() > 1 else begin


def strokes_of(sounds, rate):
    """The strokes of a sound of one or more channels; samples are counted from its first that is not 0 to its last."""
    heard = np.nonzero(sounds.any(1))[0]
    if not len(heard):
        return []
    first, last = int(heard[0]), int(heard[-1]) + 1
    part = sounds[first:last]
    size = max(2, int(FRAME * rate))
    if len(part) < 4 * ORDER or len(part) < 8 * size:
        return [Stroke(first, first, last)]
    errors = np.stack([foretelling(part[:, side], ORDER) for side in range(part.shape[1])], 1)
    error, level = frame_levels(errors, size), frame_levels(part, size)
    starts = begins(errors, error, level, size) + [len(part)]
    ends = [b + int(np.nonzero(part[b:e].any(1))[0][-1]) + 1 for b, e in zip(starts, starts[1:])]  # without the silence before the next one
    return [Stroke(first + b, first + cleared(error, level, size, b, e), first + e) for b, e in zip(starts, ends)]
