"""Machines whose count of update ticks is not that of their T and N."""

from reference import layout
from reference.machine import RANGES, update_ticks
from reference.words import low

# How the names of these machines begin.
OTHER_COUNT = "count, by"
COUNT_MOST = update_ticks(layout.T_LEAST, layout.N_MOST)


def other_counts(t, n):
    """Counts that are not N-T-8, close to it and far from it."""
    right = update_ticks(t, n)
    tried = (right + 1, right - 1, n - t - 7, n - t - 9, n - t, n, t, 0, 1, 256, COUNT_MOST,
             low(n - t - 8, 32), low(t + 8 - n, 32), right | 1 << 10, right | 1 << 20,
             right | 1 << 31, (1 << 32) - 1)
    return [(layout.UPDATE_TICKS, count) for count in tried if 0 <= count != right]


def other_ticks(t, n):
    """A T or an N, within its range, that the count of this T and N does not fit."""
    right = update_ticks(t, n)
    for place, values in ((layout.T, (t - 1, t + 1, layout.T_LEAST, layout.T_MOST)),
                          (layout.N, (n - 1, n + 1, layout.N_LEAST, layout.N_MOST))):
        least, most = RANGES[place]
        for value in values:
            count = update_ticks(value, n) if place == layout.T else update_ticks(t, value)
            if least <= value <= most and count != right:
                yield place, value


def with_other_count(machine, number):
    """A copy of a machine that only its count of update ticks refuses, and what was done to it."""
    t, n = machine[layout.T], machine[layout.N]
    choices = [*other_counts(t, n), *other_ticks(t, n)]
    place, value = choices[number % len(choices)]
    other = list(machine)
    other[place] = value
    return other, f"{OTHER_COUNT} word {place} = {value}"
