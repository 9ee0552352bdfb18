"""The two house tables, made by their rules in exact numbers."""

from fractions import Fraction
from functools import lru_cache

from reference.faults import faults

QUARTER = 2048
SINE_MOST = 4095
EXPONENTIALS = 1024
EXPONENTIAL_FIRST = 4093


def sine_entry(j):
    """The whole part, at most 4,095, of 4,096 times the polynomial at a = 355(2j+1)/925,696."""
    a = Fraction(355 * (2 * j + 1), 925696)
    value = a - a**3 / 6 + a**5 / 120 - a**7 / 5040 + a**9 / 362880
    return min(4096 * value.numerator // value.denominator, SINE_MOST)


@lru_cache(maxsize=None)
def exponential_table(n, count):
    """So many entries by the rule of n: entry f is the largest e with e^n 2^f at most 4,093^n.

    A whole table has n entries: 256 of them in document 01, 1,024 since request Q-5."""
    most = EXPONENTIAL_FIRST**n
    entries, e = [], EXPONENTIAL_FIRST
    for f in range(count):
        while e**n << f > most:
            e -= 1
        entries.append(e)
    return tuple(entries)


SINE = tuple(sine_entry(j) for j in range(QUARTER))
EXPONENTIAL = exponential_table(EXPONENTIALS, EXPONENTIALS)


def sine(k):
    """Whether the sine of k (K read unsigned, 0..8,191) is negative, and its magnitude."""
    quarter, j = divmod(k, QUARTER)
    if quarter in (1, 3):
        j = QUARTER - 1 - j
    return quarter in (2, 3), SINE[j]


def exponential(number):
    """The exponential of a 14-bit number, 0..16,383."""
    f, shift = number % EXPONENTIALS, number // EXPONENTIALS
    if faults.shift_div_256:
        shift = number // 256
    if faults.root_of_order_256:
        return exponential_table(256, EXPONENTIALS)[f] >> shift
    entry = EXPONENTIAL[f]
    if faults.wrong_entry and f == EXPONENTIALS - 1:
        entry += 1
    return entry >> shift
