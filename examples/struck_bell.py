#!/usr/bin/env python3
"""A made recording of a struck bell, for docs/WEEK.md: 44,100 Hz, 16 bits, with the clapper's noise, a doublet of the tierce, five
echoes and noise 50 dB below the peak.

    python3 examples/struck_bell.py FILE.wav      (needs numpy)
"""

import sys
import wave

import numpy as np

RATE, SECONDS, BEFORE = 44100, 7.0, 0.3
# Name, Hz, dB, T60 in s and phase.
PARTIALS = [("hum", 218.9, -7, 13.0, 0.3), ("prime", 441.2, -8, 7.0, 1.1), ("tierce", 526.0, -3, 5.5, 2.0), ("tierce b", 526.9, -9, 5.0, 0.7), ("quint", 664.5, -17, 3.0, 2.9),
            ("nominal", 880.0, 0, 4.0, 0.0), ("superquint", 1322.0, -6, 2.6, 1.7), ("octave nominal", 1771.0, -10, 2.1, 2.4)]
ECHOES = [(0.013, 0.25), (0.021, -0.2), (0.034, 0.15), (0.055, -0.12), (0.089, 0.1)]  # seconds late, and how loud


def recording():
    """The samples, from -1 to 1."""
    draw = np.random.RandomState(1978)
    times = np.arange(int(SECONDS * RATE)) / RATE
    struck = sum(10 ** (db / 20) * np.exp(-3 * np.log(10) * times / t60) * np.sin(2 * np.pi * hz * times + phase) for _, hz, db, t60, phase in PARTIALS)
    struck += draw.normal(0, 0.5, len(times)) * np.exp(-3 * np.log(10) * times / 0.05)
    heard = struck.copy()
    for late, loud in ECHOES:
        heard[int(late * RATE):] += loud * struck[:-int(late * RATE)]
    whole = np.concatenate([np.zeros(int(BEFORE * RATE)), heard])
    whole *= 0.7 / np.abs(whole).max()
    return whole + draw.normal(0, 0.7 * 10 ** (-50 / 20), len(whole))


def main():
    if len(sys.argv) != 2 or sys.argv[1].startswith("-"):
        sys.exit("usage: python3 examples/struck_bell.py FILE.wav")
    with wave.open(sys.argv[1], "wb") as file:
        file.setnchannels(1)
        file.setsampwidth(2)
        file.setframerate(RATE)
        file.writeframes(np.round(recording() * 32767).astype("<i2").tobytes())


if __name__ == "__main__":
    main()
