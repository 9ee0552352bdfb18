"""The example host that plays a bell of its own in blocks through a callback: the bell is written by the formulas of
include/karvelorn.h alone, and what is heard has the pitches, levels and T60s that it was written for, before and after the
second stroke. It is built with all warnings and with the sanitizers.

    /usr/bin/python3 tests/played.py
"""

import re
import subprocess
import sys
import tempfile
from pathlib import Path

import numpy as np

from library import LIBRARY, ROOT, make_library

HOME = Path(ROOT)
SOURCE = HOME / "examples" / "play_host.c"
PARTIAL = re.compile(r"\{(\d+\.?\d*), (\d+), (\d+\.\d+)\}")
STROKE = 1.5


def built(folder):
    """The host."""
    program = Path(folder, "play_host")
    subprocess.run(["gcc", "-std=c99", "-O1", "-Wall", "-Wextra", "-Wpedantic", "-Wconversion", "-Werror", "-fsanitize=address,undefined", "-fno-sanitize-recover=all",
                    "-I", str(HOME / "include"), str(SOURCE), LIBRARY, "-lm", "-o", str(program)], check=True)
    return program


def sound(path):
    """The rate and the two channels of a file of 24 bits, as words of a DAC."""
    data = path.read_bytes()
    assert data[:4] == b"RIFF" and data[36:40] == b"data" and int.from_bytes(data[40:44], "little") == len(data) - 44
    bytes_ = np.frombuffer(data[44:], np.uint8).reshape(-1, 2, 3).astype(np.int64)
    words = bytes_[..., 0] | bytes_[..., 1] << 8 | bytes_[..., 2] << 16
    return 1 / (265 * 195e-9), ((words ^ 1 << 23) - (1 << 23)) / 16


def amplitude(samples, rate, hz, at):
    """The amplitude at a pitch around a time, and how far the pitch is from there, in Hz."""
    size = int(0.2 * rate)
    first = int(at * rate) - size // 2
    window = np.hanning(size)
    turned = samples[first:first + size] * np.exp(-2j * np.pi * hz / rate * np.arange(first, first + size))
    half = size // 4
    parts = [np.sum(turned[i:i + 2 * half] * np.hanning(2 * half)) for i in (0, half, 2 * half)]
    drift = np.angle(parts[2] / parts[0]) / (2 * np.pi * 2 * half / rate)
    return 2 * abs(np.sum(turned * window)) / np.sum(window), drift


def fall(t60):
    """What a window sees of a partial that falls within it, of its level in the window's middle."""
    window = np.hanning(1000)
    return np.sum(window * 10 ** (-3 * np.linspace(-0.1, 0.1, 1000) / t60)) / np.sum(window)


def main():
    make_library("played")
    partials = [tuple(float(number) for number in found) for found in PARTIAL.findall(SOURCE.read_text())]
    assert len(partials) == 5
    with tempfile.TemporaryDirectory() as folder:
        program, wav = built(folder), Path(folder, "bell.wav")
        told = subprocess.run([program, wav, "3"], check=True, stdout=subprocess.PIPE).stdout.decode()
        assert re.match(r"T 7: 908 blocks of 64 passes, a deadline of 3\.307 ms each: ", told), told
        rate, samples = sound(wav)
        assert not samples[:, 1].any()
        for stroke in (0, STROKE):
            for hz, level, t60 in partials:
                first, later = 0.2, min(0.8, t60 / 3)
                early, drift = amplitude(samples[:, 0], rate, hz, stroke + first)
                late, _ = amplitude(samples[:, 0], rate, hz, stroke + first + later)
                measured = 60 * later / (20 * np.log10(early / late))
                begun = early * 10 ** (3 * first / t60) / fall(t60) / 64
                assert abs(drift) < 0.1 and abs(measured / t60 - 1) < 0.03 and abs(begun / level - 1) < 0.03, (stroke, hz, drift, measured, t60, begun, level)
        whole = subprocess.run([program, wav, "0.2", "256"], check=True, stdout=subprocess.PIPE).stdout.decode()
        assert whole.startswith("T 256: 61 blocks") and sound(wav)[1][:, 1].any(), whole
        assert subprocess.run([program], stderr=subprocess.PIPE).returncode == 1 and subprocess.run([program, wav, "1", "6"], stderr=subprocess.PIPE).returncode == 1
    print(f"played: five partials of two strokes as they were written; {told.strip()}")


if __name__ == "__main__":
    sys.exit(main())
