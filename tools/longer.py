"""A bench file rung for as long as is asked, other rates, and players.

A bench file has at most 65,535 passes by its format; the library's calls have no such limit. So beyond them the machine rings on
through the library (ring_on.c), and its first frames must be those of the proved program wav, bit for bit. A sound at 44,100 or
48,000 Hz is made from the exact one by scipy's resample_poly, with a filter stated here, and stands beside it.
"""

import math
import shutil
import subprocess

import questions
import sounds
from command_line import Ending, Status, tell
from hosts import host, packed
from partials import TICK
from reference import layout

SECONDS_MOST = 3600.0
RATES = (44100, 48000)
PLAYERS = (("aplay", "-q"), ("paplay",), ("play", "-q"))
PLAYER_PACKAGES = "alsa-utils, pulseaudio-utils or sox"
TAPS, STOP = 32, 12.0  # the filter reaches over so many samples of the lower rate on each side; its window is Kaiser's with this beta: 118 dB
PASSED = 0.95  # and passes so much of the lower rate's half


def exact_rate(bench):
    """Passes a second of a bench file."""
    n = next((value for place, value, _ in reversed(bench.words) if place == layout.N), layout.FRESH_N)
    return 1 / (TICK * n)


def passes_for(text, seconds):
    """How many passes last so many seconds; the bench file as it was read."""
    bench, _ = questions.read(text)
    if bench is None:
        return None, None
    return bench, max(1, math.ceil(seconds * exact_rate(bench)))


def rung_on(command, file, text, sound, seconds, order=()):
    """The sound of a bench file for so many seconds, from that of its own passes; each pass by number, or by an order's entries."""
    bench, passes = passes_for(text, seconds)
    rate, frames = sounds.frames_of(sound)
    if passes <= bench.passes:
        return sounds.wave_file(rate, frames[:6 * passes])
    tell(command, f"ringing on to {passes} passes through the library")
    numbers = [int(bench.is_old), passes, len(bench.words), len(bench.commands), len(order), *(number for place, value, _ in bench.words for number in (place, value)),
               *(value for _, value in bench.commands), *order]
    done = subprocess.run([host(command, "ring_on")], input=packed(numbers), stdout=subprocess.PIPE, stderr=subprocess.PIPE)
    told = done.stderr.decode(errors="replace").strip()
    if told.startswith("refused="):
        raise Ending(f"{file} can't ring on: {told} after pass {len(done.stdout) // 6}")
    if done.returncode or len(done.stdout) != 6 * passes or done.stdout[:len(frames)] != frames:
        raise Ending(f"the library's frames aren't those of the program wav in {file}", Status.FAULT)
    return sounds.wave_file(rate, done.stdout)


def resampled(sound, to):
    """A sound at another rate: 24 bits, rounded; what leaves their range is told by how much the sound was lowered, in dB."""
    import numpy as np
    from scipy import signal
    rate, frames = sounds.frames_of(sound)
    common = math.gcd(rate, to)
    up, down = to // common, rate // common
    most = max(up, down)
    taps = signal.firwin(2 * TAPS * most + 1, PASSED / most, window=("kaiser", STOP))
    found = signal.resample_poly(sounds.pcm_numbers(frames, 24).reshape(-1, 2), up, down, axis=0, window=taps)
    lowered = max(1.0, np.abs(found).max(initial=0.0) * 2 ** 23 / (2 ** 23 - 1))
    whole = np.round(found / lowered * 2 ** 23).astype("<i4")
    data = whole.reshape(-1, 1).view(np.uint8).reshape(-1, 4)[:, :3].tobytes()
    return sounds.wave_file(to, data), 20 * math.log10(lowered)


def play(command, path):
    """Hands a sound to the first player that is there, and says which."""
    for name, *options in PLAYERS:
        if shutil.which(name):
            tell(command, f"playing {path} with {name}")
            done = subprocess.run([name, *options, path], stdin=subprocess.DEVNULL, stdout=subprocess.DEVNULL, stderr=subprocess.PIPE)
            if done.returncode:
                told = done.stderr.decode(errors="replace").strip().splitlines()
                raise Ending(f"{name} didn't play {path}: {told[-1] if told else f'it ended with status {done.returncode}'}", Status.MISSING)
            return
    raise Ending(f"{path} wasn't played: no player is here ({', '.join(name for name, *_ in PLAYERS)}): apt install {PLAYER_PACKAGES}", Status.MISSING)
