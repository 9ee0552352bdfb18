"""Cases of tests/tools.py about recordings: the kinds that people have, cut-off ones, and what else is no sound."""

import re
from pathlib import Path

from calls import ROOT, Status, call, refused, run
import heard
import numpy as np
import soundfile
import sounds


def wave_file(tag, bits, channels, data, rate=22050, extensible=False):
    """A WAVE file with a plain or an extensible header."""
    frame = channels * bits // 8
    form = b"".join(value.to_bytes(size, "little") for value, size in ((0xFFFE if extensible else tag, 2), (channels, 2), (rate, 4), (rate * frame, 4), (frame, 2), (bits, 2)))
    if extensible:
        form += b"".join(value.to_bytes(2, "little") for value in (22, bits)) + bytes(4) + tag.to_bytes(2, "little") + bytes.fromhex("000000001000800000aa00389b71")
    parts = b"".join(name + len(part).to_bytes(4, "little") + part + bytes(len(part) % 2) for name, part in ((b"fmt ", form), (b"LIST", b"odd"), (b"data", data)))
    return b"RIFF" + (4 + len(parts)).to_bytes(4, "little") + b"WAVE" + parts


def whole_numbers(sound, bits):
    """Samples as bytes, the low one first."""
    return b"".join(int(round(value * (2 ** (bits - 1) - 1))).to_bytes(bits // 8, "little", signed=True) for value in sound.ravel())


def recording(channels):
    """A short sound of two partials, of which the right channel has half."""
    times = np.arange(8000) / 22050
    left = 0.5 * np.exp(-3 * times) * np.sin(2 * np.pi * 440 * times) + 0.3 * np.exp(-2 * times) * np.sin(2 * np.pi * 880 * times)
    return np.stack([left, left / 2][:channels], 1)


def recordings(folder):
    """Recordings as people have them are read; cut-off ones are not."""
    at, tried = Path(folder), 0
    for channels in (1, 2):
        sound = recording(channels)
        kinds = [(f"{bits}{'x' * extensible}", wave_file(1, bits, channels, whole_numbers(sound, bits), extensible=extensible), 2.0 ** (2 - bits)) for bits in (16, 24, 32) for extensible in (False, True)]
        kinds += [(f"f{bits}{'x' * extensible}", wave_file(3, bits, channels, sound.astype(f"<f{bits // 8}").tobytes(), extensible=extensible), 1e-7) for bits in (32, 64) for extensible in (False, True)]
        for name, data, near in kinds:
            path = at / f"Aufnahme für {name} {channels}.wav"
            path.write_bytes(data)
            rate, found = sounds.read(str(path))
            assert rate == 22050 and found.shape == sound.shape and np.abs(found - sound).max() < near, (name, np.abs(found - sound).max())
            path.write_bytes(data[:-40])
            refused(call("hear", heard, path), Status.REFUSED, "is cut off")
            tried += 2
        soundfile.write(at / f"{channels}.flac", sound, 22050, subtype="PCM_24")
        rate, found = sounds.read(str(at / f"{channels}.flac"))
        assert rate == 22050 and np.abs(found - sound).max() < 2 ** -22
    for name, data, sentence in (("no.wav", b"no sound", "passes= is missing"), ("head.wav", b"RIFF", "no WAVE file"), ("law.wav", wave_file(7, 8, 1, bytes(100)), "format 7 of 8 bits"), ("six.wav", wave_file(1, 16, 6, bytes(1200)), "6 channels"),
                                 ("short.flac", (at / "2.flac").read_bytes()[:9000], "short.flac is"), ("nan.wav", wave_file(3, 32, 1, np.full(900, np.nan, "<f4").tobytes()), "no numbers"), ("none.wav", wave_file(1, 16, 0, b""), "no channels")):
        (at / name).write_bytes(data)
        if name != "no.wav":
            refused(call("hear", heard, at / name), Status.REFUSED, sentence)
        else:  # a text under such a name is a bench file, over which no sound is written
            refused(call("hear", heard, at / name), Status.MISUSED, "is an input")
        assert not (at / name).with_suffix(".png").exists()
        tried += 1
    return tried + seen_recordings(at)


def seen_recordings(at):
    """A FLAC file and one of 16 bits: picture and table."""
    (at / "sixteen").write_bytes(wave_file(1, 16, 1, whole_numbers(recording(1), 16)))
    for name, picture in (("2.flac", "2.png"), ("sixteen", "sixteen.png")):
        done = run(ROOT / "hear", name, cwd=at)
        assert done.status == 0 and re.search(r"^\S+ +440\.\d", done.out, re.M) and re.search(r"^\S+ +880\.\d|^\S+ +879\.9", done.out, re.M), done
        assert (at / picture).read_bytes()[1:4] == b"PNG"
    refused(call("hear", heard, "--no-picture", at / "sixteen"), Status.MISUSED, "is a sound already")
    return 3
