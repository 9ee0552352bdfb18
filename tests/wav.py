"""Compares the program wav with what ring prints: each frame is the line's two numbers times 16, the rate is that of N, and
where ring prints a refusal nothing is heard. Python's `wave`, sox and soxi read the files.

    python3 tests/wav.py [--text old] [COUNT] [SEED]

The programs ring and wav must be built; wav runs in a stack of 1 MB. With --text old the files are those of
tests/text_files.py, with text= lines.
"""

import io
import os
import re
import resource
import subprocess
import sys
import tempfile
import wave
from collections import Counter
from fractions import Fraction

import ring_files
import text_files
from library import ROOT, program_of, read_arguments
from texts import NEW_TEXT

COUNT, SEED = 300, 24
RING, WAV = map(program_of, ("ring", "wav"))
STACK = 1 << 20
N_AT = 4114
# Which refusals the files must have met, and how many must be heard; by 1978 and with text= lines.
REFUSALS, REFUSALS_OLD = {2, 3, 4, 7, 8, 9, 11, 12}, {2, 7, 8, 9, 13}
HEARD, HEARD_OLD = 1100, 300
NO_PASSES = re.compile(rb"(text=(old|1978)\n)?passes=0\n")


def small_stack():
    resource.setrlimit(resource.RLIMIT_STACK, (STACK, STACK))


def run(program, text, **more):
    return subprocess.run([program], input=text, stdout=subprocess.PIPE, stderr=subprocess.PIPE, timeout=60, preexec_fn=small_stack if program == WAV else None, **more)


def rate_of(n):
    """The nearest whole number of passes of n ticks a second."""
    exact = Fraction(10 ** 9, 195 * n)
    assert exact % 1 != Fraction(1, 2)
    return round(exact)


def number(value, size):
    return value.to_bytes(size, "little")


def file_of(lines, n):
    """The bytes of the WAVE file of printed lines."""
    frames = b"".join(number(int(word) * 16 % 2 ** 24, 3) for line in lines for word in re.fullmatch(rb"pass=\d+ left=(-?\d+) right=(-?\d+)", line).groups())
    rate = rate_of(n)
    return (b"RIFF" + number(36 + len(frames), 4) + b"WAVEfmt " + number(16, 4) + number(1, 2) + number(2, 2)
            + number(rate, 4) + number(6 * rate, 4) + number(6, 2) + number(24, 2) + b"data" + number(len(frames), 4) + frames)


def n_of(text):
    """N of a bench file: the last word for its place."""
    found = re.findall(rb"^word=%d:(\d+)$" % N_AT, text, re.M)
    return int(found[-1]) if found else 265


def expected(text, printed):
    """What wav writes to standard output and to standard error."""
    lines = printed.splitlines()
    if lines and lines[-1].startswith(b"refused="):
        return b"", lines[-1] + b"\n"
    return file_of(lines, n_of(text)), b""


def texts(count, seed):
    """The files: those of tests/files and examples, every N, random ones, and those that no question lets pass."""
    for folder, ending in (("tests/files", ".bench"), ("examples", ".txt")):
        for name in sorted(os.listdir(os.path.join(ROOT, folder))):
            if name.endswith(ending):
                with open(os.path.join(ROOT, folder, name), "rb") as file:
                    yield file.read()
    yield from (ring_files.bench(1, ((N_AT, n),)) for n in range(2, 1026))
    yield from (made.text for made in ring_files.at_random(count, seed))
    damper = ring_files.bench(7, ((7, 4095), (10, 962), (21, 128), (4113, 2)), (0x00003110,))
    for command in (0x000000E0, 0x00100180, 0x0E000A00, 0x06000A00):  # not built; TICKS 257; to read data; to write data
        yield damper + b"command=%08X\n" % command
    yield ring_files.bench(3, ((N_AT, 1026),))
    yield b""
    yield b"passes=65536\n"
    yield b"#" * 65537
    yield ring_files.bench(65535, ((0, 0), (7, 4095), (10, 962), (21, 128), (4113, 2)))


def old_texts(count, seed):
    """Those with a text= line: the example, those by hand and random ones."""
    yield from ring_files.examples(text_files.OLD_TEXT).values()
    yield from (text for _, text in text_files.made_by_hand())
    yield from (text for _, text in text_files.drawn_texts(count, seed))


def no_passes_old():
    """An old file of no passes: question 2 by the older text is asked before the rate."""
    for line, word, refused in ((b"text=old\n", (10, 0b01000001), b""), (b"text=old\n", (10, 962), b"refused=2\n"),
                                (b"text=old\n", (10, 0b01000000), b"refused=2\n"), (b"text=1978\n", (10, 962), b""),
                                (b"text=new\n", (10, 962), b"refused=13\n")):
        done = run(WAV, line + ring_files.bench(0, (word,)))
        assert (done.stdout, done.stderr) == (b"" if refused else file_of([], 265), refused), (line, word)


def no_passes():
    """A file of no passes: question 2 is asked before the rate."""
    assert run(WAV, b"passes=0\n").stdout == file_of([], 265)
    assert run(WAV, ring_files.bench(0, ((N_AT, 1025),))).stdout == file_of([], 1025)
    for words in (((N_AT, 0),), ((N_AT, 1),), ((N_AT, 1026),), ((0, 1 << 20),)):
        done = run(WAV, ring_files.bench(0, words))
        assert (done.stdout, done.stderr) == (b"", b"refused=2\n"), words


def outside():
    """A failed write or read is told on standard error; then nothing else is."""
    with open("/dev/full", "wb") as full:
        done = subprocess.run([WAV], input=ring_files.EXAMPLE, stdout=full, stderr=subprocess.PIPE)
    assert done.stderr == b"wav: cannot write\n"
    done = subprocess.run([WAV], stdin=os.open(ROOT, os.O_RDONLY), stdout=subprocess.PIPE, stderr=subprocess.PIPE)
    assert (done.stdout, done.stderr) == (b"", b"wav: cannot read\n")


def players(text, made, printed):
    """Python's wave, sox and soxi find the length, the rate and the samples."""
    lines = printed.splitlines()
    with wave.open(io.BytesIO(made)) as file:
        assert (file.getnchannels(), file.getsampwidth(), file.getframerate(), file.getnframes()) == (2, 3, rate_of(n_of(text)), len(lines))
        assert file.readframes(len(lines)) == made[44:]
    with tempfile.TemporaryDirectory() as folder:
        path = os.path.join(folder, "bell.wav")
        with open(path, "wb") as file:
            file.write(made)
        about = subprocess.run(["sox", "--i", path], stdout=subprocess.PIPE, check=True).stdout.decode()
        assert re.search(r"Channels\s*: 2\n", about) and re.search(r"Precision\s*: 24-bit\n", about) and f"= {len(lines)} samples" in about, about
        assert [subprocess.run(["soxi", option, path], stdout=subprocess.PIPE, check=True).stdout.strip() for option in ("-r", "-s", "-b", "-c")] == [b"%d" % word for word in (rate_of(n_of(text)), len(lines), 24, 2)]
        raw = subprocess.run(["sox", path, "-t", "raw", "-e", "signed-integer", "-b", "24", "-L", "-"], stdout=subprocess.PIPE, stderr=subprocess.PIPE, check=True)
        assert raw.stdout == made[44:] and not raw.stderr, raw.stderr


def compared(files):
    """What wav makes of files beside what ring prints: what they met, and how many differ."""
    met, differ = Counter(), 0
    for text in files:
        printed = run(RING, text).stdout
        done = run(WAV, text)
        nothing = not printed and NO_PASSES.match(text)
        wanted = (done.stdout, done.stderr) if nothing else expected(text, printed)
        if (done.stdout, done.stderr) != wanted:
            differ += 1
            print(f"wav differs from ring: {text[:200]!r}: {done.stdout[:60]!r} {done.stderr[:60]!r}")
        met["files"] += 1
        met["frames"] += max(0, len(done.stdout) - 44) // 6
        met[done.stderr.decode().strip() or "heard"] += 1
    return met, differ


def main(arguments):
    options = read_arguments(arguments, COUNT, SEED)
    new = options.text is NEW_TEXT
    ring_files.ring = lambda text, seen: b""  # what is printed is asked of ring, which tests/ring.py compares with the reference
    met, differ = compared((texts if new else old_texts)(options.count, options.seed))
    (no_passes if new else no_passes_old)()
    if new:
        outside()
    played = ("bell", "short_bell") if new else ("old_bell",)
    for name in played:
        text = ring_files.examples(options.text)[name + ".txt"]
        players(text, run(WAV, text).stdout, run(RING, text).stdout)
    refusals, heard = (REFUSALS, HEARD) if new else (REFUSALS_OLD, HEARD_OLD)
    seldom = [f"refused={n}" for n in refusals if not met[f"refused={n}"]] + (["heard"] if met["heard"] < heard else [])
    print(f"{met['files']} files, {met['frames']} frames: {differ} differ; " + ", ".join(f"{name} {met[name]}" for name in sorted(met) if name.startswith(("refused", "heard"))))
    if seldom:
        print(f"met too seldom: {', '.join(seldom)}")
    return 1 if differ or seldom else 0


if __name__ == "__main__":
    sys.exit(main(sys.argv[1:]))
