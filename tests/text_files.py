"""Bench files with a text= line, most of them of the older text, for tests/ring.py, wav.py and sorted.py."""

import os
import subprocess
import sys

# First, since it makes the reference known.
from library import ROOT

from ring_files import (DAMAGE, NUMBERS, bench, drawn_bench, drawn_commands, drawn_machine,
                        examples, file, known)

from reference import layout
from reference.cases.old_files import NOT_FITTING, OTHER_TEXTS, TONE, TONE_1978
from reference.ring import FILE_MOST
from texts import OLD_TEXT, Chance

OLD_LINE, NEW_LINE = b"text=old\n", b"text=1978\n"

# What files at random meet at least, in so many of them as tests/ringing.py says: how they end.
PROMISED = {
    "rung": 90, "no passes": 8, "refused=2": 8, "refused=7": 1, "refused=8": 1, "refused=9": 60,
    "refused=13": 6, "a number above 20 bits": 30,
}

# Generator 1 waits for nobody, generator 2 for generator 0; 0 strikes in pass 1. Lines of three.
STROKE = bench(4, ((5, 1), (6, 16777215), (10, 0b01100001), (18, 4095), (21, 0b10000001),
                   (29, 2048), (32, 0b10000001), (43, 0b11100101), (4113, 4)))


def old(*more):
    """An old file of two passes with some words."""
    return OLD_LINE + bench(2, more)


# By hand

def shown():
    """The files that are shown, printed as they stand there, and the example."""
    yield known("shown", OLD_LINE + b"passes=2\n" + TONE,
                b"pass=1 left=0 right=0\npass=2 left=65520 right=0\n")
    yield known("shown, by 1978", NEW_LINE + b"passes=2\n" + TONE_1978,
                b"pass=1 left=0 right=0\npass=2 left=131040 right=0\n")
    texts = examples(OLD_TEXT)
    assert "old_bell.txt" in texts, "the example is missing"
    for name, text in texts.items():
        script = os.path.join(ROOT, "examples", name.replace(".txt", ".py"))
        written = subprocess.run([sys.executable, script], stdout=subprocess.PIPE, check=True).stdout
        assert written == text, f"{name} is not what its script writes"
        made = file("examples/" + name, text, delays=False)
        lines = made.printed.count(b"\n")
        assert made.printed.count(b"left=0 ") < lines // 4, f"{name} is silent"
        assert made.printed.count(b"right=0\n") < 3 * lines // 4, f"{name} has no second stroke"
        # Told in pass 1,400, the prime adds in 1,401, and its sum is fed in 1,402.
        heard = [line for line in made.printed.splitlines() if not line.endswith(b" right=0")]
        assert name != "old_bell.txt" or heard[0].startswith(b"pass=1402 "), f"{name} strikes elsewhere"
        yield made


def modes():
    """Every GMODE of 8 bits, some wider, and every function, of a generator and modifier that run."""
    for gmode in (*range(256), 256, 512, 962, 1023):
        yield f"GMODE {gmode}", old((10, gmode), (7, 4095), (21, 0b11100101), (4113, 2))
        if gmode % 16 == 0:
            yield f"GMODE {gmode} of 255", old((10 + 11 * 255, gmode))
    for function in range(32):
        yield f"function {function:05b}", old((2823, function << 4 | 5), (4113, 2))
        yield f"function {function:05b} above T", old((2823 + 8 * 127, function << 4))


def sending():
    """111 with each kind of GN, and places for the writing ones alone."""
    for gn in (0, 1, 15, 16, 17, 1008, 1023, 1024, 1025, 2047):
        for wave in (0b001, 0b101):
            yield f"GN {gn}, {wave:03b}", old((0, 1), (1, 777 << 8), (2, 555), (3, gn),
                                              (10, 0b11100000 | wave))
    yield "110", old((10, 0b11000001))
    yield "110 above T", old((21, 0b11000001))
    yield "7 before 8", old((10, 0b11100001), (3, 1024), (21, 0b11000001), (4113, 2))
    yield "a stroke", OLD_LINE + STROKE
    yield "a stroke by 1978", NEW_LINE + STROKE
    # Delay units, which no pass of the older text looks at.
    units = ((4119, 65535), (4120, 1), (4121, 1), (4122, 8), (2823, 112), (2831, 112), (4113, 10))
    yield "00111", old(*units)
    yield "00111 by 1978", NEW_LINE + bench(2, units)
    yield "P 1001", old((4122, 9))


def controls():
    """T, N, the counter and lingering; no update follows."""
    for place, values in ((layout.T, (0, 1, 256, 257, (1 << 32) - 1)), (layout.N, (1, 2, 1025, 1026)),
                          (layout.COUNTER, (1048575, (1 << 32) - 1)), (layout.LINGERING, (1, 2)),
                          (layout.DX, (1048575, 1048576)), (4342, (1048575, 1048576)), (4343, (0,))):
        for value in values:
            yield f"word {place} = {value}", old((place, value))
    for number in NUMBERS:
        yield f"passes {number}", OLD_LINE + bench(number, ((10, 0b11000001),))
        yield f"place {number}", OLD_LINE + bench(1, ((number, 0),))


def lines():
    """Every kind of text= line, in its place and in others."""
    for number, text in enumerate(NOT_FITTING):
        yield f"not fitting {number}", text
    body = bench(2, ((4096, 907),))
    commands = bench(2, (), (0x00010108,))
    for value in (b"old", b"1978", *OTHER_TEXTS):
        line = b"text=" + value + b"\n"
        for name, text in (("", line + body), ("with a command", line + commands),
                           ("last", body + line), ("twice", line + line + body),
                           ("second", b"passes=2\n" + line + b"word=4096:907\n"),
                           ("after a blank line", b"\n" + line + body), ("alone", line),
                           ("without LF", line[:-1]), ("of no passes", line + b"passes=0\n"),
                           ("with a bad line", line + body + b"word=0:x\n"),
                           ("with CR", line.replace(b"\n", b"\r\n") + body)):
            yield f"text={value[:12]!r} {name}", text
    for at in range(len(OLD_LINE)):
        yield f"cut at {at}", (OLD_LINE + body)[:at]
        yield f"without byte {at}", OLD_LINE[:at] + OLD_LINE[at + 1:] + body
        yield f"byte {at} larger", OLD_LINE[:at] + OLD_LINE[at:at + 1].upper() + OLD_LINE[at + 1:] + body


def sizes():
    """Files of just the most bytes, the text= line among them, and of one more."""
    for line in (OLD_LINE, NEW_LINE, b"text=new\n"):
        full = line + bench(1, ((0, 777),) * 5955)
        full += b"word=0:" + b"7" * (FILE_MOST - len(full) - 8) + b"\n"
        assert len(full) == FILE_MOST
        for name, text in (("most", full), ("one more", full.replace(b"passes=1", b"passes=10")),
                           ("no last LF", full[:-1])):
            yield f"{line[:-1].decode()}, {name}", text
    yield "a long value", b"text=" + b"o" * (FILE_MOST - 15) + b"\npasses=0\n"
    yield "a longer value", b"text=" + b"o" * (FILE_MOST - 14) + b"\npasses=0\n"


def made_by_hand():
    """A name and the bytes of each."""
    for group in (modes, sending, controls, lines, sizes):
        yield from group()


def by_hand():
    """All files that are made by hand."""
    yield from shown()
    for name, text in made_by_hand():
        yield file(name, text, delays=False)


# At random

def with_command(chance):
    """An old file with command lines: 9."""
    commands = drawn_commands(chance, drawn_machine(chance)) or [0]
    return OLD_LINE + drawn_bench(chance, False) + bench(0, (), commands).partition(b"\n")[2]


def of_1978(chance):
    """A file of 1978 that says so, or says nothing."""
    return chance.choice((NEW_LINE, b"")) + drawn_bench(Chance(chance.getrandbits(32)))


def of_another(chance):
    """A file with any other value, mostly good otherwise: 13."""
    line = b"text=" + chance.choice(OTHER_TEXTS) + b"\n"
    text = line + drawn_bench(chance, not chance.randrange(3))
    return chance.choice(DAMAGE)(chance, text) if not chance.randrange(4) else text


def drawn(chance):
    """An old file, or one of the others now and then."""
    make = chance.choice((None,) * 12 + (with_command, of_1978, of_another))
    return make(chance) if make else OLD_LINE + drawn_bench(chance, False)


def damaged_line(chance, text):
    """The text= line gets a byte more, less or another, or stands elsewhere."""
    line, _, rest = text.partition(b"\n")
    damage = chance.choice(DAMAGE)
    return chance.choice((damage(chance, line + b"\n") + rest, rest + line + b"\n",
                          line + b"\n" + text, b"\n" + text))


def drawn_texts(count, seed):
    """So many files, a third of them damaged: a name and the bytes of each."""
    chance = Chance(seed, OLD_TEXT)
    for number in range(count):
        text, name = drawn(chance), "drawn"
        if number % 3 == 2:
            damage = chance.choice((*DAMAGE, damaged_line))
            text, name = damage(chance, text), damage.__name__
        yield f"{name} {number} of seed {seed}", text


def at_random(count, seed):
    """So many files with what they print."""
    for name, text in drawn_texts(count, seed):
        yield file(name, text, at_random=True, delays=False)
