"""The bench files of tests/ring.py and tests/host.py.

Files made by hand (limits, refusals, lines that do not fit) and files drawn at random,
some of them damaged. What a file must print is what reference/ring.py says; a file that
would take the reference too long has it worked out here.
"""

import os
from collections import Counter
from typing import NamedTuple

# First, since it makes the reference known.
from library import ROOT

from delay_requests import (Echoes, delay_events, put_invoking, put_stray, put_units,
                            with_bad_line, with_unit_twice)
from leaf_requests import biased
from pass_requests import damages, put_controls, put_generators, put_modifiers
from reference import layout
from reference.cases.benches import NOT_FITTING, TONE
from reference.delay import units_named
from reference.machine import fresh_machine, generator_words
from reference.ring import FILE_MOST, PASSES_MOST, bench_file, ring
from texts import NEW_TEXT, Chance
from update_requests import REFUSED, commands_of, put_lingering, put_stopped, put_ticks


# Up to how many passes a file of examples/ is rung whole, and how many of a longer one's.
RUNG_MOST, RUNG = 500, 200


class File(NamedTuple):
    """A bench file: its name for people, its bytes, what it prints, what its passes met."""

    name: str
    text: bytes
    printed: bytes
    met: Counter
    at_random: bool = False


def file(name, text, at_random=False, delays=True):
    """A file that prints what the reference says; what delay units met is counted if asked."""
    met, echoes = Counter(), Echoes()

    def seen(before, after):
        if delays:
            met.update(delay_events(before, after))
            met["line, a word came back"] += echoes.came_back(before, after)

    return File(name, text, ring(text, seen), met, at_random)


def known(name, text, printed):
    """A file whose lines are known; the reference must give the same."""
    made = file(name, text)
    assert made.printed == printed, f"{name}: the reference prints something else"
    return made


def silence(passes, first=0):
    """The lines of passes in which nothing is heard."""
    return "".join(f"pass={(first + i) % (1 << 32)} left=0 right=0\n"
                   for i in range(1, passes + 1)).encode()


def bench(passes, words=(), commands=()):
    """The bytes of a bench file."""
    lines = [f"passes={passes}"]
    lines += [f"word={place}:{value}" for place, value in words]
    lines += [f"command={command:08X}" for command in commands]
    return "".join(line + "\n" for line in lines).encode()


# The shown files

EXAMPLE = bench(2, ((7, 4095), (10, 962), (21, 128), (4113, 2)))
EXAMPLE_PRINTED = b"pass=1 left=0 right=0\npass=2 left=131040 right=0\n"


def examples(text=NEW_TEXT):
    """The bench files of examples/ that follow a text, by name."""
    folder, made = os.path.join(ROOT, "examples"), {}
    for name in sorted(name for name in os.listdir(folder) if name.endswith(".txt")):
        with open(os.path.join(folder, name), "rb") as example:
            made[name] = example.read()
    return {name: words for name, words in made.items() if bench_file(words).text is text.reference}


def beginning(text):
    """A file with its first passes alone, if it has more than the reference rings in a few seconds."""
    head, _, rest = text.partition(b"\n")
    passes = int(head.removeprefix(b"passes="))
    return text if passes <= RUNG_MOST else b"passes=%d\n" % RUNG + rest


def shown():
    """The example of the scope, printed as it stands there, and every file of examples/, of the long ones the beginning."""
    yield known("the example of the scope", EXAMPLE, EXAMPLE_PRINTED)
    texts = examples()
    assert {"short_bell.txt", "belfry.txt", "bell.txt"} <= set(texts), "an example is missing"
    for name in sorted(texts):
        made = file(f"examples/{name}", beginning(texts[name]))
        assert name != "belfry.txt" or echo_lines(made.printed) > 200, "the belfry has no echo"
        yield made


def echo_lines(printed):
    """In how many passes DAC 0 sounds after DAC 1, which has no echo, has died away."""
    lines = printed.splitlines()
    direct = max(at for at, line in enumerate(lines) if not line.endswith(b" right=0"))
    return sum(b" left=0 " not in line for line in lines[direct + 1:])


def written_out():
    """The files of tests/files, each with the lines that it prints, written by hand."""
    folder = os.path.join(ROOT, "tests", "files")
    ending = ".bench"
    for name in sorted(name[:-len(ending)] for name in os.listdir(folder) if name.endswith(ending)):
        path = os.path.join(folder, name)
        with open(path + ".bench", "rb") as text, open(path + ".lines", "rb") as lines:
            yield known(f"tests/files/{name}", text.read(), lines.read())


# Files that fit, made by hand

# Commands: the counter set to 16, Lingers at passes 3 and 4 and, with the counter cleared, at 2; one
# that is not built (DLY with UU 11), TICKS of 257, 256 and 2 processing ticks, GMODE of generator 0
# to read and to write data.
COUNTER_16, LINGER_3, LINGER_4, LINGER_CLEARED = 0x00010108, 0x00003110, 0x00004110, 0x00002118
NOT_BUILT, TICKS_257, TICKS_256, TICKS_2 = 0x000000E0, 0x00100180, 0x000FF180, 0x00001180
TO_READ, TO_WRITE = 0x0E000A00, 0x06000A00
READ, WRITE = (10, 448), (10, 192)
# N 10 leaves one update tick with T 1, N 9 none, N 8 a negative number.
ONE_TICK, NO_TICK, NEGATIVE_TICKS = (4114, 10), (4114, 9), (4114, 8)


def ringing():
    """Files that ring to their end, or are refused in a pass or an update."""
    yield "no passes, nothing asked", bench(0, ((4113, 0), READ), (NOT_BUILT,))
    yield "words on all sides", bench(3, ((0, 1), (4118, 1), (4119, 65535), (4342, 1048575),
                                          (4096, 524288), (4097, 524287)))
    yield "both DACs at -1", bench(1, ((4096, 1048575), (4097, 1048575)))
    yield "the later word holds", bench(1, ((4113, 4294967295), (4113, 1), (4096, 5), (4096, 6)))
    yield "the later word is wide", bench(1, ((4113, 1), (4113, 4294967295)))
    for counter in (1048574, 1048575, 1048576, 2097151, 1 << 31, 4294967294, 4294967295):
        yield f"counter {counter}", bench(3, ((4115, counter),))
        yield f"counter {counter}, set", bench(3, ((4115, counter),), (COUNTER_16,))
        for number in (counter, counter + 1, counter + 2, counter + 3, counter - 4096):
            linger = number % (1 << 20) << 12 | 0x110
            yield f"counter {counter}, Linger {number}", bench(
                6, ((4115, counter),), (linger, LINGER_CLEARED, COUNTER_16))
            yield f"counter {counter}, lingering to {number}", bench(
                6, ((4115, counter), (4116, 1), (4117, number % (1 << 20))), (COUNTER_16,))
    yield "T of the moment", bench(3, ((7, 4095), (10, 962), (21, 128)), (TICKS_2,))
    yield "T grows to 256", bench(3, ((255 * 11 + 9, 1),), (TICKS_256,))
    yield "T 256", bench(2, ((4113, 256), (4114, 1025)))
    yield "T grows to a reader", bench(3, ((21, 448),), (TICKS_2,))
    yield "one command each", bench(5, (ONE_TICK,), (COUNTER_16, COUNTER_16, TICKS_2, COUNTER_16))
    yield "no ticks", bench(2, (NO_TICK,), (NOT_BUILT,))
    yield "negative ticks", bench(2, (NEGATIVE_TICKS,), (NOT_BUILT,))
    yield "more commands than ticks", bench(3, (), (COUNTER_16,) * 600)
    yield "Lingers", bench(6, (), (LINGER_3, LINGER_4, COUNTER_16))
    yield "lingering at the start", bench(4, ((4116, 1), (4117, 3)), (COUNTER_16,))
    yield "lingering for good", bench(3, ((4116, 1), (4117, 0)), (NOT_BUILT,))
    yield "overrun", bench(3, ((4115, 100),), (LINGER_3, COUNTER_16))
    for number, command in ((3, NOT_BUILT), (4, TICKS_257)):
        yield f"{number} at once", bench(2, (), (command,))
        yield f"{number} after another", bench(2, (), (COUNTER_16, command))
        yield f"{number} in pass 2", bench(3, (ONE_TICK,), (COUNTER_16, command))
        yield f"{number} after a Linger", bench(6, (), (LINGER_3, command))
        yield f"{number} never reached", bench(2, (), (LINGER_3, command))
    yield "4 before 3", bench(2, (), (TICKS_257, NOT_BUILT))
    for number, word, command in ((7, READ, TO_READ), (8, WRITE, TO_WRITE)):
        yield f"{number} at once", bench(2, (word,))
        yield f"{number} in pass 2", bench(3, (), (command,))
        yield f"{number} in a pass that never comes", bench(1, (), (command,))
        yield f"{number} not below T", bench(2, ((21, word[1]),))
    yield "7 before 8", bench(2, ((10, 192), (21, 448), (4113, 2)))
    yield "2 before 7", bench(2, (READ, (0, 1048576)))
    for t in (0, 257, 258, 512, 65536, 65537, 1 << 31, (1 << 32) - 1):
        yield f"T {t}", bench(2, ((4113, t),))
    for n in (0, 1, 2, 1025, 1026, (1 << 32) - 1):
        yield f"N {n}", bench(2, ((4114, n),))


def long_ringing():
    """As many passes as may be, and one sound for long: printed lines of every length."""
    yield File("65535 passes", bench(PASSES_MOST), silence(PASSES_MOST), Counter())
    for name, first in (("past 2^20", 1000000), ("past 2^32", (1 << 32) - 30000)):
        text = bench(PASSES_MOST, ((4115, first),))
        yield File(f"65535 passes {name}", text, silence(PASSES_MOST, first), Counter())
    yield file("a tone that turns", b"passes=400\nword=1:987654\nword=11:1\n" + TONE)


# Echoes

def click(unit=0, t=10, feedback=False):
    """Words of a click of 1000 that modifier 0 sends to a delay unit in pass 1, and hears on DAC 0.

    Generator 0 feeds DAC 0 from modifier-last word 0, where modifier 0 adds; the click is in
    generator-last word 0. With feedback what comes back is sent again: M1 is one half, scale 1."""
    words = [(9, 64), (10, 128), (2821, unit), (2823, 113 if feedback else 112), (3904, 1000)]
    return words + [(2817, 1 << 28)] * feedback + [(layout.T, t)]


def line(unit=0, x=0, y=0, z=0):
    """Words of a delay line."""
    at = layout.delay_unit_at(unit)
    return [(at, x), (at + 1, y), (at + 2, z), (at + 3, layout.DELAY_LINE)]


def clicks(passes, heard):
    """The lines of passes with 1000 on DAC 0 in some."""
    lines = silence(passes).splitlines(keepends=True)
    for number in heard:
        lines[number - 1] = b"pass=%d left=1000 right=0\n" % number
    return b"".join(lines)


def dly_x(unit, x):
    """DLY: X, and Y cleared."""
    return x << 16 | 0b00001 << 7 | 0b00 << 5 | unit


def dly_y(unit, y):
    """DLY: Y, by its one's complement."""
    return 65535 - y << 16 | 0b00001 << 7 | 0b01 << 5 | unit


def dly_z(unit, z, p=layout.DELAY_LINE):
    """DLY: Z and P."""
    return z << 16 | p << 12 | 0b00001 << 7 | 0b10 << 5 | unit


def echoes():
    """A click that comes back: sent in pass 1, given in pass Z+4, on DAC 0 in pass Z+6."""
    for z, y, x in ((0, 0, 0), (0, 0, 65535), (1, 0, 5), (1, 1, 65534), (2, 1, 100), (5, 5, 65530),
                    (30, 7, 40000), (200, 200, 0)):
        passes = 3 * z + 14
        words = line(0, x, y, z)
        yield known(f"echo, Z {z} from Y {y} at {x}", bench(passes, click() + words),
                    clicks(passes, [z + 6]))
        again = [3 + (z + 3) * times for times in (1, 2, 3)]
        yield known(f"echo again, Z {z} from Y {y} at {x}",
                    bench(passes, click(feedback=True) + words), clicks(passes, again))
    # Unit 31 acts from T 134 on, unit 1 from T 14 on.
    for unit, t in ((31, 133), (31, 134), (1, 13), (1, 14), (0, 9), (0, 10)):
        words = click(unit, t) + line(unit, z=2)
        yield known(f"unit {unit} at T {t}", bench(12, words),
                    clicks(12, [8] if t in (134, 14, 10) else []))
    # By commands: the line is there from pass 2 on, so the click of pass 1 is lost.
    setting = [dly_x(0, 9), dly_z(0, 3), dly_y(0, 2)]
    yield known("echo by DLY, too late", bench(12, click(), setting), clicks(12, []))
    # Generator 1, not modulated, adds 131040 from pass 1 on: sent in pass 2, given in 8, on DAC 0
    # in 10.
    tone = [(18, 4095), (20, 63), (21, 962)]
    yield known("echo by DLY of a tone", bench(20, click() + tone, setting),
                clicks(20, range(10, 21)).replace(b"left=1000", b"left=131040"))


def delay_files():
    """Delay units by words and by commands, and questions 11 and 12 at once and later."""
    two = click() + [(2829, 0), (2831, 112)]
    yield "11: past delay memory", bench(3, click() + line(x=65535, z=1))
    yield "11: index past the line", bench(3, click() + line(y=1))
    yield "11 not asked at T 9", bench(3, click(t=9) + line(y=1))
    yield "11 not asked of a table", bench(3, click() + [(4119, 65535), (4121, 1), (4122, 10)])
    yield "12: of an inactive unit", bench(3, two)
    yield "12: of a line", bench(3, two + line())
    yield "12: of a unit out of range", bench(3, click(31) + [(2829, 31), (2831, 112)])
    yield "11 before 12", bench(3, two + line(y=1))
    yield "7 before 11", bench(3, click() + line(y=1) + [(32, 448)])
    yield "11 later", bench(9, click() + line(z=4), [LINGER_4, dly_z(0, 1), dly_y(0, 2)])
    yield "11 later by X", bench(9, click() + line(z=4), [LINGER_3, dly_x(0, 65533)])
    yield "12 later", bench(9, click() + line(z=4), [LINGER_3, 0x03800F01])
    yield "3: DLY with UU 11", bench(9, click() + line(z=4), [LINGER_3, 0x000000E0])
    for p in range(16):
        yield f"DLY with P {p:04b}", bench(9, click() + line(z=1), [LINGER_3, dly_z(0, 1, p)])
        yield f"P {p:04b}", bench(9, click() + line(z=1) + [(4122, p)])
    yield "table by DLY", bench(20, click(feedback=True) + line(z=3), [
        LINGER_4, dly_x(0, 65000), dly_z(0, 0, layout.TABLE)])
    yield "all units", bench(9, [word for u in range(32) for word in line(u, 7 * u, 1, 2)]
                             + [(2816 + 8 * u + 7, 112) for u in range(32)]
                             + [(2816 + 8 * u + 5, u) for u in range(32)] + [(layout.T, 134)])
    for place in range(4119, 4126):
        for value in (15, 16, 65535, 65536, 1048575, 1048576, (1 << 32) - 1):
            yield f"word {place} = {value}", bench(2, ((place, value),))
            yield f"word {place + 217} = {value}", bench(2, ((place + 217, value),))


# The limits of numbers and of the file

NUMBERS = ((0, 1, 9, 10, 4118, 4119, 4120, 4341, 4342, 4343, 4344, 9999, 65535, 65536, 65537,
            99999, 100000)
           + tuple(power + i for power in (1 << 31, 1 << 32, 1 << 33, 1 << 63, 1 << 64, 10 ** 10)
                   for i in (-1, 0, 1)) + (10 ** 20, 10 ** 40))


def numbers():
    """Each number as passes, place and value; passes are refused in the first, so that it ends."""
    for number in NUMBERS:
        yield f"passes {number}", bench(number, (READ,))
        yield f"place {number}", bench(1, ((number, 0),))
        yield f"value {number}", bench(1, ((0, number),))


def sizes():
    """Files of just the most bytes, of one more, and of many more."""
    words = bench(1, ((0, 777),) * 5957)
    commands = bench(1, ((0, 0),), (COUNTER_16,) * 3854)
    for name, full in (("words", words), ("commands", commands)):
        assert len(full) == FILE_MOST
        yield f"full of {name}", full
        yield f"full of {name}, no last LF", full[:-1]
        yield f"full of {name}, another byte for the last LF", full[:-1] + b"0"
        yield f"full of {name}, one LF more", full + b"\n"
        yield f"full of {name}, one byte more", full.replace(b"passes=1\n", b"passes=10\n")
        yield f"full of {name}, one line more", full + b"command=00000000\n"
    few = bench(9, ((4114, 1025),), (COUNTER_16,) * 3853)
    yield "thousands of commands, all taken", few
    yield "full, cut in a command", (bench(1, (), (COUNTER_16,) * 3855))[:FILE_MOST]
    yield "one long line", b"passes=" + b"1" * (FILE_MOST - 8) + b"\n"
    yield "zeros", bytes(FILE_MOST)
    yield "many more", commands * 16


# Lines that do not fit

SMALL = bench(1, ((4096, 907),), (0x0001A108,))
# Bytes next to the digits, capitals of another base, signs, blanks, ends of line and of text.
ODD = b"/:0AFG@agf`xX+-_., \t\r\v\n\0\x1a=\x7f\x80\xb0\xb2\xc1\xff"


def not_fitting():
    """The reference's own cases, other lines, and a small file cut or changed in each place."""
    for number, text in enumerate(NOT_FITTING):
        yield f"not fitting {number}", text
    for line in (b"word", b"word=", b"word=0", b"word=0:", b"word=0:0:", b"word=0: 0", b"word=0 :0",
                 b"word =0:0", b"Word=0:0", b"WORD=0:0", b"word=-0:0", b"word=+0:0", b"word=01:0",
                 b"word=0:0 ", b" word=0:0", b"words=0:0", b"word:0=0", b"word=0=0", b"word=0:0x0",
                 b"word=0:A", b"word=0:1e3", b"word=0:0,word=1:0", b"command", b"command=",
                 b"command=00000000 ", b"command= 0000000", b"command=+0000000",
                 b"Command=00000000", b"command=0001a108", b"command=0001A10",
                 b"command=0001A1080", b"command=0:00000000",
                 b"passes=1", b"pass=1", b"# a comment", b"\xef\xbb\xbfword=0:0", b"", b" ", b"\r",
                 b"\0"):
        yield f"after passes: {line!r}", b"passes=1\n" + line + b"\n"
        yield f"before passes: {line!r}", line + b"\n" + b"passes=1\n"
    yield "9 before 2", bench(1, ((4113, 0),)) + b"word=0:x\n"
    yield "9 without passes to ring", bench(0, ((4343, 0),))
    yield "a word after a command", bench(1, ((0, 0),), (COUNTER_16,)) + b"word=0:0\n"
    yield "passes last", SMALL.partition(b"\n")[2] + b"passes=1\n"
    yield "ends of line CR LF", SMALL.replace(b"\n", b"\r\n")
    yield "ends of line CR", SMALL.replace(b"\n", b"\r")
    yield "zero after the end", SMALL + b"\0"
    yield "zero and a line after the end", SMALL + b"\0command=00000000\n"
    for at in range(len(SMALL)):
        yield f"cut at {at}", SMALL[:at]
        yield f"without byte {at}", SMALL[:at] + SMALL[at + 1:]
    for name, at in (("passes", SMALL.index(b"1")), ("place", SMALL.index(b"4096") + 1),
                     ("value", SMALL.index(b"907") + 1), ("command", SMALL.index(b"1A1"))):
        for byte in ODD:
            changed = SMALL[:at] + bytes((byte,)) + SMALL[at + 1:]
            yield f"byte {byte} in {name}", changed


def by_hand():
    """All files that are made by hand."""
    yield from shown()
    for group in (ringing, delay_files, numbers, sizes, not_fitting):
        for name, text in group():
            yield file(name, text)
    yield from echoes()
    yield from long_ringing()


# Files at random

def put_feeders(chance, machine, t):
    """Some generators below T feed DAC 0 or 1, mostly from words that others add into."""
    text = chance.text
    adding = [g for g in range(t) if text.reference.adds(generator_words(machine, g))]
    sums = [machine[layout.generator_at(g) + layout.GSUM] for g in adding or range(t)]
    for g in chance.sample(range(t), (t + 2) // 4):
        at = layout.generator_at(g)
        text.put_dac(machine, at, chance.randrange(2))
        machine[at + layout.GFM] = chance.choice(sums) | chance.choice((0, 0, 0, 64))
        text.put_mode(chance, machine, at, layout.WRITE_DAC)
        if chance.randrange(4):
            text.put_heard(machine, at)


def run_instead(chance, machine, *roles):
    """Generators that have one of these roles run instead."""
    for g in range(layout.GENERATORS):
        words = generator_words(machine, g)
        if any(holds(words) for holds in roles):
            chance.text.put_mode(chance, machine, layout.generator_at(g), layout.RUNNING_A)


def without_data(chance, machine):
    """Mostly no generator reads or writes data; now and then some do, or only write."""
    text, kind = chance.text.reference, chance.randrange(20)
    if kind > 2:
        run_instead(chance, machine, text.reads, text.writes)
    if kind in (1, 2):
        run_instead(chance, machine, text.reads)


def put_heard(chance, machine, t):
    """Some generators that feed a DAC take what a 00111 below T div 2 adds, if there are any."""
    named = [layout.modifier_at(m) for m in range(t // 2)
             if layout.function(machine[layout.modifier_at(m) + layout.MMODE])
             == layout.INVOKE_DELAY_UNIT]
    for g in range(t if named else 0):
        feeds = chance.text.reference.dac_fed(generator_words(machine, g)) is not None
        if feeds and chance.randrange(2):
            place = layout.generator_at(g) + layout.GFM
            machine[place] = 64 | machine[chance.choice(named) + layout.MSUM] & 63


def put_delay_units(chance, machine, t):
    """All delay units and what names them; now and then a pass is refused by 11 or 12."""
    put_units(chance, machine)
    if chance.randrange(2):
        put_stray(chance, machine, t // 2)
    put_invoking(chance, machine, t)
    put_heard(chance, machine, t)
    kind = chance.randrange(12)
    if kind == 0:
        return with_bad_line(chance, machine) or machine
    if kind == 1:
        return with_unit_twice(chance, machine) or machine
    return machine


def drawn_machine(chance):
    """A machine of few units, as many sums and any controls; mostly none reads or writes data."""
    machine = fresh_machine()
    t = chance.choice((1, 2, 4, chance.randint(3, 9), chance.randint(5, 16), chance.randint(8, 40),
                       chance.randint(10, 14), chance.randint(10, 20), chance.randint(14, 40)))
    if not chance.randrange(12):
        t = chance.randint(40, 180)
    put_generators(chance, machine, t)
    put_modifiers(chance, machine, t // 2)
    put_stopped(chance, machine)
    put_feeders(chance, machine, t)
    for place in chance.sample(range(layout.GENERATOR_THIS, layout.DX), 12):
        machine[place] = biased(chance, 20)
    put_controls(chance, machine, t)
    if chance.randrange(2):
        put_ticks(chance, machine)
        ticks_left = machine[layout.N] - machine[layout.T]
        machine[layout.T], machine[layout.N] = t, min(max(t + ticks_left, 2), 1025)
    if chance.randrange(3):
        put_lingering(chance, machine)
        machine[layout.LINGER_PASS] = (machine[layout.COUNTER] + chance.randrange(4)) % (1 << 20)
    without_data(chance, machine)
    if chance.randrange(4):
        machine = put_delay_units(chance, machine, t)
    return machine


def drawn_words(chance, machine):
    """The words that are not those of a fresh machine, in any sequence, some places twice."""
    fresh = fresh_machine()
    places = [place for place in range(layout.FILE_PLACES) if machine[place] != fresh[place]]
    chance.shuffle(places)
    words = [(place, machine[place]) for place in places]
    for _ in range(chance.choice((0, 0, 1, 3))):
        words.insert(0, (chance.choice(places), chance.getrandbits(32)))
    return words


def drawn_dly(chance, machine):
    """Some DLY for units that modifiers name: of these some lines then don't fit."""
    named = units_named(machine) if machine[layout.T] <= layout.T_MOST else []
    for _ in range(chance.choice((0, 0, 1, 3)) if named else 0):
        u = chance.choice(named)
        yield chance.choice((
            dly_x(u, chance.choice((0, 65535, chance.randrange(1 << 16)))),
            dly_y(u, chance.randrange(4)),
            dly_z(u, chance.randrange(6), chance.choice(layout.DELAY_MODES)),
            dly_z(u, chance.randrange(6))))


def drawn_commands(chance, machine):
    """Commands about the counter; now and then one among them is refused."""
    count = chance.choice((0, 1, 3, chance.randrange(12), chance.randrange(60)))
    counter = (machine[layout.COUNTER] + 1) % (1 << 32)
    commands = commands_of(chance, count, counter, not chance.randrange(3))
    for command in drawn_dly(chance, machine):
        commands.insert(chance.randint(0, len(commands)), command)
    if not chance.randrange(5):
        commands.insert(chance.randint(0, len(commands)), chance.choice(REFUSED)(chance))
    return commands


def drawn_bench(chance, with_commands=True):
    """A bench file that fits; one of ten has a word beyond its width or range."""
    machine = drawn_machine(chance)
    commands = drawn_commands(chance, machine) if with_commands else []
    if not chance.randrange(10):
        _, place, keep, set_bits = chance.choice(damages(chance.text))
        machine[place] = machine[place] & keep | set_bits
    passes = chance.choice((0, 1, 2, 3, 5, 8, 13, 13, 21, 21))
    return bench(passes, drawn_words(chance, machine), commands)


# Damage to the text of a file

def damaged_byte(chance, text):
    """A byte is changed, left out, put in or doubled."""
    at = chance.randrange(len(text))
    byte = bytes((chance.choice(ODD + b"0123456789ABCDEF"),))
    middle = chance.choice((byte, b"", text[at:at + 1] + byte, text[at:at + 1] * 2))
    return text[:at] + middle + text[at + 1:]


def damaged_lines(chance, text):
    """Two lines change places, or a line is doubled, left out or put elsewhere."""
    lines = text.splitlines(keepends=True)
    i, j = chance.randrange(len(lines)), chance.randrange(len(lines))
    kind = chance.randrange(4)
    if kind == 0:
        lines[i], lines[j] = lines[j], lines[i]
    elif kind == 1:
        lines.insert(j, lines[i])
    elif kind == 2:
        lines.pop(i)
    else:
        lines.insert(j, lines.pop(i))
    return b"".join(lines)


def damaged_line(chance, text):
    """A line gets another number, a zero before its number, or lower case."""
    lines = text.splitlines(keepends=True)
    i = chance.randrange(len(lines))
    name, sign, rest = lines[i].partition(chance.choice((b"=", b":")))
    number = str(chance.choice(NUMBERS)).encode()
    lines[i] = chance.choice((name + sign + number + b"\n", name + sign + b"0" + rest,
                              lines[i].lower(), lines[i].upper(), lines[i].strip() + b" \n"))
    return b"".join(lines)


def cut(chance, text):
    """The text ends early."""
    return text[:chance.randrange(len(text))]


DAMAGE = (damaged_byte, damaged_byte, damaged_lines, damaged_line, cut)


def at_random(count, seed):
    """So many files, a third of them damaged."""
    chance = Chance(seed)
    for number in range(count):
        text, name = drawn_bench(chance), "drawn"
        if number % 3 == 2:
            damage = chance.choice(DAMAGE)
            text, name = damage(chance, text), damage.__name__
        yield file(f"{name} {number} of seed {seed}", text, at_random=True)
