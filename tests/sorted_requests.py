"""The inputs of tests/sorted.py: bench files, most of them of bells at random, and order files.

A bell has triggers, waiting generators, feeders, writers, readers and adding ones, drawn as those
of tests/part_requests.py, and pitches: equal ones, of both signs, ones that differ only in GJ's low
8 bits, nearly by number, anywhere. Files with commands, files that a question refuses, and texts
that are no bench file or no order file stand between them.
"""

import os
from typing import NamedTuple

# First, since it makes the reference known.
from library import ROOT

from compare_requests import put_settings
from leaf_requests import biased
from part_requests import put_parting_settings
from pass_requests import (BAD_ORDERS, damages, good_order, put_controls, put_modifiers, swapped,
                           walked)
from reference import layout
from reference.cases.sortings import NOT_TAKEN
from reference.machine import fresh_machine, put_update_ticks, refusal
from reference.ring import FILE_MOST, PASSES_MOST, bench_file, first_machine
from reference.sorted import by_pitch, order_lines
from reference.words import low
from ring_files import (DAMAGE, bench, delay_files, drawn_bench, drawn_commands, drawn_words, examples, not_fitting,
                        numbers, ringing, sizes)
from text_files import NEW_LINE, OLD_LINE, OTHER_TEXTS, drawn, made_by_hand
from texts import NEW_TEXT, OLD_TEXT, Chance


class Input(NamedTuple):
    """A bench file, an order file or None, a name for people; and whether the order that the
    program prints is handed back to it as an order file."""

    name: str
    text: bytes
    order_text: bytes = None
    again: bool = False


# Pitches: each kind gives the GJ of so many generators

def with_low_bits(chance, pitch):
    """A GJ of a pitch."""
    return low(pitch, 20) << 8 | chance.choice((0, 255, chance.getrandbits(8)))


def anywhere(chance, count):
    """GJ with a bias to extremes."""
    return [biased(chance, 28) for _ in range(count)]


def few(chance, count):
    """Few pitches, so that many are equal, and any low bits."""
    some = [biased(chance, 20) for _ in range(chance.choice((1, 2, 3)))]
    return [with_low_bits(chance, chance.choice(some)) for _ in range(count)]


def of_both_signs(chance, count):
    """Few magnitudes, each with both signs."""
    some = [chance.randrange(1 << 19) for _ in range(chance.choice((1, 2, 5)))]
    return [with_low_bits(chance, chance.choice((1, -1)) * chance.choice(some)) for _ in range(count)]


def low_bits_alone(chance, count):
    """One high part; only the low 8 bits differ."""
    high = biased(chance, 20) << 8
    return [high | chance.getrandbits(8) for _ in range(count)]


def around_zero(chance, count):
    """Pitches from -3 to 2."""
    return [low(chance.randint(-600, 600), 28) for _ in range(count)]


def at_the_ends(chance, count):
    """The highest magnitudes of both signs, and 0."""
    return [with_low_bits(chance, chance.choice((1 << 19, (1 << 19) - 1, 1 - (1 << 19), 2 - (1 << 19), 0, -1)))
            for _ in range(count)]


def rising(chance, count):
    """Rising by number, of any sign."""
    some = sorted(chance.randrange(1 << 19) for _ in range(count))
    return [with_low_bits(chance, chance.choice((1, 1, -1)) * pitch) for pitch in some]


def nearly_rising(chance, count):
    """Rising by number but for one or two exchanges."""
    made = rising(chance, count)
    for _ in range(chance.choice((1, 2))):
        made = swapped(chance, made)
    return made


def falling(chance, count):
    """Falling by number."""
    return rising(chance, count)[::-1]


PITCHES = (anywhere, few, of_both_signs, low_bits_alone, around_zero, at_the_ends, rising, nearly_rising,
           nearly_rising, falling)


# Bells

def ticks(chance, number):
    """T: every third bell takes the next of 1..256, now and then 256, the others have some."""
    if number % 3 == 0:
        return number // 3 * 37 % 256 + 1
    if number % 20 == 1:
        return layout.T_MOST
    return chance.choice((1, 2, 2, 3, 3, 4, 4, 5, 6, 8, 10, 12, chance.randint(9, 40)))


def put_above(chance, machine, t):
    """Generators from T on, the first of them often, with settings and pitches that must not count."""
    above = fresh_machine()
    put_settings(chance, above, layout.GENERATORS)
    for g in {min(t, 255), chance.randrange(256), 255} - set(range(t)):
        at = layout.generator_at(g)
        machine[at:at + layout.GENERATOR_WORDS] = above[at:at + layout.GENERATOR_WORDS]
        machine[at + layout.GJ] = biased(chance, 28)


def put_other_words(chance, machine, t):
    """Words that are no settings and no pitches: of few generators, modifiers, sums and DACs, controls."""
    for g in chance.sample(range(t), min(t, 40)):
        for register in (layout.GK, layout.GN, layout.GM, layout.GP, layout.GQ, layout.GL):
            width = layout.GENERATOR_WIDTHS[register]
            machine[layout.generator_at(g) + register] = biased(chance, width)
    put_modifiers(chance, machine, min(t // 2, 20))
    for place in chance.sample(range(layout.GENERATOR_THIS, layout.DX), 20):
        machine[place] = biased(chance, 20)
    put_controls(chance, machine, t)


def bell(chance, number):
    """A good machine, and a name."""
    machine, t = fresh_machine(), ticks(chance, number)
    draw = chance.choice((put_settings, put_parting_settings, put_parting_settings))
    kind = draw(chance, machine, t)
    pitches = chance.choice(PITCHES)
    for g, gj in enumerate(pitches(chance, t)):
        machine[layout.generator_at(g) + layout.GJ] = gj
    if chance.randrange(2):
        put_above(chance, machine, t)
    if chance.randrange(3) == 0:
        put_other_words(chance, machine, t)
    put_update_ticks(machine)
    assert refusal(machine, chance.text.reference) == 0
    return machine, f"bell {number}, T {t}, {kind}, {pitches.__name__}"


def commands(chance, machine):
    """Commands, mostly none, and hardly any in an old file; some that would change T, a mode or a pitch."""
    if chance.randrange(4 if chance.text is NEW_TEXT else 24):
        return []
    # TICKS: T 1, 2 or 256; GMODE of generator 0 to write data; GJ of generator 0, left-adjusted.
    some = [chance.choice((0x00000180, 0x00001180, 0x000FF180, 0x06000A00, 0x7FFFF500)) for _ in range(3)]
    return drawn_commands(chance, machine) + some


def text_line(chance):
    """The first line of a file: none by 1978; in an old one, now and then, another."""
    if chance.text is NEW_TEXT:
        return b""
    other = b"text=" + chance.choice(OTHER_TEXTS) + b"\n"
    return chance.choice((OLD_LINE,) * 16 + (other, other, NEW_LINE, b""))


def text_of(chance, machine):
    """A bench file of a machine: its words in any sequence, any number of passes, commands."""
    words = drawn_words(chance, machine) if machine != fresh_machine() else []
    passes, line = chance.choice((0, 1, 2, PASSES_MOST)), text_line(chance)
    made = line + bench(passes, words, commands(chance, machine))
    return made if len(made) <= FILE_MOST else line + bench(passes, words)


# Orders

def by_number(chance, machine):
    """0 to T-1."""
    return list(range(machine[layout.T]))


def backwards(chance, machine):
    """T-1 to 0."""
    return by_number(chance, machine)[::-1]


def one_exchange(chance, machine):
    """By number but for one exchange."""
    return swapped(chance, by_number(chance, machine))


def agreeing(chance, machine):
    """Far from by number, and equal to it."""
    return walked(chance, machine, by_number(chance, machine))


def nearly_agreeing(chance, machine):
    """One exchange away from an equal one."""
    return swapped(chance, agreeing(chance, machine))


def at_random(chance, machine):
    """Any permutation."""
    return chance.sample(range(machine[layout.T]), machine[layout.T])


def of_pitches(chance, machine):
    """By pitch, written out."""
    return by_pitch(machine)


ORDERS = (by_number, backwards, one_exchange, one_exchange, agreeing, nearly_agreeing, at_random, at_random,
          of_pitches)


def bad_order(chance, machine, number):
    """An order that a question refuses, and its name."""
    t = machine[layout.T]
    change = BAD_ORDERS[number % len(BAD_ORDERS)]
    order = change(chance, t, good_order(chance, t))
    if chance.randrange(2):
        # Within the numbers that an order file may have.
        order = [min(entry, 255) for entry in order]
    return order, f"order {change.__name__}"


# Damage

def damaged_machine(chance, machine):
    """A copy with a word beyond its width or range, or a mode that is not built, and what was done."""
    name, place, keep, put = chance.choice(damages(chance.text))
    other = list(machine)
    other[place] = other[place] & keep | put
    return other, name


ORDER_ODD = b"\r\n \t\0,:;=+-/09xXoO\x80\xff"


def damaged_order(chance, text):
    """An order file with a byte changed, left out, put in or doubled, or cut; mostly none any more."""
    at = chance.randrange(len(text))
    byte = bytes((chance.choice(ORDER_ODD),))
    middle = chance.choice((byte, b"", text[at:at + 1] + byte, byte + text[at:at + 1], text[at:at + 1] * 2))
    return chance.choice((text[:at] + middle + text[at + 1:], text[:at] + middle + text[at + 1:], text[:at]))


def any_order_text(chance, machine):
    """No order file, a good one, or one that some question refuses."""
    kind = chance.randrange(4)
    if kind < 2:
        return None if kind else order_lines(chance.choice(ORDERS)(chance, machine))
    if kind == 2:
        return order_lines(bad_order(chance, machine, chance.randrange(6))[0])
    return chance.choice(NOT_TAKEN)


def of_bell(chance, number):
    """The inputs of one bell: by pitch, by an order file, and damaged ones."""
    machine, name = bell(chance, number)
    text = text_of(chance, machine)
    yield Input(f"{name}, by pitch", text, None, number % 4 == 0)
    order = ORDERS[number % len(ORDERS)]
    good = order_lines(order(chance, machine))
    yield Input(f"{name}, {order.__name__}", text, good, number % 40 == 1)
    if number % 2 == 0:
        entries, what = bad_order(chance, machine, number // 2)
        yield Input(f"{name}, {what}", text, order_lines(entries))
    if number % 4 == 1:
        other, what = damaged_machine(chance, machine)
        yield Input(f"{name}, {what}", text_of(chance, other), any_order_text(chance, machine))
    if number % 4 == 2:
        damage = chance.choice(DAMAGE)
        yield Input(f"{name}, {damage.__name__}", damage(chance, text), any_order_text(chance, machine))
    if number % 4 == 3:
        yield Input(f"{name}, damaged order file", text, damaged_order(chance, good))


# Files that stand in the repository, and those that tests/ring_files.py makes by hand

def written_out():
    """The bench files of tests/files."""
    folder = os.path.join("tests", "files")
    for name in sorted(os.listdir(os.path.join(ROOT, folder))):
        if name.endswith(".bench"):
            with open(os.path.join(ROOT, folder, name), "rb") as file:
                yield f"{folder}/{name}", file.read()


def files(named):
    """Bench files by name: by pitch, by number, backwards, and one entry short."""
    for name, text in named:
        yield Input(name, text, None, True)
        read = bench_file(text)
        t = first_machine(read.words)[layout.T] if read else 1
        order = list(range(min(t, 256)))
        yield Input(f"{name}, by number", text, order_lines(order))
        yield Input(f"{name}, backwards", text, order_lines(order[::-1]), True)
        yield Input(f"{name}, one short", text, order_lines(order[1:]))


def of_ring(groups):
    """Files at the limits, and texts that are none; some with an order file."""
    for number, (name, text) in enumerate(made for group in groups for made in group()):
        yield Input(name, text)
        if number % 10 == 0:
            yield Input(f"{name}, with an order file", text, b"order=0\n")
        if number % 25 == 0:
            yield Input(f"{name}, with an order file that is none", text, b"order=00\n")


# Order files by hand

def three():
    """A bench file of three generators on which orders part, at every point, and the pitches 3, -2, 1."""
    words = [(1, 768), (12, low(-512, 28)), (23, 256), (layout.T, 3)]
    for modes in ((896, 576, 960), (128, 128, 128), (192, 192, 192), (448, 960, 448)):
        yield bench(1, words + [(11 * g + 10, mode) for g, mode in enumerate(modes)]
                    + [(11 * g + 9, g) for g in range(3)])


def lines_of_zeros(size):
    """Good lines, far more than 256, of just so many bytes."""
    made = b"order=0\n" * (size // 8 - 2)
    rest = size - len(made)
    return made + b"order=0\n" * (rest // 8 - 1) + b"order=" + b"1" * (rest % 8 + 1) + b"\n"


def order_texts():
    """Order files of all kinds for T 3, and texts that are none."""
    for entries in ((0, 1, 2), (0, 2, 1), (1, 0, 2), (1, 2, 0), (2, 0, 1), (2, 1, 0), (0,), (0, 1), (0, 1, 2, 3),
                    (2, 1, 0, 0), (0, 0, 1), (1, 1, 1), (0, 1, 3), (0, 1, 255), (255, 255, 255), (3, 4, 5),
                    tuple(range(256)), (7,) * 256, (0, 1, 2) + (0,) * 253):
        yield order_lines(entries)
    yield from NOT_TAKEN
    good = order_lines((2, 0, 1))
    yield from (good[:at] for at in range(len(good)))
    yield good.replace(b"\n", b"\r\n")
    yield good.replace(b"\n", b"\r")
    yield good.replace(b"=0", b"=00")
    yield good.replace(b"=1", b"=01")
    yield good.replace(b"=1", b"=256")
    yield good.replace(b"=1", b"=257")
    yield good.replace(b"=1", b"=65537")
    yield good.replace(b"=1", b"=4294967297")
    yield good.replace(b"=1", b"=18446744073709551617")
    yield b"\xef\xbb\xbf" + good
    yield good + b" \n"
    yield good + b"equal\n"
    yield good + b"# a comment\n"
    for size in (65535, 65536, 65537, 1 << 20):
        yield lines_of_zeros(size)
        yield b"order=" + b"0" * (size - 7) + b"\n"
    yield bytes(65537)


def order_files():
    """Each with a bench file of three generators, with one that 2 refuses, and with none."""
    texts = tuple(three())
    for number, order_text in enumerate(order_texts()):
        name = f"order file {order_text[:30]!r} of {len(order_text)} bytes"
        yield Input(name, texts[number % len(texts)], order_text)
        yield Input(f"{name}, after 2", texts[0] + b"word=0:1048576\n", order_text)
        if number % 3 == 0:
            yield Input(f"{name}, after 9", texts[0] + b"word=0:x\n", order_text)
    full = bench(1, [(layout.T, 256)] + [(11 * g + 1, 256 * (256 - g)) for g in range(256)])
    everyone = list(range(256))
    for name, entries in (("256 entries", everyone), ("256 entries backwards", everyone[::-1]),
                          ("257 entries", everyone + [0]), ("255 entries", everyone[1:]),
                          ("256 entries, one twice", [0] + everyone[:-1])):
        yield Input(f"T 256, {name}", full, order_lines(entries))
    yield Input("T 256, by pitch", full, None, True)
    for text in texts:
        yield Input("T 3, by pitch", text, None, True)


# Bells whose last two generators part their orders

def last_two(t):
    """Each with a name: they trigger and wait, feed DAC 15, write, read into word 63, or read and add there."""
    kinds = {
        "trigger": ((896, 0, 0), (576, 0, 0)), "feed": ((128, 5, 0), (128, 6, 0)),
        "write": ((192, 5, 0), (192, 127, 0)), "read": ((448, 0, 63), (448, 0, 63)),
        "read and add": ((448, 0, 63), (962, 0, 63)),
    }
    for name, pair in kinds.items():
        # Those before them write too, all through GFM 9, and rise by pitch.
        words = [(11 * g + 10, 192) for g in range(t - 2)] + [(11 * g + 9, 9) for g in range(t - 2)]
        words += [(11 * g + 1, 256 * g) for g in range(t - 2)]
        for g, (mode, gfm, gsum) in zip((t - 2, t - 1), pair):
            words += [(11 * g, 15), (11 * g + 8, gsum), (11 * g + 9, gfm), (11 * g + 10, mode)]
        # The last has the lower pitch, by 1, or an equal one with other low bits.
        for pitches in ((256 * t, 256 * t - 1), (256 * t, 256 * t + 255)):
            tuned = [(11 * (t - 2) + 1, pitches[0]), (11 * (t - 1) + 1, pitches[1])]
            yield f"the last of {t} {name}", bench(1, words + tuned + [(layout.T, t)])


def at_the_end():
    """By pitch, which exchanges the last two or none, and by an order file that exchanges them."""
    for t in (2, 3, 10, 11, 12, 13, 64, 99, 101, 102, 103, 200, 255, 256):
        exchanged = order_lines([*range(t - 2), t - 1, t - 2])
        for name, text in last_two(t):
            yield Input(f"{name}, by pitch", text, None, True)
            yield Input(f"{name}, exchanged", text, exchanged)


# The whole of the inputs

def by_hand(text):
    """All that are made by hand."""
    yield from files((f"examples/{name}", words) for name, words in examples(text).items())
    if text is OLD_TEXT:
        yield from of_ring((made_by_hand,))
        return
    yield from files(written_out())
    yield from order_files()
    yield from at_the_end()
    yield from of_ring((ringing, delay_files, numbers, sizes, not_fitting))


def all_inputs(count, seed, text=NEW_TEXT):
    """Those by hand, then those of so many bells, then some of the bench files of tests/ring.py."""
    chance = Chance(seed, text)
    yield from by_hand(text)
    for number in range(count):
        yield from of_bell(chance, number)
        if number % 5 == 0:
            made = drawn(chance) if text is OLD_TEXT else drawn_bench(chance)
            yield Input(f"drawn as for ring, {number}", made, chance.choice((None, None, b"order=0\n")))
