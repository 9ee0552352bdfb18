"""The requests of tests/updates.py: chains of updates on one machine.

Commands of every kind have fields with a bias to extremes. Each request comes with
the reference's answer; the machine that it leaves goes into the next request of its
chain. Bits of a command are numbered as in the 1978 text: 4 to 35 from the left.
"""

from typing import NamedTuple

from leaf_requests import biased
from pass_requests import damaged_machine, whole_machine
from reference import layout
from reference.machine import put_update_ticks
from reference.modifier import FORMULAS
from reference.update import limit, run_update
from reference.words import low
from texts import Chance


class Request(NamedTuple):
    """What is asked: the two runs of words, and a name for people."""

    machine: list
    commands: list
    name: str


class Answer(NamedTuple):
    """What is answered and left."""

    number: int
    taken: int
    machine: list


# Fields

def put(first, last, value):
    """A value in the bits first to last."""
    return low(value, last - first + 1) << 35 - last


def code(bits):
    """A code, from bit 24 on."""
    return put(24, 23 + len(bits), int(bits, 2))


def data(value):
    """The left 20 bits."""
    return put(4, 23, value)


def generator(chance):
    """The number of a generator: the first and last ones are frequent."""
    return put(28, 35, chance.choice((0, 1, 127, 128, 254, 255, chance.randrange(256))))


def modifier(chance):
    """The number of a modifier: the first and last ones are frequent."""
    return put(29, 35, chance.choice((0, 1, 63, 64, 126, 127, chance.randrange(128))))


def noise(chance, *bits):
    """Bits that nothing is read from, at random, now and then all 0."""
    return sum(put(bit, bit, chance.getrandbits(1)) for bit in bits) if chance.randrange(3) else 0


def some(chance, *bits):
    """Disable or clear bits, each set in one of three."""
    return sum(put(bit, bit, 1) for bit in bits if not chance.randrange(3))


# Commands that pass their questions

def misc(chance):
    """RR 00 or 01, W and P."""
    return (data(biased(chance, 20)) | put(29, 30, chance.choice((0, 1, 1))) | some(chance, 33, 34)
            | noise(chance, 31, 32))


def ticks_by(chance, q, number):
    """TICKS with a Q and a number."""
    return (code("00011") | put(14, 23, number) | put(32, 32, q)
            | noise(chance, *range(4, 14), 29, 30, 33, 34, 35))


def ticks(chance):
    """T or N; a T of 256 and both ends of N are frequent."""
    q = chance.randrange(2)
    most = 1023 if q else 255
    return ticks_by(chance, q, chance.choice((0, 1, most - 1, most, 255, chance.randint(0, most))))


def both_ticks(chance):
    """T, then N or N, then T, so that N-T-8 is close to 0."""
    t = chance.choice((1, 2, 255, 256, chance.randint(1, 256)))
    n = max(t + 8 + chance.randint(-2, 3), 2)
    pair = [ticks_by(chance, 0, t - 1), ticks_by(chance, 1, n - 2)]
    return pair if chance.randrange(2) else pair[::-1]


def whole(bits):
    """The commands that load data whole, or by E."""
    def command(chance):
        e = put(27, 27, chance.getrandbits(1)) if len(bits) == 3 else 0
        return code(bits) | e | data(biased(chance, 20)) | generator(chance)
    return command


def gn_gm(chance):
    """GN and GM."""
    return (code("0111") | put(9, 19, biased(chance, 11)) | put(20, 23, biased(chance, 4))
            | some(chance, 4, 5) | noise(chance, 6, 7, 8) | generator(chance))


def gl_gsum(chance):
    """GL and GSUM."""
    return (code("1000") | put(6, 17, biased(chance, 12)) | put(18, 23, biased(chance, 6))
            | some(chance, 4, 5) | generator(chance))


def gmode(run, oscillator, chance):
    """GMODE by its modes, and GFM; no disable bit for GMODE."""
    mode = run << 6 | chance.randrange(4) << 4 | oscillator
    return (code("1010") | put(7, 16, mode) | put(17, 23, biased(chance, 7)) | some(chance, 5, 6)
            | generator(chance))


def good_gmode(chance):
    """GMODE with built modes, or disabled with any modes."""
    if chance.randrange(3):
        return gmode(chance.choice(tuple(layout.RUN_MODES)), chance.choice(layout.OSCILLATOR_MODES),
                     chance) | some(chance, 4)
    return gmode(chance.randrange(16), chance.randrange(16), chance) | put(4, 4, 1)


def mm(chance):
    """M0 and M1, right- and left-adjusted."""
    return (code("110") | put(27, 28, chance.randrange(4)) | data(biased(chance, 20))
            | modifier(chance))


def ml(chance):
    """L0 and L1."""
    return (code("1110") | put(28, 28, chance.getrandbits(1)) | data(biased(chance, 20))
            | modifier(chance))


def mmode(function, chance):
    """MMODE by its function, and MSUM; no disable bit for the function."""
    return (code("11110") | put(8, 12, function) | put(13, 16, chance.randrange(16))
            | put(17, 23, biased(chance, 7)) | some(chance, 5, 6, 7) | modifier(chance))


def good_mmode(chance):
    """MMODE with a built function, or disabled with any function."""
    if chance.randrange(3):
        return mmode(chance.choice(tuple(FORMULAS)), chance) | some(chance, 4)
    return mmode(chance.randrange(32), chance) | put(4, 4, 1)


def addresses(mrm, min_, chance):
    """MRM and MIN; no disable bit."""
    return (code("11111") | put(8, 15, mrm) | put(16, 23, min_) | some(chance, 6)
            | noise(chance, 7) | modifier(chance))


def address(chance):
    """A MIN or MRM with other top bits than 11; 191 is the last."""
    return chance.choice((0, 63, 64, 128, 190, 191, chance.randrange(192)))


def good_addresses(chance):
    """MRM and MIN that are good, or any where they are disabled."""
    words, bits = [address(chance), address(chance)], 0
    for i, bit in enumerate((4, 5)):
        if not chance.randrange(3):
            words[i], bits = chance.randrange(256), bits | put(bit, bit, 1)
    return addresses(*words, chance) | bits


# Delay units

BUILT_P, OTHER_P = layout.DELAY_MODES, tuple(set(range(16)) - set(layout.DELAY_MODES))


def unit(chance):
    """The number of a delay unit: the first and last ones are frequent."""
    return put(31, 35, chance.choice((0, 1, 15, 16, 30, 31, chance.randrange(32))))


def delay(chance, uu, p):
    """DLY with 16 bits of data, and 4 that are P where UU is 10."""
    return (code("00001") | put(4, 19, biased(chance, 16)) | put(20, 23, p) | put(29, 30, uu)
            | unit(chance))


def good_delay(chance):
    """DLY of X or Y with any 4 bits, or of Z with a built P."""
    uu = chance.randrange(3)
    return delay(chance, uu, chance.choice(BUILT_P) if uu == 0b10 else chance.randrange(16))


LOADS = (good_delay, good_delay, whole("001"), whole("010"), whole("0110"), gn_gm, gl_gsum,
         whole("1001"), good_gmode, whole("1011"), mm, mm, ml, good_mmode, good_addresses)


# Timers, by the counter as the commands before them leave it

BEHIND = (0, 0, 1, 2, 4095, 4096, 4097, 4098, -1, -2, 1 << 19)


def pass_number(chance):
    """20 bits that a counter is set to: close to their wrap, or anywhere."""
    return low(chance.choice((chance.randint(-4098, 4098), chance.getrandbits(20))), 20)


def drawn_counter(chance):
    """A counter: its low 20 bits about their wrap or anywhere, its high 12 few, all or any."""
    high = chance.choice((0, 0, 1, 4095, chance.getrandbits(12)))
    return high << 20 | pass_number(chance)


def timer(chance, counter):
    """A TIMER, and the counter after it: mostly a Linger close to where waiting begins."""
    kind = chance.choice((0b00, 0b01, 0b10, 0b10, 0b11))
    left = {0b01: pass_number(chance), 0b11: 0}.get(kind, counter)
    number = left if kind == 0b01 else left - chance.choice(BEHIND + (chance.getrandbits(20),))
    rest = noise(chance, 29, 30, 33, 34, 35)
    return code("00010") | data(number) | put(31, 32, kind) | rest, left


def passing_timer(chance, counter):
    """A TIMER that doesn't wait, and the counter after it."""
    while True:
        command, left = timer(chance, counter)
        kind, number = command >> 3 & 0b11, command >> 12
        if kind < 0b10 or low(left - number, 20) <= 4096:
            return command, left


# Commands that are refused

def bad_misc(chance):
    """S, or RR 10 or 11."""
    kinds = (put(35, 35, 1), put(29, 30, 0b10), put(29, 30, 0b11), put(29, 30, 0b11) | 1)
    return misc(chance) & ~put(29, 30, 0b11) | chance.choice(kinds)


def bad_delay(chance):
    """DLY with UU 11, or of Z with a P that is not built."""
    if chance.randrange(3):
        return delay(chance, 0b10, chance.choice(OTHER_P))
    return delay(chance, 0b11, chance.randrange(16))


def bad_ticks(chance):
    """Bit 31 set: an unused code."""
    return ticks(chance) | put(31, 31, 1)


def many_ticks(chance):
    """A T of 257 and more, so that question 4 refuses it, now and then 3 before it."""
    number = chance.choice((256, 257, 511, 512, 768, 1023, chance.randint(256, 1023)))
    bit = put(31, 31, 1) if not chance.randrange(4) else 0
    return (code("00011") | put(14, 23, number) | bit
            | noise(chance, *range(4, 14), 29, 30, 33, 34, 35))


def bad_gmode(chance):
    """A run mode or an oscillator mode that is not built."""
    runs = tuple(set(range(16)) - set(layout.RUN_MODES))
    oscillators = tuple(set(range(16)) - set(layout.OSCILLATOR_MODES))
    if chance.randrange(2):
        return gmode(chance.choice(runs), chance.choice(layout.OSCILLATOR_MODES), chance)
    return gmode(chance.choice(tuple(layout.RUN_MODES)), chance.choice(oscillators), chance)


def bad_mmode(chance):
    """A function that is not built."""
    return mmode(chance.choice(tuple(set(range(32)) - set(FORMULAS))), chance)


def bad_addresses(chance):
    """Top bits 11 of MRM, of MIN, or of both; a good one may be disabled."""
    high = chance.choice((192, 193, 255, chance.randint(192, 255)))
    which = chance.randrange(3)
    mrm, min_ = (high if which != 1 else address(chance)), (high if which != 0 else address(chance))
    bits = (put(5, 5, 1), put(4, 4, 1), 0)[which] if chance.randrange(2) else 0
    return addresses(mrm, min_, chance) | bits


REFUSED = (bad_misc, bad_misc, bad_delay, bad_delay, bad_ticks, many_ticks, many_ticks, bad_gmode,
           bad_mmode, bad_addresses)


# Lists of commands

def commands_of(chance, count, counter, waiting):
    """So many commands that pass their questions; a Linger waits only where waiting is true."""
    made = []
    for _ in range(count):
        kind = chance.randrange(20)
        if kind == 0:
            made.append(misc(chance))
        elif kind == 1:
            made.append(ticks(chance))
        elif kind == 2:
            made += both_ticks(chance)
        elif kind < 6:
            command, counter = (timer if waiting else passing_timer)(chance, counter)
            made.append(command)
        else:
            made.append(chance.choice(LOADS)(chance))
    return made[:count]


def listed(chance, machine):
    """A list for a machine, with its name: its length by the limit, refused commands anywhere."""
    most = limit(machine)
    around = chance.choice((0, 0, most // 2, most - 1, most, most + 1, most + 3, 2 * most))
    count = min(max(around, 0), chance.choice((20, 20, 60, 1100)))
    commands = commands_of(chance, count, machine[layout.COUNTER], not chance.randrange(3))
    at = {"first": 0, "middle": len(commands) // 2, "at the limit": max(most - 1, 0),
          "past the limit": most}
    kind = chance.choice(("taken", "taken", "raw") + tuple(at))
    if kind in at:
        commands[at[kind]:at[kind]] = [chance.choice(REFUSED)(chance)]
    if kind == "raw":
        commands = [chance.getrandbits(32) for _ in commands]
    return commands, kind


# Machines

def put_ticks(chance, machine):
    """T and N so that the limit is negative, 0, small, 256, or as large as can be."""
    t = chance.choice((1, 1, 2, 255, 256, chance.randint(1, 256)))
    most = chance.choice((-300, -1, 0, 1, 2, 3, 5, 8, 8, 12, 20, 40, chance.randint(0, 40)))
    if not chance.randrange(60):
        most = chance.choice((256, 1016, chance.randint(40, 1016)))
    machine[layout.T], machine[layout.N] = t, min(max(t + 8 + most, 2), 1025)
    put_update_ticks(machine)


def put_lingering(chance, machine):
    """The counter about its wrap or anywhere; one of four lingers, at its pass or off it."""
    counter = drawn_counter(chance)
    machine[layout.COUNTER] = counter
    machine[layout.LINGERING] = int(not chance.randrange(4))
    off = chance.choice((0, 0, 0, 1, -1, 4096, -4096, chance.getrandbits(20)))
    machine[layout.LINGER_PASS] = low(counter + off, 20)
    machine[layout.OVERRUN] = int(not chance.randrange(4))
    machine[layout.DX] = biased(chance, 20)


def put_stopped(chance, machine):
    """Some generators in 0001 and 1001, for MISC; the first and the last are often among them."""
    for g in (0, 1, 254, 255, chance.randrange(256), chance.randrange(256)):
        mode = chance.choice((layout.PAUSE, layout.WAIT, None))
        if mode is not None:
            chance.text.put_mode(chance, machine, layout.generator_at(g), mode)


# The whole of the requests

def answered(request):
    """The request with the reference's answer."""
    return request, Answer(*run_update(request.machine, request.commands))


def chained(chance, machine, number):
    """Updates in a row on one machine, ticks and Linger changed between, then a damaged one."""
    for _ in range(chance.choice((4, 8, 12))):
        if chance.randrange(3):
            put_ticks(chance, machine)
        if chance.randrange(3):
            put_lingering(chance, machine)
        commands, name = listed(chance, machine)
        request, answer = answered(Request(machine, commands, name))
        yield request, answer
        machine = list(answer.machine)
    commands, _ = listed(chance, machine)
    other, name = damaged_machine(machine, number)
    yield answered(Request(other, commands, name))


def all_requests(count, seed):
    """So many requests, each with the reference's answer, one machine after the other."""
    chance = Chance(seed)
    pool = [whole_machine(chance) for _ in range(8)]
    made, number = 0, 0
    while made < count:
        machine = list(chance.choice(pool))
        put_stopped(chance, machine)
        for pair in chained(chance, machine, number):
            if made < count:
                yield pair
                made += 1
        number += 1
