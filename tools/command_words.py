"""Commands in words: which words of the machine each sets, and after which pass it is taken.

What a command does is the reference's (reference/update.py). Passes are counted from 1 as they are rung; nothing is rung here, since
when a command is taken depends on T, N, the pass counter and Lingers alone.
"""

import math
from typing import NamedTuple

from machine_words import UNITS, name_of
from partials import TICK
from reference import layout
from reference.machine import update_ticks
from reference.old import OLD
from reference.text import OF_1978
from reference.update import CODES, command_refusal, data, delay_unit_word, field, generator_word, low_20, modifier_word, still_lingering, take_command
from reference.words import signed
from registers import RUN_WORDS, envelope_code, function_of, plain, run_code, t60, wave_of

SIGNED = {"GO": 20, "GJ": 28, "GK": 20, "GP": 20, "M0": 30, "M1": 30, "L0": 20, "L1": 20}
DELAY_MODES = {layout.DELAY_INACTIVE: "inactive", layout.DELAY_LINE: "delay line", layout.TABLE: "table", layout.TABLE_ROUNDED: "table, rounded"}
QUADRANT_NAMES = ("generator-last", "modifier-last", "modifier-this")
MISC, DLY, TIMER, TICKS = "00000", "00001", "00010", "00011"
GENERATOR_CODES = range(2, 12)  # the four bits of every command that names a generator
MODIFIER_CODES = range(12, 16)  # and of every one that names a modifier
TIMERS = {0b00: "TIMER with TT 00: sets nothing", 0b01: "sets the pass counter", 0b10: "Linger", 0b11: "clears the pass counter; Linger"}


class Taken(NamedTuple):
    """A command: its line in the file, itself, after which pass it is taken (0: never), the seconds that have gone by then, and what it does in words."""
    line: int
    command: int
    after: int
    at: float
    words: str
    places: tuple


class Course(NamedTuple):
    """How the commands of a file are taken: each one, the refusal that ends the ringing (line, number, pass) or nothing, and what the settings have been."""
    taken: list
    refused: tuple
    values: dict
    t_most: int
    seconds: float


def code_of(command):
    """The bits of a command's code."""
    bits = format(field(command, 24, 28), "05b")
    return next(bits[:length] for length in (3, 4, 5) if bits[:length] in CODES)


def names_generator(command):
    """The generator that a command names, or None."""
    return command & 0xFF if (command >> 8 & 0xF) in GENERATOR_CODES else None


def names_modifier(command):
    """The modifier that a command names, or None."""
    return command & 0x7F if (command >> 8 & 0xF) in MODIFIER_CODES else None


def on(command, *pairs):
    """The registers whose disabling bit is 0."""
    return [register for bit, register in pairs if not field(command, bit, bit)]


def places_set(command):
    """The places that a command sets, in words that a file may name. MISC's W and P aside."""
    code = code_of(command)
    generator = {"001": [layout.GQ], "010": [layout.GJ], "0110": [layout.GP], "0111": on(command, (4, layout.GN), (5, layout.GM)), "1000": on(command, (4, layout.GL), (5, layout.GSUM)),
                 "1001": [layout.GK], "1011": [layout.GO]}
    if code in generator:
        return [generator_word(command, register) for register in generator[code]]
    if code == "1010":
        return [generator_word(command, register) for register in on(command, (4, layout.GMODE), (5, layout.GFM)) + ([layout.GK] if field(command, 6, 6) else [])]
    modifier = {"110": [layout.M1 if field(command, 28, 28) else layout.M0], "1110": [layout.L1 if field(command, 28, 28) else layout.L0],
                "11110": ([layout.MMODE] if not field(command, 4, 4) or not field(command, 7, 7) else []) + on(command, (5, layout.MSUM)) + ([layout.L0] if field(command, 6, 6) else []),
                "11111": on(command, (4, layout.MRM), (5, layout.MIN)) + ([layout.L1] if field(command, 6, 6) else [])}
    if code in modifier:
        return [modifier_word(command, register) for register in modifier[code]]
    if code == DLY:
        return [delay_unit_word(command, register) for register in {0b00: (layout.X, layout.Y), 0b01: (layout.Y,), 0b10: (layout.Z, layout.P)}.get(field(command, 29, 30), ())]
    if code == TICKS:
        return [layout.N if field(command, 32, 32) else layout.T]
    if code == MISC:
        return [layout.DX] if field(command, 29, 30) == 0b01 else []
    return [layout.COUNTER] if field(command, 31, 32) & 1 else []


def register_of(place):
    """The register's name of a place, or nothing."""
    for start, count, names, _ in UNITS:
        if start <= place < start + count * len(names):
            return names[(place - start) % len(names)]
    return ""


def address(value):
    """The word at a MIN, MRM or GFM of three quadrants."""
    return f"{QUADRANT_NAMES[value >> 6]} sum word {value & 63}"


def value_words(place, value, rate, text=OF_1978):
    """A word's value, with what it comes to."""
    register = register_of(place)
    number = signed(value, SIGNED[register]) if register in SIGNED else value
    if register == "GJ":
        return f"{number} ({signed(value >> 8, 20) / 2 ** 20 * rate:.3f} Hz)"
    if register == "GP" and number:
        return f"{number} (an exponential {'falls' if number > 0 else 'rises'} by 60 dB in {plain(t60(number, rate))} s)"
    if register == "GMODE":
        mode = RUN_WORDS[layout.run_mode(value)] if text is OF_1978 else run_code(OLD, value)
        return f"{value} ({run_code(text, value)}: {mode}; {wave_of(text, value)}; envelope {envelope_code(text, value)})"
    if register == "GFM":
        return f"{value} ({'modifier' if value >> 6 else 'generator'}-last sum word {value & 63})"
    if register in ("MIN", "MRM"):
        return f"{value} ({address(value)})"
    if register == "MSUM":
        return f"{value} ({'replaces' if value >> 6 else 'adds into'} sum word {value & 63})"
    if register == "MMODE":
        return f"{value} ({function_of(text, value).name}, AA {value >> 2 & 3}, BB {value & 3})"
    if register == "P":
        return f"{value} ({DELAY_MODES[value]})"
    return str(number)


def linger_words(machine, number, waits, overran):
    """How a Linger goes."""
    if waits:
        return f"Linger: waits until the pass counter is {number}"
    return f"Linger for pass {number}, " + ("which has gone by: overrun is set, nothing waits" if overran else "which is this one: nothing waits")


def words_of(command, before, after, waits, names, rate):
    """What a command does, by the machine before and after it."""
    code, said = code_of(command), []
    if code == TIMER:
        kind = field(command, 31, 32)
        if kind == 0b00:
            return TIMERS[kind]
        if kind & 1:
            said.append(f"the pass counter := {after[layout.COUNTER]}")
        if kind & 2:
            said.append(linger_words(after, data(command), waits, after[layout.COUNTER] & 0xFFFFF != data(command)))
        return "; ".join(said)
    said += [f"{name_of(place, names)} := {value_words(place, after[place], rate)}" for place in places_set(command)]
    if code == MISC:
        said += [words for bit, words in ((33, "all generators that wait run (1111)"), (34, "all generators that pause run (1111)")) if field(command, bit, bit)]
    if code == TICKS:
        said.append(f"{update_ticks(after[layout.T], after[layout.N])} commands fit in a pass then")
    if before[layout.DX] and not after[layout.DX] and code != MISC:
        said.append("its low bits from DX, which is 0 then")
    return "; ".join(said) or "sets nothing"


class Settings:
    """The values that each place has been set to, by the file and by the commands that are taken."""

    def __init__(self, machine):
        self.first, self.later = machine, {}

    def add(self, place, value):
        self.later.setdefault(place, set()).add(value)

    def of(self, place):
        return {self.first[place]} | self.later.get(place, set())


def wait_over(machine, after, passes):
    """After how many passes a lingering machine takes commands again, or one more than are rung."""
    left = (machine[layout.LINGER_PASS] - low_20(machine[layout.COUNTER])) % (1 << 20)
    return min(after + left, passes + 1)


def course(bench_file, passes):
    """How the commands are taken in so many passes."""
    machine, left = list(bench_file.machine), list(bench_file.commands)
    settings, taken, after, seconds, t_most = Settings(bench_file.machine), [], 0, 0.0, bench_file.t
    refused = None
    while left and not refused:
        step = 1
        machine[layout.COUNTER] = (machine[layout.COUNTER] + 1) % 2 ** 32
        if machine[layout.LINGERING] and still_lingering(machine):
            step = wait_over(machine, after + 1, passes) - after
            machine[layout.COUNTER] = (machine[layout.COUNTER] + step - 1) % 2 ** 32
        after, seconds = after + step, seconds + step * machine[layout.N] * TICK
        ticks = update_ticks(machine[layout.T], machine[layout.N])
        if after > passes or not ticks and not machine[layout.LINGERING]:
            break
        machine[layout.LINGERING] = 0
        for line, command in left[:ticks]:
            if number := command_refusal(command):
                refused = (line, number, after)
                break
            before = list(machine)
            waits = take_command(machine, command)
            rate = 1 / (TICK * machine[layout.N])
            places = tuple(places_set(command))
            taken.append(Taken(line, command, after, seconds, words_of(command, before, machine, waits, bench_file.names, rate), places))
            left = left[1:]
            for place in places:
                settings.add(place, machine[place])
            if code_of(command) == MISC:
                note_all_runs(settings, command)
            t_most = max(t_most, machine[layout.T])
            if waits:
                break
    rest = [Taken(line, command, 0, math.inf, "never taken", ()) for line, command in left]
    return Course(taken + rest, refused, settings, t_most, seconds)


def note_all_runs(settings, command):
    """MISC's W and P: what may wait or pause then may run."""
    old_modes = ([layout.WAIT, layout.RUNNING_C] if field(command, 33, 33) else []) + ([layout.PAUSE] if field(command, 34, 34) else [])
    for g in range(layout.GENERATORS if old_modes else 0):
        place = layout.generator_at(g) + layout.GMODE
        for gmode in list(settings.of(place)):
            if layout.run_mode(gmode) in old_modes:
                settings.add(place, layout.with_run_mode(gmode, layout.RUNNING_A))
