"""What registers come to, in words and numbers: modes, waves, pitches, levels, envelopes, a modifier's formula and coefficients.

Codes are said as the file's own text has them. What a register does is the reference's; here it is put into Hz, dB and seconds.
"""

import math
import re
from functools import lru_cache
from typing import NamedTuple

from partials import FULL, HALVING, wave_peak
from reference import layout
from reference import old_layout as old
from reference.generator import sum_of_cosines
from reference.old import OLD
from reference.words import signed

ENVELOPE_RANGE = 1 << 24
HALVING_OF_GQ = 1 << 20  # the exponential halves for each so much of GQ
NOTES = ("C", "C#", "D", "D#", "E", "F", "F#", "G", "G#", "A", "A#", "B")
A4_HZ, A4_NOTE = 440.0, 57  # notes are counted from C0

RUN_WORDS = {
    layout.INACTIVE: "inactive", layout.PAUSE: "pauses", layout.RUNNING_A: "runs; its envelope stays at its end",
    layout.RUNNING_B: "runs; its envelope begins anew at its end and triggers", layout.RUNNING_C: "runs to its envelope's end, triggers there and waits",
    layout.WAIT: "waits", layout.READ_DATA: "reads data", layout.WRITE_DATA: "writes data", layout.WRITE_DAC: "feeds a DAC",
}
WAVES = {
    layout.SINE_OF_K: "sine", layout.SAWTOOTH: "sawtooth", layout.SQUARE: "square", layout.PULSE_TRAIN: "pulse train",
    layout.SUM_OF_COSINES: "sum of cosines", layout.SINE_OF_J: "sine of J",
}
OLD_WAVES = {
    old.SUM_OF_COSINES: "sum of cosines", old.SQUARE: "square", old.SAWTOOTH: "sawtooth", old.PULSE_TRAIN: "pulse train",
    old.COSINE_OF_K: "cosine", old.COSINE_OF_J: "cosine of J",
}
OF_J = ("sine of J", "cosine of J")
SINES = ("sine", "cosine", *OF_J)
# Whether GQ is added to GL, and whether by its exponential.
ENVELOPES = {layout.L_MINUS_Q: (False, False), layout.L_PLUS_Q: (True, False), layout.L_MINUS_EXPONENTIAL: (False, True), layout.L_PLUS_EXPONENTIAL: (True, True)}
OLD_ENVELOPES = {old.L_MINUS_Q: (False, False), old.L_PLUS_Q: (True, False), old.L_MINUS_EXPONENTIAL: (False, True), old.L_PLUS_EXPONENTIAL: (True, True)}


# A GMODE

def run_code(text, gmode):
    """The run mode's bits as its text has them."""
    return f"{old.run_mode(gmode):03b}" if text is OLD else f"{layout.run_mode(gmode):04b}"


def wave_of(text, gmode):
    """The name of a wave."""
    return OLD_WAVES[old.oscillator_mode(gmode)] if text is OLD else WAVES[layout.oscillator_mode(gmode)]


def wave_code(text, gmode):
    """The oscillator mode's bits."""
    return f"{old.oscillator_mode(gmode):03b}" if text is OLD else f"{layout.oscillator_mode(gmode):04b}"


def envelope_of(text, gmode):
    """Whether GQ is added to GL (else it is taken from it), and whether by its exponential."""
    return OLD_ENVELOPES[old.envelope_mode(gmode)] if text is OLD else ENVELOPES[layout.envelope_mode(gmode)]


def envelope_code(text, gmode):
    """The envelope mode's bits."""
    return f"{old.envelope_mode(gmode) if text is OLD else layout.envelope_mode(gmode):02b}"


# Numbers

def plain(number):
    """A number with up to six digits."""
    return f"{number:.6g}"


def decibels(peak, full=FULL):
    """A peak in dB; the most that one generator gives is 0."""
    return 20 * math.log10(peak / full) if peak > 0 else -math.inf


def note_of(hz):
    """The nearest note of the tempered scale (A4 has 440 Hz) and the cents from it."""
    steps = 12 * math.log2(hz / A4_HZ) + A4_NOTE
    note = round(steps)
    return f"{NOTES[note % 12]}{note // 12}", round(100 * (steps - note), 1) + 0.0


@lru_cache(maxsize=None)
def cosines_most(gn, gm):
    """The greatest magnitude of a sum of cosines."""
    return max(abs(sum_of_cosines(k, gn, gm)) for k in range(-4096, 4096))


@lru_cache(maxsize=None)
def wave_most(text, gmode, gn, gm):
    """The greatest magnitude of W."""
    wave, half = wave_of(text, gmode), 1 if text is OLD else 0
    if wave in SINES:
        return 4095 >> half + gm
    if wave == "sum of cosines":
        return 0 if text is OLD else cosines_most(gn, gm)
    return {"sawtooth": 2048 if half else 4095, "square": 2048 >> half, "pulse train": 2048 >> half}[wave]


@lru_cache(maxsize=None)
def wave_level(text, gmode, gn, gm):
    """What a wave's level goes by: of a sine the amplitude of its fundamental, of others their peak."""
    if wave_of(text, gmode) in SINES:
        return wave_peak(gm + (1 if text is OLD else 0))
    return wave_most(text, gmode, gn, gm)


class Envelope(NamedTuple):
    """How an envelope goes: V at first and at its end, after so many passes (None: it never ends), GQ there, and whether V wraps on its way."""
    first: int
    last: int
    passes: int
    end: int
    wraps: bool


def envelope(text, words):
    """How the envelope of a generator goes if nothing sets its registers: as many steps as fit into GQ's range."""
    gp, gq, gl, gmode = signed(words[layout.GP], 20), words[layout.GQ], words[layout.GL], words[layout.GMODE]
    first = text.envelope(gmode, gl, gq)
    if gp == 0:
        return Envelope(first, first, None, gq, False)
    passes = (ENVELOPE_RANGE - 1 - gq) // gp if gp > 0 else gq // -gp
    end = gq + passes * gp
    plus, _ = envelope_of(text, gmode)
    # Without GL the envelope gives Q itself: V wraps where GL and Q leave 12 bits.
    sums = [gl + (1 if plus else -1) * quiet(text, gmode, q) for q in (gq, end)]
    return Envelope(first, text.envelope(gmode, gl, end), passes, end, not all(0 <= value < 4096 for value in sums))


def quiet(text, gmode, gq):
    """Q of an envelope, by V with GL 0."""
    plus, _ = envelope_of(text, gmode)
    v = text.envelope(gmode, 0, gq)
    return v if plus else -v % 4096


def t60(gp, rate):
    """The seconds in which an exponential envelope falls or rises by 60 dB."""
    return 60 / HALVING * HALVING_OF_GQ / (rate * abs(gp)) if gp else math.inf


def is_decay(text, words):
    """Whether V is the exponential of GQ alone, so that levels go by dB."""
    return envelope_of(text, words[layout.GMODE]) == (True, True) and words[layout.GL] == 0


def time_words(seconds_):
    """A time: to the millisecond, short ones with three digits."""
    return f"{seconds_:.3f} s" if seconds_ >= 0.1 else f"{seconds_:.3g} s"


def seconds(passes, rate):
    """A time by its passes."""
    return time_words(passes / rate)


# A modifier

class Function(NamedTuple):
    """A modifier's function: its name, its formula with coefficients to be filled in, and what it takes of A, B, L0 and L1."""
    name: str
    formula: str
    takes: str


TWO_POLES = "S := {c1}*L1 + {c0}*L0 + A; L0 := L1; L1 := S"
TWO_ZEROS = "S := {c1}*L1 + {c0}*L0 + A; L0 := L1; L1 := A"
OLD_TWO_POLES = "S := {c1}*L0 + {c0}*L1 + A; L0 := L1; L1 := S"
OLD_TWO_ZEROS = "S := {c1}*L0 + {c0}*L1 + A; L0 := L1; L1 := A"
INACTIVE = Function("inactive", "S := 0", "")
NOISE = Function("uniform noise", "S := L0 + {i0}*L1 in whole numbers; L1 := S", "L0 L1")
LATCH = Function("latch", "S := L1; if {c1}*B isn't 0, L1 := A", "A B L1")
MIXING = Function("mixing", "S := {c0}*A + {c1}*B", "A B")
AMPLITUDE = Function("amplitude modulation", "S := {c1}*L1; L1 := {k}*A*(B+1)/2", "A B L1")
FOUR_QUADRANT = Function("four-quadrant product", "S := {c1}*L1; L1 := {k}*A*B", "A B L1")
MINIMUM = Function("minimum", "S := the lesser of {c0}*A and {c1}*B", "A B")
MAXIMUM = Function("maximum", "S := the greater of {c0}*A and {c1}*B", "A B")
PULSER = Function("zero-crossing pulser", "S := -1 where {c0}*B has crossed 0 since {c1}*L1, else 0; L1 := {c0}*B", "B L1")

FUNCTIONS = {
    layout.NO_FUNCTION: INACTIVE, layout.UNIFORM_NOISE: NOISE,
    layout.TRIGGERED_NOISE: Function("triggered uniform noise", "S := L0 + {i0}*L1 in whole numbers; if {i1}*B isn't 0, L1 := S", "B L0 L1"),
    layout.LATCH: LATCH,
    layout.THRESHOLD: Function("threshold", "S := 0 if {c0}*A + L0 is below 0, else {c1}*B", "A B L0"),
    layout.INVOKE_DELAY_UNIT: Function("invokes a delay unit", "S := L0 + {c0}*L1; L0 := D; L1 := A + {c1}*D, which goes into delay unit {unit}; D comes out of it", "A L0 L1"),
    layout.TWO_POLES: Function("two poles", TWO_POLES, "A L0 L1"),
    layout.TWO_POLES_M0_VARIABLE: Function("two poles, M0 variable", TWO_POLES + "; M0 := M0 + B", "A B L0 L1"),
    layout.TWO_POLES_M1_VARIABLE: Function("two poles, M1 variable", TWO_POLES + "; M1 := M1 + B", "A B L0 L1"),
    layout.TWO_ZEROS: Function("two zeros", TWO_ZEROS, "A L0 L1"),
    layout.TWO_ZEROS_M0_VARIABLE: Function("two zeros, M0 variable", TWO_ZEROS + "; M0 := M0 + B", "A B L0 L1"),
    layout.TWO_ZEROS_M1_VARIABLE: Function("two zeros, M1 variable", TWO_ZEROS + "; M1 := M1 + B", "A B L0 L1"),
    layout.INTEGER_MIXING: Function("integer mixing", "S := {i0}*A + {i1}*B in whole numbers", "A B"),
    layout.ONE_POLE: Function("one pole", "S := {c1}*L1 + {k}*B*L0; L1 := S", "B L0 L1"),
    layout.MIXING: MIXING,
    layout.ONE_ZERO: Function("one zero", "S := {c1}*L1 + {c0}*L0; L0 := L1; L1 := A", "A L0 L1"),
    layout.FOUR_QUADRANT: FOUR_QUADRANT, layout.AMPLITUDE_MODULATION: AMPLITUDE, layout.MAXIMUM: MAXIMUM, layout.MINIMUM: MINIMUM,
    layout.SIGNUM: Function("signum", "S := -1, 0 or 1 as {c0}*A is below, at or above {c1}*B", "A B"),
    layout.PULSER: PULSER,
}
OLD_FUNCTIONS = {
    old.NO_FUNCTION: INACTIVE, old.MIXING: MIXING, old.LATCH: LATCH, old.PULSER: PULSER, old.AMPLITUDE_MODULATION: AMPLITUDE, old.FOUR_QUADRANT: FOUR_QUADRANT,
    old.MINIMUM: MINIMUM, old.MAXIMUM: MAXIMUM, old.TWO_POLES: Function("two poles", OLD_TWO_POLES, "A L0 L1"),
    old.TWO_POLES_M0_VARIABLE: Function("two poles, M0 variable", OLD_TWO_POLES + "; M0 := M0 + B", "A B L0 L1"),
    old.TWO_POLES_M1_VARIABLE: Function("two poles, M1 variable", OLD_TWO_POLES + "; M1 := M1 + B", "A B L0 L1"),
    old.TWO_ZEROS: Function("two zeros", OLD_TWO_ZEROS, "A L0 L1"),
    old.TWO_ZEROS_M0_VARIABLE: Function("two zeros, M0 variable", OLD_TWO_ZEROS + "; M0 := M0 + B", "A B L0 L1"),
    old.TWO_ZEROS_M1_VARIABLE: Function("two zeros, M1 variable", OLD_TWO_ZEROS + "; M1 := M1 + B", "A B L0 L1"),
    old.UNIFORM_NOISE: NOISE,
}


def function_of(text, mmode):
    """The function of an MMODE."""
    return (OLD_FUNCTIONS if text is OLD else FUNCTIONS)[layout.function(mmode)]


class Coefficients(NamedTuple):
    """What M0 and M1 multiply by, in fractions (c) and in whole numbers (i), and what a product of two signals is multiplied by."""
    c0: float
    c1: float
    i0: float
    i1: float
    k: float


def coefficients(text, words):
    """A modifier's coefficients with their scales. A product of signals has 2^19 as its 1."""
    aa, bb = layout.left_scale(words[layout.MMODE]), layout.right_scale(words[layout.MMODE])
    second, first = (bb, aa) if text is OLD else (aa, bb)
    m0, m1 = (signed(words[register] >> 10, 20) for register in (layout.M0, layout.M1))
    whole = 1 if text is OLD else 4
    return Coefficients(m0 * 2 ** second / 2 ** 19, m1 * 2 ** first / 2 ** 19, m0 * 2 ** second / whole, m1 * 2 ** first / whole, 2 ** second)


def is_taken(text, words, name):
    """Whether an input counts in a modifier's formula: it isn't only multiplied by a coefficient that is 0."""
    function, numbers = function_of(text, words[layout.MMODE]), coefficients(text, words)._asdict()
    if name not in function.takes.split():
        return False
    by = re.findall(rf"\{{([ci][01])\}}\*{name}\b", function.formula)
    return len(by) < len(re.findall(rf"\b{name}\b", function.formula)) or any(numbers[coefficient] for coefficient in by)


def formula(text, words):
    """A modifier's formula with its coefficients as numbers."""
    numbers = {name: plain(value) for name, value in coefficients(text, words)._asdict().items()}
    return function_of(text, words[layout.MMODE]).formula.format(unit=layout.delay_unit(words[layout.MRM]), **numbers)
