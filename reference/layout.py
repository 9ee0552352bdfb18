"""Where each word of the machine stands, how wide it is, and the codes of its modes.

Every number of the layout has its home here. Names are those of the 1978 text.
"""

from typing import NamedTuple

MACHINE_WORDS = 4344

# Generator g has eleven words from 11g; below are their places within the eleven.
GENERATORS = 256
GENERATOR_WORDS = 11
GO, GJ, GK, GN, GM, GP, GQ, GL, GSUM, GFM, GMODE = range(GENERATOR_WORDS)
GENERATOR_NAMES = ("GO", "GJ", "GK", "GN", "GM", "GP", "GQ", "GL", "GSUM", "GFM", "GMODE")
GENERATOR_WIDTHS = (20, 28, 20, 11, 4, 20, 24, 12, 6, 7, 10)

# Modifier m has eight words from 2,816 + 8m; below are their places within the eight.
MODIFIERS = 128
MODIFIERS_AT = 2816
MODIFIER_WORDS = 8
M0, M1, L0, L1, MIN, MRM, MSUM, MMODE = range(MODIFIER_WORDS)
MODIFIER_NAMES = ("M0", "M1", "L0", "L1", "MIN", "MRM", "MSUM", "MMODE")
MODIFIER_WIDTHS = (30, 30, 20, 20, 8, 8, 7, 9)

# Sum memory: four quadrants of 64 words.
QUADRANT_WORDS = 64
GENERATOR_THIS = 3840
GENERATOR_LAST = 3904
MODIFIER_THIS = 3968
MODIFIER_LAST = 4032
SUM_WIDTH = 20

DACS_AT = 4096
DACS = 16

# The pass counter has 32 bits; a Linger names a pass by its low 20.
COUNTER_WIDTH = 32
LINGER_WIDTH = 20

DX = 4112
T = 4113
N = 4114
COUNTER = 4115
LINGERING = 4116
LINGER_PASS = 4117
OVERRUN = 4118

# Delay unit u has seven words from 4,119 + 7u; below are their places within the seven. The last
# three are words on their way to the modifier, next due first.
DELAY_UNITS = 32
DELAY_UNITS_AT = 4119
DELAY_UNIT_WORDS = 7
X, Y, Z, P, FIRST, SECOND, THIRD = range(DELAY_UNIT_WORDS)
DELAY_UNIT_NAMES = ("X", "Y", "Z", "P", "first word", "second word", "third word")
DELAY_UNIT_WIDTHS = (16, 16, 16, 4, 20, 20, 20)

# The count of commands that fit in a pass, worked out from T and N. A bench file names the places
# before it.
UPDATE_TICKS = 4343
FILE_PLACES = 4343

# Delay memory: words beside the machine, which a pass is handed.
MEMORY_WORDS = 65536
MEMORY_WIDTH = 20

T_LEAST, T_MOST = 1, 256
N_LEAST, N_MOST = 2, 1025
FRESH_T, FRESH_N = 1, 265
OVERHEAD_TICKS = 8

# Run modes, the left four bits of GMODE.
INACTIVE = 0b0000
PAUSE = 0b0001
RUNNING_A = 0b1111
RUNNING_B = 0b1110
RUNNING_C = 0b1101
WAIT = 0b1001
READ_DATA = 0b0111
WRITE_DATA = 0b0011
WRITE_DAC = 0b0010


class Switches(NamedTuple):
    """What is on in a run mode; a free envelope that is off has no meaning."""

    oscillator: bool
    envelope: bool
    free: bool
    adding: bool


RUN_MODES = {
    INACTIVE: Switches(False, False, False, False),
    PAUSE: Switches(False, False, False, False),
    RUNNING_A: Switches(True, True, False, True),
    RUNNING_B: Switches(True, True, True, True),
    RUNNING_C: Switches(True, True, True, True),
    WAIT: Switches(True, False, False, False),
    READ_DATA: Switches(False, True, False, False),
    WRITE_DATA: Switches(False, False, False, False),
    WRITE_DAC: Switches(False, False, False, False),
}

# Oscillator modes, the right four bits of GMODE.
SINE_OF_K = 0b0000
SAWTOOTH = 0b0001
SQUARE = 0b0010
PULSE_TRAIN = 0b0011
SUM_OF_COSINES = 0b0100
SINE_OF_J = 0b1000
OSCILLATOR_MODES = (SINE_OF_K, SAWTOOTH, SQUARE, PULSE_TRAIN, SUM_OF_COSINES, SINE_OF_J)

# Envelope modes, the two bits between; all four are built.
L_MINUS_Q = 0b00
L_PLUS_Q = 0b01
L_MINUS_EXPONENTIAL = 0b10
L_PLUS_EXPONENTIAL = 0b11

# Modifier functions, the left five bits of MMODE; 1978's list.
NO_FUNCTION = 0b00000
UNIFORM_NOISE = 0b00010
TRIGGERED_NOISE = 0b00011
LATCH = 0b00100
THRESHOLD = 0b00110
INVOKE_DELAY_UNIT = 0b00111
TWO_POLES = 0b01000
TWO_POLES_M0_VARIABLE = 0b01001
TWO_POLES_M1_VARIABLE = 0b01011
TWO_ZEROS = 0b01100
TWO_ZEROS_M0_VARIABLE = 0b01101
TWO_ZEROS_M1_VARIABLE = 0b01111
INTEGER_MIXING = 0b10000
ONE_POLE = 0b10001
MIXING = 0b10100
ONE_ZERO = 0b10110
FOUR_QUADRANT = 0b11000
AMPLITUDE_MODULATION = 0b11001
MAXIMUM = 0b11010
MINIMUM = 0b11011
SIGNUM = 0b11100
PULSER = 0b11101

# Functions whose A, in modifier-this, sees the writes of modifiers up to m-1.
LATE_A = frozenset((
    LATCH, ONE_ZERO, INVOKE_DELAY_UNIT,
    TWO_POLES, TWO_POLES_M0_VARIABLE, TWO_POLES_M1_VARIABLE,
    TWO_ZEROS, TWO_ZEROS_M0_VARIABLE, TWO_ZEROS_M1_VARIABLE,
))
# An early read of modifier m sees the writes up to m-4.
EARLY_DISTANCE = 4

# Modes of a delay unit, its P.
DELAY_INACTIVE = 0b0000
DELAY_LINE = 0b1000
TABLE = 0b1010
TABLE_ROUNDED = 0b1011
DELAY_MODES = (DELAY_INACTIVE, DELAY_LINE, TABLE, TABLE_ROUNDED)

# Top bits of MIN and MRM, and the quadrant each picks; 11 picks none.
MODIFIER_SOURCES = {0b00: GENERATOR_LAST, 0b01: MODIFIER_LAST, 0b10: MODIFIER_THIS}


def run_mode(gmode):
    """The run mode of a GMODE."""
    return gmode >> 6


def envelope_mode(gmode):
    """The envelope mode of a GMODE."""
    return gmode >> 4 & 0b11


def oscillator_mode(gmode):
    """The oscillator mode of a GMODE."""
    return gmode & 0b1111


def with_run_mode(gmode, mode):
    """The GMODE with another run mode, its other bits kept."""
    return mode << 6 | gmode & 0b111111


def run_mode_built(gmode):
    """Whether the run mode of a GMODE is built."""
    return run_mode(gmode) in RUN_MODES


def oscillator_mode_built(gmode):
    """Whether the oscillator mode of a GMODE is built."""
    return oscillator_mode(gmode) in OSCILLATOR_MODES


def function(mmode):
    """The function of an MMODE."""
    return mmode >> 4


def left_scale(mmode):
    """AA, the left scale of an MMODE."""
    return mmode >> 2 & 0b11


def right_scale(mmode):
    """BB, the right scale of an MMODE."""
    return mmode & 0b11


def source_quadrant(address):
    """The top bits of a MIN or MRM."""
    return address >> 6


def sum_address(address):
    """The place within a quadrant that a GFM, MIN, MRM or MSUM names."""
    return address & 0b111111


def delay_unit(mrm):
    """The delay unit that an MRM names in function 00111."""
    return mrm & 0b11111


def modulation_place(gfm):
    """The machine word at GFM: top bit 0 generator-last, 1 modifier-last."""
    quadrant = MODIFIER_LAST if gfm >> 6 else GENERATOR_LAST
    return quadrant + sum_address(gfm)


def replaces(msum):
    """Whether MSUM's top bit asks for replacing."""
    return msum >> 6 == 1


def generator_at(g):
    """The place of the first word of generator g."""
    return GENERATOR_WORDS * g


def modifier_at(m):
    """The place of the first word of modifier m."""
    return MODIFIERS_AT + MODIFIER_WORDS * m


def delay_unit_at(u):
    """The place of the first word of delay unit u."""
    return DELAY_UNITS_AT + DELAY_UNIT_WORDS * u
