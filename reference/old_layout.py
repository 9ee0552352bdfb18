"""The codes and fields of the older text's modes.

The words of its machine stand where layout.py has them, and all but GMODE have the same widths.
Names are those of layout.py.
"""

from reference import layout

GMODE_WIDTH = 8
GENERATOR_WIDTHS = (*layout.GENERATOR_WIDTHS[:layout.GMODE], GMODE_WIDTH)

# Run modes, the left three bits of GMODE, each with the one of 1978 that it is switched as.
INACTIVE = 0b000
PAUSE = 0b001
RUNNING_A = 0b010
RUNNING_B = 0b011
WAIT = 0b100
RUNNING_C = 0b101
READ_DATA = 0b110
SEND = 0b111
SWITCHED_AS = {
    INACTIVE: layout.INACTIVE, PAUSE: layout.PAUSE, RUNNING_A: layout.RUNNING_A,
    RUNNING_B: layout.RUNNING_B, WAIT: layout.WAIT, RUNNING_C: layout.RUNNING_C,
    READ_DATA: layout.READ_DATA, SEND: layout.WRITE_DAC,
}
RUN_MODES = {mode: layout.RUN_MODES[other] for mode, other in SWITCHED_AS.items()}

# Envelope modes, the two bits between.
L_PLUS_Q = 0b00
L_MINUS_Q = 0b01
L_PLUS_EXPONENTIAL = 0b10
L_MINUS_EXPONENTIAL = 0b11

# Oscillator modes, the right three bits; the sum of cosines is built in run mode 000 alone.
SUM_OF_COSINES = 0b000
SQUARE = 0b001
SAWTOOTH = 0b010
PULSE_TRAIN = 0b011
COSINE_OF_K = 0b100
COSINE_OF_J = 0b101
OSCILLATOR_MODES = (SUM_OF_COSINES, SQUARE, SAWTOOTH, PULSE_TRAIN, COSINE_OF_K, COSINE_OF_J)

# Of a GN in run mode 111 the top bit is its sign, the low four are the DAC number.
GN_SIGN = 1 << 10

# Modifier functions, the left five bits of MMODE.
NO_FUNCTION = 0b00000
MIXING = 0b00001
LATCH = 0b00010
PULSER = 0b00011
AMPLITUDE_MODULATION = 0b00100
FOUR_QUADRANT = 0b00101
MINIMUM = 0b00110
MAXIMUM = 0b00111
TWO_POLES = 0b01000
TWO_POLES_M0_VARIABLE = 0b01001
TWO_POLES_M1_VARIABLE = 0b01010
TWO_ZEROS = 0b01100
TWO_ZEROS_M0_VARIABLE = 0b01101
TWO_ZEROS_M1_VARIABLE = 0b01110
UNIFORM_NOISE = 0b10000
# Named there, the first without a step, and not built.
NOISE_WHEN_INPUT = 0b10001
DELAY_UNIT = 0b10100

# Functions whose A, in modifier-this, sees the writes of modifiers up to m-1.
LATE_A = frozenset((
    LATCH, TWO_POLES, TWO_POLES_M0_VARIABLE, TWO_POLES_M1_VARIABLE,
    TWO_ZEROS, TWO_ZEROS_M0_VARIABLE, TWO_ZEROS_M1_VARIABLE,
))

# A trigger reaches the generator whose number is so much higher.
TRIGGER_DISTANCE = 2


def run_mode(gmode):
    """The run mode of a GMODE."""
    return gmode >> 5


def envelope_mode(gmode):
    """The envelope mode of a GMODE."""
    return gmode >> 3 & 0b11


def oscillator_mode(gmode):
    """The oscillator mode of a GMODE."""
    return gmode & 0b111


def with_run_mode(gmode, mode):
    """The GMODE with another run mode, its other bits kept."""
    return mode << 5 | gmode & 0b11111


def gn_negative(gn):
    """Whether a GN has its sign."""
    return gn & GN_SIGN != 0


def dac_of(gn):
    """The DAC that a GN names."""
    return gn % layout.DACS
