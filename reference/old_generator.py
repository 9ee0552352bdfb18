"""One generator's turn by the older text, where it has a step of its own."""

from reference import old_layout as old
from reference.faults import faults
from reference.generator import Steps, level as level_of_1978, turn_by
from reference.layout import L_MINUS_Q as LINEAR
from reference.tables import exponential_table, sine
from reference.words import low, signed

HALF_SCALE = 1024
# The exponential is document 01's, of so many entries.
EXPONENTIALS = 256
# Our sine has so many low bits more than that text's results.
SINE_BITS_DROPPED = 1
SINE_PERIOD = 8192
QUARTER_PERIOD = 2048


def angle(e):
    """K: the high 12 bits of E, signed."""
    return signed(e >> 7, 13) if faults.old_k_of_13_bits else signed(e >> 8, 12)


def cosine(k, gm):
    """The cosine of K, 12 bits signed, its magnitude shifted right GM places."""
    ahead = 0 if faults.old_sine_for_cosine else QUARTER_PERIOD
    negative, magnitude = sine((2 * k + ahead) % SINE_PERIOD)
    dropped = 0 if faults.old_cosine_low_bit_kept else SINE_BITS_DROPPED
    shifted = magnitude >> dropped + gm
    return -shifted if negative else shifted


def wave(gmode, e, gn, gm, left_range):
    """W by the oscillator mode, 12 bits signed. The sum of cosines is never heard: 0."""
    mode, k = old.oscillator_mode(gmode), angle(e)
    square, sawtooth = old.SQUARE, old.SAWTOOTH
    if faults.old_square_sawtooth_exchanged:
        square, sawtooth = sawtooth, square
    if mode == square:
        return -HALF_SCALE if k < 0 else HALF_SCALE
    if mode == sawtooth:
        return k
    if mode == old.PULSE_TRAIN:
        return HALF_SCALE if left_range else 0
    return 0 if mode == old.SUM_OF_COSINES else cosine(k, gm)


def exponential(h):
    """Document 01's exponential of 12 bits."""
    return exponential_table(EXPONENTIALS, EXPONENTIALS)[h % EXPONENTIALS] >> h // EXPONENTIALS


def level(mode, gq):
    """Q: the high 12 bits of GQ, or their exponential."""
    if mode in (old.L_PLUS_Q, old.L_MINUS_Q):
        return level_of_1978(LINEAR, gq)
    if faults.old_exponential_of_14_bits:
        return level_of_1978(old.L_PLUS_EXPONENTIAL, gq)
    return exponential(gq >> 12)


def envelope(gmode, gl, gq):
    """V, 12 bits unsigned, from GQ as it was before the decay."""
    mode = old.envelope_mode(gmode)
    q = level(mode, gq)
    plus = mode in (old.L_PLUS_Q, old.L_PLUS_EXPONENTIAL)
    if faults.old_envelope_signs_of_1978:
        plus = not plus
    return low(gl + q if plus else gl - q, 12)


def next_gmode(gmode, triggers, told):
    """The GMODE for the next pass: 101 that overflowed waits, 100 that was told runs."""
    mode = old.run_mode(gmode)
    if mode == old.RUNNING_C and triggers and not faults.old_runs_on_after_overflow:
        return old.with_run_mode(gmode, old.WAIT)
    if mode == old.WAIT and told:
        return old.with_run_mode(gmode, old.RUNNING_C)
    return gmode


STEPS = Steps(
    switches=lambda gmode, told: old.RUN_MODES[old.run_mode(gmode)],
    takes_j=lambda gmode: old.oscillator_mode(gmode) == old.COSINE_OF_J,
    wave=wave,
    envelope=envelope,
    next_gmode=next_gmode,
)


def sent(words, f, e):
    """What a generator in run mode 111 sends: its own angle E."""
    if faults.old_sends_f:
        return f
    return words[2] if faults.old_sends_gk else e


def generator_turn(words, f, told):
    """The eleven words afterwards, P, whether it triggers, and the word that 111 sends."""
    after, p, triggers, e = turn_by(STEPS, words, f, told)
    return after, p, triggers, sent(words, f, e)
