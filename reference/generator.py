"""One generator's turn, by the nine steps of document 01 with requests Q-4 and Q-5 of 02.

What the older text has in common with it stands here too: turn_by takes the steps that a text has
for itself.
"""

from typing import Callable, NamedTuple

from reference import layout
from reference.faults import faults
from reference.tables import exponential, sine
from reference.words import leaves_range, low, signed

SIGNED_K_LEAST = -4096
HALF_SCALE = 2048
COSINES_MOST = 4095


def acting_mode(gmode, told):
    """The run mode that acts in this pass: the one that the GMODE holds."""
    mode = layout.run_mode(gmode)
    if faults.trigger_in_own_pass and told and mode == layout.WAIT:
        return layout.RUNNING_C
    return mode


def modulated(gj, f):
    """Step 1: J, and whether the signed sum left its range."""
    total = signed(gj >> 8, 20) + signed(f, 20)
    return low(total, 20), leaves_range(total, 20)


def sweep(gj, go):
    """Step 2: GJ with the signed GO added into it."""
    return low(gj + signed(go, 20), 28)


def turned(gk, j):
    """Step 4: GK with J added into it, and whether the signed sum left its range."""
    total = signed(gk, 20) + signed(j, 20)
    return low(total, 20), leaves_range(total, 20)


def cosines_index(k, gn):
    """The index of s in 0100: 2p, where p is the low 12 bits of the signed K times GN."""
    if faults.gn_signed:
        gn = signed(gn, 11)
    p = low(k * gn, 11 if faults.p_of_11_bits else 12)
    return p if faults.index_p else 2 * p


def cosines_magnitude(s, d, gm):
    """The whole part of 4,095 times |s| over (|d| times 2^GM), at most 4,095."""
    if faults.cap_before_gm:
        return min(COSINES_MOST * s // d, COSINES_MOST) >> gm
    if faults.cosines_rounded_up:
        return min(-(-COSINES_MOST * s // (d << gm)), COSINES_MOST)
    return min(COSINES_MOST * s // (d << gm), COSINES_MOST)


def sum_of_cosines(k, gn, gm):
    """W in 0100: s is the sine at index 2p, d the sine at K; the sign is that of s times d."""
    s_negative, s = sine(cosines_index(k, gn))
    d_negative, d = sine(low(k, 13))
    magnitude = cosines_magnitude(s, d, gm)
    if faults.sign_of_s_alone:
        d_negative = False
    return -magnitude if s_negative != d_negative else magnitude


def wave(mode, k, gn, gm, left_range):
    """Step 6: W by the oscillator mode, from the signed K."""
    if mode == layout.SAWTOOTH:
        return 0 if k == SIGNED_K_LEAST else k
    if mode == layout.SQUARE:
        return -HALF_SCALE if k < 0 else HALF_SCALE
    if mode == layout.PULSE_TRAIN:
        return HALF_SCALE if left_range else 0
    if mode == layout.SUM_OF_COSINES:
        return sum_of_cosines(k, gn, gm)
    negative, magnitude = sine(low(k, 13))
    shifted = magnitude >> gm
    return -shifted if negative else shifted


def decay(gq, gp, free):
    """Step 7 with the envelope on: GQ afterwards, and whether it overflowed."""
    total = gq + signed(gp, 20)
    overflow = not 0 <= total < 1 << 24
    return (gq if overflow and not free else low(total, 24)), overflow


def level(mode, gq):
    """Q of step 8: the high 12 bits of GQ, or the exponential of its high 14."""
    if mode in (layout.L_MINUS_Q, layout.L_PLUS_Q):
        return gq >> (10 if faults.linear_of_14_bits else 12)
    return exponential(gq >> 12 << 2 if faults.exponential_of_12_bits else gq >> 10)


def envelope(mode, gl, gq):
    """Step 8: V, 12 bits unsigned, from GQ as it was before step 7."""
    q = level(mode, gq)
    minus = mode in (layout.L_MINUS_Q, layout.L_MINUS_EXPONENTIAL)
    return low(gl - q if minus else gl + q, 12)


def output(w, v):
    """Step 9: P as a signed number."""
    if faults.round_after_sign:
        return (w * v + 32) // 64
    magnitude = (abs(w) * v + 32) // 64
    return -magnitude if w * v < 0 else magnitude


def next_mode(mode, triggers, told):
    """The run mode for the next pass."""
    if mode == layout.RUNNING_C and triggers:
        return layout.WAIT
    if mode == layout.WAIT and told:
        return layout.RUNNING_C
    return mode


class Steps(NamedTuple):
    """What a text has for itself in a generator's turn, each by the GMODE."""

    # What is on, by GMODE and told.
    switches: Callable
    # Whether E is J.
    takes_j: Callable
    # W, by GMODE, E, GN, GM and whether a sum of step 1 or 4 left its range.
    wave: Callable
    # V, by GMODE, GL and GQ.
    envelope: Callable
    # The GMODE for the next pass, by GMODE, whether it triggers, and told.
    next_gmode: Callable


def turn_by(steps, words, f, told):
    """A generator's eleven words after its turn, P as a 20-bit word, whether it triggers, and E.

    f is the word at GFM; told says that the neighbour below was taken earlier in
    this pass and triggered. P is what steps 6 to 9 give, whatever the run mode.
    """
    go, gj, gk, gn, gm, gp, gq, gl, gsum, gfm, gmode = words
    switches = steps.switches(gmode, told)

    gj_after = sweep(gj, go) if switches.oscillator else gj
    j, left_range = modulated(gj_after if faults.swept_gj_read else gj, f)
    e = j if steps.takes_j(gmode) else gk
    gk_after = gk
    if switches.oscillator:
        gk_after, left_again = turned(gk, j)
        left_range = left_range or left_again
    w = steps.wave(gmode, e, gn, gm, left_range)

    gq_after, overflow = decay(gq, gp, switches.free) if switches.envelope else (gq, False)
    triggers = switches.free and overflow
    p = output(w, steps.envelope(gmode, gl, gq))

    gmode_after = steps.next_gmode(gmode, triggers, told)
    after = [go, gj_after, gk_after, gn, gm, gp, gq_after, gl, gsum, gfm, gmode_after]
    return after, low(p, 20), triggers, e


# The steps of 1978

def next_gmode(gmode, triggers, told):
    """The GMODE for the next pass."""
    return layout.with_run_mode(gmode, next_mode(acting_mode(gmode, told), triggers, told))


STEPS = Steps(
    switches=lambda gmode, told: layout.RUN_MODES[acting_mode(gmode, told)],
    takes_j=lambda gmode: layout.oscillator_mode(gmode) == layout.SINE_OF_J,
    wave=lambda gmode, e, gn, gm, left_range: wave(
        layout.oscillator_mode(gmode), signed(e >> 7, 13), gn, gm, left_range),
    envelope=lambda gmode, gl, gq: envelope(layout.envelope_mode(gmode), gl, gq),
    next_gmode=next_gmode,
)


def generator_turn(words, f, told):
    """A generator's eleven words after its turn, P as a 20-bit word, and whether it triggers."""
    return turn_by(STEPS, words, f, told)[:3]
