"""One modifier's turn by the older text, where it has a formula, scale or product of its own."""

from reference import layout
from reference import old_layout as old
from reference.faults import faults
from reference.modifier import (MINUS_EPSILON, Turn, amplitude_modulation, four_quadrant, inactive,
                                integer_product as quartered, latch, m0_variable, m1_variable,
                                maximum, minimum, mixing, pulser as pulser_of_1978, turned,
                                uniform_noise)
from reference.words import low, signed

# 1978's integer product has a quarter of ab: two scales less.
SCALES_OF_A_QUARTER = 2


def scales(mmode):
    """The scales of the second multiplication, BB there, and of the first, AA."""
    aa, bb = layout.left_scale(mmode), layout.right_scale(mmode)
    return (aa, bb) if faults.old_scales_of_1978 else (bb, aa)


def integer_product(s, a, b):
    """The low 20 bits of ab times 2^s."""
    return quartered(s if faults.old_integer_product_quartered else s + SCALES_OF_A_QUARTER, a, b)


class OldTurn(Turn):
    """A modifier's registers during its turn, with that text's scales and integer product."""

    scales = staticmethod(scales)
    integer_product = staticmethod(integer_product)


def pulser(t):
    """Temp0 := B*M0; Temp1 := L1*M1; S := -epsilon if Temp0*Temp1 is negative; L1 := Temp0"""
    if faults.old_pulser_zero_case:
        return pulser_of_1978(t)
    temp0, temp1 = t.by_m0(t.b), t.by_m1(t.l1)
    t.l1 = temp0
    return MINUS_EPSILON if signed(temp0, 20) * signed(temp1, 20) < 0 else 0


def filtered(t):
    """L0*M1 + L1*M0 + A"""
    if faults.old_terms_of_1978:
        return low(t.by_m1(t.l1) + t.by_m0(t.l0) + t.a, 20)
    return low(t.by_m1(t.l0) + t.by_m0(t.l1) + t.a, 20)


def two_poles(t):
    """S := L0*M1 + L1*M0 + A; L0 := L1; L1 := S"""
    s = filtered(t)
    t.l0, t.l1 = t.l1, s
    return s


def two_zeros(t):
    """S := L0*M1 + L1*M0 + A; L0 := L1; L1 := A"""
    s = filtered(t)
    t.l0, t.l1 = t.l1, t.a
    return s


FORMULAS = {
    old.NO_FUNCTION: inactive,
    old.MIXING: mixing,
    old.LATCH: latch,
    old.PULSER: pulser,
    old.AMPLITUDE_MODULATION: amplitude_modulation,
    old.FOUR_QUADRANT: four_quadrant,
    old.MINIMUM: minimum,
    old.MAXIMUM: maximum,
    old.TWO_POLES: two_poles,
    old.TWO_POLES_M0_VARIABLE: m0_variable(two_poles),
    old.TWO_POLES_M1_VARIABLE: m1_variable(two_poles),
    old.TWO_ZEROS: two_zeros,
    old.TWO_ZEROS_M0_VARIABLE: m0_variable(two_zeros),
    old.TWO_ZEROS_M1_VARIABLE: m1_variable(two_zeros),
    old.UNIFORM_NOISE: uniform_noise,
}


def function_built(mmode):
    """Whether the function of an MMODE is built."""
    function = layout.function(mmode)
    if faults.old_10001_built and function == old.NOISE_WHEN_INPUT:
        return True
    if faults.old_10100_built and function == old.DELAY_UNIT:
        return True
    return function in FORMULAS


def modifier_turn(words, a, b):
    """A modifier's eight words after its turn with A and B, and S, a 20-bit word."""
    formula = FORMULAS.get(layout.function(words[layout.MMODE]), inactive)
    return turned(OldTurn(words, a, b, 0), formula, words)
