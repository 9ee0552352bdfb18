"""One modifier's turn, by the formulas of "Modifiers, Processing" in the 1978 text."""

from reference import layout
from reference.faults import faults
from reference.words import low, signed

MINUS_EPSILON = low(-1, 20)


def product(s, a, b):
    """A product of two 20-bit words at scale s, rounded, as a 20-bit word."""
    exact = signed(a, 20) * signed(b, 20) * 2**s
    return low((exact + 2**18) // 2**19, 20)


def integer_product(s, a, b):
    """An integer product of two 20-bit words at scale s, as a 20-bit word."""
    exact = signed(a, 20) * signed(b, 20) * 2**s
    return low(exact // 4, 20)


def half_shifted(b):
    """(B+1)/2 for a 20-bit word B."""
    return (signed(b, 20) + 524288) // 2


def scales(mmode):
    """The scales of the second multiplication, AA, and of the first, BB."""
    aa, bb = layout.left_scale(mmode), layout.right_scale(mmode)
    return (bb, aa) if faults.scales_exchanged else (aa, bb)


class Turn:
    """A modifier's registers during its turn, with A, B and DM as 20-bit words."""

    scales = staticmethod(scales)
    integer_product = staticmethod(integer_product)

    def __init__(self, words, a, b, dm):
        self.m0, self.m1, self.l0, self.l1 = words[:4]
        self.a, self.b, self.dm = a, b, dm
        self.second_scale, self.first_scale = self.scales(words[layout.MMODE])

    def by_m0(self, x):
        """x*M0, a second multiplication."""
        return product(self.second_scale, x, self.m0 >> 10)

    def by_m1(self, x):
        """x*M1, a first multiplication."""
        return product(self.first_scale, x, self.m1 >> 10)

    def integer_by_m0(self, x):
        """x*M0 as an integer product."""
        return self.integer_product(self.second_scale, x, self.m0 >> 10)

    def integer_by_m1(self, x):
        """x*M1 as an integer product."""
        return self.integer_product(self.first_scale, x, self.m1 >> 10)

    def second(self, x, y):
        """x*y, a second multiplication without M0."""
        return product(self.second_scale, x, y)

    def compared(self):
        """A*M0 and B*M1 as signed numbers."""
        return signed(self.by_m0(self.a), 20), signed(self.by_m1(self.b), 20)


def inactive(t):
    """S := 0"""
    return 0


def integer_mixing(t):
    """S := A*M0 + B*M1, integer"""
    return low(t.integer_by_m0(t.a) + t.integer_by_m1(t.b), 20)


def mixing(t):
    """S := A*M0 + B*M1"""
    return low(t.by_m0(t.a) + t.by_m1(t.b), 20)


def latch(t):
    """S := L1; if B*M1 is not 0, L1 := A"""
    s = t.l1
    if t.by_m1(t.b) != 0:
        t.l1 = t.a
    return s


def signum(t):
    """S := -1, 0 or 1 as A*M0 is less than, equal to or greater than B*M1"""
    x, y = t.compared()
    return low((x > y) - (x < y), 20)


def pulser(t):
    """Temp0 := B*M0; Temp1 := L1*M1; S := -epsilon at a crossing, else 0; L1 := Temp0"""
    temp0, temp1 = t.by_m0(t.b), t.by_m1(t.l1)
    crossing = temp1 != 0 and (temp0 == 0 or signed(temp0, 20) * signed(temp1, 20) < 0)
    t.l1 = temp0
    return MINUS_EPSILON if crossing else 0


def minimum(t):
    """S := min (A*M0, B*M1)"""
    return low(min(t.compared()), 20)


def maximum(t):
    """S := max (A*M0, B*M1)"""
    return low(max(t.compared()), 20)


def amplitude_modulation(t):
    """S := L1*M1; L1 := A * ((B+1)/2)"""
    s = t.by_m1(t.l1)
    t.l1 = t.second(t.a, half_shifted(t.b))
    return s


def four_quadrant(t):
    """S := L1*M1; L1 := A*B"""
    s = t.by_m1(t.l1)
    t.l1 = t.second(t.a, t.b)
    return s


def one_pole(t):
    """S := L1*M1 + B*L0; L1 := S"""
    t.l1 = low(t.by_m1(t.l1) + t.second(t.b, t.l0), 20)
    return t.l1


def one_zero(t):
    """S := L1*M1 + L0*M0; L0 := L1; L1 := A"""
    s = low(t.by_m1(t.l1) + t.by_m0(t.l0), 20)
    t.l0, t.l1 = t.l1, t.a
    return s


def two_poles(t):
    """S := L1*M1 + L0*M0 + A; L0 := L1; L1 := S"""
    s = low(t.by_m1(t.l1) + t.by_m0(t.l0) + t.a, 20)
    t.l0, t.l1 = t.l1, s
    return s


def two_zeros(t):
    """S := L1*M1 + L0*M0 + A; L0 := L1; L1 := A"""
    s = low(t.by_m1(t.l1) + t.by_m0(t.l0) + t.a, 20)
    t.l0, t.l1 = t.l1, t.a
    return s


def m0_variable(formula):
    """The formula, and after it M0 := M0 + B."""
    def varied(t):
        s = formula(t)
        t.m0 = low(t.m0 + signed(t.b, 20), 30)
        return s
    return varied


def m1_variable(formula):
    """The formula, and after it M1 := M1 + B."""
    def varied(t):
        s = formula(t)
        t.m1 = low(t.m1 + signed(t.b, 20), 30)
        return s
    return varied


def uniform_noise(t):
    """S := L0 + L1*M0, integer; L1 := S"""
    t.l1 = low(t.l0 + t.integer_by_m0(t.l1), 20)
    return t.l1


def triggered_noise(t):
    """S := L0 + L1*M0, integer; if B*M1, integer, is not 0, L1 := S"""
    s = low(t.l0 + t.integer_by_m0(t.l1), 20)
    if t.integer_by_m1(t.b) != 0:
        t.l1 = s
    return s


def threshold(t):
    """S := 0 if A*M0 + L0 is less than 0, else B*M1"""
    total = low(t.by_m0(t.a) + t.l0, 20)
    return 0 if signed(total, 20) < 0 else t.by_m1(t.b)


def invoke_delay_unit(t):
    """S := L0 + L1*M0; L0 := DM; Temp0 := A + DM*M1; L1 := Temp0; DM := Temp0"""
    s = low(t.l0 + t.by_m0(t.l1), 20)
    temp0 = low(t.a + t.by_m1(t.dm), 20)
    t.l0, t.l1, t.dm = t.dm, temp0, temp0
    return s


FORMULAS = {
    layout.NO_FUNCTION: inactive,
    layout.UNIFORM_NOISE: uniform_noise,
    layout.TRIGGERED_NOISE: triggered_noise,
    layout.LATCH: latch,
    layout.THRESHOLD: threshold,
    layout.INVOKE_DELAY_UNIT: invoke_delay_unit,
    layout.TWO_POLES: two_poles,
    layout.TWO_POLES_M0_VARIABLE: m0_variable(two_poles),
    layout.TWO_POLES_M1_VARIABLE: m1_variable(two_poles),
    layout.TWO_ZEROS: two_zeros,
    layout.TWO_ZEROS_M0_VARIABLE: m0_variable(two_zeros),
    layout.TWO_ZEROS_M1_VARIABLE: m1_variable(two_zeros),
    layout.INTEGER_MIXING: integer_mixing,
    layout.ONE_POLE: one_pole,
    layout.MIXING: mixing,
    layout.ONE_ZERO: one_zero,
    layout.FOUR_QUADRANT: four_quadrant,
    layout.AMPLITUDE_MODULATION: amplitude_modulation,
    layout.MAXIMUM: maximum,
    layout.MINIMUM: minimum,
    layout.SIGNUM: signum,
    layout.PULSER: pulser,
}


def function_built(mmode):
    """Whether the function of an MMODE is built."""
    return layout.function(mmode) in FORMULAS


def turned(t, formula, words):
    """A modifier's eight words after its formula, and S, a 20-bit word."""
    s = formula(t)
    return [t.m0, t.m1, t.l0, t.l1, *words[4:]], s


def delay_turn(words, a, b, dm):
    """A modifier's eight words after its turn with A, B and DM; S; and DM afterwards."""
    t = Turn(words, a, b, dm)
    after, s = turned(t, FORMULAS[layout.function(words[layout.MMODE])], words)
    return after, s, t.dm


def modifier_turn(words, a, b):
    """A modifier's eight words after its turn with A and B, and S, a 20-bit word; DM is 0."""
    after, s, _ = delay_turn(words, a, b, 0)
    return after, s
