"""A modifier's turn: each function, worked by hand.

A row is: name, mode bits (function, AA, BB), registers, A, B; then the words that
change and S. HALF multiplies by 1, 2, 4 at scales 1, 2, 3; at 0 x becomes floor((x+1)/2).
"""

from reference.cases.build import HALF, changed, modifier
from reference.layout import MODIFIER_NAMES
from reference.modifier import integer_product, modifier_turn, product
from reference.words import low

HALVES = dict(M0=HALF, M1=HALF)

MIXINGS = (
    ("inactive", "00000 01 01", dict(L0=5, L1=6, **HALVES), 7, 8, {}, 0),
    # 10*1 + 7*2; exchanged scales would give 10*2 + 7*1.
    ("mixing", "10100 01 10", HALVES, 10, 7, {}, 24),
    # floor(6/2) + floor(-4/2).
    ("mixing, scale 0", "10100 00 00", HALVES, 5, -5, {}, 1),
    # 1*4 + 2*4.
    ("mixing, scale 3", "10100 11 11", HALVES, 1, 2, {}, 12),
    # 524287 + 1 wraps.
    ("mixing, wrapped", "10100 01 01", HALVES, 524287, 1, {}, 524288),
    # The low ten bits of M0 don't count.
    ("mixing, high bits", "10100 01 01", dict(M0=HALF + 1023), 10, 7, {}, 10),
    # M0's high bits are -1: floor((-262144 + 262144)/524288) = 0, floor(-1/524288) = -1.
    ("mixing, rounded to 0", "10100 00 00", dict(M0=-1), 262144, 0, {}, 0),
    ("mixing, rounded to -1", "10100 00 00", dict(M0=-1), 262145, 0, {}, 1048575),
    # 3*5*4/4 + floor(7*1*1/4).
    ("integer mixing", "10000 10 00", dict(M0=5120, M1=1024), 3, 7, {}, 16),
    # 15 + floor(-7/4) = 15 - 2.
    ("integer mixing, floor", "10000 10 00", dict(M0=5120, M1=1024), 3, -7, {}, 13),
    # -5*3 + 5*1, as words 1048561 + 5; then -15 - 1.
    ("integer mixing, negative M0", "10000 10 10", dict(M0=-5120, M1=1024), 3, 5, {}, 1048566),
    ("integer mixing, both negative", "10000 10 10", dict(M0=-5120, M1=-1024), 3, 1, {}, 1048560),
    # 15*8/4 + floor(7*2/4).
    ("integer mixing, 3 and 1", "10000 11 01", dict(M0=5120, M1=1024), 3, 7, {}, 33),
)

NOISES = (
    # 1 + 10*3.
    ("noise", "00010 10 00", dict(L0=1, L1=10, M0=3072), 7, 8, dict(L1=31), 31),
    # 524287*2 = 1048574, + 1: all bits.
    ("noise, low bits", "00010 10 00", dict(L0=1, L1=524287, M0=2048), 0, 0,
     dict(L1=1048575), 1048575),
    # -1 + 30.
    ("noise, negative L0", "00010 10 00", dict(L0=-1, L1=10, M0=3072), 0, 0, dict(L1=29), 29),
    ("triggered, negative L0", "00011 10 00", dict(L0=-1, L1=10, M0=3072), 0, 0, {}, 29),
    # B*M1 = 1*4/4 = 1: L1 is loaded.
    ("triggered", "00011 10 00", dict(L0=1, L1=10, M0=3072, M1=4096), 0, 1, dict(L1=31), 31),
    # floor(3/4) = 0: not.
    ("not triggered", "00011 10 00", dict(L0=1, L1=10, M0=3072, M1=3072), 0, 1, {}, 31),
    # floor(-1/4) = -1: loaded.
    ("triggered by -1", "00011 10 00", dict(L0=1, L1=10, M0=3072, M1=1024), 0, -1,
     dict(L1=31), 31),
    # 262144*4 = 2^20: its low 20 bits are 0.
    ("triggered, low bits", "00011 10 10", dict(L0=1, L1=10, M0=3072, M1=4096), 0, 262144, {}, 31),
)

LATCHES = (
    # floor((262144 + 262144)/524288) = 1: L1 is loaded, S is the old one.
    ("latch", "00100 00 00", dict(L1=9, M1=HALF), 5, 1, dict(L1=5), 9),
    # floor((-262144 + 262144)/524288) = 0; floor((262143 + 262144)/524288) = 0.
    ("latch holds at -1", "00100 00 00", dict(L1=9, M1=HALF), 5, -1, {}, 9),
    ("latch holds", "00100 00 00", dict(L1=9, M1=268434432), 5, 1, {}, 9),
    # 2^38 * 2 / 2^19 = 2^20: its low 20 bits are 0.
    ("latch, low bits", "00100 00 01", dict(L1=9, M1=-536870912), 5, -524288, {}, 9),
    # -5 + 4 is below 0; -5 + 5 is not: S = 7*2.
    ("below threshold", "00110 01 10", dict(L0=4, **HALVES), -5, 7, {}, 0),
    ("at threshold", "00110 01 10", dict(L0=5, **HALVES), -5, 7, {}, 14),
    # -5 - 5 is below 0.
    ("far below threshold", "00110 01 10", dict(L0=-5, **HALVES), -5, 7, {}, 0),
    # 524287 + 1 wraps below 0.
    ("threshold, wrapped", "00110 01 10", dict(L0=1, **HALVES), 524287, 7, {}, 0),
)

POLES_AND_ZEROS = (
    # 10*1 + 20*2 + 3; exchanged scales would give 10*2 + 20*1 + 3.
    ("two poles", "01000 10 01", dict(L0=20, L1=10, **HALVES), 3, 8, dict(L0=10, L1=53), 53),
    # -10 + 40 + 3.
    ("two poles, negative L1", "01000 10 01", dict(L0=20, L1=-10, **HALVES), 3, 8,
     dict(L0=1048566, L1=33), 33),
    # 10 + 400000 + 3 with the old M0; then M0 268435456 - 1.
    ("two poles, M0", "01001 01 01", dict(L0=400000, L1=10, **HALVES), 3, -1,
     dict(L0=10, L1=400013, M0=268435455), 400013),
    # 0 + 0 + 3; M1 536870911 + 1 wraps to -536870912.
    ("two poles, M1", "01011 01 01", dict(M1=536870911), 3, 1, dict(L1=3, M1=536870912), 3),
    # 10*0 + 0 + 3; M1 0 - 1 is 30 set bits.
    ("two poles, M1 below 0", "01011 01 01", dict(L1=10), 3, -1,
     dict(L0=10, L1=3, M1=1073741823), 3),
    ("two zeros", "01100 10 01", dict(L0=20, L1=10, **HALVES), 3, 8, dict(L0=10, L1=3), 53),
    ("two zeros, negative L1", "01100 10 01", dict(L0=20, L1=-10, **HALVES), 3, 8,
     dict(L0=1048566, L1=3), 33),
    # 10 + 20*0 + 3; M0 0 - 1 is 30 set bits.
    ("two zeros, M0", "01101 01 01", dict(L0=20, L1=10, M1=HALF), 3, -1,
     dict(L0=10, L1=3, M0=1073741823), 13),
    # 400000 + 0 + 3 with the old M1; then M1 268435456 + 524287.
    ("two zeros, M1", "01111 01 01", dict(L1=400000, M1=HALF), 3, 524287,
     dict(L0=400000, L1=3, M1=268959743), 400003),
    # 10*1 + 8*2 by B*L0 with L0 one half.
    ("one pole", "10001 10 01", dict(L0=262144, L1=10, M1=HALF), 3, 8, dict(L1=26), 26),
    # -10 + 16.
    ("one pole, negative L1", "10001 10 01", dict(L0=262144, L1=-10, M1=HALF), 3, 8,
     dict(L1=6), 6),
    # -10 + 40.
    ("one zero, negative L1", "10110 10 01", dict(L0=20, L1=-10, **HALVES), 3, 8,
     dict(L0=1048566, L1=3), 30),
    # 10*1 + 20*2.
    ("one zero", "10110 10 01", dict(L0=20, L1=10, **HALVES), 3, 8, dict(L0=10, L1=3), 50),
)

PRODUCTS = (
    # S = 10*2; L1 = 3*4 by B one half.
    ("four-quadrant", "11000 11 10", dict(L1=10, M1=HALF), 3, 262144, dict(L1=12), 20),
    # 2^38 / 2^19 = 2^19 wraps to -524288.
    ("four-quadrant, wrapped", "11000 00 01", dict(L1=10, M1=HALF), -524288, -524288,
     dict(L1=524288), 10),
    # (524287 + 524288) div 2 = 524287; floor((52428700 + 262144)/524288) = 100.
    ("modulation at the top", "11001 00 01", dict(L1=10, M1=HALF), 100, 524287, dict(L1=100), 10),
    # (-524288 + 524288) div 2 = 0.
    ("modulation at the bottom", "11001 00 01", dict(L1=10, M1=HALF), 100, -524288,
     dict(L1=0), 10),
    # 262144: (26476544 + 262144)/524288 = 51; B = 1 gives the same 262144.
    ("modulation at 0", "11001 00 01", dict(L1=10, M1=HALF), 101, 0, dict(L1=51), 10),
    ("modulation at 1", "11001 00 01", dict(L1=10, M1=HALF), 101, 1, dict(L1=51), 10),
    # 524287 div 2 = 262143: (26476443 + 262144)/524288 = 50.99..
    ("modulation at -1", "11001 00 01", dict(L1=10, M1=HALF), 101, -1, dict(L1=50), 10),
)

# A*M0 is A*1 and B*M1 is B*2 here, unless said otherwise.
COMPARISONS = (
    ("maximum", "11010 01 10", HALVES, -3, 2, {}, 4),
    ("minimum", "11011 01 10", HALVES, -3, 2, {}, 1048573),
    ("maximum, A", "11010 01 10", HALVES, 5, 2, {}, 5),
    ("minimum, B", "11011 01 10", HALVES, 5, 2, {}, 4),
    # -3 and -1*2; -1 and -2*2.
    ("maximum, both negative", "11010 01 10", HALVES, -3, -1, {}, 1048574),
    ("minimum, both negative", "11011 01 10", HALVES, -1, -2, {}, 1048572),
    ("signum, both negative", "11100 01 10", HALVES, -1, -2, {}, 1),
    ("signum, equal", "11100 01 10", HALVES, 4, 2, {}, 0),
    ("signum, less", "11100 01 10", HALVES, 3, 2, {}, 1048575),
    ("signum, greater", "11100 01 10", HALVES, 5, 2, {}, 1),
    # 524287*2 is reduced to -2, below 0.
    ("signum, wrapped", "11100 10 10", HALVES, 524287, 0, {}, 1048575),
)

# Temp0 is B*1 and Temp1 is L1*1 here, unless said otherwise.
PULSERS = (
    ("crossing", "11101 01 01", dict(L1=-3, **HALVES), 0, 5, dict(L1=5), 1048575),
    ("to 0", "11101 01 01", dict(L1=3, **HALVES), 0, 0, dict(L1=0), 1048575),
    ("from 0", "11101 01 01", dict(**HALVES), 0, 5, dict(L1=5), 0),
    ("from 0 to 0", "11101 01 01", dict(**HALVES), 0, 0, {}, 0),
    ("from 1 to -1", "11101 01 01", dict(L1=1, **HALVES), 0, -1, dict(L1=1048575), 1048575),
    ("above", "11101 01 01", dict(L1=3, **HALVES), 0, 5, dict(L1=5), 0),
    ("below", "11101 01 01", dict(L1=-3, **HALVES), 0, -5, dict(L1=1048571), 0),
    # At scale 0 Temp1 = floor((-1 + 1)/2) = 0.
    ("Temp1 rounded to 0", "11101 01 00", dict(L1=-1, **HALVES), 0, 5, dict(L1=5), 0),
    # Temp0 = 5*2, Temp1 = -3.
    ("scales", "11101 10 01", dict(L1=-3, **HALVES), 0, 5, dict(L1=10), 1048575),
    # -524288 * 524287 is negative.
    ("far crossing", "11101 01 01", dict(L1=524287, **HALVES), 0, -524288,
     dict(L1=524288), 1048575),
    # -1 * 1 is negative, though a rounded product would be 0.
    ("near crossing", "11101 01 01", dict(L1=-1, **HALVES), 0, 1, dict(L1=1), 1048575),
)


def turns(rows):
    """The checks of rows of turns."""
    def checks():
        for name, mode, registers, a, b, changes, s in rows:
            words = modifier(mode, **registers)
            after, got = modifier_turn(words, low(a, 20), low(b, 20))
            yield name, (changed(words, after, MODIFIER_NAMES), got), (changes, s)
    return checks


def products():
    """Products by themselves."""
    # 524,288 is -2^19 as a word. Scale 0: floor((-2^37 + 2^18)/2^19) = -2^18, 786432 as a
    # word; scale 1: -2^19; scales 2 and 3: -2^20 and -2^21, whose low 20 bits are 0.
    yield ("2^18 by -2^19", [product(s, 262144, 524288) for s in range(4)],
           [786432, 524288, 0, 0])
    # 524287^2 = 274876858369; + 262144 = 274877120513; / 524288 = 524286.4..
    yield "524287 squared", product(0, 524287, 524287), 524286
    # 3*5*2^s/4: 3.75, 7.5, 15, 30.
    yield "integer 3 by 5", [integer_product(s, 3, 5) for s in range(4)], [3, 7, 15, 30]
    yield ("integer -3 by -5", [integer_product(s, 1048573, 1048571) for s in range(4)],
           [3, 7, 15, 30])
    # -15/4: floor -4, -7.5: -8, -15, -30.
    yield ("integer -3 by 5", [integer_product(s, 1048573, 5) for s in range(4)],
           [1048572, 1048568, 1048561, 1048546])


GROUPS = (
    ("products", products),
    ("modifier, mixing", turns(MIXINGS)),
    ("modifier, noise", turns(NOISES)),
    ("modifier, latch and threshold", turns(LATCHES)),
    ("modifier, poles and zeros", turns(POLES_AND_ZEROS)),
    ("modifier, products of signals", turns(PRODUCTS)),
    ("modifier, maximum, minimum, signum", turns(COMPARISONS)),
    ("modifier, pulser", turns(PULSERS)),
)
