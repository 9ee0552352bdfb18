"""Turns of generators and modifiers by the older text, by hand."""

from reference.cases.build import HALF, changed, generator, modifier, number
from reference.generator import output
from reference.layout import GENERATOR_NAMES, MODIFIER_NAMES
from reference.old import OLD
from reference.old_generator import cosine, exponential
from reference.words import low

LOUD = dict(GL=4095)


def turn(mode, f=0, told=False, **registers):
    """What changed in a generator's turn, P, whether it triggers, and the word that it sends."""
    words = generator(mode, **registers)
    after, p, triggers, sent = OLD.generator_turn(words, f, told)
    return changed(words, after, GENERATOR_NAMES), number(p), triggers, number(sent)


def partial(mode, f=0, **registers):
    """P of a turn."""
    return turn(mode, f, **registers)[1]


def tables():
    """The cosine of K, its shift by GM, P, and document 01's exponential."""
    for k, w in ((0, 2047), (1, 2047), (256, 1891), (512, 1447), (-512, 1448), (1023, 2), (1024, 0),
                 (-1024, 0), (-1023, 3), (1025, -3), (-2048, -2047)):
        yield f"cosine of {k}", cosine(k, 0), w
    yield "GM 1", cosine(0, 1), 1023
    yield "GM 15", (cosine(0, 15), cosine(-2048, 15)), (0, 0)
    for w, p in ((1024, 65520), (2047, 130976), (-2048, -131040)):
        yield f"P of {w}", output(w, 4095), p
    yield "exponential", [exponential(h) for h in (0, 256, 512, 4095)], [4093, 2046, 1023, 0]


def waves():
    """Square, sawtooth, pulse train and cosines, heard through V 4,095."""
    yield "square", partial("010 00 001", **LOUD), 65520
    yield "square below 0", partial("010 00 001", GK=-1, **LOUD), -65520
    # K 1 is GK 256: (4095 + 32) div 64 = 64.
    yield "sawtooth", partial("010 00 010", GK=256, **LOUD), 64
    yield "sawtooth, low bits dropped", partial("010 00 010", GK=255, **LOUD), 0
    yield "sawtooth, -1", partial("010 00 010", GK=-1, **LOUD), -64
    yield "sawtooth, no exception", partial("010 00 010", GK=-524288, **LOUD), -131040
    yield "pulse by step 1", partial("010 00 011", 1, GJ=524287 << 8, **LOUD), 65520
    yield "pulse by step 4", partial("010 00 011", GJ=1 << 8, GK=524287, **LOUD), 65520
    yield "no pulse", partial("010 00 011", GJ=1 << 8, GK=524286, **LOUD), 0
    # The oscillator of 110 is off: step 4 is not done, step 1 is.
    yield "110, step 1", partial("110 00 011", 1, GJ=524287 << 8, **LOUD), 65520
    yield "110, step 4", partial("110 00 011", GJ=1 << 8, GK=524287, **LOUD), 0
    yield "cosine of K", partial("010 00 100", **LOUD), 130976
    # K 512 by GK 131,072: (1447*4095 + 32) div 64.
    yield "cosine of K 512", partial("010 00 100", GK=131072, **LOUD), 92585
    yield "GK and not J", partial("010 00 100", GJ=131072 << 8, **LOUD), 130976
    yield "cosine of J", partial("010 00 101", GJ=131072 << 8, GK=5, **LOUD), 92585
    # F 65,536 and GJ's 65,536 make J.
    yield "J has F", partial("010 00 101", 65536, GJ=65536 << 8, **LOUD), 92585
    yield "GN is not in it", partial("010 00 100", GK=131072, GN=2047, **LOUD), 92585
    # 1447 >> 3 = 180.
    yield "GM", partial("010 00 100", GK=131072, GM=3, **LOUD), (180 * 4095 + 32) // 64


def envelopes():
    """V by the four envelope modes; a square wave has W 1,024, so P is 16 V."""
    for mode, v in (("00", 150), ("01", 50)):
        yield f"linear {mode}", partial(f"010 {mode} 001", GL=100, GQ=50 << 12), 16 * v
    yield "exponential 10", partial("010 10 001", GL=2), 16 * 4095
    yield "exponential 11", partial("010 11 001", GL=4095), 16 * 2
    yield "unsigned", partial("010 01 001", GL=0, GQ=1 << 12), 16 * 4095
    # The low 12 bits of GQ don't count; by 14 bits it would be entry 3 of 1,024.
    yield "12 bits of GQ", partial("010 10 001", GQ=4095), 16 * 4093
    yield "GQ 1 << 20", partial("010 10 001", GQ=1 << 20), 16 * 2046


def run_modes():
    """What runs, adds and triggers."""
    both = dict(GO=1, GJ=256, GK=5, GP=1, GL=4095)
    ran = {"GJ": 257, "GK": 6, "GQ": 1}
    for mode, what in (("001", {}), ("010", ran), ("011", ran), ("101", ran),
                       ("100", {"GJ": 257, "GK": 6}), ("110", {"GQ": 1}), ("111", {})):
        yield mode, turn(mode + " 00 001", **both)[0], what
    yield "000", turn("000 00 000", **both)[0], {}
    top = dict(GQ=16777215, GP=1)
    yield "sticky", turn("010 00 001", **top)[::2], ({}, False)
    yield "110 sticky", turn("110 00 001", **top)[::2], ({}, False)
    yield "free", turn("011 00 001", **top)[::2], ({"GQ": 0}, True)
    # 101 00 001 becomes 100 00 001.
    yield "stops", turn("101 00 001", **top)[::2], ({"GQ": 0, "GMODE": 0b10000001}, True)
    yield "below 0", turn("011 00 001", GP=-1)[::2], ({"GQ": 16777215}, True)
    yield "told", turn("100 11 101", told=True)[::2], ({"GMODE": 0b10111101}, False)
    yield "told, running", turn("011 11 001", told=True)[::2], ({}, False)


def sent_words():
    """111 sends E: J in oscillator mode 101, else GK."""
    yield "J", turn("111 00 101", 7, GJ=5 << 8, GK=1)[3], 12
    yield "GK", turn("111 00 001", 7, GJ=5 << 8, GK=-9)[3], -9
    yield "cosine of K", turn("111 00 100", 7, GJ=5 << 8, GK=9)[3], 9
    yield "J wraps", turn("111 00 101", 524287, GJ=1 << 8)[3], -524288


def modified(mode, a=0, b=0, **registers):
    """What changed in a modifier's turn, and S."""
    words = modifier(mode, **registers)
    after, s = OLD.modifier_turn(words, low(a, 20), low(b, 20))
    return changed(words, after, MODIFIER_NAMES), number(s)


def functions():
    """Each function. A coefficient HALF makes x at scale 1 and 2x at scale 2; AA is M1's scale."""
    both = dict(M0=HALF, M1=HALF)
    yield "inactive", modified("00000 11 11", 5, 6, L1=7, **both), ({}, 0)
    # 2*10 by M0 at BB 10, 3 by M1 at AA 01.
    yield "mixing", modified("00001 01 10", 10, 3, **both), ({}, 23)
    yield "latch", modified("00010 01 00", 9, 1, L1=5, **both), ({"L1": 9}, 5)
    yield "latch shut", modified("00010 01 00", 9, 0, L1=5, **both), ({}, 5)
    # B*M1 at AA 00 is floor((-1 + 1)/2) = 0; BB isn't asked.
    yield "latch by AA", modified("00010 00 11", 9, -1, L1=5, **both), ({}, 5)
    yield "pulser", modified("00011 01 01", 0, 3, L1=-2, **both), ({"L1": 3}, -1)
    yield "pulser, one sign", modified("00011 01 01", 0, 3, L1=2, **both), ({"L1": 3}, 0)
    yield "pulser at 0", modified("00011 01 01", 0, 0, L1=-2, **both), ({"L1": 0}, 0)
    # Temp0 := 2*3 at BB 10.
    yield "pulser by BB", modified("00011 01 10", 0, 3, L1=-2, **both), ({"L1": 6}, -1)
    # (B+1)/2 is 262,144 at B 0: A*.. is 2A at BB 10.
    yield "amplitude", modified("00100 01 10", 100, 0, L1=7, **both), ({"L1": 200}, 7)
    yield "four quadrants", modified("00101 01 10", 1000, 262144, L1=7, **both), ({"L1": 2000}, 7)
    yield "minimum", modified("00110 01 01", 5, -3, **both), ({}, -3)
    yield "maximum", modified("00111 01 01", 5, -3, **both), ({}, 5)


def filters():
    """L0 goes with M1, by AA, and L1 with M0, by BB."""
    both = dict(M0=HALF, M1=HALF, L0=10, L1=3)
    # 10 + 2*3 + 100.
    poles, zeros = {"L0": 3, "L1": 116}, {"L0": 3, "L1": 100}
    yield "two poles", modified("01000 01 10", 100, 9, **both), (poles, 116)
    yield "two zeros", modified("01100 01 10", 100, 9, **both), (zeros, 116)
    for name, code, left in (("poles", "010", poles), ("zeros", "011", zeros)):
        yield name + ", M0 variable", modified(code + "01 01 10", 100, -9, **both), (
            {**left, "M0": HALF - 9}, 116)
        yield name + ", M1 variable", modified(code + "10 01 10", 100, 9, **both), (
            {**left, "M1": HALF + 9}, 116)


def noise():
    """An integer product is ab times 2^s, by BB."""
    yield "times 2", modified("10000 00 01", L0=1, L1=5, M0=3 << 10), ({"L1": 31}, 31)
    yield "times 1", modified("10000 11 00", L0=1, L1=5, M0=3 << 10), ({"L1": 16}, 16)
    # 8*262,144 + 1 less 2^21.
    yield "low 20 bits", modified("10000 00 11", L0=1, L1=262144, M0=1 << 10), ({"L1": 1}, 1)
    yield "high 20 bits of M0", modified("10000 00 00", L1=5, M0=3 << 10 | 1023), ({"L1": 15}, 15)


GROUPS = (
    ("the older text: tables", tables),
    ("the older text: waves", waves),
    ("the older text: envelopes", envelopes),
    ("the older text: run modes", run_modes),
    ("the older text: words sent", sent_words),
    ("the older text: functions", functions),
    ("the older text: filters", filters),
    ("the older text: noise", noise),
)
