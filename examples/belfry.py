"""Writes the bench file of a small bell in a belfry: three partials that die away, and the echo of two walls by delay lines.

    python3 examples/belfry.py > examples/belfry.txt

Each line of a bench file is `word=PLACE:VALUE` or `command=XXXXXXXX`; this script names what they are. DAC 0 has the bell
with its echo, DAC 1 the bell alone: what is on DAC 0 when DAC 1 is silent is the echo.
"""

PASSES = 420

# A pass lasts N ticks of 195 ns; with N = 265 there are 19,351 passes in a second. (T-6) div 4 delay units act: with T = 18
# three, and nine modifiers run.
N, T = 265, 18
PASSES_A_SECOND = 1e9 / (195 * N)
STRIKE_NOTE = 880.0

RUNNING_A, TO_DAC = 0b1111, 0b0010
LEVEL_PLUS_EXPONENTIAL = 0b11
SINE = 0b0000
INVOKE_DELAY_UNIT, MIXING = 0b00111, 0b10100
GENERATOR_LAST, MODIFIER_LAST, MODIFIER_THIS = 0 << 6, 1 << 6, 2 << 6
SILENT = GENERATOR_LAST | 63  # a word that nothing adds into: no frequency modulation
DELAY_LINE = 0b1000

words = {}


def generator(g, run, go=0, gj=0, gp=0, gq=0, gsum=0, gfm=SILENT):
    """The words of generator g that are used here."""
    gmode = run << 6 | LEVEL_PLUS_EXPONENTIAL << 4 | SINE
    for j, value in ((0, go), (1, gj), (5, gp), (6, gq), (8, gsum), (9, gfm), (10, gmode)):
        words[11 * g + j] = value


def modifier(m, function, m0=0, m1=0, a=0, b=0, to=0, aa=0, bb=0):
    """The eight words of modifier m, which adds into word `to`; coefficients are given by their high 20 bits. In b stands the
    address of B, or the number of a delay unit."""
    for j, value in enumerate((m0 << 10, m1 << 10, 0, 0, a, b, to, function << 4 | aa << 2 | bb)):
        words[2816 + 8 * m + j] = value


def delay_line(u, first, slots):
    """The words of delay unit u as a line of so many slots of delay memory from the first on: X, Y, Z and P."""
    for j, value in enumerate((first, 0, slots - 1, DELAY_LINE)):
        words[4119 + 7 * u + j] = value


def partial(g, ratio, softer, fall):
    """A partial at a ratio to the strike note, so many halvings softer; fall is GP, by which the envelope decays."""
    step = round(STRIKE_NOTE * ratio / PASSES_A_SECOND * 2 ** 20)
    generator(g, RUNNING_A, gj=step << 8, gp=fall, gq=softer << 20)


# The partials, added into generator-this word 0: prime, tierce, nominal. Each dies away within 90 passes.
partial(0, 1.0, 2, 120000)
partial(1, 1.2, 2, 150000)
partial(2, 2.0, 2, 200000)

# Generators 3 and 4 feed DAC 0 and DAC 1: the mix of modifier 8, and the partials alone.
generator(3, TO_DAC, go=0, gfm=MODIFIER_LAST | 2)
generator(4, TO_DAC, go=1, gfm=GENERATOR_LAST | 0)

# The near wall: modifier 0 sends the partials into a line of 98 slots. What is sent comes back 100 passes later (slots + 2),
# and modifier 0 adds it into word 0 in the pass after. M1 is what the wall throws back again, about a third, out of phase.
modifier(0, INVOKE_DELAY_UNIT, m1=-180000 & 0xFFFFF, a=GENERATOR_LAST | 0, b=0, to=0)
delay_line(0, first=0, slots=98)

# The far wall: modifier 1 sends the near wall's echo, which it sees in modifier-this, into a line of 171 slots. Its unit is
# made by commands, below.
modifier(1, INVOKE_DELAY_UNIT, m1=150000, a=MODIFIER_THIS | 0, b=1, to=1)

# The mix of modifiers 6 and 8: bell and near wall, far wall. A modifier sees early the writes of those 4 below it.
modifier(6, MIXING, m0=400000, m1=250000, a=GENERATOR_LAST | 0, b=MODIFIER_THIS | 0, to=2)
modifier(8, MIXING, m0=200000, a=MODIFIER_THIS | 1, b=SILENT, to=2)

words[4113], words[4114] = T, N


def dly_base(u, first):
    """DLY with UU 00: X of delay unit u, the first slot of its line; Y becomes 0."""
    return first << 16 | 0b00001 << 7 | 0b00 << 5 | u


def dly_length(u, slots):
    """DLY with UU 10: Z and P of delay unit u, a line of so many slots."""
    return slots - 1 << 16 | DELAY_LINE << 12 | 0b00001 << 7 | 0b10 << 5 | u


# The far wall's line, behind the near wall's, from pass 2 on.
commands = [dly_base(1, 98), dly_length(1, 171)]

print(f"passes={PASSES}")
for place in sorted(words):
    if words[place]:
        print(f"word={place}:{words[place]}")
for command in commands:
    print(f"command={command:08X}")
