"""Writes the bench file of a small bell: five partials, a strike that is triggered, and a clapper made by modifiers.

    python3 examples/short_bell.py > examples/short_bell.txt

Each line of a bench file is `word=PLACE:VALUE` or `command=XXXXXXXX`; this script names what they are.
"""

PASSES = 40

# A pass lasts N ticks of 195 ns; with N = 265 there are 19,351 passes in a second.
N, T = 265, 18
PASSES_A_SECOND = 1e9 / (195 * N)
STRIKE_NOTE = 440.0

RUNNING_A, RUNNING_B, WAIT, TO_DAC = 0b1111, 0b1110, 0b1001, 0b0010
LEVEL_PLUS_EXPONENTIAL = 0b11
SINE, SQUARE = 0b0000, 0b0010
NOISE, PRODUCT, MIXING = 0b00010, 0b11000, 0b10100
REPLACE = 1 << 6
GENERATOR_LAST, MODIFIER_LAST, MODIFIER_THIS = 0 << 6, 1 << 6, 2 << 6
SILENT = GENERATOR_LAST | 63  # a word that nothing adds into: no frequency modulation

words = {}


def generator(g, run, go=0, gj=0, gk=0, gm=0, gp=0, gq=0, gl=0, gsum=0, gfm=SILENT, envelope=LEVEL_PLUS_EXPONENTIAL, wave=SINE):
    """The eleven words of generator g."""
    gmode = run << 6 | envelope << 4 | wave
    for j, value in enumerate((go, gj, gk, 0, gm, gp, gq, gl, gsum, gfm, gmode)):
        words[11 * g + j] = value


def modifier(m, function, m0=0, m1=0, l0=0, l1=0, a=0, b=0, to=0, aa=0, bb=0):
    """The eight words of modifier m; coefficients are given by their high 20 bits."""
    for j, value in enumerate((m0 << 10, m1 << 10, l0, l1, a, b, REPLACE | to, function << 4 | aa << 2 | bb)):
        words[2816 + 8 * m + j] = value


def partial(g, ratio, softer, fall):
    """A partial at a ratio to the strike note, so many halvings softer; fall is GP, by which the envelope decays."""
    step = round(STRIKE_NOTE * ratio / PASSES_A_SECOND * 2 ** 20)
    generator(g, RUNNING_A, gj=step << 8, gp=fall, gq=softer << 20)


# The partials, added into generator-this word 0: hum, prime, tierce, quint, nominal.
partial(0, 0.5, 2, 60)
partial(1, 1.0, 2, 180)
partial(2, 1.2, 2, 120)
partial(3, 1.5, 3, 400)
partial(4, 2.0, 2, 700)

# Generator 5 runs free: its envelope overflows in its fifth turn and triggers generator 6, which waits.
generator(5, RUNNING_B, gp=200000, gq=16000000, gl=3, gm=15, gsum=1, envelope=0b00)

# Generator 6 is the clapper's envelope, in word 2: a constant wave that decays once it is triggered.
generator(6, WAIT, gp=400000, gsum=2, wave=SQUARE)

# Generators 7 and 8 feed DAC 0 and DAC 1: the mix of modifier 8, and the partials alone.
generator(7, TO_DAC, go=0, gfm=MODIFIER_LAST | 2)
generator(8, TO_DAC, go=1, gfm=GENERATOR_LAST | 0)

# The clapper: noise, its product with the envelope, and the mix with the partials. A modifier sees early the writes of those 4 below it.
modifier(0, NOISE, m0=4093, l0=12345, l1=1, to=0, aa=2)
modifier(4, PRODUCT, m1=400000, a=MODIFIER_THIS | 0, b=GENERATOR_LAST | 2, to=1, aa=2)
modifier(8, MIXING, m0=400000, m1=300000, a=GENERATOR_LAST | 0, b=MODIFIER_THIS | 1, to=2)

words[4113], words[4114] = T, N


def timer_linger(number):
    """TIMER with TT 10: no further commands until the low 20 bits of the pass counter are the number."""
    return number << 12 | 0b00010 << 7 | 0b10 << 3


def load_gp(g, value):
    """GP of generator g."""
    return value << 12 | 0b0110 << 8 | g


# From pass 30 on the bell is damped: nominal and quint fall fast.
commands = [timer_linger(30), load_gp(4, 120000), load_gp(3, 120000)]

print(f"passes={PASSES}")
for place in sorted(words):
    if words[place]:
        print(f"word={place}:{words[place]}")
for command in commands:
    print(f"command={command:08X}")
