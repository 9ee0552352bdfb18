"""Writes the bench file of two strokes: a high one that dies away and then, by a trigger, sets off a low one.

    python3 examples/two_strokes.py > examples/two_strokes.txt

Each line of a bench file is `word=PLACE:VALUE` or `command=XXXXXXXX`; this script names what they are.
examples/two_strokes.order is an order that takes the DACs first and leaves the strokes as they are by number.
"""

PASSES = 90

# A pass lasts N ticks of 195 ns; with N = 265 there are 19,351 passes in a second.
N, T = 265, 4
PASSES_A_SECOND = 1e9 / (195 * N)

STOPPING, WAIT, TO_DAC = 0b1101, 0b1001, 0b0010
LEVEL_PLUS_EXPONENTIAL = 0b11
SINE = 0b0000
GENERATOR_LAST = 0 << 6
SILENT = GENERATOR_LAST | 63  # a word that nothing adds into: no frequency modulation

# GQ goes up to 2^24, over sixteen halvings, in 40 passes; then it overflows, which is the trigger.
FALL = 2 ** 24 // 40 + 1

words = {}


def generator(g, run, go=0, gj=0, gp=0, gsum=0, gfm=SILENT):
    """The eleven words of generator g; GK, GN, GM, GQ and GL are 0."""
    gmode = run << 6 | LEVEL_PLUS_EXPONENTIAL << 4 | SINE
    for j, value in enumerate((go, gj, 0, 0, 0, gp, 0, 0, gsum, gfm, gmode)):
        words[11 * g + j] = value


def step(frequency):
    """GJ of a frequency: what is added into GK in each pass, left-adjusted."""
    return round(frequency / PASSES_A_SECOND * 2 ** 20) << 8


# Generator 0 is the high stroke, in word 0; with its trigger it stops. Generator 1 waits for that trigger: the low stroke, in word 1.
generator(0, STOPPING, gj=step(1760), gp=FALL, gsum=0)
generator(1, WAIT, gj=step(880), gp=FALL, gsum=1)

# Generators 2 and 3 feed DAC 0 and DAC 1: the high stroke and the low one.
generator(2, TO_DAC, go=0, gfm=GENERATOR_LAST | 0)
generator(3, TO_DAC, go=1, gfm=GENERATOR_LAST | 1)

words[4113], words[4114] = T, N

print(f"passes={PASSES}")
for place in sorted(words):
    if words[place]:
        print(f"word={place}:{words[place]}")
