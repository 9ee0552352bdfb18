"""Writes the bench file of a clapper: band-limited pulses (oscillator mode 0100, the sum of cosines) that die away, over a hum.

    python3 examples/clapper.py > examples/clapper.txt

Each line of a bench file is `word=PLACE:VALUE` or `command=XXXXXXXX`; this script names what they are.
"""

PASSES = 160

# A pass lasts N ticks of 195 ns; with N = 265 there are 19,351 passes in a second.
N, T = 265, 5
PASSES_A_SECOND = 1e9 / (195 * N)
STRIKE_NOTE = 220.0

RUNNING_A, TO_DAC = 0b1111, 0b0010
LEVEL_PLUS_EXPONENTIAL = 0b11
SINE, SUM_OF_COSINES = 0b0000, 0b0100
GENERATOR_LAST = 0 << 6
SILENT = GENERATOR_LAST | 63  # a word that nothing adds into: no frequency modulation

words = {}


def generator(g, run, go=0, gj=0, gn=0, gm=0, gp=0, gq=0, gl=0, gsum=0, gfm=SILENT, wave=SINE):
    """The eleven words of generator g; GK is 0."""
    gmode = run << 6 | LEVEL_PLUS_EXPONENTIAL << 4 | wave
    for j, value in enumerate((go, gj, 0, gn, gm, gp, gq, gl, gsum, gfm, gmode)):
        words[11 * g + j] = value


def step(frequency):
    """GJ of a frequency: what is added into GK in each pass, left-adjusted."""
    return round(frequency / PASSES_A_SECOND * 2 ** 20) << 8


# The pulses, in generator-this word 0. The sine at 2p runs GN times as fast as twice K: 2 GN is the ratio of the two sines where
# both are small, the top of the pulse. With GN 12 and GM 5 the top is 4,095 * 24 / 32, below the cap.
generator(0, RUNNING_A, gj=step(STRIKE_NOTE), gn=12, gm=5, gp=90000, wave=SUM_OF_COSINES)

# The hum, in word 0 too and alone in word 1.
for g, gsum in ((1, 0), (2, 1)):
    generator(g, RUNNING_A, gj=step(STRIKE_NOTE / 2), gp=300, gq=3 << 20, gsum=gsum)

# Generators 3 and 4 feed DAC 0 and DAC 1: both, and the hum alone.
generator(3, TO_DAC, go=0, gfm=GENERATOR_LAST | 0)
generator(4, TO_DAC, go=1, gfm=GENERATOR_LAST | 1)

words[4113], words[4114] = T, N

print(f"passes={PASSES}")
for place in sorted(words):
    if words[place]:
        print(f"word={place}:{words[place]}")
