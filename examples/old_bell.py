"""Writes the bench file of a bell by the older text (text=old): hum and tierce on the left, and after 0.3 seconds a second
stroke, in which the prime on the right is triggered from the generator two below it.

    python3 examples/old_bell.py > examples/old_bell.txt

Each line of a bench file is `word=PLACE:VALUE`; this script names what they are. An old file has no commands.
"""

PASSES = 3000

# A pass lasts N ticks of 195 ns; with N = 1,025 there are 5,003 passes in a second. The strokes are so many passes apart.
N, T = 1025, 5
PASSES_A_SECOND = 1e9 / (195 * N)
STRIKE_NOTE = 440.0
STROKE = 1400

# Run modes: 010 runs, and its envelope stays at its end; 011 runs, begins anew at its envelope's end and then triggers the
# generator two above; 100 waits for such a trigger, runs in 101 up to its envelope's end and waits again; 111 sends its angle to
# the DAC that GN names.
RUNNING, TRIGGERS, WAITS, SENDS = 0b010, 0b011, 0b100, 0b111
LEVEL_PLUS_EXPONENTIAL = 0b10
COSINE, COSINE_OF_J = 0b100, 0b101
GENERATOR_LAST = 0 << 6
SILENT = GENERATOR_LAST | 63  # a word that nothing adds into: no frequency modulation
ENVELOPE_END = 1 << 24

words = {}


def generator(g, run, wave=COSINE, gj=0, gn=0, gp=0, gq=0, gsum=0, gfm=SILENT):
    """The words of generator g that are used here."""
    gmode = run << 5 | LEVEL_PLUS_EXPONENTIAL << 3 | wave
    for j, value in ((1, gj), (3, gn), (5, gp), (6, gq), (8, gsum), (9, gfm), (10, gmode)):
        words[11 * g + j] = value


def step(ratio):
    """GJ of a ratio to the strike note: what is added into GK in each pass, left-adjusted."""
    return round(STRIKE_NOTE * ratio / PASSES_A_SECOND * 2 ** 20) << 8


# The first stroke, in generator-this word 0: tierce and hum. GP is what the envelope falls by in each pass. The tierce comes to
# its end in pass 1,400, begins anew and triggers generator 2.
generator(0, TRIGGERS, gj=step(1.2), gp=ENVELOPE_END // STROKE, gq=ENVELOPE_END % STROKE)
generator(1, RUNNING, gj=step(0.5), gp=6000, gq=1 << 20)

# The second stroke, in word 1: the prime, which has waited so far.
generator(2, WAITS, gj=step(1.0), gp=ENVELOPE_END // STROKE, gsum=1)

# Generators 3 and 4 feed DAC 0 and DAC 1. The angle of oscillator mode 101 is J: with GJ 0 it is the word at GFM.
generator(3, SENDS, COSINE_OF_J, gn=0, gfm=GENERATOR_LAST | 0)
generator(4, SENDS, COSINE_OF_J, gn=1, gfm=GENERATOR_LAST | 1)

words[4113], words[4114] = T, N

print("text=old")
print(f"passes={PASSES}")
for place in sorted(words):
    if words[place]:
        print(f"word={place}:{words[place]}")
