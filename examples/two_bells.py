"""Writes the bench file of one of two bells that can be joined: a low one, heard on the left, and a high one, on the right.

    python3 examples/two_bells.py low > examples/low_bell.txt
    python3 examples/two_bells.py high > examples/high_bell.txt

examples/join_host.c joins them. Neither has a modifier, a reader or a writer, and they share no sum word and no DAC: the
low bell has words 0 and 63 and DAC 0, the high one words 1 and 62 and DAC 1. Every generator below T has its GSUM and GFM
among its bell's words, the one that feeds the DAC too.
"""

import sys

PASSES = 12000

# A pass lasts N ticks of 195 ns; with N = 1,025 there are 5,003 passes in a second.
N = 1025
PASSES_A_SECOND = 1e9 / (195 * N)

RUNNING, TO_DAC = 0b1111, 0b0010
LEVEL_PLUS_EXPONENTIAL = 0b11
SINE = 0b0000

# A bell: its strike note in Hz, the sum word of its partials, one that nothing adds into, its DAC; of each partial the ratio
# to the strike note, by how many halvings it is softer, and by how much GQ rises in a pass: its decay.
LOW = 220.0, 0, 63, 0, ((0.5, 2, 20), (1.0, 2, 60), (1.2, 2, 50), (1.5, 3, 120), (2.0, 2, 200))
HIGH = 523.25, 1, 62, 1, ((0.5, 3, 60), (1.0, 2, 150), (1.2, 2, 120), (2.0, 2, 400))


def generator(words, g, run, gsum, gfm, go=0, gj=0, gp=0, gq=0):
    """The words of generator g that are used here."""
    gmode = run << 6 | LEVEL_PLUS_EXPONENTIAL << 4 | SINE
    for register, value in ((0, go), (1, gj), (5, gp), (6, gq), (8, gsum), (9, gfm), (10, gmode)):
        words[11 * g + register] = value


def bell_words(strike_note, word, silent, dac, partials):
    """The words of a bell: a generator for each partial, and one that feeds the DAC."""
    words = {4113: len(partials) + 1, 4114: N}
    for g, (ratio, softer, fall) in enumerate(partials):
        step = round(strike_note * ratio / PASSES_A_SECOND * 2 ** 20)
        generator(words, g, RUNNING, word, silent, gj=step << 8, gp=fall, gq=softer << 20)
    generator(words, len(partials), TO_DAC, word, word, go=dac)
    return words


def main(arguments):
    """Writes the named bell."""
    if arguments not in (["low"], ["high"]):
        sys.exit("usage: two_bells.py low | high")
    words = bell_words(*(LOW if arguments == ["low"] else HIGH))
    print(f"passes={PASSES}")
    for place in sorted(words):
        if words[place]:
            print(f"word={place}:{words[place]}")


if __name__ == "__main__":
    main(sys.argv[1:])
