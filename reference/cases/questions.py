"""Question 2, word by word: the greatest good value and the first refused one."""

from reference.machine import fresh_machine, put_update_ticks, refusal

# Generator 255 starts at 2,805, modifier 127 at 3,832. Widths are those of document 01.
HIGHEST = (
    (2805, 1048575), (2806, 268435455), (2807, 1048575), (2808, 2047), (2809, 15),
    (2810, 1048575), (2811, 16777215), (2812, 4095), (2813, 63), (2814, 127),
    (3832, 1073741823), (3833, 1073741823), (3834, 1048575), (3835, 1048575), (3838, 127),
    (0, 1048575), (1, 268435455), (2816, 1073741823), (2822, 127),
    (3840, 1048575), (3904, 1048575), (3968, 1048575), (4095, 1048575),
    (4096, 1048575), (4111, 1048575), (4112, 1048575), (4113, 256), (4114, 1025),
    (4115, 4294967295), (4116, 1), (4117, 1048575), (4118, 1),
    # Delay unit 0 starts at 4,119, unit 31 at 4,336: X, Y, Z, P (1011), three words.
    (4119, 65535), (4120, 65535), (4121, 65535), (4122, 11), (4123, 1048575), (4124, 1048575),
    (4125, 1048575), (4336, 65535), (4337, 65535), (4338, 65535), (4339, 11), (4340, 1048575),
    (4341, 1048575), (4342, 1048575),
    # Top bits 10 at most in MIN and MRM.
    (3836, 191), (3837, 191),
    # GMODE 1111 11 1000; MMODE 11101 11 11.
    (2815, 1016), (3839, 479),
)

BUILT_RUN_MODES = (0b0000, 0b0001, 0b0010, 0b0011, 0b0111, 0b1001, 0b1101, 0b1110, 0b1111)
BUILT_OSCILLATOR_MODES = (0b0000, 0b0001, 0b0010, 0b0011, 0b0100, 0b1000)
BUILT_FUNCTIONS = (
    0b00000, 0b00010, 0b00011, 0b00100, 0b00110, 0b00111, 0b01000, 0b01001, 0b01011, 0b01100,
    0b01101, 0b01111, 0b10000, 0b10001, 0b10100, 0b10110, 0b11000, 0b11001, 0b11010, 0b11011,
    0b11100, 0b11101,
)
BUILT_DELAY_MODES = (0b0000, 0b1000, 0b1010, 0b1011)


def number_with(place, value):
    """What questions 1 and 2 say of a fresh machine with one word changed, the count with it."""
    made = fresh_machine()
    made[place] = value
    put_update_ticks(made)
    return refusal(made)


def widths():
    """Each width and range, from both sides."""
    # The counter has all 32 bits, so the first refused one is no word: 2^32. Smaller ones are good.
    counters = (0, 1048575, 1048576, 16777216, 2147483648, 4294967294)
    yield "counters", [number_with(4115, counter) for counter in counters], [0] * len(counters)
    for place, most in HIGHEST:
        yield f"word {place}", (number_with(place, most), number_with(place, most + 1)), (0, 2)
    yield "T 0", number_with(4113, 0), 2
    yield "N 1, N 2", (number_with(4114, 1), number_with(4114, 2)), (2, 0)
    yield "MIN top bits 11", number_with(2820, 192), 2
    yield "MRM top bits 11", number_with(2821, 255), 2
    yield "all bits", number_with(3904, 4294967295), 2
    yield "X of all bits", number_with(4119, 4294967295), 2
    # MRM of a 00111, function 0x70: the unit is in its low 5 bits, but top bits 11 are not good.
    made = fresh_machine()
    made[2823], made[2821] = 0x70, 191
    yield "MRM of a 00111", refusal(made), 0
    made[2821] = 192
    yield "MRM of a 00111, top bits 11", refusal(made), 2
    # A line that reaches past delay memory, with its index past its length, is a good machine.
    made = fresh_machine()
    made[4119:4123] = [65535, 65535, 1, 8]
    yield "a line anywhere", refusal(made), 0
    yield "lengths", [refusal([0] * n) for n in (0, 4119, 4343, 4345)], [1, 1, 1, 1]


# T, N and the count, N-T-8 or 0; a large T beside a small N is good.
COUNTS = ((1, 265, 256), (1, 1025, 1016), (256, 1025, 761), (256, 265, 1), (256, 264, 0), (1, 9, 0),
          (1, 10, 1), (1, 8, 0), (1, 2, 0), (256, 2, 0), (256, 263, 0), (100, 150, 42))


def counts():
    """The last word is the count of update ticks, which joins T and N."""
    for t, n, count in COUNTS:
        tried = {0, 1, 2, 255, 256, 257, 1016, count - 1, count, count + 1, abs(n - t - 8),
                 (n - t - 8) % (1 << 32), 1 << 20 | count, 1 << 31 | count, (1 << 32) - 1}
        good = set()
        for value in tried - {-1}:
            made = fresh_machine()
            made[4113], made[4114], made[4343] = t, n, value
            if refusal(made) == 0:
                good.add(value)
        yield f"T {t}, N {n}", good, {count}
    # T out of its range, with a count that would be N-T-8.
    made = fresh_machine()
    made[4113], made[4343] = 0, 257
    yield "T 0", refusal(made), 2


def modes():
    """Each mode, built or not, in an idle generator or modifier."""
    good = [mode for mode in range(16) if number_with(2815, mode << 6) == 0]
    yield "run modes", tuple(good), BUILT_RUN_MODES
    good = [mode for mode in range(16) if number_with(2815, mode) == 0]
    yield "oscillator modes", tuple(good), BUILT_OSCILLATOR_MODES
    good = [mode for mode in range(4) if number_with(2815, mode << 4) == 0]
    yield "envelope modes", good, [0, 1, 2, 3]
    good = [code for code in range(32) if number_with(3839, code << 4) == 0]
    yield "functions", tuple(good), BUILT_FUNCTIONS
    good = [scale for scale in range(16) if number_with(3839, scale) == 0]
    yield "scales", good, list(range(16))
    for u in (0, 31):
        good = [mode for mode in range(16) if number_with(4122 + 7 * u, mode) == 0]
        yield f"modes of delay unit {u}", tuple(good), BUILT_DELAY_MODES
    yield "P too wide", number_with(4122, 24), 2


GROUPS = (
    ("question 2, widths", widths),
    ("question 2, update ticks", counts),
    ("question 2, modes", modes),
)
