"""The twelve worked examples and the shown bench file of document 01.

The third example is that of 1,024 since request Q-5 of document 02."""

import math

from reference.cases.build import generator, machine, number
from reference.generator import generator_turn, output
from reference.modifier import product
from reference.orders import compare
from reference.ring import ring
from reference.tables import SINE, exponential, exponential_table
from reference.words import low


def turn(mode, **registers):
    """GQ after a turn, and whether it triggers."""
    after, _, triggers = generator_turn(generator(mode, **registers), 0, False)
    return after[6], triggers


def says(*generators):
    """Whether orders 0,1 and 1,0 of two generators are equal."""
    return compare(machine(generators, words={4113: 2}), [0, 1], [1, 0])


def twelve():
    """The twelve examples, in their sequence."""
    yield "1", [SINE[j] for j in (0, 1, 1023, 2047)], [1, 4, 2895, 4095]
    yield "2", exponential(0), 4093
    yield "3", exponential(1024), 2046
    yield "4", (output(2048, 4095), output(-2048, 4095)), (131040, -131040)
    yield "5", (output(1, 31), output(1, 32)), (0, 1)
    yield "6", output(-1, 32), -1
    yield "7", number(product(0, low(-524288, 20), low(-524288, 20))), -524288
    yield "8", (product(0, 1, 262144), product(0, low(-1, 20), 262144)), (1, 0)
    yield "9 sticky", turn("1111 00 0000", GQ=16777215, GP=1), (16777215, False)
    yield "9 free", turn("1110 00 0000", GQ=16777215, GP=1), (0, True)
    yield "10", says(generator("1110 00 0000"), generator("1001 00 0000")), (0, False)
    yield "11 one GFM", says(generator("0010 00 0000", GFM=5),
                             generator("0010 00 0000", GFM=5)), (0, True)
    yield "11 two GFMs", says(generator("0010 00 0000", GFM=5),
                              generator("0010 00 0000", GFM=6)), (0, False)
    yield "12 one GSUM", says(generator("0111 00 0000", GSUM=5),
                              generator("1111 00 0000", GSUM=5)), (0, False)
    yield "12 two GSUMs", says(generator("0111 00 0000", GSUM=5),
                               generator("1111 00 0000", GSUM=6)), (0, True)


def shown_file():
    """The bench file shown in document 01."""
    file = b"passes=2\nword=7:4095\nword=10:962\nword=21:128\nword=4113:2\n"
    yield "shown", ring(file), b"pass=1 left=0 right=0\npass=2 left=131040 right=0\n"


def tables():
    """Entries of the tables, and the quarters of the sine, by the rules."""
    # 355/113 is a little more than pi, so the rule is close to the true sine of (2j+1) pi/8,192;
    # one whole part differs, at 883, where the rule gives one more.
    true = [int(4096 * math.sin((2 * j + 1) * math.pi / 8192)) for j in range(2048)]
    yield "not the true sine", [j for j in range(2048) if SINE[j] != true[j]], [883]
    yield "entry 883", (SINE[883], true[883]), (2568, 2567)
    # 4093 / 2^11 = 1.998.., 4093 / 2^12 is below 1; entry 1023 is about 2047, / 2^15 is 0.
    ends = [exponential(number) for number in (11264, 12288, 16383)]
    yield "exponential at 11264, 12288, 16383", ends, [1, 0, 0]
    # Entry f is below 4093 / 2^(f/1024): 4093 / 2^(1/2) = 2894.18.., and 4093 by 0.999323,
    # 0.998647, 0.997971 and by 0.500339 are 4090.2, 4087.4, 4084.6 and 2047.8.
    yield "exponential at 512", exponential(512), 2894
    few = [exponential(number) for number in (0, 1, 2, 3, 1023, 1024)]
    yield "exponential at 0, 1, 2, 3, 1023, 1024", few, [4093, 4090, 4087, 4084, 2047, 2046]


def largest(e, f, n):
    """Whether e is the largest with e^n times 2^f at most 4,093^n."""
    return e**n << f <= 4093**n < (e + 1)**n << f


def exponential_rule():
    """One rule over the table's size: all entries of document 01's table and of today's."""
    for n in (256, 1024):
        entries = exponential_table(n, n)
        yield f"{n} entries", [f for f in range(n) if not largest(entries[f], f, n)], []
    old, new = (list(exponential_table(n, n)) for n in (256, 1024))
    yield "today's entries", [exponential(f) for f in range(1024)], new
    yield "entries 4f", [exponential(4 * f) for f in range(256)], old


GROUPS = (
    ("twelve examples", twelve),
    ("shown bench file", shown_file),
    ("tables", tables),
    ("exponential", exponential_rule),
)
