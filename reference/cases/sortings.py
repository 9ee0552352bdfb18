"""The order by pitch, order files, and what the program that sorts a bell prints, by hand."""

from reference.cases.build import generator, machine
from reference.sorted import by_pitch, order_file, shown, sorted_by_own_contents, sorted_text


# The order by pitch

def order_of(*gjs):
    """The order by pitch of generators with these GJ, signed numbers; one above T has GJ 0."""
    made = [generator("1111 00 0000", GJ=gj) for gj in gjs]
    return by_pitch(machine(made, words={4113: len(gjs)}))


def pitches():
    """Rising by the magnitude of the high 20 bits of GJ, the lower number first."""
    yield "rising", order_of(256, 512, 768), [0, 1, 2]
    yield "falling", order_of(768, 512, 256), [2, 1, 0]
    yield "one", order_of(5), [0]
    yield "equal", order_of(256, 256, 256), [0, 1, 2]
    yield "equal with others between", order_of(512, 256, 512, 256, 0), [4, 1, 3, 0, 2]
    # -2, 1 and 3: by magnitude 1, 2, 3.
    yield "negative", order_of(-512, 256, 768), [1, 0, 2]
    yield "of both signs, equal", order_of(-512, 512, -512), [0, 1, 2]
    yield "-524,288 is the highest", order_of(-(1 << 27), (1 << 27) - 1, 0), [2, 1, 0]
    yield "-524,287 and 524,287", order_of((1 << 27) - 1, -(1 << 27) + 256), [0, 1]
    # The low 8 bits don't count: 511 and 256 are both pitch 1.
    yield "low bits", order_of(511, 256, 300), [0, 1, 2]
    # -1 and -256 are both pitch -1, -257 is -2, 255 is 0.
    yield "low bits, negative", order_of(-257, -256, -1, 255), [3, 1, 2, 0]
    yield "-1 against 256", order_of(256, -1, 511), [0, 1, 2]
    # 1 to 256 backwards, so that no two are equal.
    gjs = [256 * (256 - g) for g in range(256)]
    yield "256 generators", order_of(*gjs), list(range(255, -1, -1))


# Order files

def taken():
    """Texts that are order files."""
    yield "one", order_file(b"order=0\n"), [0]
    yield "255", order_file(b"order=255\n"), [255]
    # Whether each number below T is there once is another question.
    yield "repeated", order_file(b"order=9\norder=9\n"), [9, 9]
    lines = b"".join(b"order=%d\n" % g for g in range(256))
    yield "256 lines", order_file(lines), list(range(256))
    yield "256 lines alike", order_file(b"order=100\n" * 256), [100] * 256


NOT_TAKEN = (
    b"", b"\n", b"order=0", b"order=1\norder=0", b"order=256\n", b"order=00\n", b"order=01\n",
    b"order=007\n", b"order=\n", b"order\n", b"order=-1\n", b"order=+1\n", b"order= 1\n", b"order=1 \n",
    b" order=1\n", b"order=1\r\n", b"order=1\r\norder=0\r\n", b"Order=1\n", b"order =1\n", b"order:1\n",
    b"order=1,0\n", b"order=0x1\n", b"order=1\n\n", b"\norder=1\n", b"order=1\n\norder=0\n",
    b"order=1\0\n", b"order=1\n\0", b"order=1;order=0\n", b"order=4294967296\n",
    b"order=18446744073709551616\n", b"order=" + b"1" * 65530 + b"\n", b"order=\xb2\n",
    b"order=0\n" * 257, b"order=0\n" * 8192, b"passes=1\n", b"order=0\nequal\n",
    b"order=0\npoint=1 place=1 word=10\n",
)


def not_taken():
    """Texts that are not."""
    for text in NOT_TAKEN:
        yield repr(text[:40]), order_file(text), None


# What is printed

def bench(*lines):
    """A bench file of these lines after the first."""
    return b"".join(line + b"\n" for line in (b"passes=1", *lines))


# T 2: generator 0 in 1110 (896), generator 1 in 1001 (576), which has the lower pitch: GJ 256 and 0.
TRIGGER = (b"word=1:256", b"word=10:896", b"word=21:576", b"word=4113:2")
# T 2: both feed DAC 3 (GO 3), 0010 (128), through GFM 1 and 2; 0 has pitch -1 and 1 has 0.
FEEDERS = (b"word=0:3", b"word=1:268435455", b"word=9:1", b"word=10:128", b"word=11:3", b"word=20:2",
           b"word=21:128", b"word=4113:2")
# T 2: both write data, 0011 (192), through GFM 1 and 2; equal pitches.
WRITERS = (b"word=9:1", b"word=10:192", b"word=20:2", b"word=21:192", b"word=4113:2")
# T 2: 0111 (448) and 1111 (960) on sum word 5; generator 0 has pitch 1.
REPLACED = (b"word=1:256", b"word=8:5", b"word=10:448", b"word=19:5", b"word=21:960", b"word=4113:2")
BACK, FORTH = b"order=1\norder=0\n", b"order=0\norder=1\n"


def whole(lines, order_text=None):
    """What is printed, with the reference's own contents."""
    return sorted_by_own_contents(bench(*lines), order_text)


def printed():
    """Good files: the order, then the verdict."""
    yield "a fresh machine", whole(()), b"order=0\nequal\n"
    yield "adding", whole((b"word=1:256", b"word=10:960", b"word=21:960", b"word=4113:2")), BACK + b"equal\n"
    # GMODE of generator 1 is word 21; DAC 3 is word 4099; generator-last word 5 is word 3909.
    yield "point 1", whole(TRIGGER), BACK + b"point=1 place=1 word=21\n"
    yield "point 2", whole(FEEDERS), BACK + b"point=2 place=3 word=4099\n"
    yield "point 3, equal pitches", whole(WRITERS), FORTH + b"equal\n"
    yield "point 3", whole(WRITERS, BACK), BACK + b"point=3 place=0 written=0\n"
    yield "point 4", whole(REPLACED), BACK + b"point=4 place=5 word=3909\n"
    for lines in (TRIGGER, FEEDERS, WRITERS, REPLACED):
        yield "by number", whole(lines, FORTH), FORTH + b"equal\n"
        yield "by an order file", whole(lines, BACK).startswith(BACK + b"point="), True
    yield "no passes", sorted_by_own_contents(b"passes=0\n", None), b"order=0\nequal\n"
    # TICKS would make T 2, GJ of generator 0 would become 256.
    yield "commands don't count", whole((*TRIGGER[1:3], b"command=00001180", b"command=00100400")), b"order=0\nequal\n"
    yield "later word", whole((b"word=1:256", *TRIGGER[1:], b"word=1:0")), FORTH + b"equal\n"
    # A line that 11 refuses in a pass: unit 0, named by modifier 0, with Y 1 and Z 0; T is 10.
    bad_line = (b"word=2823:112", b"word=4120:1", b"word=4122:8", b"word=4113:10")
    yield "11 is not asked", whole(bad_line).endswith(b"order=9\nequal\n"), True
    yield "nor is 7", whole((b"word=10:448",)), b"order=0\nequal\n"


def questions():
    """Refusals, in their sequence."""
    nine, two = b"passes=1\nword=0:x\n", bench(b"word=0:1048576")
    for name, text, order_text, said in (
            ("no text", b"", None, b"refused=9\n"),
            ("9", nine, None, b"refused=9\n"),
            ("9 before the order file's", nine, b"", b"refused=9\n"),
            ("order file", bench(), b"", b"order-refused=9\n"),
            ("order file before 2", two, b"order=x\n", b"order-refused=9\n"),
            ("2", two, None, b"refused=2\n"),
            ("2 before 5", two, BACK, b"refused=2\n"),
            ("T 0", bench(b"word=4113:0"), None, b"refused=2\n"),
            ("T 257", bench(b"word=4113:257"), None, b"refused=2\n"),
            ("T 4294967295", bench(b"word=4113:4294967295"), None, b"refused=2\n"),
            ("short", bench(*TRIGGER), b"order=0\n", b"refused=5\n"),
            ("long", bench(*TRIGGER), BACK + b"order=2\n", b"refused=5\n"),
            ("5 before 6", bench(*TRIGGER), b"order=9\n" * 3, b"refused=5\n"),
            ("repeated", bench(*TRIGGER), b"order=0\norder=0\n", b"refused=6\n"),
            ("not below T", bench(*TRIGGER), b"order=0\norder=2\n", b"refused=6\n"),
            ("T 1", bench(), b"order=255\n", b"refused=6\n")):
        yield name, sorted_text(text, order_text).printed, said


def first_difference():
    """What shows a difference: the first word, else the first written item."""
    writers = [generator("0011 00 0000", GFM=gfm) for gfm in (1, 2, 1, 3)]
    # The words at GFM 1, 2 and 3 are 5, 5 and 6: the lists 5, 5, 5, 6 and 5, 5, 6, 5.
    made = machine(writers, words={4113: 4, 3905: 5, 3906: 5, 3907: 6})
    yield "written 2", shown(made, [], [0, 1, 2, 3], [1, 0, 3, 2]), b"written=2\n"
    # A feeder among them: DAC 0 gets 5 or 6.
    feeders = [generator("0010 00 0000", GFM=gfm) for gfm in (1, 3)]
    made = machine(writers[:2] + feeders, words={4113: 4, 3905: 5, 3906: 9, 3907: 6})
    yield "a word before an item", shown(made, [], [0, 1, 2, 3], [1, 0, 3, 2]), b"word=4096\n"
    # Two readers on one word: the last one's item stays, 7 or 8. P is 0 at GQ 0 and GL 0.
    readers = [generator("0111 00 0000", GSUM=63)] * 2
    made = machine(readers, words={4113: 2})
    yield "items alone, by number", shown_or_none(made, [7, 8]), None
    louder = [readers[0], generator("0111 00 0010", GSUM=63, GL=4095)]
    made = machine(louder, words={4113: 2})
    yield "a reader that sounds", shown(made, [7, 8], [0, 1], [1, 0]), b"word=3967\n"


def shown_or_none(made, items):
    """What shows a difference of two generators' orders, or None."""
    try:
        return shown(made, items, [0, 1], [1, 0])
    except AssertionError:
        return None


GROUPS = (
    ("the order by pitch", pitches),
    ("order files", taken),
    ("order files that do not fit", not_taken),
    ("a bell sorted", printed),
    ("a bell sorted, questions", questions),
    ("what shows a difference", first_difference),
)
