"""Bench files with a text= line, and old bells sorted, by hand."""

from reference.ring import ring
from reference.sorted import sorted_by_own_contents

# Generator 0 is a square wave under V 4,095; generator 1 sends its J, the sum word, to DAC 0.
TONE = b"word=7:4095\nword=10:65\nword=21:229\nword=4113:2\n"
TONE_1978 = b"word=7:4095\nword=10:962\nword=21:128\nword=4113:2\n"
COMMAND = b"command=00009108\n"


def heard(second):
    """Two lines, with what DAC 0 has in the second."""
    return b"pass=1 left=0 right=0\npass=2 left=%d right=0\n" % second


def rung():
    """Files that ring."""
    yield "shown", ring(b"text=old\npasses=2\n" + TONE), heard(65520)
    yield "without its line", ring(b"passes=2\n" + TONE), b"refused=2\n"
    yield "1978", ring(b"text=1978\npasses=2\n" + TONE_1978), heard(131040)
    yield "none", ring(b"passes=2\n" + TONE_1978), heard(131040)
    yield "1978 in an old file", ring(b"text=old\npasses=2\n" + TONE_1978), b"refused=2\n"
    yield "a command", ring(b"text=1978\npasses=1\n" + COMMAND), b"pass=9 left=0 right=0\n"
    yield "no passes", ring(b"text=old\npasses=0\nword=10:1023\n"), b""
    # GN 1 is DAC 1; GN 1,024 writes, and there is no place. 110 00 001 is 193.
    yield "DAC 1", ring(b"text=old\npasses=2\n" + TONE + b"word=14:1\n"), (
        b"pass=1 left=0 right=0\npass=2 left=0 right=65520\n")
    yield "8", ring(b"text=old\npasses=2\n" + TONE + b"word=14:1024\n"), b"refused=8\n"
    yield "7", ring(b"text=old\npasses=2\nword=10:193\n"), b"refused=7\n"
    # Lingering to pass 1, which no update ends; N 9 leaves no tick.
    quiet = b"word=4114:9\nword=4115:4294967295\nword=4116:1\nword=4117:1\n"
    yield "lingering", ring(b"text=old\npasses=2\n" + quiet), (
        b"pass=0 left=0 right=0\npass=1 left=0 right=0\n")
    # Generator 0 in 101 overflows, waits in pass 2 and 3; generator 2 (100) is told and adds then.
    stroke = (b"word=5:1\nword=6:16777215\nword=10:161\nword=21:229\nword=29:2048\nword=32:129\n"
              b"word=4113:3\n")
    yield "a stroke from two below", ring(b"text=old\npasses=3\n" + stroke), (
        b"pass=1 left=0 right=0\npass=2 left=65520 right=0\npass=3 left=32768 right=0\n")


NOT_FITTING = (
    b"text=old\n", b"text=old\ntext=old\npasses=1\n", b"passes=1\ntext=old\n", b"text=old",
    b"Text=old\npasses=1\n", b"TEXT=old\npasses=1\n", b"text =old\npasses=1\n",
    b" text=old\npasses=1\n", b"text:old\npasses=1\n", b"text\npasses=1\n",
    b"\ntext=old\npasses=1\n", b"text=old\n\npasses=1\n", b"text=old\nword=0:0\npasses=1\n",
    b"text=old\npasses=1\n" + COMMAND, b"text=old\npasses=0\n" + COMMAND,
    b"text=old\npasses=1\ncommand=x\n", b"text=old\npasses=1\nword=4343:0\n",
    b"text=other\npasses=65536\n", b"text=other\n", b"text=\npasses=1\nword=0:x\n",
    b"text=other\ntext=old\npasses=1\n", b"text=1978\ntext=1978\npasses=1\n",
)
OTHER_TEXTS = (b"", b"OLD", b"Old", b"old ", b" old", b"old\r", b"old\0", b"1977", b"01978",
               b"1978 ", b"new", b"old=old", b"o", b"oldest", b"\xff" * 99)


def refused():
    """9 of everything else first, then 13 of any other value."""
    for text in NOT_FITTING:
        yield repr(text[:40]), ring(text), b"refused=9\n"
    for value in OTHER_TEXTS:
        line = b"text=" + value + b"\n"
        yield repr(value[:20]), ring(line + b"passes=2\n" + TONE), b"refused=13\n"
        yield repr(value[:20]) + " with a command", ring(line + b"passes=0\n" + COMMAND), (
            b"refused=13\n")
    # The line counts: 9 + 9 + 5,956*11 bytes, and 2 more in the last line.
    full = b"text=old\npasses=1\n" + b"word=0:777\n" * 5955 + b"word=100:777\n"
    yield "65536 bytes", (len(full), ring(full)), (65536, b"pass=1 left=0 right=0\n")
    yield "65537 bytes", ring(full.replace(b"=100:", b"=1000:")), b"refused=9\n"


def whole(lines, order_text=None, text=b"old"):
    """What the program that sorts a bell prints, with the reference's own contents."""
    file = b"text=" + text + b"\npasses=1\n" + b"".join(line + b"\n" for line in lines)
    return sorted_by_own_contents(file, order_text)


def sortings():
    """Old bells: T 2 or 3; 0 has the higher pitch. 97 is 011 00 001, 129 waits, 225 sends."""
    forth, back = b"order=0\norder=1\n", b"order=1\norder=0\n"
    pair = (b"word=1:256", b"word=10:97", b"word=21:129", b"word=4113:2")
    yield "neighbours", whole(pair), back + b"equal\n"
    three = (b"word=1:512", b"word=12:512", b"word=10:97", b"word=32:129", b"word=4113:3")
    yield "two below", whole(three), b"order=2\norder=0\norder=1\npoint=1 place=2 word=32\n"
    feeders = (b"word=1:256", b"word=10:225", b"word=21:225", b"word=4113:2")
    yield "feeders", whole(feeders), back + b"point=2 place=0 word=4096\n"
    writers = (*feeders, b"word=3:1024", b"word=14:1024")
    yield "writers", whole(writers), back + b"point=3 place=0 written=0\n"
    yield "by number", whole(writers, forth), forth + b"equal\n"
    yield "13", whole(writers, None, b"new"), b"refused=13\n"
    yield "13 before the order file's", whole(writers, b"", b"new"), b"refused=13\n"
    yield "order file", whole(writers, b"order=x\n"), b"order-refused=9\n"
    yield "2", whole((b"word=10:962",)), b"refused=2\n"
    yield "9", whole((b"command=00000000",)), b"refused=9\n"


GROUPS = (
    ("bench files with a text= line", rung),
    ("bench files with a text= line, refused", refused),
    ("old bells sorted", sortings),
)
