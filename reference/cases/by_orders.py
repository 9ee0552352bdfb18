"""What the bench program prints by an order file and by pitch, by hand."""

from reference.by_order import BY_PITCH, ring_by
from reference.cases.sortings import NOT_TAKEN
from reference.ring import ring

# Generators 0 and 1 both feed DAC 0: 0 from generator-last word 1, 1 from word 2. Word 1 holds 5 and
# word 2 holds 7 as the passes begin, and nothing adds into them. The last one taken holds.
FEEDERS = b"passes=1\nword=9:1\nword=10:128\nword=20:2\nword=21:128\nword=3905:5\nword=3906:7\nword=4113:2\n"
ONE_PASS = b"pass=1 left=%d right=0\n"
# Two passes of nothing; after the first a TICKS command sets T to 1, 2 or 3: its number is one less.
TICKS = b"passes=2\nword=4113:2\ncommand=0000%d180\n"
QUIET = b"pass=1 left=0 right=0\npass=2 left=0 right=0\n"
FIRST = b"pass=1 left=0 right=0\n"


def rung():
    """Each pass goes by the order."""
    yield "by number", ring_by(FEEDERS, b"order=0\norder=1\n"), ONE_PASS % 7
    yield "backwards", ring_by(FEEDERS, b"order=1\norder=0\n"), ONE_PASS % 5
    # Both pitches are 0: the lower number first.
    yield "by pitch", ring_by(FEEDERS, BY_PITCH), ONE_PASS % 7
    higher = FEEDERS.replace(b"word=9:", b"word=1:256\nword=9:")
    yield "by pitch, the first higher", ring_by(higher, BY_PITCH), ONE_PASS % 5
    # A command after the first pass sets GJ of generator 0 to 256: the order stays that of the beginning.
    moved = FEEDERS.replace(b"passes=1", b"passes=2").replace(b"word=3905", b"word=3841:5\nword=3842:7\nword=3905")
    lines = ONE_PASS % 7 + b"pass=2 left=7 right=0\n"
    yield "by pitch, which a command changes", ring_by(moved + b"command=00100400\n", BY_PITCH), lines
    old = b"text=old\npasses=1\nword=2:5\nword=10:228\nword=13:7\nword=21:228\nword=4113:2\n"
    yield "old, by number", ring_by(old, b"order=0\norder=1\n"), ONE_PASS % 7
    yield "old, backwards", ring_by(old, b"order=1\norder=0\n"), ONE_PASS % 5
    yield "no passes", ring_by(b"passes=0\n", b"order=0\norder=1\n"), b""


def refused():
    """Questions 5 and 6 at each pass; texts that are no order file; the file's own questions first."""
    both = b"order=1\norder=0\n"
    yield "T stays", ring_by(TICKS % 1, both), QUIET
    yield "T falls", ring_by(TICKS % 0, both), FIRST + b"refused=5\n"
    yield "T rises", ring_by(TICKS % 2, both), FIRST + b"refused=5\n"
    yield "T falls, by number", ring(TICKS % 0), QUIET
    yield "T falls, by pitch", ring_by(TICKS % 0, BY_PITCH), FIRST + b"refused=5\n"
    yield "too short", ring_by(FEEDERS, b"order=0\n"), b"refused=5\n"
    yield "too long", ring_by(FEEDERS, both + b"order=2\n"), b"refused=5\n"
    yield "twice", ring_by(FEEDERS, b"order=1\norder=1\n"), b"refused=6\n"
    yield "above T", ring_by(FEEDERS, b"order=2\norder=0\n"), b"refused=6\n"
    wide = FEEDERS + b"word=0:1048576\n"
    yield "2 before 5", ring_by(wide, b"order=0\n"), b"refused=2\n"
    yield "T out of range, by pitch", ring_by(b"passes=1\nword=4113:257\n", BY_PITCH), b"refused=2\n"
    yield "9 before the order", ring_by(b"passes=1", b"order=x\n"), b"refused=9\n"
    yield "13 before the order", ring_by(b"text=new\npasses=1\n", b""), b"refused=13\n"
    for text in NOT_TAKEN:
        yield f"no order file: {text[:20]!r}", ring_by(FEEDERS, text), b"order-refused=9\n"
    yield "no order file, no passes", ring_by(b"passes=0\n", b""), b"order-refused=9\n"
    yield "no order file, 2", ring_by(wide, b""), b"order-refused=9\n"


GROUPS = [("rung by an order", rung), ("refusals of an order that is rung by", refused)]
