"""Passes by the older text and their questions, by hand."""

from reference import layout
from reference.cases.build import HALF, generator, machine, memory, modifier, number, places_changed
from reference.machine import fresh_machine, refusal
from reference.old import OLD, old_pass
from reference.sums import no_marks

TOP = dict(GQ=16777215, GP=1)
SQUARE = generator("010 00 001", GL=4095)


def after(made, order=None, items=(), places=()):
    """What a pass that must be good leaves."""
    order = range(made[4113]) if order is None else order
    done = old_pass(made, order, items, places, memory({5: 9}))
    assert done.number == 0, done.number
    assert done.memory == memory({5: 9})
    return done


def gmodes(made, order):
    """The GMODEs of the generators below T after a pass."""
    left = after(made, order).machine
    return [left[layout.generator_at(g) + layout.GMODE] for g in range(made[4113])]


def triggers():
    """100 goes to 101 where the one two below was taken earlier and triggered."""
    strikes, waits = generator("011 00 001", **TOP), generator("100 00 001")
    three = machine([strikes, waits, waits], words={4113: 3})
    b, wait, c = 0b01100001, 0b10000001, 0b10100001
    yield "two below", gmodes(three, [0, 1, 2]), [b, wait, c]
    yield "taken later", gmodes(three, [2, 0, 1]), [b, wait, wait]
    yield "the next one between", gmodes(three, [0, 2, 1]), [b, wait, c]
    pair = machine([waits, strikes, waits, waits], words={4113: 4})
    yield "from 1 to 3 alone", gmodes(pair, [0, 1, 2, 3]), [wait, b, wait, c]
    # 101 triggers and goes to 100; it is told nothing in the same pass.
    stops = generator("101 00 001", **TOP)
    chain = machine([stops, SQUARE, waits, SQUARE, waits], words={4113: 5})
    yield "101 triggers", gmodes(chain, range(5))[::2], [wait, c, wait]
    yield "sticky does not", gmodes(machine([generator("010 00 001", **TOP), waits, waits],
                                            words={4113: 3}), range(3))[2], wait


def sums():
    """Adding, replacing, marks and the close of the pass."""
    yield "shown", after(machine([SQUARE], words={4113: 1})).machine[3904], 65520
    five = machine([generator("010 00 010", GL=4095, GK=-524288)] * 5, words={4113: 5})
    done = after(five)
    # 5 times -131,040 plus 2^20.
    yield "five wrap", number(done.machine[3904]), -655200 + 1048576
    yield "marked", (done.clipped[0], sum(done.clipped)), (1, 1)
    reader = generator("110 00 001", GL=1, GSUM=3)
    made = machine([reader], words={3843: 9})
    yield "P and item", after(made, items=[0xFFF00005]).machine[3907], 21
    quiet = machine(words={3840: 1, 3904: 2, 4031: 3, 4095: 4})
    left = after(quiet).machine
    yield "closed", places_changed(quiet, left), {3840: 0, 3904: 1, 4031: 0, 4095: 3, 4115: 1}
    yield "fresh", places_changed(fresh_machine(), after(fresh_machine()).machine), {4115: 1}


def sending():
    """111 writes its angle where GN is negative, else feeds the DAC of GN's low 4 bits."""
    words = {3909: 77, 4113: 1}
    # J is 3 + 77. GN 1,023 is DAC 15, 1,024 + 5 writes.
    feeds = machine([generator("111 00 101", GO=4, GJ=3 << 8, GN=1023, GFM=5)], words=words)
    left = after(feeds).machine
    yield "DAC", places_changed(feeds, left), {4111: 80, 3909: 0, 4115: 1}
    writes = machine([generator("111 00 101", GO=4, GJ=3 << 8, GN=1029, GFM=5)], words=words)
    done = after(writes, places=[1, 2])
    yield "written", (done.written, done.places), (1, [80, 2])
    yield "and nothing else", places_changed(writes, done.machine), {3909: 0, 4115: 1}
    three = machine([generator("111 00 001", GK=g, GN=1024) for g in (4, 5, 6)], words={4113: 3})
    yield "in order", after(three, [2, 0, 1], places=[0] * 3).places, [6, 4, 5]
    two = machine([generator("111 00 001", GK=g, GN=16 * g) for g in (4, 5)], words={4113: 2})
    yield "the last feeds", after(two, [1, 0]).machine[4096], 4


def timing():
    """A of a latch sees m-1, A of mixing m-4; 00111 is maximum and no delay unit."""
    source = modifier("00001 01 01", M0=HALF, MIN=0, MRM=2)
    late = modifier("00010 01 01", M1=HALF, MIN=128, MRM=1)
    made = machine([SQUARE], [source, late], words={3904: 11, 3905: 1, 4113: 4})
    yield "latch", after(made).machine[2824 + layout.L1], 11
    early = modifier("00001 01 01", M0=HALF, MIN=128, MRM=2, MSUM=7)
    idle = modifier("00000 00 00")
    for m, seen in ((3, 0), (4, 11)):
        made = machine([SQUARE], [source] + [idle] * (m - 1) + [early],
                       words={3904: 11, 4113: 10})
        yield f"mixing at {m}", after(made).machine[4032 + 7], seen
    replaced = [modifier("00001 01 01", M0=HALF, MSUM=msum) for msum in (3, 67)]
    made = machine([SQUARE], replaced + replaced[:1], words={3904: 11, 4113: 6})
    yield "adds and replaces", after(made).machine[4032 + 3], 22
    # Both name unit 0, a line with Y above Z, as 1978 would have it.
    largest = [modifier("00111 01 01", M0=HALF, M1=HALF, MIN=0, MRM=1)] * 2
    made = machine([SQUARE], largest, words={3904: 11, 3905: 12, 4113: 16, 4120: 1, 4122: 8})
    yield "maximum", after(made).machine[4032], 24


def built():
    """Question 2: GMODE and MMODE."""
    good = fresh_machine()

    def asked(place, value):
        return refusal(good[:place] + [value] + good[place + 1:], OLD)
    yield "164 GMODEs", sum(asked(10, gmode) == 0 for gmode in range(1024)), 164
    for mode in ("000 00 000", "000 11 101", "001 00 001", "111 11 101"):
        yield mode, asked(10, int(mode.replace(" ", ""), 2)), 0
    for mode in ("001 00 000", "010 00 000", "111 00 000", "000 00 110", "010 00 111"):
        yield mode, asked(10, int(mode.replace(" ", ""), 2)), 2
    yield "256", asked(10 + 11 * 255, 256), 2
    codes = [code for code in range(32) if asked(2823, code << 4 | 15) == 0]
    yield "functions", codes, [0, 1, 2, 3, 4, 5, 6, 7, 8, 9, 10, 12, 13, 14, 16]
    yield "MIN top bits 11", asked(2820, 192), 2
    yield "P of a unit", (asked(4122, 8), asked(4122, 9)), (0, 2)
    yield "count", asked(4343, 255), 2
    yield "a fresh machine", refusal(good, OLD), 0


def refused(made, order, items=(), places=(), slots=None):
    """The number of a pass; a refused one leaves everything and sets no mark."""
    slots = memory() if slots is None else slots
    done = old_pass(made, order, items, list(places), slots)
    kept = (done.machine, done.places, done.memory) == (made, list(places), slots)
    return done.number, done.number == 0 or kept and done.clipped == no_marks()


def questions():
    """1, 2, 5, 6, 7, 8 and 10, in this sequence."""
    reads, sends = generator("110 00 001"), generator("111 00 001", GN=1024)
    feeds = generator("111 00 001", GN=1023)
    made = machine([reads, sends], words={4113: 2})
    yield "good", refused(made, [0, 1], [1], [2]), (0, True)
    yield "1", refused(made[1:], [0], [], []), (1, True)
    yield "2", refused(made[:10] + [256] + made[11:], [0]), (2, True)
    yield "5", refused(made, [0, 0, 0]), (5, True)
    yield "6", refused(made, [0, 0]), (6, True)
    yield "7", refused(made, [0, 1]), (7, True)
    yield "8", refused(made, [0, 1], [1], []), (8, True)
    yield "8 before 10", refused(made, [0, 1], [1], [], [0]), (8, True)
    yield "10", refused(made, [0, 1], [1], [2], memory()[1:]), (10, True)
    yield "10, a wide word", refused(made, [0, 1], [1], [2], memory()[1:] + [1 << 20]), (10, True)
    yield "no place for a feeder", refused(machine([feeds], words={4113: 1}), [0]), (0, True)
    yield "above T", refused(machine([SQUARE, reads, sends], words={4113: 1}), [0]), (0, True)


GROUPS = (
    ("the older text: triggers", triggers),
    ("the older text: sums", sums),
    ("the older text: data and DACs", sending),
    ("the older text: read timing", timing),
    ("the older text: question 2", built),
    ("the older text: questions of a pass", questions),
)
