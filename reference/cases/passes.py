"""A pass: adding, replacing, written items, DACs, triggers, and what modifiers see."""

from reference.cases.build import (HALF, generator, machine, memory, modifier, number,
                                   places_changed)
from reference.machine import fresh, fresh_machine, run_pass
from reference.sums import no_marks

# A square wave with V 4095 adds 131040; with V 1 it adds 32.
LOUD = dict(GL=4095)


def after(made, order=None, items=(), places=()):
    """The machine after a pass that must be good."""
    order = range(made[4113]) if order is None else order
    done = run_pass(made, order, items, places, memory())
    assert done.number == 0, done.number
    return done.machine


def answers(made, order, items, places):
    """The number, counts and places of a pass."""
    done = run_pass(made, order, items, places, memory())
    return done.number, done.read, done.written, done.places


def sums():
    """Adding into generator-this, and the close of the pass."""
    five = [generator("1111 00 0010", GSUM=9, **LOUD)] * 5
    yield "one adds", after(machine(five, words={4113: 1}))[3904 + 9], 131040
    yield "two add", after(machine(five, words={4113: 2}))[3904 + 9], 262080
    # 5*131040 = 655200, less 2^20: -393376.
    yield "five wrap", number(after(machine(five, words={4113: 5}))[3904 + 9]), -393376
    # Sums start from what the quadrant holds: 100 + 131040.
    begun = machine(five, words={4113: 1, 3840 + 9: 100})
    yield "begun at 100", after(begun)[3904 + 9], 131140
    # Words not added to are copied and cleared as well; last words are lost.
    quiet = machine(words={3840: 1, 3904: 2, 3968 + 63: 3, 4032 + 63: 4, 4115: 1048575})
    left = after(quiet)
    yield "copied and cleared", places_changed(quiet, left), {
        3840: 0, 3904: 1, 3968 + 63: 0, 4032 + 63: 3, 4115: 1048576}
    # The counter has 32 bits; one of 20 bits goes on from its number.
    for counter, counted in ((5, 6), (1048574, 1048575), (1048575, 1048576), (2097151, 2097152),
                             (2147483647, 2147483648), (4294967294, 4294967295), (4294967295, 0)):
        quiet[4115] = counter
        yield f"pass {counter}", run_pass(quiet, [0], [], [], memory()).machine[4115], counted
    yield "fresh", places_changed(fresh_machine(), after(fresh_machine())), {4115: 1}
    # Only generators below T are taken.
    yield "above T", after(machine([generator("0000 00 0000")] + five))[3904 + 9], 0


def modulation():
    """F from both last quadrants."""
    # J = 0 + F goes into GK, the third word; GFM 69 is modifier-last word 5.
    one = [generator("1111 00 0000", GFM=5)]
    two = [generator("1111 00 0000", GFM=69)]
    words = {3904 + 5: 7, 4032 + 5: -7, 3840 + 5: 1, 3968 + 5: 1}
    yield "generator-last", after(machine(one, words=words))[2], 7
    yield "modifier-last", after(machine(two, words=words))[2], 1048569


def read_data():
    """0111: P plus the next item replaces."""
    reader = generator("0111 00 0010", GL=1, GSUM=3)
    adder = generator("1111 00 0010", GSUM=3, **LOUD)
    base = {4113: 2, 3840 + 3: 1000}
    # P = 32; the item's low 20 bits are -1.
    yield "item", after(machine([reader], words={3840 + 3: 1000}), items=[0xFFFFFFFF])[3907], 31
    yield "replaces", after(machine([reader, adder], words=base), [1, 0], [5])[3907], 37
    # 37 + 131040.
    yield "added after", after(machine([reader, adder], words=base), [0, 1], [5])[3907], 131077
    # Items go to the 0111s as they are taken; the last one taken stays.
    pair = machine([reader, reader], words=base)
    yield "in order", after(pair, [0, 1], [5, 6])[3907], 38
    yield "counts", answers(pair, [1, 0], [5, 6, 7], [8]), (0, 2, 0, [8])


def written_data():
    """0011 sends F; 0010 feeds a DAC."""
    first = generator("0011 00 0000", GFM=1)
    second = generator("0011 00 0000", GFM=66)
    made = machine([first, second], words={4113: 2, 3904 + 1: -1, 4032 + 2: 9})
    yield "by number", answers(made, [0, 1], [], [7, 7, 7]), (0, 0, 2, [1048575, 9, 7])
    yield "turned round", answers(made, [1, 0], [], [7, 7]), (0, 0, 2, [9, 1048575])
    # GO 35 = 2*16 + 3: DAC 3; GO -1: DAC 15.
    dacs = [generator("0010 00 0000", GFM=1, GO=35), generator("0010 00 0000", GFM=1, GO=-1)]
    made = machine(dacs, words={4113: 2, 3904 + 1: -5, 4096: 8})
    yield "DACs", after(made)[4096:4112], [8, 0, 0, 1048571] + [0] * 11 + [1048571]


def triggers():
    """A trigger acts from the next pass and only on a higher neighbour taken later."""
    # GMODE, word 10 of a generator: 834 is 1101 00 0010, 578 is 1001 00 0010.
    trigger = generator("1110 00 0010", GQ=16777215, GP=1, GL=4095)
    waiting = generator("1001 00 0010", GSUM=1, **LOUD)
    pair = machine([trigger, waiting], words={4113: 2})
    left = after(pair, [0, 1])
    yield "sets off", left[21], 834
    yield "not in its own pass", left[3904 + 1], 0
    yield "in the next pass", after(left, [0, 1])[3904 + 1], 131040
    yield "taken before", after(pair, [1, 0])[21], 578
    # A 1111 that overflows is sticky and sets off nothing.
    sticky = generator("1111 00 0010", GQ=16777215, GP=1, GL=4095)
    yield "sticky", after(machine([sticky, waiting], words={4113: 2}))[21], 578
    # A 1101 goes to wait and sets off the next one, even if it was set off itself.
    middle = generator("1101 00 0010", GQ=16777215, GP=1, GL=4095)
    chain = machine([trigger, middle, waiting], words={4113: 3})
    left = after(chain)
    yield "chain", (left[21], left[32]), (578, 834)
    # The lower neighbour may stand anywhere before; others between don't matter.
    yield "apart", after(chain, [1, 0, 2])[32], 834
    # Generator 0 has no lower neighbour; a higher one sets nothing off.
    yield "higher", after(machine([waiting, trigger], words={4113: 2}), [1, 0])[10], 578


def views():
    """What early and late reads of modifier-this see."""
    # Modifier 0, a latch with M1 0, writes its L1 = 100 into word 0. The others write to word 9.
    writer = modifier("00100 00 00", L1=100)
    # One zero takes A, late, into L1; MIN 128 is modifier-this word 0.
    late = modifier("10110 00 00", MIN=128, MSUM=9)
    # A*B takes A, early, into L1: B is generator-last word 0, one half, at scale 1.
    early = modifier("11000 01 00", MIN=128, MRM=0, MSUM=9)
    # Two zeros, M0 variable, adds B, early, to M0.
    early_b = modifier("01101 00 00", MIN=128, MRM=128, MSUM=9)
    words = {4113: 16, 3904: 262144}

    def seen(reader, register):
        """One register of modifiers 1 to 7, all of one kind, after a pass."""
        left = after(machine(modifiers=[writer] + [reader] * 7, words=words))
        return [left[2816 + 8 * m + register] for m in range(1, 8)]

    yield "late A", seen(late, 3), [100] * 7
    # Modifiers 1 to 3 see the quadrant as the pass began, 4 to 7 the write of 0.
    yield "early A", seen(early, 3), [0, 0, 0, 100, 100, 100, 100]
    yield "early B", seen(early_b, 0), [0, 0, 0, 100, 100, 100, 100]
    # A in two zeros is late: L1.
    yield "late A of two zeros", seen(early_b, 3), [100] * 7
    words[3968] = 7
    yield "begun at 7", seen(early, 3), [7, 7, 7, 107, 107, 107, 107]
    yield "begun at 7, late", seen(late, 3), [107] * 7


def modifier_writes():
    """Adding, replacing, the other sources, and how many modifiers are taken."""
    writer = modifier("00100 00 00", L1=100)
    add = modifier("00100 00 00", L1=-1)
    replace = modifier("00100 00 00", L1=5, MSUM=64)
    clear = modifier("00000 00 00", MSUM=64)
    word = 4032

    def left(*modifiers, t=16):
        """Modifier-last word 0 after a pass."""
        return after(machine(modifiers=modifiers, words={4113: t}))[word]

    yield "adds", left(writer, add), 99
    yield "replaces", left(writer, replace), 5
    # MSUM 9 adds to word 9, MSUM 73 replaces it.
    apart = [modifier("00100 00 00", L1=6, MSUM=9), modifier("00100 00 00", L1=8, MSUM=73)]
    made = after(machine(modifiers=[writer] + apart[:1], words={4113: 4}))
    yield "word 9", made[4032:4096], [100] + [0] * 8 + [6] + [0] * 54
    made = after(machine(modifiers=[writer] + apart, words={4113: 6}))
    yield "word 9 replaced", made[4032:4096], [100] + [0] * 8 + [8] + [0] * 54
    yield "replaces, then adds", left(writer, replace, add), 4
    yield "an inactive one replaces by 0", left(writer, clear), 0
    # T div 2: one of T 3, none of T 1.
    yield "T 3", left(writer, add, t=3), 100
    yield "T 1", left(writer, add, t=1), 0
    # 100 + 524287 wraps: 524387.
    yield "wraps", left(writer, modifier("00100 00 00", L1=524287)), 524387
    # Modifier 4 sees the 0 that the inactive one put there; 3 does not.
    half = {4113: 16, 3904 + 1: 262144, 3968: 7}
    early = modifier("11000 01 00", MIN=128, MRM=1, MSUM=9)
    made = after(machine(modifiers=[clear] + [early] * 4, words=half))
    yield "an inactive write is seen", [made[2816 + 8 * m + 3] for m in (3, 4)], [7, 0]
    # MIN 2 is generator-last, 66 modifier-last: 3*1 + 4*2 with one half at scales 1 and 2.
    mix = modifier("10100 01 10", M0=HALF, M1=HALF, MIN=2, MRM=66)
    made = machine(modifiers=[mix], words={4113: 2, 3904 + 2: 3, 4032 + 2: 4})
    yield "last quadrants", after(made)[word], 11


def refusals():
    """Questions 1, 2, 5, 6, 7 and 8 of a pass, in sequence; a refused pass changes nothing."""
    reader, sender = generator("0111 00 0000"), generator("0011 00 0000")
    good = machine([reader, sender], words={4113: 2})
    wide = list(good)
    wide[4112] = 1048576
    rows = (
        ("good", good, [1, 0], [5], [6], 0),
        ("short run", good[:-1], [0], [], [], 1),
        ("long run", wide + [0], [0], [], [], 1),
        ("wide word", wide, [0], [], [], 2),
        ("count", good[:4343] + [256], [0], [], [], 2),
        ("short order", good, [0], [], [], 5),
        ("long order", good, [0, 1, 1], [], [], 5),
        ("doubled", good, [0, 0], [], [], 6),
        ("not below T", good, [0, 2], [], [], 6),
        ("no items", good, [0, 1], [], [], 7),
        ("no places", good, [0, 1], [5], [], 8),
    )
    for name, made, order, items, places, refused in rows:
        got = run_pass(made, order, items, places, memory({5: 6}))
        yield name, got.number, refused
        if refused:
            kept = 0, 0, no_marks(), made, places, memory({5: 6})
            yield name + ", nothing changes", got[1:], kept
    # A 0111 or 0011 that is not below T asks for nothing.
    idle = machine([generator("0000 00 0000"), reader, sender])
    yield "idle ones", run_pass(idle, [0], [], [], memory()).number, 0
    yield "fresh of a short run", fresh([5, 6]), (1, [5, 6])
    for length in (4119, 4343, 4345):
        yield f"fresh of {length} words", fresh([9] * length), (1, [9] * length)
    yield "fresh of any words", fresh([9] * 4344), (0, fresh_machine())
    told = {place: word for place, word in enumerate(fresh_machine()) if word}
    yield "fresh", told, {4113: 1, 4114: 265, 4343: 256}


GROUPS = (
    ("pass, sums", sums),
    ("pass, modulation", modulation),
    ("pass, read data", read_data),
    ("pass, written data and DACs", written_data),
    ("pass, triggers", triggers),
    ("pass, early and late reads", views),
    ("pass, modifier writes", modifier_writes),
    ("pass, refusals", refusals),
)
