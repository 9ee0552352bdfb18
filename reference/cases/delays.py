"""Delay units: lines, tables, which units act, and questions 10, 11 and 12.

Modifier m has L0 at 2818 + 8m and L1 at 2819 + 8m; unit u its seven words from 4119 + 7u.
"""

from reference import layout
from reference.cases.build import (HALF, changed, delay_unit, machine, memory, modifier,
                                   places_changed)
from reference.layout import MODIFIER_NAMES
from reference.machine import run_pass
from reference.modifier import delay_turn
from reference.sums import no_marks
from reference.words import low

HALVES = dict(M0=HALF, M1=HALF)

# A row is: name, mode bits (function, AA, BB), registers, A, DM; then the words that change, S
# and DM afterwards. HALF multiplies by 1, 2, 4 at scales 1, 2, 3; at 0 x becomes floor((x+1)/2).
TURNS = (
    # S = 20 + 10*2, Temp0 = 3 + 100*1; exchanged scales would give 30 and 203.
    ("all terms", "00111 10 01", dict(L0=20, L1=10, **HALVES), 3, 100,
     dict(L0=100, L1=103), 40, 103),
    # S = 20 - 20, Temp0 = 3 - 100.
    ("negative", "00111 10 01", dict(L0=20, L1=-10, **HALVES), 3, -100,
     dict(L0=1048476, L1=1048479), 0, 1048479),
    # S = 524287 + 1 and Temp0 = 524287 + 1 wrap.
    ("wrapped", "00111 01 01", dict(L0=524287, L1=1, **HALVES), 524287, 1,
     dict(L0=1, L1=524288), 524288, 524288),
    # floor(6/2) and floor(-4/2), each with 1 more.
    ("scale 0", "00111 00 00", dict(L0=1, L1=5, **HALVES), 1, -5,
     dict(L0=1048571, L1=1048575), 4, 1048575),
    # Both coefficients 0: what was given last, and A.
    ("straight", "00111 00 00", dict(L0=20, L1=10), 3, 100, dict(L0=100, L1=3), 20, 3),
    ("nothing given", "00111 10 01", dict(L0=20, L1=10, **HALVES), 3, 0, dict(L0=0, L1=3), 40, 3),
)


def turns():
    """The modifier's side: S := L0 + L1*M0; L0 := DM; L1 := DM := A + DM*M1."""
    for name, mode, registers, a, dm, changes, s, sent in TURNS:
        words = modifier(mode, **registers)
        after, got, dm_after = delay_turn(words, low(a, 20), 7, low(dm, 20))
        yield name, (changed(words, after, MODIFIER_NAMES), got, dm_after), (changes, s, sent)


# Passes in a row. A modifier with both coefficients 0 sends A, here generator-last word 0 unless
# said otherwise, and keeps what its unit gave in L0.

def invoking(unit, a=0):
    """A 00111 that sends the word at a to a unit; its S goes to word 9."""
    return modifier("00111 00 00", MIN=a, MRM=unit, MSUM=9)


def one_pass(made, slots):
    """The machine and the delay memory after a pass that must be good."""
    done = run_pass(made, range(made[4113]), [], [], slots)
    assert done.number == 0, done.number
    return done.machine, done.memory


def sounded(unit, sent, slots=None, t=16):
    """What unit 0 gives in each pass as the words are sent; its words and delay memory at last."""
    left, slots = machine(modifiers=[invoking(0)], words={4113: t}, units=[unit]), slots or memory()
    given = []
    for word in sent:
        left[3904] = low(word, 20)
        left, slots = one_pass(left, slots)
        given.append(left[2818])
    return given, left[4119:4126], slots


def lines():
    """A word comes back Z+3 passes later."""
    for z, y in ((0, 0), (1, 0), (1, 1), (2, 1), (3, 3), (5, 2), (9, 0)):
        unit = delay_unit("1000", x=70, y=y, z=z)
        given, after, _ = sounded(unit, range(1, z + 9))
        yield f"Z {z} from Y {y}", given, [0] * (z + 3) + [1, 2, 3, 4, 5]
        # Z+8 steps around Z+1 slots.
        yield f"Y after Z {z} from Y {y}", after[1], (y + z + 8) % (z + 1)
    yield "negative", sounded(delay_unit("1000"), [-1, 0, 0, 0])[0], [0, 0, 0, 1048575]

    # Slots 100, 101, 102 hold 101, 102, 103 and the next slot is 101. 7 and 8 go out; 9, the third
    # word, moves up and is overwritten by what leaves slot 101.
    unit = delay_unit("1000", x=100, y=1, z=2, words=(7, 8, 9))
    held = {100: 101, 101: 102, 102: 103}
    given, after, slots = sounded(unit, [1], memory(held))
    yield "one pass", (given, after), ([7], [100, 2, 2, 8, 8, 102, 0])
    yield "one pass, memory", places_changed(memory(held), slots), {101: 1}
    given, after, slots = sounded(unit, [1, 2, 3, 4, 5, 6, 7], memory(held))
    yield "what was there", given, [7, 8, 102, 103, 101, 1, 2]
    yield "at last", after, [100, 2, 2, 8, 3, 4, 0]
    yield "memory at last", places_changed(memory(held), slots), {100: 6, 101: 7, 102: 5}

    # The last slot of delay memory, and all of it.
    given, after, slots = sounded(delay_unit("1000", x=65535), [5, 6])
    yield "last slot", (after, slots[65535]), ([65535, 0, 0, 8, 0, 5, 0], 6)
    unit = delay_unit("1000", y=65535, z=65535)
    given, after, slots = sounded(unit, [5, 6], memory({65535: 1, 0: 2}))
    yield "all slots", (after, slots[65535], slots[0]), ([0, 1, 65535, 8, 1, 2, 0], 5, 6)


# A row is: name, P, Z, X, the word, and the slot that holds the answer.
ADDRESSES = (
    ("shift 0", "1010", 0, 100, 3, 103),
    ("shift 4", "1010", 4, 0, 0x12345, 0x1234),
    ("low 4 bits of Z", "1010", 0x1234, 0, 0x12345, 0x1234),
    ("low 4 bits of Z are 0", "1010", 0xFFF0, 100, 3, 103),
    ("right 16 bits", "1010", 0, 0, 0x12345, 0x2345),
    ("right 16 bits after the shift", "1010", 3, 0, 0xFFFFF, 0xFFFF),
    # Zeros come in from the left: 0xFFFFF / 2^15 is 31, 0x80000 / 2^15 is 16.
    ("zeros shifted in", "1010", 15, 0, -1, 31),
    ("zeros shifted in, lowest number", "1010", 15, 7, -524288, 23),
    ("past the end", "1010", 0, 65535, 1, 0),
    ("far past the end", "1010", 0, 65535, -1, 65534),
    # By 2: of 1001 a 0 is shifted out last, of 1010 and 1011 a 1; 1100 is 11 and nothing more.
    ("9 by 2, rounded", "1011", 2, 0, 9, 2),
    ("10 by 2, rounded", "1011", 2, 0, 10, 3),
    ("11 by 2, rounded", "1011", 2, 0, 11, 3),
    ("12 by 2, rounded", "1011", 2, 0, 12, 3),
    ("11 by 2, not rounded", "1010", 2, 0, 11, 2),
    # 10011 and 10100 by 3: 011 and 100 are shifted out, of which the left bit counts.
    ("19 by 3, rounded", "1011", 3, 0, 19, 2),
    ("20 by 3, rounded", "1011", 3, 0, 20, 3),
    ("3 by 1, rounded", "1011", 1, 0, 3, 2),
    ("shift 0, rounded", "1011", 0, 100, 3, 103),
    ("shift 0 by Z 16, rounded", "1011", 16, 100, 3, 103),
    # 0xFFFF + 1: its right 16 bits are 0.
    ("rounded to 65536", "1011", 4, 9, 0xFFFFF, 9),
    ("31 and a bit, rounded", "1011", 15, 0, 0xFFFFF, 32),
    ("rounded past the end", "1011", 1, 65535, 1, 0),
)


def tables():
    """A table's answer comes three passes later; Y and delay memory stay."""
    for name, p, z, x, word, slot in ADDRESSES:
        unit = delay_unit(p, x=x, y=6, z=z, words=(7, 8, 9))
        given, after, slots = sounded(unit, [word], memory({slot: 5}))
        yield name, (given, after[4:]), ([7], [8, 9, 5])
        yield name + ", nothing else", (after[:4], slots), (unit[:4], memory({slot: 5}))
    # 4, 5, 8 and 12 by 2: slots 101, 101, 102, 103.
    unit = delay_unit("1010", x=100, z=2, words=(7, 8, 9))
    held = memory({101: 11, 102: 12, 103: 13})
    yield "in a row", sounded(unit, [4, 5, 8, 12, 0, 0, 0], held)[0], [7, 8, 9, 11, 11, 12, 13]
    # A table may have X + Z past delay memory, and Y above Z.
    unit = delay_unit("1010", x=65535, y=65535, z=1)
    yield "anywhere", sounded(unit, [6, 0, 0, 0], memory({2: 5}))[0], [0, 0, 0, 5]


# Which units act

# T, the unit and whether it acts: (T-6) div 4 is 0 at 9, 1 at 10 and 13, 2 at 14, 31 at 133.
ACTING = (
    (2, 0, False), (3, 0, False), (4, 0, False), (5, 0, False), (6, 0, False), (9, 0, False),
    (10, 0, True), (10, 1, False), (13, 0, True), (13, 1, False), (14, 1, True), (14, 2, False),
    (17, 2, False), (18, 2, True), (10, 31, False), (133, 30, True), (133, 31, False),
    (134, 31, True), (256, 0, True), (256, 31, True),
)


def with_unit(u, unit, modifiers, t=16, words=None):
    """A machine with one delay unit and some modifiers."""
    made = machine(modifiers=modifiers, words={4113: t, 3904: 3, **(words or {})})
    made[layout.delay_unit_at(u):layout.delay_unit_at(u + 1)] = unit
    return made


def acting():
    """A unit that acts as inactive gives 0 and nothing of it changes; its modifier still runs."""
    line = delay_unit("1000", x=50, y=1, z=1, words=(7, 8, 9))
    held = memory({51: 5})
    for t, u, acts in ACTING:
        left, slots = one_pass(with_unit(u, line, [invoking(u)], t), held)
        at = 4119 + 7 * u
        got = left[2818], left[2819], left[at:at + 7], slots[51]
        unit, slot, given = ([50, 0, 1, 8, 8, 5, 0], 3, 7) if acts else (line, 5, 0)
        yield f"T {t}, unit {u}", got, (given, 3, unit, slot)
    # In mode 0000, with T enough; S = 20 + 10*2 and Temp0 = 3 + 0.
    idle = delay_unit("0000", x=50, y=9, z=1, words=(7, 8, 9))
    mixing = modifier("00111 10 01", L0=20, L1=10, MSUM=9, **HALVES)
    made = with_unit(0, idle, [mixing])
    left, slots = one_pass(made, held)
    yield "mode 0000", places_changed(made, left), {
        2818: 0, 2819: 3, 3904: 0, 4032 + 9: 40, 4115: 1}
    yield "mode 0000, memory", slots, held


def naming():
    """The unit is MRM's low 5 bits; one that no modifier below T div 2 names does nothing."""
    line = delay_unit("1000", x=50, words=(7, 8, 9))
    acted = [50, 0, 0, 8, 8, 5, 0]
    rows = (
        ("MRM 2", [invoking(2)], acted),
        ("MRM 34", [invoking(34)], acted),
        ("MRM 66", [invoking(66)], acted),
        ("MRM 130 + 32", [invoking(162)], acted),
        ("MRM 3", [invoking(3)], line),
        ("no 00111", [modifier("10100 01 01", MRM=2, MSUM=9)], line),
        ("inactive modifier", [modifier("00000 00 00", MRM=2, MSUM=9)], line),
        ("last modifier", [modifier("00000 00 00")] * 8 + [invoking(2)], acted),
        # T 18: modifiers 0 to 8.
        ("not below T div 2", [modifier("00000 00 00")] * 9 + [invoking(2)], line),
    )
    for name, modifiers, expected in rows:
        left, slots = one_pass(with_unit(2, line, modifiers, t=18), memory({50: 5}))
        yield name, (left[4133:4140], slots[50]), (expected, 3 if expected == acted else 5)


def together():
    """Modifiers one after the other: A is read late, and delay memory is that of the moment."""
    # Modifier 0, a latch with M1 0, writes its L1 = 100 into word 0; MIN 128 is modifier-this word
    # 0. Each of the others sends it to a unit of its own: L1.
    writer = modifier("00100 00 00", L1=100)
    made = machine(modifiers=[writer] + [invoking(u, a=128) for u in range(7)], words={4113: 16})
    left, _ = one_pass(made, memory())
    yield "late A", [left[2819 + 8 * m] for m in range(1, 8)], [100] * 7

    # Generator-last word 0 is 5 and word 1 is 2. The line puts 5 into slot 10, the table looks up
    # slot 8 + 2. Unit 0 is the line, unit 1 the table.
    line, table = delay_unit("1000", x=10), delay_unit("1010", x=8)
    words = {4113: 16, 3904: 5, 3905: 2}
    made = machine(modifiers=[invoking(0), invoking(1, a=1)], words=words, units=[line, table])
    left, slots = one_pass(made, memory({10: 77}))
    yield "line, then table", (left[4125:4133], slots[10]), ([0, 8, 0, 0, 10, 0, 0, 5], 5)
    made = machine(modifiers=[invoking(1, a=1), invoking(0)], words=words, units=[line, table])
    left, slots = one_pass(made, memory({10: 77}))
    yield "table, then line", (left[4132], slots[10]), (77, 5)
    # Two lines on one slot: 77 leaves for unit 0, then 5 for unit 1, and 2 stays.
    made = machine(modifiers=[invoking(0), invoking(1, a=1)], words=words, units=[line, line])
    left, slots = one_pass(made, memory({10: 77}))
    yield "two lines on one slot", (left[4124], left[4131], slots[10]), (77, 5, 2)
    # Units go by their modifiers and not by their numbers.
    made = machine(modifiers=[invoking(1, a=1), invoking(0)], words=words, units=[line, line])
    left, slots = one_pass(made, memory({10: 77}))
    yield "two lines, by modifier", (left[4124], left[4131], slots[10]), (2, 77, 5)

    # Feedback: what comes back is sent again. 1000 at first, Z 1, so each 4 passes.
    comb = modifier("00111 00 01", M1=HALF, MSUM=9)
    left, slots = machine(modifiers=[comb], words={4113: 16, 3904: 1000},
                          units=[delay_unit("1000", z=1)]), memory()
    given = []
    for _ in range(10):
        left, slots = one_pass(left, slots)
        given.append(left[2818])
    yield "comb", given, [0, 0, 0, 0, 1000, 0, 0, 0, 1000, 0]


# Questions 10, 11 and 12

def number(made, slots):
    """The number of a pass by number without items and places; a refused one changes nothing."""
    done = run_pass(made, range(made[4113]), [], [], slots)
    assert not done.number or done[1:] == (0, 0, no_marks(), made, [], slots)
    return done.number


def memories():
    """Question 10: length and words of delay memory."""
    made = machine(words={4113: 16})
    yield "zeros", number(made, memory()), 0
    yield "greatest words", number(made, [1048575] * 65536), 0
    lengths = (0, 1, 4343, 65535, 65537, 131072)
    yield "lengths", [number(made, [0] * n) for n in lengths], [10] * len(lengths)
    for slot in (0, 1, 32768, 65535):
        for word in (1048576, 4294967295):
            wide = memory()
            wide[slot] = word
            yield f"{word} in slot {slot}", number(made, wide), 10
    # Asked of every pass, whatever T is and whether a unit is named.
    yield "T 1", number(machine(), [0] * 65535), 10


def lines_asked():
    """Question 11: X+Z at most 65,535 and Y at most Z, of a line that is named and acts."""
    rows = (
        ("X+Z 65535", "1000", 65000, 0, 535, 0), ("X+Z 65536", "1000", 65001, 0, 535, 11),
        ("X 65535, Z 0", "1000", 65535, 0, 0, 0), ("X 65535, Z 1", "1000", 65535, 0, 1, 11),
        ("X and Z 65535", "1000", 65535, 0, 65535, 11), ("Z 65535", "1000", 0, 65535, 65535, 0),
        ("X 1, Z 65535", "1000", 1, 0, 65535, 11),
        ("Y and Z 4", "1000", 0, 4, 4, 0), ("Y 5, Z 4", "1000", 0, 5, 4, 11),
        ("Y 1, Z 0", "1000", 0, 1, 0, 11), ("Y 65535, Z 4", "1000", 0, 65535, 4, 11),
        ("table", "1010", 65535, 9, 1, 0), ("rounded table", "1011", 65535, 9, 1, 0),
        ("inactive", "0000", 65535, 9, 1, 0),
    )
    for name, p, x, y, z, refused in rows:
        made = with_unit(1, delay_unit(p, x=x, y=y, z=z), [invoking(1)], t=14)
        yield name, number(made, memory()), refused
    bad = delay_unit("1000", y=1)
    idle = modifier("00000 00 00", MRM=1)
    yield "unit 1, T 13", number(with_unit(1, bad, [invoking(1)], t=13), memory()), 0
    yield "T 9", number(with_unit(0, bad, [invoking(0)], t=9), memory()), 0
    yield "T 5", number(with_unit(0, bad, [invoking(0)], t=5), memory()), 0
    yield "T 2", number(with_unit(0, bad, [invoking(0)], t=2), memory()), 0
    yield "not named", number(with_unit(1, bad, [invoking(2)]), memory()), 0
    yield "no 00111", number(with_unit(1, bad, [idle]), memory()), 0
    yield "last modifier", number(with_unit(1, bad, [idle] * 7 + [invoking(1)]), memory()), 11
    yield "not below T div 2", number(with_unit(1, bad, [idle] * 8 + [invoking(1)]), memory()), 0
    yield "by low bits", number(with_unit(1, bad, [invoking(97)]), memory()), 11


def named_twice():
    """Question 12: two 00111 modifiers below T div 2 that name one unit, in whatever mode."""
    idle = modifier("00000 00 00", MRM=1)
    for p in ("0000", "1000", "1010", "1011"):
        unit = delay_unit(p)
        yield f"P {p}", number(with_unit(1, unit, [invoking(1)] * 2), memory()), 12
    line = delay_unit("1000")
    rows = (
        ("apart", [invoking(1)] + [idle] * 6 + [invoking(1)], 16, 12),
        ("second not below T div 2", [invoking(1)] + [idle] * 7 + [invoking(1)], 16, 0),
        ("by low bits", [invoking(1), invoking(33)], 16, 12),
        ("by low bits of 161", [invoking(1), invoking(161)], 16, 12),
        ("other units", [invoking(1), invoking(2), invoking(17)], 16, 0),
        ("one no 00111", [invoking(1), idle], 16, 0),
        ("a unit that doesn't act", [invoking(31), invoking(31)], 16, 12),
        ("unit 0, T 4", [invoking(0), invoking(0)], 4, 12),
        ("unit 0, T 3", [invoking(0), invoking(0)], 3, 0),
        ("all 32", [invoking(u) for u in range(32)], 64, 0),
        ("all 32 and one", [invoking(u) for u in range(32)] + [invoking(31)], 66, 12),
    )
    for name, modifiers, t, refused in rows:
        yield name, number(with_unit(1, line, modifiers, t=t), memory()), refused


def sequence():
    """10 before 11, 11 of the whole machine before 12, and all three after 8."""
    bad = delay_unit("1000", x=65535, z=1)
    both = with_unit(1, bad, [invoking(1), invoking(1)])
    yield "10, 11, 12", number(both, [0] * 65535), 10
    yield "11, 12", number(both, memory()), 11
    yield "12", number(with_unit(1, delay_unit("1000"), [invoking(1)] * 2), memory()), 12
    # Modifiers 0 and 1 name unit 0, modifier 2 the bad line.
    made = with_unit(1, bad, [invoking(0), invoking(0), invoking(1)])
    yield "12 below 11", number(made, memory()), 11
    # 192 is 0011 00 0000 and 448 is 0111 00 0000.
    sender = with_unit(1, bad, [invoking(1)], words={10: 192})
    yield "8 before 10", number(sender, []), 8
    yield "7 before 10", number(with_unit(1, bad, [invoking(1)], words={10: 448}), []), 7
    got = run_pass(sender, range(16), [], [6], memory({65535: 1}))
    yield "11 with places", got, (11, 0, 0, no_marks(), sender, [6], memory({65535: 1}))
    wide = list(both)
    wide[4342] = 1048576
    yield "2 before 10", number(wide, []), 2
    yield "5 before 10", run_pass(both, [0], [], [], []).number, 5
    yield "6 before 10", run_pass(both, [0] * 16, [], [], []).number, 6
    yield "1 before 10", run_pass(both[:4119], [0], [], [], []).number, 1


GROUPS = (
    ("modifier, delay unit", turns),
    ("delay units, lines", lines),
    ("delay units, tables", tables),
    ("delay units, which act", acting),
    ("delay units, which are named", naming),
    ("delay units, in one pass", together),
    ("question 10", memories),
    ("question 11", lines_asked),
    ("question 12", named_twice),
    ("questions 10, 11, 12 in sequence", sequence),
)
