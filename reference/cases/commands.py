"""Commands, one by one, and the update. A command is 20 bits of data, a code, a number."""

from reference.cases.build import generator, machine, places_changed
from reference.machine import fresh_machine, put_update_ticks
from reference.update import run_update


def put_words(made, words):
    """Puts words by place, each named by w and its place; the count is T's and N's unless named."""
    for place, value in words.items():
        made[int(place[1:])] = value
    if "w4343" not in words:
        put_update_ticks(made)


def taken_alone(command, **words):
    """The number of a command taken alone and the words that it changes."""
    made = fresh_machine()
    put_words(made, words)
    refused, taken, left = run_update(made, [command])
    assert taken == (0 if refused else 1)
    return refused, places_changed(made, left)


# Delay unit 5 starts at 4154: X, Y 4155, Z 4156, P 4157, then three words; unit 31 at 4336.
# Generator 3 starts at 33: GO 33, GJ 34, GK 35, GN 36, GM 37, GP 38, GQ 39, GL 40, GSUM 41,
# GFM 42, GMODE 43. Modifier 5 starts at 2856: M0, M1, L0, L1, MIN, MRM, MSUM 2862, MMODE 2863.
# A row is: name, command, words before, number, words changed.
LOADS = (
    ("GO", 0x12345B03, {}, 0, {33: 0x12345}),
    ("GK", 0xFFFFF903, {}, 0, {35: 0xFFFFF}),
    ("GP", 0x80000603, {}, 0, {38: 0x80000}),
    # Sign extended into 24 and 28 bits.
    ("GQ right", 0x80000203, {}, 0, {39: 0xF80000}),
    ("GQ right, positive", 0x7FFFF203, {}, 0, {39: 0x07FFFF}),
    ("GJ right", 0xFFFFF403, {}, 0, {34: 0xFFFFFFF}),
    # Low bits from DX's left, 4 and 8 of them; DX is cleared.
    ("GQ left", 0x12345303, {"w4112": 0xABCDE}, 0, {39: 0x12345A, 4112: 0}),
    ("GJ left", 0x12345503, {"w4112": 0xABCDE}, 0, {34: 0x12345AB, 4112: 0}),
    # Generator 255 starts at 2805.
    ("GO of 255", 0x12345BFF, {}, 0, {2805: 0x12345}),
    ("GQ right of 255", 0xFFFFF2FF, {}, 0, {2811: 0xFFFFFF}),
    ("GJ right of 255", 0x000014FF, {}, 0, {2806: 1}),
    # GN 0x555 in bits 9-19 and GM 9 in 20-23; then disabled; then with x bits set.
    ("GN, GM", 0x05559703, {}, 0, {36: 0x555, 37: 9}),
    ("N", 0x85559703, {}, 0, {37: 9}),
    ("M", 0x45559703, {}, 0, {36: 0x555}),
    ("x bits", 0x3D559703, {}, 0, {36: 0x555, 37: 9}),
    # GL 0xABC in bits 6-17: 0xABC * 2^18 = 0x2AF00000; GSUM 42 in 18-23.
    ("GL, GSUM", 0x2AF2A803, {}, 0, {40: 0xABC, 41: 42}),
    ("L", 0xAAF2A803, {}, 0, {41: 42}),
    ("S", 0x6AF2A803, {}, 0, {40: 0xABC}),
    # GMODE 962 in bits 7-16: 962 * 2^19 = 0x1E100000; GFM 0x45 in 17-23.
    ("GMODE, GFM", 0x1E145A03, {"w35": 7}, 0, {42: 0x45, 43: 962}),
    ("C", 0x3E145A03, {"w35": 7}, 0, {35: 0, 42: 0x45, 43: 962}),
    ("M of GMODE", 0x9E145A03, {}, 0, {42: 0x45}),
    ("F", 0x5E145A03, {}, 0, {43: 962}),
    ("C alone", 0xE0000A03, {"w35": 7}, 0, {35: 0}),
    # Run mode 0100: 256 * 2^19 = 0x08000000; oscillator mode 0100: 4 * 2^19 = 0x00200000; 0101:
    # 0x00280000.
    ("run mode not built", 0x08000A03, {}, 3, {}),
    ("oscillator mode 0100", 0x00200A03, {}, 0, {43: 4}),
    ("oscillator mode not built", 0x00280A03, {}, 3, {}),
    # 1010: 640 * 2^19 = 0x14000000; F (0x40000000) does not disable GMODE.
    ("run mode 1010", 0x14000A03, {}, 3, {}),
    ("not built, F", 0x48000A03, {}, 3, {}),
    ("not built but disabled", 0x88280A03, {"w42": 1}, 0, {42: 0}),
    # M0, M1 by VV; 0x12345 * 2^10 = 0x48D1400, 0xABCDE div 2^10 = 0x2AF.
    ("M0 right", 0xFFFFFC05, {}, 0, {2856: 0x3FFFFFFF}),
    ("M1 right", 0x00001C85, {}, 0, {2857: 1}),
    ("M0 left", 0x12345D05, {"w4112": 0xABCDE}, 0, {2856: 0x48D16AF, 4112: 0}),
    ("M1 left", 0x12345D85, {"w4112": 0xABCDE}, 0, {2857: 0x48D16AF, 4112: 0}),
    ("L0", 0x12345E05, {"w4112": 1}, 0, {2858: 0x12345}),
    ("L1", 0x12345E85, {}, 0, {2859: 0x12345}),
    # Modifier 127 starts at 3832.
    ("M0 right of 127", 0x00001C7F, {}, 0, {3832: 1}),
    ("L0 of 127", 0x12345E7F, {}, 0, {3834: 0x12345}),
    ("L1 of 127", 0x12345EFF, {}, 0, {3835: 0x12345}),
    # MMODE 10100 01 10 = 326 in bits 8-16: 326 * 2^19 = 0x0A300000; MSUM 0x45 in 17-23.
    ("MMODE, MSUM", 0x0A345F05, {"w2858": 7}, 0, {2862: 0x45, 2863: 326}),
    ("C of MMODE", 0x2A345F05, {"w2858": 7}, 0, {2858: 0, 2862: 0x45, 2863: 326}),
    # M: only AABB, 01 10, changes in 01000 11 11 = 143: 01000 01 10 = 134.
    ("M of MMODE", 0x8A345F05, {"w2863": 143}, 0, {2862: 0x45, 2863: 134}),
    # H: only the function changes in 01001 11 11 = 159: 10100 11 11 = 335; C is not set.
    ("H", 0x1A345F05, {"w2863": 159, "w2858": 7}, 0, {2862: 0x45, 2863: 335}),
    # 11101 10 01 = 473: 473 * 2^19 = 0x0EC80000.
    ("all of MMODE", 0x0EC80F05, {"w2863": 326}, 0, {2863: 473}),
    ("S of MSUM", 0x4A345F05, {}, 0, {2863: 326}),
    # Function 00111: 0x70 * 2^19 = 0x03800000.
    ("function 00111", 0x03800F05, {}, 0, {2863: 0x70}),
    # 00101: 0x50 * 2^19 = 0x02800000.
    ("function not built", 0x02800F05, {}, 3, {}),
    # 10010: 0x120 * 2^19 = 0x09000000; S (0x40000000) does not disable it.
    ("function 10010", 0x09000F05, {}, 3, {}),
    ("function not disabled by S", 0x42800F05, {}, 3, {}),
    ("function disabled", 0x82800F05, {"w2862": 1}, 0, {2862: 0}),
    ("function not disabled by H", 0x12800F05, {}, 3, {}),
    # MRM 0x85 in bits 8-15, MIN 0x46 in 16-23.
    ("MRM, MIN", 0x08546F85, {"w2859": 7}, 0, {2860: 0x46, 2861: 0x85}),
    # MRM 0x46, MIN 0x85, with the x bit (0x10000000) set: L1 is not cleared.
    ("MIN 0x85, x bit", 0x14685F85, {"w2859": 7}, 0, {2860: 0x85, 2861: 0x46}),
    ("R", 0x88546F85, {}, 0, {2860: 0x46}),
    ("I", 0x48546F85, {}, 0, {2861: 0x85}),
    ("C of MRM", 0x28546F85, {"w2859": 7}, 0, {2859: 0, 2860: 0x46, 2861: 0x85}),
    ("MRM not built", 0x0C000F85, {}, 3, {}),
    ("MRM not disabled by I", 0x4C000F85, {}, 3, {}),
    ("MRM disabled", 0x8C001F85, {}, 0, {2860: 1}),
    ("MIN not built", 0x000C0F85, {}, 3, {}),
    ("MIN not built, C", 0x200C0F85, {}, 3, {}),
    ("MIN disabled", 0x401C0F85, {}, 0, {2861: 1}),
)

OTHERS = (
    # MISC: RR in bits 29-30, W 33, P 34, S 35.
    ("DX", 0xABCDE020, {}, 0, {4112: 0xABCDE}),
    ("no effect", 0xABCDE000, {}, 0, {}),
    ("x bits of MISC", 0xABCDE018, {}, 0, {}),
    ("S", 0xABCDE021, {}, 3, {}),
    ("RR 10", 0xABCDE040, {}, 3, {}),
    ("RR 11", 0xABCDE060, {}, 3, {}),
    # 1001 01 0011 = 595 goes to 1111 01 0011 = 979; 0001 10 1000 = 104 to 1111 10 1000 = 1000.
    ("W", 0x00000004, {"w10": 595, "w2815": 104}, 0, {10: 979}),
    ("P", 0x00000002, {"w10": 595, "w2815": 104}, 0, {2815: 1000}),
    ("all of MISC", 0xABCDE026, {"w10": 595, "w2815": 104}, 0,
     {4112: 0xABCDE, 10: 979, 2815: 1000}),
    # TIMER: TT in bits 31-32.
    ("TT 00", 0xFFFFF100, {"w4115": 5}, 0, {}),
    ("TT 01", 0x12345108, {"w4115": 5}, 0, {4115: 0x12345}),
    ("x bits of TIMER", 0x1234516F, {"w4115": 5}, 0, {4115: 0x12345}),
    # Setting the counter clears its high 12 bits.
    ("TT 01, high bits", 0x12345108, {"w4115": 0x98700005}, 0, {4115: 0x12345}),
    ("TT 01, all bits", 0xFFFFF108, {"w4115": 0xFFFFFFFF}, 0, {4115: 0xFFFFF}),
    ("TT 00, high bits", 0xFFFFF100, {"w4115": 0x98700005}, 0, {}),
    # TICKS: T = data+1, N = data+2, ten bits of data in 14-23; 4343 gets N-T-8, here of N 265 or
    # T 1 where nothing else is said.
    ("T", 0x000FF180, {}, 0, {4113: 256, 4343: 1}),
    ("T, 2 ticks", 0x000FE180, {}, 0, {4113: 255, 4343: 2}),
    ("T, no ticks", 0x000FF180, {"w4114": 264}, 0, {4113: 256, 4343: 0}),
    ("T, negative", 0x000FF180, {"w4114": 10}, 0, {4113: 256, 4343: 0}),
    ("T, more ticks", 0x00000180, {"w4113": 200, "w4114": 1025}, 0, {4113: 1, 4343: 1016}),
    ("T beyond", 0x00100180, {}, 4, {}),
    ("T far beyond", 0x00200180, {}, 4, {}),
    ("T beyond, x bits", 0xFFD001E7, {}, 4, {}),
    ("x bits of TICKS", 0xFFC011E7, {}, 0, {4113: 2, 4343: 255}),
    ("N", 0x003FF188, {}, 0, {4114: 1025, 4343: 1016}),
    ("N least", 0x00000188, {}, 0, {4114: 2, 4343: 0}),
    # N 9, 10 and 11 with T 1; N 10 with T 3.
    ("N, no ticks", 0x00007188, {}, 0, {4114: 9, 4343: 0}),
    ("N, 1 tick", 0x00008188, {}, 0, {4114: 10, 4343: 1}),
    ("N, 2 ticks", 0x00009188, {}, 0, {4114: 11, 4343: 2}),
    ("N, negative", 0x00008188, {"w4113": 3, "w4114": 12}, 0, {4114: 10, 4343: 0}),
    ("N, again", 0x00107188, {}, 0, {}),
    ("unused code", 0x00001190, {}, 3, {}),
    ("unused code, also beyond", 0x00100190, {}, 3, {}),
)

# DLY: 16 bits of data, 4 bits, code 00001, UU, five bits of unit: 0xDDDDM080 + UU * 0x20 + unit.
DELAYS = (
    # X 0x1234 of unit 5, whose Y is cleared; the 4 bits are not looked at.
    ("X", 0x12340085, {"w4155": 7}, 0, {4154: 0x1234, 4155: 0}),
    ("X, 4 bits", 0x1234F085, {"w4155": 7, "w4157": 8}, 0, {4154: 0x1234, 4155: 0}),
    ("X 0", 0x00000085, {"w4154": 7}, 0, {4154: 0}),
    # Y from its one's complement: 0xFFFF - 0x1234 = 0xEDCB; 0xFFFF stands for 0.
    ("Y", 0x123400A5, {}, 0, {4155: 0xEDCB}),
    ("Y, 4 bits", 0x1234F0A5, {"w4154": 7, "w4157": 8}, 0, {4155: 0xEDCB}),
    ("Y 0", 0xFFFF00A5, {"w4155": 7}, 0, {4155: 0}),
    ("Y 65535", 0x000000A5, {}, 0, {4155: 65535}),
    ("Y 1", 0xFFFE00A5, {}, 0, {4155: 1}),
    # Z 0x1234 with each built P; the words on their way stay.
    ("Z, inactive", 0x123400C5, {"w4155": 7, "w4157": 8}, 0, {4156: 0x1234, 4157: 0}),
    ("Z, line", 0x123480C5, {"w4158": 7}, 0, {4156: 0x1234, 4157: 8}),
    ("Z, table", 0x1234A0C5, {}, 0, {4156: 0x1234, 4157: 10}),
    ("Z, rounded table", 0x1234B0C5, {}, 0, {4156: 0x1234, 4157: 11}),
    ("Z below Y", 0x000080C5, {"w4155": 7, "w4156": 9}, 0, {4156: 0, 4157: 8}),
    # Units 0 and 31.
    ("X of 0", 0xFFFF0080, {}, 0, {4119: 0xFFFF}),
    ("Y of 31", 0xFFFE00BF, {}, 0, {4337: 1}),
    ("Z of 31", 0xFFFF80DF, {}, 0, {4338: 0xFFFF, 4339: 8}),
    ("UU 11", 0x000000E5, {}, 3, {}),
    ("UU 11, line", 0x000080E5, {}, 3, {}),
) + tuple((f"P {p:04b}", 0x123400C5 | p << 12, {}, 3, {})
          for p in (1, 2, 3, 4, 5, 6, 7, 9, 12, 13, 14, 15))

# Linger commands: 0xDDDDD110 to pass DDDDD, 0xDDDDD118 after clearing the counter.
LINGERS = (
    ("ahead", 0x00007110, {"w4115": 5}, 0, {4116: 1, 4117: 7}),
    ("here", 0x00005110, {"w4115": 5, "w4117": 9}, 0, {}),
    ("1 behind", 0x00004110, {"w4115": 5}, 0, {4118: 1}),
    ("4096 behind", 0x00000110, {"w4115": 4096}, 0, {4118: 1}),
    ("4097 behind", 0x00001110, {"w4115": 4098}, 0, {4116: 1, 4117: 1}),
    # 0 - 1048575 = 1 modulo 2^20.
    ("behind around 0", 0xFFFFF110, {}, 0, {4118: 1}),
    ("cleared, here", 0x00000118, {"w4115": 5}, 0, {4115: 0}),
    ("cleared, ahead", 0x00003118, {"w4115": 5}, 0, {4115: 0, 4116: 1, 4117: 3}),
    ("cleared, behind", 0xFFFFF118, {"w4115": 5}, 0, {4115: 0, 4118: 1}),
    # A Linger is compared with the counter's low 20 bits: 0x98700005 is at 5.
    ("ahead, high bits", 0x00007110, {"w4115": 0x98700005}, 0, {4116: 1, 4117: 7}),
    ("here, high bits", 0x00005110, {"w4115": 0x98700005, "w4117": 9}, 0, {}),
    ("1 behind, high bits", 0x00004110, {"w4115": 0x98700005}, 0, {4118: 1}),
    ("4096 behind, high bits", 0x00000110, {"w4115": 0x00101000}, 0, {4118: 1}),
    ("4097 behind, high bits", 0x00001110, {"w4115": 0x00101002}, 0, {4116: 1, 4117: 1}),
    ("behind around 2^20", 0xFFFFF110, {"w4115": 0x00100000}, 0, {4118: 1}),
    ("ahead around 2^20", 0x00001110, {"w4115": 0x000FFFFF}, 0, {4116: 1, 4117: 1}),
    ("here at 2^20", 0x00000110, {"w4115": 0x00100000}, 0, {}),
    ("ahead around 2^32", 0x00001110, {"w4115": 0xFFFFFFFF}, 0, {4116: 1, 4117: 1}),
    ("here at 2^32 - 1", 0xFFFFF110, {"w4115": 0xFFFFFFFF}, 0, {}),
    ("cleared, here, high bits", 0x00000118, {"w4115": 0x98700005}, 0, {4115: 0}),
    ("cleared, ahead, high bits", 0x00005118, {"w4115": 0x98700005}, 0,
     {4115: 0, 4116: 1, 4117: 5}),
)


def rows(table):
    """The checks of rows of single commands."""
    def checks():
        for name, command, words, refused, changes in table:
            yield name, taken_alone(command, **words), (refused, changes)
    return checks


def update(commands, **words):
    """The number, the count taken and the words changed by an update."""
    made = machine([generator("0000 00 0000")])
    put_words(made, words)
    refused, taken, left = run_update(made, commands)
    return refused, taken, places_changed(made, left)


def limits():
    """At most N-T-8 commands, by N and T as the update begins."""
    three = [0x00001B00, 0x00002B00, 0x00003B00]
    yield "all", update(three), (0, 3, {0: 3})
    yield "none given", update([]), (0, 0, {})
    # 11 - 1 - 8 = 2; 9 - 1 - 8 = 0; 2 - 256 - 8 is negative.
    yield "two", update(three, w4114=11), (0, 2, {0: 2})
    yield "none", update(three, w4114=9), (0, 0, {})
    yield "negative", update(three, w4113=256, w4114=2), (0, 0, {})
    # 265 - 1 - 8 = 256.
    yield "256 of 300", update([0x00001B00] * 300), (0, 256, {0: 1})
    # N becomes 2 at the first command; the limit stays.
    yield "as it begins", update([0x00000188] + three), (0, 4, {0: 3, 4114: 2, 4343: 0})
    # 10 - 1 - 8 = 1; N becomes 1025, the limit stays.
    yield "not more", update([0x003FF188] + three, w4114=10), (0, 1, {4114: 1025, 4343: 1016})
    # T 2, then N 12: 12 - 2 - 8 = 2. A refused TICKS sets nothing.
    yield "T and N", update([0x00001180, 0x0000A188]), (0, 2, {4113: 2, 4114: 12, 4343: 2})
    # T 256, then N 9, which is negative, then N 266: 2.
    yield "from negative", update([0x000FF180, 0x00007188, 0x00108188]), (
        0, 3, {4113: 256, 4114: 266, 4343: 2})
    yield "refused", update([0x00001180, 0x00100180]), (4, 1, {4113: 2, 4343: 255})
    yield "count of another", update(three, w4343=255), (2, 0, {})
    # A command past the limit is not asked about.
    yield "past the limit", update([0x00001B00, 0x000000E0], w4114=10), (0, 1, {0: 1})
    # X, Z and P, then Y of unit 0: DLY uses ticks as others do.
    line = [0x00050080, 0x000980C0, 0xFFFC00A0]
    yield "DLY", update(line), (0, 3, {4119: 5, 4120: 3, 4121: 9, 4122: 8})
    yield "DLY, two ticks", update(line, w4114=11), (0, 2, {4119: 5, 4121: 9, 4122: 8})
    # X after Y: Y is cleared.
    yield "X last", update(line[::-1]), (0, 3, {4119: 5, 4121: 9, 4122: 8})


def lingering():
    """Waiting, its end, and refusals."""
    two = [0x00001B00, 0x00002B00]
    wait = [0x00001B00, 0x00007110, 0x00002B00]
    yield "a Linger waits", update(wait, w4115=5), (0, 2, {0: 1, 4116: 1, 4117: 7})
    # Neither of these waits, so the next command is taken.
    yield "here", update([0x00005110] + two, w4115=5), (0, 3, {0: 2})
    yield "behind", update([0x00004110] + two, w4115=5), (0, 3, {0: 2, 4118: 1})
    yield "counter set", update([0x00009108] + two), (0, 3, {0: 2, 4115: 9})
    yield "no effect", update([0x00009100] + two), (0, 3, {0: 2})
    yield "goes on", update(two, w4115=6, w4116=1, w4117=7), (0, 0, {})
    yield "goes on, nothing asked", update([0xE0], w4115=6, w4116=1, w4117=7), (0, 0, {})
    yield "goes on, pass behind", update(two, w4115=8, w4116=1, w4117=7), (0, 0, {})
    yield "ends", update(two, w4115=7, w4116=1, w4117=7), (0, 2, {0: 2, 4116: 0})
    # By the counter's low 20 bits: 0x00100007 and 0xFFF00007 are at 7.
    for counter in (0x00100007, 0xFFF00007):
        ended = update(two, w4115=counter, w4116=1, w4117=7)
        yield f"ends at {counter}", ended, (0, 2, {0: 2, 4116: 0})
    for counter in (0x00100006, 0x00100008, 0x70000000):
        yield f"goes on at {counter}", update(two, w4115=counter, w4116=1, w4117=7), (0, 0, {})
    yield "ends without commands", update([], w4115=7, w4116=1, w4117=7), (0, 0, {4116: 0})
    yield "ends without ticks", update(two, w4115=7, w4116=1, w4117=7, w4114=2), (0, 0, {4116: 0})
    yield "a Linger pass alone", update(two, w4115=6, w4117=7), (0, 2, {0: 2})
    yield "overrun stays", update([0x00005110], w4115=5, w4118=1), (0, 1, {})
    # Commands before the refused one hold; an ended Linger stays ended.
    yield "refused second", update([0x00001B00, 0xE0, 0x00002B00]), (3, 1, {0: 1})
    yield "refused after the end", update([0xE0], w4115=7, w4116=1, w4117=7), (3, 0, {4116: 0})
    yield "refused 4", update([0x00001B00, 0x00100180]), (4, 1, {0: 1})
    yield "after a waiting one", update([0x00007110, 0xE0]), (0, 1, {4116: 1, 4117: 7})
    # P 1001 of unit 0 is refused; X before it holds.
    yield "refused P", update([0x00050080, 0x000090C0, 0x00060080]), (3, 1, {4119: 5})
    # Two modifiers that name one line past delay memory: an update asks neither 11 nor 12.
    bad = {"w2823": 0x70, "w2831": 0x70, "w4113": 16, "w4119": 65535, "w4121": 1, "w4122": 8}
    yield "11 and 12 not asked", update(two, **bad), (0, 2, {0: 2})
    yield "question 2", update(two, w4112=1048576), (2, 0, {})
    yield "question 1", run_update([0] * 4119, two), (1, 0, [0] * 4119)


GROUPS = (
    ("commands, loads", rows(LOADS)),
    ("commands, MISC, TIMER, TICKS", rows(OTHERS)),
    ("commands, DLY", rows(DELAYS)),
    ("commands, Linger", rows(LINGERS)),
    ("update, limit", limits),
    ("update, lingering and refusals", lingering),
)
