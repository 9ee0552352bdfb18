"""A generator's turn: each oscillator, envelope and run mode, worked by hand.

A row is: name, mode bits, registers, F, told; then the words that change, P and
whether it triggers. J below is the sum of step 1, K the high 13 bits of E.
"""

from reference.cases.build import changed, generator, number
from reference.generator import generator_turn
from reference.layout import GENERATOR_NAMES
from reference.words import low

SINES = (
    # J = 1 + 5; GJ 256 + 3; K 0: W = 1; H 0: V = 4095; P = (4095 + 32) div 64; GQ 8 + 7; GK 0 + 6.
    ("all steps", "1111 00 0000", dict(GO=3, GJ=256, GP=7, GQ=8, GL=4095), 5, False,
     dict(GJ=259, GK=6, GQ=15), 64, False),
    # K = 128 / 128 = 1: W = 4; P = (4*8 + 32) div 64.
    ("entry 1", "1111 00 0000", dict(GK=128, GL=8), 0, False, {}, 1, False),
    # K = 2048, quarter 1, entry 2047 - 0: 4095, shifted by 3: 511; P = (511 + 32) div 64.
    ("quarter 1", "1111 00 0000", dict(GK=262144, GM=3, GL=1), 0, False, {}, 8, False),
    # K = 4095, quarter 1, entry 2047 - 2047: W = 1; P = (32 + 32) div 64.
    ("end of quarter 1", "1111 00 0000", dict(GK=524160, GL=32), 0, False, {}, 1, False),
    # K = -4096, k = 4096, quarter 2, entry 0: W = -1; P = -((64 + 32) div 64).
    ("quarter 2", "1111 00 0000", dict(GK=-524288, GL=64), 0, False, {}, -1, False),
    # K = -2048, k = 6144, quarter 3, entry 2047: 4095 shifted by 11 is 1, then signed:
    # W = -1; P = -((48 + 32) div 64). Shifting -4095 would give -2 and P = -2.
    ("quarter 3", "1111 00 0000", dict(GK=-262144, GM=11, GL=48), 0, False, {}, -1, False),
    # K = -1, k = 8191, quarter 3, j 2047, entry 0: W = -1; P = -((32 + 32) div 64).
    ("end of quarter 3", "1111 00 0000", dict(GK=-1, GL=32), 0, False, {}, -1, False),
    # Shift by 15: W = 0.
    ("GM 15", "1111 00 0000", dict(GK=262144, GM=15, GL=4095), 0, False, {}, 0, False),
    # J = 2^26 / 256 = 262144, K = 2048: W = 4095; P = (4095*4095 + 32) div 64; GK 5 + 262144.
    ("of J", "1111 00 1000", dict(GJ=67108864, GK=5, GL=4095), 0, False,
     dict(GK=262149), 262016, False),
    # J = 524287 + 1 wraps to -524288, K = -4096: W = -1; P = -((64 + 32) div 64).
    ("of J, wrapped", "1111 00 1000", dict(GJ=134217472, GL=64), 1, False,
     dict(GK=524288), -1, False),
    # The oscillator is off in 0111, but E is still J.
    ("of J in 0111", "0111 00 1000", dict(GJ=67108864, GO=1, GL=4095), 0, False, {}, 262016, False),
)

SAWTOOTHS = (
    # K = -1: P = -((4095 + 32) div 64).
    ("K -1", "1111 00 0001", dict(GK=-1, GL=4095), 0, False, {}, -64, False),
    # 127 / 128: K = 0.
    ("K 0", "1111 00 0001", dict(GK=127, GL=4095), 0, False, {}, 0, False),
    ("K 1", "1111 00 0001", dict(GK=128, GL=4095), 0, False, {}, 64, False),
    # K = 4095: (4095*4095 + 32) div 64.
    ("K 4095", "1111 00 0001", dict(GK=524287, GL=4095), 0, False, {}, 262016, False),
    # K = -4096 gives 0, also with lower bits set: -524288 + 127.
    ("K -4096", "1111 00 0001", dict(GK=-524288, GL=4095), 0, False, {}, 0, False),
    ("K -4096, low bits", "1111 00 0001", dict(GK=-524161, GL=4095), 0, False, {}, 0, False),
    # -524160 / 128 = -4095.
    ("K -4095", "1111 00 0001", dict(GK=-524160, GL=4095), 0, False, {}, -262016, False),
    # W = -1: V = 31: (31 + 32) div 64 = 0; V = 32: 1; V = 96: 128 div 64 = 2; each then negative.
    ("V 31", "1111 00 0001", dict(GK=-1, GL=31), 0, False, {}, 0, False),
    ("V 32", "1111 00 0001", dict(GK=-1, GL=32), 0, False, {}, -1, False),
    ("V 96", "1111 00 0001", dict(GK=-1, GL=96), 0, False, {}, -2, False),
)

SQUARES_AND_PULSES = (
    # (2048 + 32) div 64 = 32.
    ("square below 0", "1111 00 0010", dict(GK=-1, GL=1), 0, False, {}, -32, False),
    ("square at 0", "1111 00 0010", dict(GL=1), 0, False, {}, 32, False),
    ("no pulse", "1111 00 0011", dict(GL=4095), 0, False, {}, 0, False),
    # 524287 + 1 leaves its range: W = 2048; P = (2048*4095 + 32) div 64; J wraps to -524288.
    ("step 1 above", "1111 00 0011", dict(GJ=134217472, GL=4095), 1, False,
     dict(GK=524288), 131040, False),
    # -524288 - 1 leaves; J wraps to 524287.
    ("step 1 below", "1111 00 0011", dict(GJ=-134217728, GL=4095), -1, False,
     dict(GK=524287), 131040, False),
    # 524286 + 1 does not leave.
    ("step 1 at the edge", "1111 00 0011", dict(GJ=134217216, GL=4095), 1, False,
     dict(GK=524287), 0, False),
    # -524288 + 0 does not leave, in either step.
    ("steps 1 and 4 at the edge", "1111 00 0011", dict(GJ=-134217728, GL=4095), 0, False,
     dict(GK=524288), 0, False),
    # J = 1; GK 524287 + 1 leaves.
    ("step 4 above", "1111 00 0011", dict(GJ=256, GK=524287, GL=4095), 0, False,
     dict(GK=524288), 131040, False),
    # J = -1; GK -524288 - 1 leaves.
    ("step 4 below", "1111 00 0011", dict(GJ=-256, GK=-524288, GL=4095), 0, False,
     dict(GK=524287), 131040, False),
    # Step 4 is not done in 0111; step 1 counts.
    ("step 4 not done", "0111 00 0011", dict(GJ=256, GK=524287, GL=4095), 0, False, {}, 0, False),
    ("step 1 in 0111", "0111 00 0011", dict(GJ=134217472, GL=4095), 1, False, {}, 131040, False),
)

# V is 64 in all of these, so that P is W: (64|W| + 32) div 64 = |W|. With s and d the sines at 2p
# and K: 4095*1, 4095*4 and 4095*4095 are 4095, 16380 and 16769025. Entries 0, 1, 2047: 1, 4, 4095.
SUMS_OF_COSINES = (
    # K 0: p 0, s 1, d 1, whatever GN is.
    ("K 0", "1111 00 0100", dict(GN=1023, GL=64), 0, False, {}, 4095, False),
    ("K 0, GM 1", "1111 00 0100", dict(GN=1, GM=1, GL=64), 0, False, {}, 2047, False),
    ("K 0, GM 12", "1111 00 0100", dict(GN=1, GM=12, GL=64), 0, False, {}, 0, False),
    # K 2048: p 2048, index 4096: s -1; d 4095.
    ("K 2048", "1111 00 0100", dict(GK=262144, GN=1, GL=64), 0, False, {}, -1, False),
    ("K 2048, GM 1", "1111 00 0100", dict(GK=262144, GN=1, GM=1, GL=64), 0, False, {}, 0, False),
    # GN 0: p 0, s 1; d 4095.
    ("GN 0", "1111 00 0100", dict(GK=262144, GL=64), 0, False, {}, 1, False),
    # K -1: p 4095, index 8190: quarter 3, j 2046, entry 1: s -4; d -1. 16380 is capped.
    ("K -1", "1111 00 0100", dict(GK=-1, GN=1, GL=64), 0, False, {}, 4095, False),
    # 16380 / 4 = 4095; 16380 / 8 = 2047.5; 4095 / 4 would be 1023.
    ("K -1, GM 2", "1111 00 0100", dict(GK=-1, GN=1, GM=2, GL=64), 0, False, {}, 4095, False),
    ("K -1, GM 3", "1111 00 0100", dict(GK=-1, GN=1, GM=3, GL=64), 0, False, {}, 2047, False),
    # K 1, GN 2047: p 2047, index 4094: quarter 1, 2047 - 2046: s 4; d 4. As -1, GN would give s -4.
    ("GN 2047", "1111 00 0100", dict(GK=128, GN=2047, GL=64), 0, False, {}, 4095, False),
    # K 3, GN 1024: p 3072, index 6144: s -4095; d is small. As 11 bits, p would be 1024 and s 4095.
    ("p 3072", "1111 00 0100", dict(GK=384, GN=1024, GL=64), 0, False, {}, -4095, False),
    # K 1, GN 1024: p 1024, index 2048: s 4095; d 4. 16769025 / 16384 = 1023.5.
    ("p 1024", "1111 00 0100", dict(GK=128, GN=1024, GM=12, GL=64), 0, False, {}, 1023, False),
    # K 1, GN 1536: p 1536, index 3072: quarter 1, 2047 - 1024: s 2895; d 4. 4095*2895 = 11855025;
    # / 2^17 = 90.4.
    ("p 1536", "1111 00 0100", dict(GK=128, GN=1536, GM=15, GL=64), 0, False, {}, 90, False),
    # K -4096: p 0 with GN 2: s 1; d -1.
    ("K -4096", "1111 00 0100", dict(GK=-524288, GN=2, GL=64), 0, False, {}, -4095, False),
    # K -4096 times 2047 = -2047 * 4096: p 0.
    ("K -4096, GN 2047", "1111 00 0100", dict(GK=-524288, GN=2047, GL=64), 0, False,
     {}, -4095, False),
    # K is GK's, 0, and not J's, 2048.
    ("of GK", "1111 00 0100", dict(GJ=67108864, GN=1, GL=64), 0, False,
     dict(GK=262144), 4095, False),
    # The oscillator is off in 0111, but W is there.
    ("in 0111", "0111 00 0100", dict(GK=-1, GN=1, GM=3, GJ=256, GL=64), 0, False, {}, 2047, False),
)

SWEEPS = (
    # GJ 134217727 + 1 wraps to -134217728; J = 524287 from the old GJ; GK 0 + 524287.
    ("wraps above", "1111 00 0000", dict(GJ=134217727, GO=1), 0, False,
     dict(GJ=134217728, GK=524287), 0, False),
    # GJ 0 - 1 = -1, all 28 bits; J = 0 from the old GJ.
    ("below 0", "1111 00 0000", dict(GO=-1), 0, False, dict(GJ=268435455), 0, False),
    # J = 255 div 256 = 0 from the old GJ, so GK stays; the swept GJ would give 1.
    ("J before the sweep", "1111 00 0000", dict(GJ=255, GO=1), 0, False, dict(GJ=256), 0, False),
)

# W = 2048 in all of these.
ENVELOPES = (
    # H = 1: V = 0 - 1 is 4095.
    ("00", "1111 00 0010", dict(GQ=4096), 0, False, {}, 131040, False),
    # V = 0 + 1.
    ("01", "1111 01 0010", dict(GQ=4096), 0, False, {}, 32, False),
    # V = 1 + 4095 is 0 in 12 bits.
    ("01 wrapped", "1111 01 0010", dict(GQ=16777215, GL=1), 0, False, {}, 0, False),
    # V = 0 - 4093 is 3; (6144 + 32) div 64 = 96.
    ("10", "1111 10 0010", {}, 0, False, {}, 96, False),
    # V = 4 + 4093 is 1.
    ("11", "1111 11 0010", dict(GL=4), 0, False, {}, 32, False),
    # The high 14 bits are 1024, exponential 2046: V = 2047 - 2046.
    ("10 at 1024", "1111 10 0010", dict(GQ=1048576, GL=2047), 0, False, {}, 32, False),
    # 11264 = 11*1024: 4093 shifted by 11 is 1; 12288 = 12*1024: 0, so V = 5:
    # (10240 + 32) div 64 = 160.
    ("11 at 11264", "1111 11 0010", dict(GQ=11534336), 0, False, {}, 32, False),
    ("11 at 12288", "1111 11 0010", dict(GQ=12582912, GL=5), 0, False, {}, 160, False),
    # 1023 div 1024 = 0: V = 4 + 4093 is 1; 1024 div 1024 = 1: V = 7 + 4090 is 1.
    ("11 below 1", "1111 11 0010", dict(GQ=1023, GL=4), 0, False, {}, 32, False),
    ("11 at 1", "1111 11 0010", dict(GQ=1024, GL=7), 0, False, {}, 32, False),
    # 4095 div 1024 = 3: V = 4085 - 4084.
    ("10 at 3", "1111 10 0010", dict(GQ=4095, GL=4085), 0, False, {}, 32, False),
    # 1023*1024: V = 2050 + 2047 is 1; 2047*1024: 2047 shifted by 1, V = 1024 - 1023.
    ("11 at 1023", "1111 11 0010", dict(GQ=1047552, GL=2050), 0, False, {}, 32, False),
    ("10 at 2047", "1111 10 0010", dict(GQ=2096128, GL=1024), 0, False, {}, 32, False),
    # Linear modes take 12 bits: 4095 div 4096 = 0 and 8191 div 4096 = 1, V = 1 and 0 + 1.
    ("00 by 12 bits", "1111 00 0010", dict(GQ=4095, GL=1), 0, False, {}, 32, False),
    ("01 by 12 bits", "1111 01 0010", dict(GQ=8191), 0, False, {}, 32, False),
    # H = 4095 div 4096 = 0 from the old GQ: V = 2; (4096 + 32) div 64 = 64.
    ("H before the decay", "1111 01 0010", dict(GQ=4095, GP=1, GL=2), 0, False,
     dict(GQ=4096), 64, False),
)

# GL makes V 0 in all of these. GMODE 834 is 1101 00 0010, 578 is 1001 00 0010.
RUNS = (
    ("1111 above", "1111 00 0010", dict(GQ=16777215, GP=1, GL=4095), 0, False, {}, 0, False),
    ("1111 below", "1111 00 0010", dict(GP=-1), 0, False, {}, 0, False),
    ("1111 to the top", "1111 00 0010", dict(GQ=16777214, GP=1, GL=4095), 0, False,
     dict(GQ=16777215), 0, False),
    ("1111 to 0", "1111 00 0010", dict(GQ=1, GP=-1), 0, False, dict(GQ=0), 0, False),
    ("1111 told", "1111 00 0010", {}, 0, True, {}, 0, False),
    ("1110 above", "1110 00 0010", dict(GQ=16777215, GP=1, GL=4095), 0, False,
     dict(GQ=0), 0, True),
    ("1110 below", "1110 00 0010", dict(GP=-1), 0, False, dict(GQ=16777215), 0, True),
    # 16777000 + 524287 - 16777216 = 524071.
    ("1110 far above", "1110 00 0010", dict(GQ=16777000, GP=524287, GL=4095), 0, False,
     dict(GQ=524071), 0, True),
    ("1110 to 0", "1110 00 0010", dict(GQ=5, GP=-5), 0, True, dict(GQ=0), 0, False),
    ("1101 above", "1101 00 0010", dict(GQ=16777215, GP=1, GL=4095), 0, False,
     dict(GQ=0, GMODE=578), 0, True),
    ("1101 above, told", "1101 00 0010", dict(GQ=16777215, GP=1, GL=4095), 0, True,
     dict(GQ=0, GMODE=578), 0, True),
    ("1101 goes on", "1101 00 0010", dict(GQ=1, GP=1), 0, True, dict(GQ=2), 0, False),
    # The oscillator is on in both: GJ 256 + 1, GK 0 + 1.
    ("1110 turns", "1110 00 0010", dict(GJ=256, GO=1), 0, False, dict(GJ=257, GK=1), 0, False),
    ("1101 turns", "1101 00 0010", dict(GJ=256, GO=1), 0, False, dict(GJ=257, GK=1), 0, False),
    # Waiting, the envelope is off and the oscillator on: GJ 256 + 1, GK 0 + 1.
    ("1001 keeps GQ", "1001 00 0010", dict(GQ=1, GP=1), 0, False, {}, 0, False),
    ("1001 waits", "1001 00 0010", dict(GQ=16777215, GP=1, GL=4095, GJ=256, GO=1), 0, False,
     dict(GJ=257, GK=1), 0, False),
    ("1001 told", "1001 00 0010", dict(GQ=16777215, GP=1, GL=4095), 0, True,
     dict(GMODE=834), 0, False),
    ("0111 above", "0111 00 0010", dict(GQ=16777215, GP=1, GL=4095), 0, False, {}, 0, False),
    ("0111 goes on", "0111 00 0010", dict(GQ=1, GP=1, GJ=256, GO=1), 0, True,
     dict(GQ=2), 0, False),
    ("0000", "0000 00 0010", dict(GO=1, GJ=256, GP=1, GQ=1), 5, True, {}, 0, False),
    ("0001", "0001 00 0010", dict(GO=1, GJ=256, GP=1, GQ=1), 5, True, {}, 0, False),
    ("0011", "0011 00 0010", dict(GO=1, GJ=256, GP=1, GQ=1), 5, True, {}, 0, False),
    ("0010", "0010 00 0010", dict(GO=1, GJ=256, GP=1, GQ=1), 5, True, {}, 0, False),
    # P is defined also where nothing adds it: W = 2048, V = 1.
    ("P in 0000", "0000 00 0010", dict(GL=1), 0, False, {}, 32, False),
    ("P in 1001", "1001 00 0010", dict(GL=1), 0, False, {}, 32, False),
)


def turns(rows):
    """The checks of rows of turns."""
    def checks():
        for name, mode, registers, f, told, changes, p, triggers in rows:
            words = generator(mode, **registers)
            after, got, triggered = generator_turn(words, low(f, 20), told)
            changes_got = changed(words, after, GENERATOR_NAMES)
            yield name, (changes_got, number(got), triggered), (changes, p, triggers)
    return checks


GROUPS = (
    ("generator, sine", turns(SINES)),
    ("generator, sawtooth", turns(SAWTOOTHS)),
    ("generator, square and pulse train", turns(SQUARES_AND_PULSES)),
    ("generator, sum of cosines", turns(SUMS_OF_COSINES)),
    ("generator, sweep", turns(SWEEPS)),
    ("generator, envelope modes", turns(ENVELOPES)),
    ("generator, run modes", turns(RUNS)),
)
