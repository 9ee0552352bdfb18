"""Bench files, good and refused."""

from reference.ring import ring

# Generator 0 is a square wave with V 4095 into word 0; generator 1 feeds DAC 0 from it.
TONE = b"word=7:4095\nword=10:962\nword=21:128\nword=4113:2\n"

# Generator 0 (GMODE 0010 00 0000) feeds DAC 0 from modifier-last word 0, where modifier 0, a 00111
# on unit 0, adds; its A is generator-last word 0, which holds 1000 at first. T is 10.
ECHO = b"word=9:64\nword=10:128\nword=2823:112\nword=3904:1000\nword=4113:10\n"


def silence(passes):
    """The lines of the first passes if nothing is heard."""
    return b"".join(b"pass=%d left=0 right=0\n" % number for number in range(1, passes + 1))


def good():
    """Files that fit."""
    yield "no passes", ring(b"passes=0\n"), b""
    yield "no passes, nothing asked", ring(b"passes=0\nword=4113:0\n"), b""
    yield "one pass", ring(b"passes=1\n"), b"pass=1 left=0 right=0\n"
    # The later of two words for one place holds; the earlier may be beyond its width.
    yield ("later word", ring(b"passes=1\nword=4113:4294967295\nword=4113:1\n"),
           b"pass=1 left=0 right=0\n")
    # DAC 1 by generator 1's GO (word 11) 1; W is negative with GK (word 2) -1.
    yield ("right, negative", ring(b"passes=2\n" + TONE + b"word=11:1\nword=2:1048575\n"),
           b"pass=1 left=0 right=0\npass=2 left=0 right=-131040\n")
    # DAC words hold until fed: -1 and 5.
    yield ("DAC words", ring(b"passes=1\nword=4096:1048575\nword=4097:5\n"),
           b"pass=1 left=-1 right=5\n")
    yield "last word", ring(b"passes=1\nword=4342:1048575\n"), b"pass=1 left=0 right=0\n"
    # The counter is set to 9 after pass 1; the line is printed after the update.
    yield ("counter set", ring(b"passes=2\ncommand=00009108\n"),
           b"pass=9 left=0 right=0\npass=10 left=0 right=0\n")
    # The counter goes on past 2^20, and past 2^32 - 1 from 0.
    yield ("counter of 20 bits", ring(b"passes=2\nword=4115:1048574\n"),
           b"pass=1048575 left=0 right=0\npass=1048576 left=0 right=0\n")
    yield ("counter of 32 bits", ring(b"passes=2\nword=4115:4294967294\n"),
           b"pass=4294967295 left=0 right=0\npass=0 left=0 right=0\n")
    # A Linger to pass 0, taken at 1048575, ends at 1048576; the counter goes to 16 then.
    yield ("linger around 2^20", ring(b"passes=2\nword=4115:1048574\ncommand=00000110\n"
                                      b"command=00010108\n"),
           b"pass=1048575 left=0 right=0\npass=16 left=0 right=0\n")
    # GL of generator 0 is loaded (0xFFF * 2^18 = 0x3FFC0000) after pass 1, so it sounds in 2
    # and is heard in 3.
    quiet = b"word=10:962\nword=21:128\nword=4113:2\ncommand=3FFC0800\n"
    yield ("command", ring(b"passes=3\n" + quiet),
           b"pass=1 left=0 right=0\npass=2 left=0 right=0\npass=3 left=131040 right=0\n")
    # One update tick (10-1-8): one command each pass, the counter to 16, then to 32.
    yield ("one each", ring(b"passes=2\nword=4114:10\ncommand=00010108\ncommand=00020108\n"),
           b"pass=16 left=0 right=0\npass=32 left=0 right=0\n")
    # Of an N that is set twice the later is counted by, so is a T: 12-2-8 = 2 commands.
    yield ("two each", ring(b"passes=2\nword=4114:10\nword=4113:2\nword=4114:12\n"
                            + b"command=00010108\n" * 3 + b"command=00020108\n"),
           b"pass=16 left=0 right=0\npass=32 left=0 right=0\n")
    # A Linger to pass 3 is taken after pass 1; the counter goes to 16 after pass 3.
    yield ("linger", ring(b"passes=3\ncommand=00003110\ncommand=00010108\n"),
           b"pass=1 left=0 right=0\npass=2 left=0 right=0\npass=16 left=0 right=0\n")
    # Modifier 0 (00111: 0x70, word 2823) sends 1000, generator-last word 0 in pass 1, to unit 0, a
    # line with Z 0. It comes back in pass 4, goes to word 0 in pass 5 and to DAC 0 in pass 6.
    yield "echo", ring(b"passes=7\n" + ECHO + b"word=4122:8\n"), silence(5) + (
        b"pass=6 left=1000 right=0\npass=7 left=0 right=0\n")
    # Modifier 0's MMODE 0x71 and M1 one half, times 2: what comes back is sent again.
    again = b"word=2817:268435456\nword=2823:113\nword=4122:8\n"
    yield "echo again", ring(b"passes=10\n" + ECHO + again), silence(5) + (
        b"pass=6 left=1000 right=0\npass=7 left=0 right=0\npass=8 left=0 right=0\n"
        b"pass=9 left=1000 right=0\npass=10 left=0 right=0\n")
    # An inactive unit: no echo.
    yield "no echo", ring(b"passes=7\n" + ECHO), silence(7)
    # T 9: no unit acts.
    yield "no echo at T 9", ring(b"passes=7\n" + ECHO + b"word=4122:8\nword=4113:9\n"), silence(7)
    # X 5, then Z 1 and P 1000 of unit 0 after pass 1. Generator 1 (GL, word 18; GFM 63, word 20;
    # GMODE 962, word 21) adds 131040 in pass 1 and on: sent in 2, back in 6, into word 0 in 7,
    # DAC 0 in 8.
    line = b"word=18:4095\nword=20:63\nword=21:962\ncommand=00050080\ncommand=000180C0\n"
    quiet = ECHO.replace(b"word=3904:1000\n", b"")
    yield "echo by DLY", ring(b"passes=9\n" + quiet + line), silence(7) + (
        b"pass=8 left=131040 right=0\npass=9 left=131040 right=0\n")
    # T becomes 2 after pass 1: generator 1 feeds DAC 0 from word 0 from pass 2 on.
    yield ("T of the moment", ring(b"passes=2\nword=7:4095\nword=10:962\nword=21:128\n"
                                   b"command=00001180\n"),
           b"pass=1 left=0 right=0\npass=2 left=131040 right=0\n")


def refused():
    """Files that are refused."""
    yield "wide word", ring(b"passes=2\nword=0:1048576\n"), b"refused=2\n"
    ticks = ((4113, 4294967295), (4113, 0), (4114, 4294967295), (4114, 0), (4114, 1026))
    for place, value in ticks:
        file = b"passes=1\nword=%d:%d\n" % (place, value)
        yield f"word {place}: {value}", ring(file), b"refused=2\n"
    # 448 is 0111 00 0000 and 192 is 0011 00 0000.
    yield "read data", ring(b"passes=1\nword=10:448\n"), b"refused=7\n"
    yield "written data", ring(b"passes=1\nword=10:192\n"), b"refused=8\n"
    yield "command", ring(b"passes=2\ncommand=000000E0\n"), b"refused=3\n"
    yield "ticks", ring(b"passes=2\ncommand=00100180\n"), b"refused=4\n"
    # Unit 0 a line with X 65535 and Z 1, or with Y 1 and Z 0; modifiers 0 and 1 on unit 0.
    past = ECHO + b"word=4119:65535\nword=4121:1\nword=4122:8\n"
    yield "past delay memory", ring(b"passes=1\n" + past), b"refused=11\n"
    yield ("index past the line", ring(b"passes=1\n" + ECHO + b"word=4120:1\nword=4122:8\n"),
           b"refused=11\n")
    yield "one unit twice", ring(b"passes=1\n" + ECHO + b"word=2831:112\n"), b"refused=12\n"
    yield "11 before 12", ring(b"passes=1\n" + past + b"word=2831:112\n"), b"refused=11\n"
    # Y 1 from its one's complement, 65534, and P 1000 with Z 0, after pass 1.
    late = ECHO + b"command=FFFE00A0\ncommand=000080C0\n"
    yield ("11 in pass 2", ring(b"passes=3\n" + late), b"pass=1 left=0 right=0\nrefused=11\n")
    # MMODE 00111 (0x70 * 2^19 = 0x03800000) of modifier 1 after pass 1; both MRM are 0.
    yield ("12 in pass 2", ring(b"passes=3\n" + ECHO + b"command=03800F01\n"),
           b"pass=1 left=0 right=0\nrefused=12\n")
    # P 1001 of unit 0.
    yield "mode not built", ring(b"passes=2\ncommand=000090C0\n"), b"refused=3\n"
    # GMODE 0111 (448 * 2^19 = 0x0E000000) for generator 0 after pass 1.
    yield ("in pass 2", ring(b"passes=3\ncommand=0E000A00\n"),
           b"pass=1 left=0 right=0\nrefused=7\n")


NOT_FITTING = (
    b"", b"\n", b"passes=1", b"passes=\n", b"passes=01\n", b"passes=65536\n", b"passes=-1\n",
    b"passes=+1\n", b"passes= 1\n", b"passes=1 \n", b"passes=1\r\n", b"passes=1\n\n",
    b"\npasses=1\n", b"Passes=1\n", b"passes=1\npasses=1\n", b"word=0:0\n", b"passes=1\nword=4343:0\n",
    b"passes=1\nword=4343:256\n", b"passes=1\nword=4344:0\n",
    b"passes=1\nword=0:4294967296\n", b"passes=1\nword=00:0\n", b"passes=1\nword=0:00\n",
    b"passes=1\nword=0\n", b"passes=1\nword=:0\n", b"passes=1\nword=0:\n",
    b"passes=1\nword=0:0:0\n", b"passes=1\nword=0:1_0\n", b"passes=1\nword=0:0", b"passes=1\ncommand=00000000\nword=0:0\n",
    b"passes=1\ncommand=0000000\n", b"passes=1\ncommand=000000000\n",
    b"passes=1\ncommand=abcde020\n", b"passes=1\ncommand=0x000000\n",
    b"passes=1\ncommand=0000_000\n", b"passes=1\nnote=1\n", b"passes=0\nword=0:-1\n",
    b"passes=1\nword=0:" + b"9" * 5000 + b"\n", b"passes=\xb2\n",
)


def not_fitting():
    """9, asked first."""
    for file in NOT_FITTING:
        yield repr(file[:40]), ring(file), b"refused=9\n"
    # 9 + 5957*11 = 65536 bytes fit; one more does not.
    full = b"passes=1\n" + b"word=0:777\n" * 5957
    yield "65536 bytes", (len(full), ring(full)), (65536, b"pass=1 left=0 right=0\n")
    yield "65537 bytes", ring(b"passes=10\n" + b"word=0:777\n" * 5957), b"refused=9\n"
    yield "9 before 2", ring(b"passes=1\nword=4113:0\nword=0:x\n"), b"refused=9\n"


GROUPS = (
    ("bench files", good),
    ("bench files refused in a call", refused),
    ("bench files that do not fit", not_fitting),
)
