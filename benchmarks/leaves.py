"""Runs the program speed and the plain C, at -O2 and at -O3, by turns on the same generators; benchmarks/leaves calls it.

The time is the processor's, so that other work on the machine disturbs it less. The ratio
is the median of the ratios of neighbouring runs, since the machine's pace may change.
"""

import random
import resource
import struct
import subprocess
import sys
from statistics import median

from reference.tables import EXPONENTIAL, SINE

TABLES = "target/benchmarks/tables"
PLAIN = {"-O2": "target/benchmarks/leaves_O2", "-O3": "target/benchmarks/leaves_O3"}
RUNS = 61
SEED = 1978
GENERATORS = 256
SINE_MODES, COSINE_MODES = (0b0000, 0b1000), (0b0100,)
# The job's name in C, its number in Rattle, what is measured, the oscillator modes, how often, and how many of them that makes.
JOBS = (
    ("generators", 0, "generator's turn", SINE_MODES, 30_000, GENERATORS),
    ("generators", 0, "generator's turn in 0100", COSINE_MODES, 15_000, GENERATORS),
    ("products", 1, "product", SINE_MODES, 10_000_000, 1),
)
RUN_MODES = (0b1111,) * 9 + (0b1110,) * 9 + (0b0111, 0b0000)


def generator(chance, modes):
    """The eleven words of a generator that sounds, most often: GO, GJ .. GMODE."""
    words = [chance.getrandbits(width) for width in (20, 28, 20, 11, 4, 20, 24, 12, 6, 7)]
    gmode = chance.choice(RUN_MODES) << 6 | chance.getrandbits(2) << 4 | chance.choice(modes)
    return words + [gmode]


def spent():
    """The processor's seconds of the programs that have ended."""
    usage = resource.getrusage(resource.RUSAGE_CHILDREN)
    return usage.ru_utime + usage.ru_stime


def timed(command, given):
    """What a program prints, and the processor's seconds that it took."""
    before = spent()
    printed = subprocess.run(command, input=given, stdout=subprocess.PIPE, check=True).stdout
    return printed, spent() - before


def measure(job, number, what, modes, count, each):
    """The programs by turns; prints the line of a job, and says whether their checksums agree."""
    chance = random.Random(SEED)
    words = [word for _ in range(GENERATORS) for word in generator(chance, modes)]
    body = struct.pack("<%dI" % len(words), *words)
    commands = [([sys.argv[1]], struct.pack("<2I", number, count) + body)]
    commands += [([program, TABLES, job, str(count)], body) for program in PLAIN.values()]
    seconds, printed = [[] for _ in commands], set()
    for _ in range(RUNS):
        for taken, (command, given) in zip(seconds, commands):
            text, time = timed(command, given)
            printed.add(text)
            taken.append(time)
    if len(printed) != 1:
        print("%s: the checksums differ: %s" % (what, printed))
        return False
    line = "%s: R %.2f ns" % (what, median(seconds[0]) / count / each * 1e9)
    for level, taken in zip(PLAIN, seconds[1:]):
        ratio = median(a / b for a, b in zip(seconds[0], taken))
        line += "; C %s %.2f ns, ratio %.2f" % (level, median(taken) / count / each * 1e9, ratio)
    print(line)
    return True


def main():
    with open(TABLES, "wb") as tables:
        tables.write(struct.pack("<3072H", *SINE, *EXPONENTIAL))
    agree = [measure(*job) for job in JOBS]
    sys.exit(0 if all(agree) else 1)


if __name__ == "__main__":
    main()
