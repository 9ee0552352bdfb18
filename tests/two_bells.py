"""Joins the two bells of examples/ with the example host and rings them beside each bell alone.

    python3 tests/two_bells.py

Run from the repository root, after the library for C and `ring` are built. Builds examples/join_host.c with the address
and undefined-behaviour sanitizers on. The files of examples/ must be what examples/two_bells.py writes; the joined bench
file must ring, on the left as the low bell alone and on the right as the high one, pass by pass; a bell joined with
itself, a bell with modifiers and a text that is no bench file must be refused by 18, 17 and 9.
"""

import os
import subprocess
import sys

from library import LIBRARY, ROOT, TARGET, program_of

HOST = os.path.join(TARGET, "join_host")
RING = program_of("ring")
FLAGS = ("-std=c99", "-Wall", "-Wextra", "-Werror", "-pedantic", "-O1", "-g", "-fsanitize=address,undefined",
         "-fno-sanitize-recover=all")
NO_LEAKS = {**os.environ, "ASAN_OPTIONS": "detect_leaks=0"}
LOW, HIGH = (os.path.join(ROOT, "examples", f"{name}_bell.txt") for name in ("low", "high"))
REFUSED = ((LOW, LOW, 18), (os.path.join(ROOT, "examples", "short_bell.txt"), HIGH, 8),
           (os.path.join(ROOT, "examples", "bell.txt"), HIGH, 17), (LOW, os.path.join(ROOT, "VERSION"), 9))


def build():
    """The host over the static library."""
    source = os.path.join(ROOT, "examples", "join_host.c")
    subprocess.run(["gcc", *FLAGS, "-I", os.path.join(ROOT, "include"), source, LIBRARY, "-o", HOST], check=True)


def joined(first, second):
    """What the host prints for two files."""
    return subprocess.run([HOST, first, second], env=NO_LEAKS, stdout=subprocess.PIPE, check=False).stdout


def rung(text):
    """The lines that `ring` prints for a bench file, each as a dictionary."""
    lines = subprocess.run([RING], input=text, stdout=subprocess.PIPE, check=True).stdout.decode().splitlines()
    return [dict(part.split("=") for part in line.split()) for line in lines]


def faults():
    """What is wrong, a line each."""
    for name, path in (("low", LOW), ("high", HIGH)):
        written = subprocess.run([sys.executable, os.path.join(ROOT, "examples", "two_bells.py"), name],
                                 stdout=subprocess.PIPE, check=True).stdout
        with open(path, "rb") as file:
            if file.read() != written:
                yield f"{path} is not what examples/two_bells.py writes"
    for first, second, number in REFUSED:
        if joined(first, second) != b"refused=%d\n" % number:
            yield f"{first} and {second} are not refused by {number}"
    both = rung(joined(LOW, HIGH))
    for side, path in (("left", LOW), ("right", HIGH)):
        with open(path, "rb") as file:
            alone = rung(file.read())
        if len(alone) < 1000 or [line.get(side) for line in both] != [line[side] for line in alone]:
            yield f"the bell on the {side} is not what it is alone"
        if len({line[side] for line in alone}) < 1000:
            yield f"the bell on the {side} is hardly heard"


def main():
    """Prints what is wrong, or that nothing is."""
    build()
    found = list(faults())
    print("\n".join(found) if found else "two bells joined: each side is its bell alone, in 12000 passes; 4 pairs refused")
    return 1 if found else 0


if __name__ == "__main__":
    sys.exit(main())
