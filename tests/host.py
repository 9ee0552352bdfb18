"""Compares the example host in C with what ring prints, tries the header from C and C++, and links the library alone.

    python3 tests/host.py [--dry] [COUNT] [SEED]

Run from the repository root. Builds examples/ring_host.c with include/karvelorn.h and
the library for C, with the address and undefined-behaviour sanitizers on and
tests/host_guard.c before each call, and rings the files of tests/ring_files.py, COUNT of
them at random, and every ninth of those that tests/text_files.py makes by hand: the host
must print what the program ring does, which tests/ring.py compares with the reference on
these very files, and the sanitizers nothing. Fails too where the files met something too
seldom. With --dry nothing is built or run, and the reference answers.
"""

import os
import shutil
import subprocess
import sys
from itertools import chain, islice

import ring_files
import text_files
from library import LIBRARY, ROOT, TARGET, make_library, program_of, read_arguments
from ringing import PROMISED, compared, printed_by

COUNT, SEED = 300, 1978
INCLUDE = os.path.join(ROOT, "include")
HEADER = os.path.join(INCLUDE, "karvelorn.h")
SOURCE = os.path.join(ROOT, "examples", "ring_host.c")
GUARD = os.path.join(ROOT, "tests", "host_guard.c")
ALONE = os.path.join(ROOT, "tests", "alone.c")
GUARDED = tuple("-Wl,--wrap=karvelorn_" + call for call in ("fresh", "pass", "old_pass", "update", "read"))
HOST = os.path.join(TARGET, "ring_host")
RING = program_of("ring")
# What is promised of the printed lines and the commands; what delay units met is seen in the reference's passes alone.
TOLD = {kind: least for kind, least in PROMISED.items() if kind.startswith(("rung", "refused=", "DLY", "a number"))}
WARNINGS = ("-Wall", "-Wextra", "-Werror", "-pedantic")
# The host allocates nothing, and a search for leaks would take five times as long as all else.
NO_LEAKS = {"ASAN_OPTIONS": "detect_leaks=0"}
SANITIZERS = ("-fsanitize=address,undefined", "-fno-sanitize-recover=all", "-O1", "-g")


def compiled(*command):
    """Whether a compiler takes its command; its complaints are printed."""
    return subprocess.run(command).returncode == 0


def header_compiles():
    """Whether the header alone is good C99 and, where there is a C++ compiler, good C++."""
    if not compiled("gcc", "-std=c99", *WARNINGS, "-fsyntax-only", "-x", "c", HEADER):
        return False
    if not shutil.which("g++"):
        print("host: no g++ here, so the header is not tried from C++")
        return True
    return compiled("g++", *WARNINGS, "-fsyntax-only", "-x", "c++", HEADER)


def links_alone():
    """Whether the library needs nothing of the C library but what the header names."""
    return compiled("gcc", "-std=c99", *WARNINGS, "-ffreestanding", "-nostdlib", "-static", "-I", INCLUDE,
                    ALONE, LIBRARY, "-o", os.path.join(TARGET, "alone"))


def build():
    """Builds the host; says whether that went well."""
    make_library("host")
    return links_alone() and compiled("gcc", "-std=c99", *WARNINGS, *SANITIZERS, *GUARDED, "-I", INCLUDE,
                    SOURCE, GUARD, LIBRARY, "-o", HOST)


def main(arguments):
    """Reads the arguments; see the head of this file."""
    options = read_arguments(arguments, COUNT, SEED)
    if not options.dry and not (header_compiles() and build()):
        print("host: a compiler refused")
        return 1
    if not options.dry:
        ring_files.ring = lambda text, seen: printed_by(RING, text, {})[0]
    files = chain(ring_files.by_hand(), islice(text_files.by_hand(), 0, None, 9), ring_files.at_random(options.count, options.seed))
    return compared("host", HOST, files, options, NO_LEAKS, TOLD)


if __name__ == "__main__":
    sys.exit(main(sys.argv[1:]))
