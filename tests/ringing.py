"""How tests/ring.py and tests/host.py compare a program with the reference on bench files."""

import os
import re
import resource
import subprocess
from collections import Counter
from concurrent.futures import ThreadPoolExecutor

# First, since it makes the reference known.
from library import counts, met_seldom

from reference.update import field

SHOWN = 5
STACK = 512 * 1024
TIME_MOST = 60


def small_stack():
    """The limit for a program's stack."""
    resource.setrlimit(resource.RLIMIT_STACK, (STACK, STACK))


def printed_by(program, text, environment):
    """What a program prints for a file, what it says on the error output, and its exit status.

    Without an environment of its own it runs in a stack of 512 kB."""
    prepare = None if environment else small_stack
    done = subprocess.run([program], input=text, stdout=subprocess.PIPE, stderr=subprocess.PIPE,
                          env={**os.environ, **environment}, timeout=TIME_MOST, preexec_fn=prepare)
    return done.stdout, done.stderr, done.returncode


def kept(program, number, text):
    """Keeps a file; gives its path."""
    path = f"{program}-{number}.txt"
    with open(path, "wb") as out:
        out.write(text)
    return path


def show(path, tried, got):
    """One difference: the first line that differs, and anything on the error output."""
    stdout, stderr, status = got
    print(f"{tried.name}, the file is {path}:")
    expected, printed = tried.printed.split(b"\n"), stdout.split(b"\n")
    for line, (a, b) in enumerate(zip(expected + [b"(nothing)"], printed + [b"(nothing)"])):
        if a != b:
            print(f"  line {line + 1}: reference {a.decode()}, program {b.decode('latin-1')}")
            break
    if status or stderr:
        print(f"  status {status}, error output: {stderr[:2000].decode(errors='replace')}")


def ending(tried):
    """How a file ends: rung, or refused by a number, at once or later."""
    last = tried.printed.splitlines()[-1:]
    if not last:
        return "no passes"
    if not last[0].startswith(b"refused="):
        return "rung"
    return last[0].decode() + (" later" if tried.printed.count(b"\n") > 1 else "")


# What files at random meet at least, in so many of them: how they end, and how many have it.
PROMISED_OF = 300
PROMISED = {
    "rung": 80, "refused=2": 8, "refused=3": 1, "refused=9": 35,
    "refused=11": 1, "refused=11 later": 1, "refused=12": 1,
    "DLY": 70, "line": 15, "table": 10, "rounded table": 10, "inactive unit": 10,
    "unit out of range": 35, "unit that no modifier names": 8, "line, a word came back": 5,
    "a number above 20 bits": 30,
}
COMMAND = re.compile(rb"^command=([0-9A-F]{8})$", re.M)
NUMBER = re.compile(rb"^pass=([0-9]+) ", re.M)


def is_dly(command):
    """Whether the digits of a command are a DLY."""
    return field(int(command, 16), 24, 28) == 0b00001


def met_by(files):
    """What files met: how each ends, and each thing that passes did, once for a file."""
    met = Counter()
    for tried in files:
        met[ending(tried)] += 1
        met.update(kind for kind, times in tried.met.items() if times)
        met["DLY"] += any(map(is_dly, COMMAND.findall(tried.text)))
        met["a number above 20 bits"] += any(int(number) >> 20 for number in
                                             NUMBER.findall(tried.printed))
    return met


def compared(title, program, files, options, environment=None, promised=None):
    """Compares a program with the reference on files; prints the outcome, gives the exit status.

    A dry run makes the files and what they print, and runs nothing."""
    differ = 0
    with ThreadPoolExecutor(2) as pool:
        # The program runs while the reference works on the next files.
        runs = [(tried, None if options.dry else
                 pool.submit(printed_by, program, tried.text, environment or {}))
                for tried in files]
    for number, (tried, run) in enumerate(runs):
        got = run.result() if run else (tried.printed, b"", 0)
        if got == (tried.printed, b"", 0):
            continue
        if differ < SHOWN:
            show(kept(program, number, tried.text), tried, got)
        differ += 1
    tried = [tried for tried, _ in runs]
    lines = sum(one.printed.count(b"\n") for one in tried)
    did = "made" if options.dry else "compared"
    print(f"{title}: {len(runs)} files and {lines} lines {did}, {differ} differ")
    print(f"met: {counts(met_by(tried))}")
    at_random = [one for one in tried if one.at_random]
    promised = PROMISED if promised is None else promised
    return met_seldom(met_by(at_random), promised, len(at_random), PROMISED_OF) or int(differ > 0)
