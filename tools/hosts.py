"""Programs in C over the proved library that the commands call: what rings on, and what hands it a request.

In the repository they are compiled where they are older than the library or their source; ./install compiles them where there is a
compiler. Numbers go in and out as 32 bits, the low byte first (tools/numbers.h).
"""

import os
import shutil
import struct
import subprocess

from building import below, built, dependencies, is_stale
from command_line import HOME, IN_REPOSITORY, Ending, Status
from places import LIBRARY, LIBRARY_CRATE, TARGET
from reference import layout

HOSTS = {"ring_on": "to ring on after a bench file's passes", "library_calls": "to ask the library"}  # a program, and what it is for
SHARED = HOME / "tools" / "numbers.h"
CHAIN, JOIN, ANY_ORDER, DACS = range(4)  # the requests of library_calls.c
ROW = 1 + layout.DACS  # what a pass answers there: its refusal, and the DAC words


def source(name):
    """The file that a program is compiled from."""
    return HOME / "tools" / f"{name}.c"


def program(name):
    """Where a program stands in the repository."""
    return TARGET / name


def compile_host(name, library):
    """Compiles a program with the library."""
    compiler = shutil.which("gcc") or shutil.which("cc")
    if not compiler:
        raise Ending(f"{HOSTS[name]} a C compiler is needed: apt install gcc", Status.MISSING)
    TARGET.mkdir(exist_ok=True)
    made = f"{program(name)}.{os.getpid()}"
    done = subprocess.run([compiler, "-std=c99", "-O2", "-I", str(HOME / "include"), str(source(name)), str(library), "-o", made], stdout=subprocess.PIPE, stderr=subprocess.STDOUT)
    if done.returncode:
        raise Ending(f"{source(name)} can't be compiled: {done.stdout.decode(errors='replace').strip()}", Status.MISSING)
    os.replace(made, program(name))


def host(command, name):
    """The program of a name, compiled where it is older than the library or its source."""
    if not IN_REPOSITORY:
        installed = HOME / "programs" / name
        if not installed.is_file():
            raise Ending(f"this installation was made without a C compiler, which is needed {HOSTS[name]}", Status.MISSING)
        return str(installed)
    library, = built(command, LIBRARY_CRATE)
    if not program(name).exists() or os.path.getmtime(program(name)) < max(os.path.getmtime(path) for path in (library, source(name), SHARED)):
        compile_host(name, library)
    return str(program(name))


def at_hand(name):
    """Whether a program can be had without a proof: it is installed, or the library is built and there is a compiler."""
    if not IN_REPOSITORY:
        return (HOME / "programs" / name).is_file()
    return LIBRARY.exists() and bool(shutil.which("gcc") or shutil.which("cc")) and not is_stale(LIBRARY_CRATE, below(LIBRARY_CRATE, dependencies()))


def packed(numbers):
    """Numbers as the programs read and write them."""
    return struct.pack(f"<{len(numbers)}I", *numbers)


def answered(command, *numbers):
    """The numbers that the library answers to a request."""
    caller = host(command, "library_calls")
    try:
        done = subprocess.run([caller], input=packed(numbers), stdout=subprocess.PIPE, stderr=subprocess.PIPE)
    except OSError as error:
        raise Ending(f"cannot run {caller}: {error.strerror}", Status.MISSING) from None
    if done.returncode or done.stderr or len(done.stdout) % 4:
        raise Ending(f"the library gave no answer: {caller} ended with {done.returncode}", Status.FAULT)
    return struct.unpack(f"<{len(done.stdout) // 4}I", done.stdout)


def chained(command, entries, names):
    """The library's answer to a chain of modifiers: its refusal or 0, and 128 numbers."""
    number, *numbers = answered(command, CHAIN, len(entries), len(names), *entries, *names)
    return number, numbers


def joined(command, first, second):
    """The library's answer to two machines: its refusal or 0, and the joined one."""
    number, *machine = answered(command, JOIN, *first, *second)
    return number, machine


def any_order(command, machine):
    """The library's answer whether every two orders of a good machine are equal; None where asking it would need a proof first."""
    if not at_hand("library_calls"):
        return None
    refused, alike = answered(command, ANY_ORDER, *machine)
    if refused:
        raise Ending(f"the library refuses the machine with {refused}", Status.FAULT)
    return bool(alike)


def dac_words(command, machine, passes):
    """The DAC words of a machine without commands after each of its passes, by number, and the refusal that ended them or 0."""
    numbers = answered(command, DACS, passes, *machine)
    rows = [numbers[at:at + ROW] for at in range(0, len(numbers), ROW)]
    refused = rows[-1][0] if rows else 0
    return [row[1:] for row in rows[:-1 if refused else None]], refused
