"""Looks how much of a thread's stack compares and parts use, since a host may call them in a thread that has little of it.

    python3 tests/stack.py

Run from the repository root. Builds tests/stack.c with the library for C. It calls each once in a thread of its own and says how far
the stack was written. A thread of 16,384 bytes, the least that glibc gives, leaves some 12,000 of them. A struct that is handed over
by value, and lies on the stack several times for that, is seen here and by no contract.
"""

import os
import subprocess
import sys

from library import LIBRARY, ROOT, TARGET, make_library

CALLS = ("compare", "parts", "old_compare", "old_parts")
MOST = 6144


def built():
    """The program's path. It is bound to the C library as it starts, so that no call is the first to ask the dynamic linker for a name."""
    make_library("stack")
    program = os.path.join(TARGET, "stack")
    subprocess.run(["gcc", "-std=gnu99", "-Wall", "-Wextra", "-Werror", "-O1", "-I", os.path.join(ROOT, "include"),
                    os.path.join(ROOT, "tests", "stack.c"), LIBRARY, "-o", program, "-pthread", "-Wl,-z,now"], check=True)
    return program


def faults(lines):
    """What is wrong with what the program says, a line each. Orders that part at the fourth point are not equal."""
    said = {name: [int(number) for number in numbers] for name, *numbers in lines}
    for name in CALLS:
        used, *told = said.pop(name, (MOST + 1,))
        if told != ([0, 99, 4] if name.endswith("parts") else [0, 0, 99]):
            yield f"{name} answers {told}"
        if not 0 < used <= MOST:
            yield f"{name} uses {used} bytes of the stack, more than {MOST}"
    for name in said:
        yield f"{name}: no such call"


def main():
    told = subprocess.run([built()], stdout=subprocess.PIPE, text=True, check=True, timeout=60).stdout
    print(told, end="")
    found = list(faults([line.split() for line in told.splitlines()]))
    print("\n".join(found) if found else f"{len(CALLS)} calls use at most {MOST} bytes of the stack")
    sys.exit(1 if found else 0)


if __name__ == "__main__":
    main()
