"""What include/karvelorn.h says beside the calls, tried against the library: every name, place and maker of a command
(tests/names.c), the formulas of "To write a bell" (tests/formulas.c) and the bell that stands there, which sounds as ring
rings it, from C99 and C++17 with all warnings, and with the sanitizers on. The header has a prototype for each call of the library and for no other, its version is the
repository's, and no name of it is left out.

    python3 tests/header.py
"""

import re
import subprocess
import sys
from pathlib import Path

from library import LIBRARY, ROOT, TARGET, make_library, program_of

HEADER = Path(ROOT, "include", "karvelorn.h")
WARNINGS = ("-Wall", "-Wextra", "-Wpedantic", "-Wconversion", "-Werror")
SANITIZERS = ("-fsanitize=address,undefined", "-fno-sanitize-recover=all")
COMPILERS = {
    "C99": ("gcc", "-std=c99", "-O1", *SANITIZERS, "-x", "c"),
    "C++17": ("g++", "-std=c++17", "-O1", "-x", "c++"),
}
# Names that stand for lengths and numbers of the calls: tests of these use them.
OF_CALLS = {"H", "KEPT", "KEPT_ALIKE", "CHANGE_GMODE", "CHANGE_GSUM", "CHANGE_GFM", "CHANGE_DAC", "TICK_MORE", "TICK_FEWER",
            "MEMORY_WORDS", "MARKS", "COMMANDS", "TICK_NS", "TEXT_1978", "TEXT_OLD"}


# The header's bell as a bench file.
BELL = """passes=38704
word=1:6103296
word=5:180
word=8:1
word=9:63
word=10:1008
word=20:1
word=21:128
word=4113:2
"""


def built(name, title, folder="tests"):
    """A program over the library, of a file in a folder."""
    program = Path(TARGET, f"{name}-{title.replace('+', 'p')}")
    subprocess.run([*COMPILERS[title], *WARNINGS, "-I", str(HEADER.parent), str(Path(ROOT, folder, f"{name}.c")),
                    "-x", "none", LIBRARY, "-lm", "-o", str(program)], check=True)
    return program


def header_bell(title):
    """Whether the bell that stands in the header, made a program, sounds as its bench file rung by ring."""
    lines = re.search(r"^ \* To write a bell\.(?:.*\n){1,3}?((?: \*     .*\n)+)", HEADER.read_text(), re.M).group(1)
    body = re.sub(r"^ \*     ", "    ", lines, flags=re.M)
    Path(TARGET, "header_bell.c").write_text(
        '#include <stdio.h>\n#include "karvelorn.h"\nstatic void play(int32_t sample) { printf("%d\\n", (int)sample); }\n'
        f"int main(void) {{\n{body}    return 0;\n}}\n")
    played = subprocess.run([built("header_bell", title, TARGET)], check=True, stdout=subprocess.PIPE).stdout.decode()
    rung = subprocess.run([program_of("ring")], input=BELL.encode(), check=True, stdout=subprocess.PIPE).stdout.decode()
    samples = re.findall(r" left=(-?\d+) ", rung)
    same = played.split() == samples and len(set(samples)) > 1000
    print(f"the header's bell: {len(samples)} samples, " + ("as rung" if same else "not as rung"))
    return same


def faults():
    """What the texts have wrong, a line each."""
    header, names = HEADER.read_text(), Path(ROOT, "tests", "names.c").read_text()
    version = Path(ROOT, "VERSION").read_text().strip()
    if f'#define KARVELORN_VERSION "{version}"\n' not in header:
        yield f"KARVELORN_VERSION is not {version}"
    for name in set(re.findall(r"#define KARVELORN_(\w+)", header)) - OF_CALLS:
        if not re.search(rf"\bKARVELORN_{name}\b", names):
            yield f"tests/names.c doesn't try KARVELORN_{name}"
    for name in re.findall(r"^static inline .*?\b(karvelorn_\w+)\(", header, re.M):
        if not re.search(rf"\b{name}\(", names):
            yield f"tests/names.c doesn't try {name}"
    prototypes = set(re.findall(r"^uint32_t (karvelorn_\w+)\(", header, re.M))
    symbols = subprocess.run(["nm", "-g", "--defined-only", LIBRARY], check=True, stdout=subprocess.PIPE).stdout.decode()
    exported = set(re.findall(r" T (karvelorn_\w+)$", symbols, re.M))
    if prototypes != exported:
        yield f"prototypes and calls differ: {sorted(prototypes ^ exported)}"


def main():
    make_library("header")
    wrong = list(faults())
    for line in wrong:
        print(f"header: {line}")
    for title in COMPILERS:
        for name in ("names", "formulas"):
            print(f"{title}, ", end="", flush=True)
            wrong += [name] * (subprocess.run([built(name, title)]).returncode != 0)
        print(f"{title}, ", end="", flush=True)
        wrong += ["bell"] * (not header_bell(title))
    return 1 if wrong else 0


if __name__ == "__main__":
    sys.exit(main())
