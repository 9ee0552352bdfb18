"""Spells the names that this repository's own definitions and lemmas have as today's Rattle does: words in snake case.

    python3 tools/respell.py        at the top, once, right after the kit's port.py

A name in lower camel case, as `passOf`, becomes `pass_of`; what a dash joins stays joined, as `pass_of-is`. Types, modules and facts
have capitals already. It goes over definitions, proofs, clauses, edits, pages and the tests that name definitions, in comments too.
Names of Rust functions, C's names, strings that are printed, inputs and outputs have no such spelling and stay.
Where a new name would meet another in one file, the other gives way (APART). It stops where it finds one that it does not know.
"""

import re
import sys
from pathlib import Path

TOP = Path(__file__).resolve().parent.parent
WORD = re.compile(r"""[^\s(){}\[\].;,:@"«»|`*/\\<>=+&#]+""")
CAMEL = re.compile(r"[a-z][^\s]*?[a-z0-9₀-₉][A-Z]")
# Names that would meet a new one: the older spelling, and what it becomes.
APART = {"builtMmode": "mmode_built"}
# Lemmas whose name a definition now has, by file.
LEMMAS = {
    "crates/any_order_sums/proofs/Holds.antt": {"at_edge": "at_edge_lem"},
    "crates/claims/proofs/PrintedNumbers.antt": {"digit_value": "digit_value_lem"},
    "crates/sorted_findings/proofs/Comparing.antt": {"by_number": "by_number_lem"},
}
# A Rust item of that name may stand beside a definition: a clause cannot call it, and a module's path is not a name.
BESIDE = re.compile(r"\.rt$|/proofs/(?:\w+/)?(\w+)/\w+\.antt$")


def snake(name):
    if name in APART:
        return APART[name]
    return re.sub(r"(?<=[a-z0-9])[A-Z]+", lambda m: "_" + m[0].lower(), name)


def antt_code(text):
    return re.sub(r"--[^\n]*|\"[^\"\n]*\"", "", text)


def texts():
    for pattern in ("crates/*/specs/**/*.antt", "crates/*/proofs/**/*.antt", "crates/*/src/**/*.rt"):
        yield from sorted(TOP.glob(pattern))


def others():
    for pattern in ("crates/*/must-fail/**/*.edit", "docs/**/*.md", "README.md", "tests/*.py", "tests/claims.txt"):
        yield from sorted(TOP.glob(pattern))


def words(text):
    return set(WORD.findall(text))


def names():
    """Each name to be respelled, from the code of specs/ and proofs/."""
    found = set()
    for file in texts():
        if file.suffix == ".antt":
            found |= {word for word in words(antt_code(file.read_text())) if CAMEL.match(word)}
    return {name: snake(name) for name in found}


def clashes(table):
    for file in texts():
        here = str(file.relative_to(TOP))
        text = file.read_text()
        code = antt_code(text) if file.suffix == ".antt" else re.sub(r"//[^\n]*", "", text)
        paths = set(re.findall(r"Rattle\.(\w+)", code))
        held = words(code)
        for old in sorted(held & table.keys()):
            new = table[old]
            if new not in held or new in LEMMAS.get(here, ()) or BESIDE.search(here) or new in paths:
                continue
            yield here, old, new


def turned(text, table):
    return WORD.sub(lambda m: table.get(m[0], m[0]), text)


def main():
    table = names()
    if not table:
        print("respell: every name is spelled so already")
        return 0
    met = list(clashes(table))
    both = {}
    for old, new in table.items():
        both.setdefault(new, []).append(old)
    met += [("two names", " ".join(olds), new) for new, olds in both.items() if len(olds) > 1]
    if met:
        for where, old, new in met:
            print(f"respell: {where}: {old} would meet {new}")
        return 1
    changed = 0
    for file in [*texts(), *others()]:
        text = file.read_text()
        here = LEMMAS.get(str(file.relative_to(TOP)), {})
        new = turned(turned(text, here), table)
        if new != text:
            file.write_text(new)
            changed += 1
    print(f"respell: {len(table)} names in {changed} files")
    return 0


if __name__ == "__main__":
    sys.exit(main())
