#!/usr/bin/env python3
"""tools/forms.py [FOLDER]   counts in crates/*/src the forms that docs/DESIGN-PASS.md speaks of. With --list each place.

FOLDER is the top of a checkout (the one that this file stands in, if none is named). The counts go by text, so that anyone can make
them again: a line of the output names the form, its count and, with --list, the places."""
import os
import re
import sys

FUNCTION = re.compile(r"(?:pub )?(?:extern \"C\" )?fn (\w+)(?:<[^(]*>)?\(((?:[^()]|\([^()]*\))*)\)(?:\s*->\s*([^\n{]+))?", re.S)


def sources(top):
    for name in sorted(os.listdir(os.path.join(top, "crates"))):
        folder = os.path.join(top, "crates", name, "src")
        if os.path.isdir(folder):
            for file in sorted(os.listdir(folder)):
                if file.endswith(".rt"):
                    with open(os.path.join(folder, file), encoding="utf-8") as stream:
                        yield name + "/" + file, stream.read()


def functions(text):
    for found in FUNCTION.finditer(text):
        parameters = [p.strip() for p in re.split(r",(?![^<\[(]*[>\])])", found.group(2)) if p.strip()]
        yield found.group(1), parameters, (found.group(3) or "").strip(), text.count("\n", 0, found.start()) + 1


def lines(text, pattern):
    for number, line in enumerate(text.split("\n"), 1):
        if not line.lstrip().startswith("//") and re.search(pattern, line):
            yield number, line.strip()


FORMS = [
    ("1 a number that tells which question refuses, tested against 0", lambda t: lines(t, r"if (?:\w+\.)?(?:number|first|second|ordered|refused|other|error|said\.number) (?:!=|==) 0|if 0 < number")),
    ("1 a field or an out-parameter for that number", lambda t: lines(t, r"\b(?:number|refused): (?:&mut )?u32\b")),
    ("1 a flag with a value beside it", lambda t: lines(t, r"\b(?:good|given|written|waits|triggers): bool\b")),
    ("1 constants that number kinds", lambda t: lines(t, r"^pub const [A-Z_]+: u32 = (?:0b[01]{4}|[0-5]);")),
    ("1 a switch or a mark as a number", lambda t: lines(t, r"\b(?:on|free|output|oscillator|envelope|sign): u(?:8|32)\b|^pub type (?:Triggered|Clipped)|\[0u8; layout")),
    ("3 a loop that counts by hand", lambda t: lines(t, r"^\s*while ")),
    ("5 `Reaches` in a clause", lambda t: lines(t, r"^\s*requires .*\bReaches\b")),
    ("5 the tables' contents in a clause", lambda t: lines(t, r"^\s*requires .*≡ quarter")),
    ("5 a clause about arrays numbered 1 and 2", lambda t: lines(t, r"^\s*requires .*(?:place2|among1|fed1|written1)_value")),
    ("6 a length beside its buffer", lambda t: lines(t, r"^\s*pub (?:length|count|entries|error): usize,")),
    ("7 a match on the text", lambda t: lines(t, r"match text \{")),
]


def main():
    words = [w for w in sys.argv[1:] if w != "--list"]
    top = words[0] if words else os.path.dirname(os.path.dirname(os.path.abspath(__file__)))
    every = list(sources(top))
    for title, places in FORMS:
        found = [(name, number, line) for name, text in every for number, line in places(text)]
        print("%4d  %s" % (len(found), title))
        if "--list" in sys.argv:
            for name, number, line in found:
                print("        %s:%d: %s" % (name, number, line))
    refusals = [(name, line, function) for name, text in every for function, _, answer, line in functions(text) if "refus" in function and answer == "u32"]
    print("%4d  1 a function that answers a refusal as a number" % len(refusals))
    wide = [(name, line, function, len(p)) for name, text in every for function, p, _, line in functions(text) if len(p) > 7]
    print("%4d  5 a function of more than seven parameters, %d in all" % (len(wide), sum(w[3] for w in wide)))
    if "--list" in sys.argv:
        for w in refusals + wide:
            print("        %s:%d: %s" % (w[0], w[1], " ".join(map(str, w[2:]))))


if __name__ == "__main__":
    main()
