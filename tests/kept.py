"""What is claimed and promised, word for word: the page of claims with what it brings in, the text of every record and
proposition that a claim names, in turn what these name, every definition behind them that no contract names, the whole contract of
each call that users reach and of each method that the programs call on what it answers, and every definition that only contracts
name, through which what the code answers is compared with what the papers say. All of it is kept in tests/claims.txt; a change there
is seen by whoever reviews it. Names of the logic's own library mean what the library says: no definition or contract takes them from
elsewhere.

    python3 tests/kept.py           compares
    python3 tests/kept.py --write   writes tests/claims.txt anew
"""

import re
import sys
from functools import cache
from pathlib import Path

from promises import CRATES, REACHABLE, claims, contracts_of

KEPT = Path(__file__).resolve().parent / "claims.txt"
PAGE = CRATES / "claims" / "specs" / "Claims.antt"
PROVED = CRATES / "claims" / "proofs" / "Proved.antt"

# Names of the library, and the one module that each comes from.
PRELUDE = "Rattle.std.specs.Prelude"
LIBRARY = dict.fromkeys((
    "◌≡◌", "◌↔◌", "◌≢◌", "◌⊎◌", "Bool", "true", "false", "cond", "not", "◌&&◌", "◌||◌", "◌==◌",
    "Option", "Some", "None", "Result", "Ok", "Err", "List", "[]", "◌∷◌", "◌++◌", "map", "replicate", "length", "get_or", "set", "take", "drop", "slice_index", "slice_set",
    "ℕ", "zero", "suc", "◌+◌", "◌-◌", "◌*◌", "◌/◌", "◌%◌", "◌^◌", "◌<◌", "◌≤◌", "min", "max", "eqb", "ltb", "leb", "nat_lt", "nat_le",
    "ℤ", "pos", "negsuc", "◌+ℤ◌", "◌-ℤ◌", "◌*ℤ◌", "neg_ℤ", "nat_abs",
    "IfOk", "IfErr", "IfSome", "option_map", "option_copied", "fold", "⊤",
), PRELUDE) | {
    "sets": "Rattle.std.proofs.lemmas.List.Edits", "beq": "Rattle.std.specs.Bool", "bytes_eq": "Rattle.std.specs.Str",
    "bit_or": "Rattle.std.specs.Int.Bits", "bit_xor": "Rattle.std.specs.Int.Bits",
    **dict.fromkeys(("mag", "lt_z", "shr_z", "non_neg"), "Rattle.std.specs.Int.Signed"),
    **dict.fromkeys(("YieldsFirstRef", "item_count"), "Rattle.std.specs.Iterator"),
    "code": "Prim.Native.Char", "String": "Prim.Native.String",
}

USE = re.compile(r"^(?:ghost )?use ([^\s{]+)\.\{([^}]*)\};?$", re.M)


def plain(text):
    """Text on one line, without comments."""
    lines = [line for line in text.splitlines() if not line.lstrip().startswith("--")]
    return re.sub(r"\s+", " ", " ".join(lines)).strip()


def brought(text):
    """The names that a file brings in, each with its module and the name that it has there."""
    for module, names in USE.findall(text):
        for name in (part.strip() for part in names.split(",")):
            there, _, here = name.partition(" as ")
            yield (here or there), module, there


def file_of(module, crate):
    """The file of specs/ that a module of the repository's is, seen from a crate."""
    found = re.fullmatch(r"Rattle\.(\w+)\.specs\.(\w+)", module)
    return CRATES / found.group(1) / "specs" / f"{found.group(2)}.antt" if found else None


def block(lines, first):
    """The lines from one on that stand deeper than it."""
    depth = len(lines[first]) - len(lines[first].lstrip())
    last = first + 1
    while last < len(lines) and (not lines[last].strip() or len(lines[last]) - len(lines[last].lstrip()) > depth):
        last += 1
    return lines[first:last], last


@cache
def proposition(path, name):
    """The text of a record, a type by cases or a definition that is a type, by its name in a file; else nothing."""
    lines = path.read_text().splitlines() if path.exists() else []
    for place, line in enumerate(lines):
        if re.match(rf" *pub (?:record|data) {re.escape(name)}(?= |$)", line):
            return plain("\n".join(block(lines, place)[0]))
        if re.match(rf" *(?:abbrev |unfoldable )?pub {re.escape(name)} :", line):
            signature, place = block(lines, place)
            if plain("\n".join(signature)).endswith("Type 0"):
                text = signature
                while place < len(lines) and lines[place].lstrip().startswith(f"{name} "):
                    equation, place = block(lines, place)
                    text = text + equation
                return plain("\n".join(text))
    return ""


def named(path, text, seen):
    """The propositions that a text of a file names, and in turn those that these name."""
    whole = path.read_text()
    places = {here: (file_of(module, path), there) for here, module, there in brought(whole)}
    for word in dict.fromkeys(re.findall(r"[^\s(){};,.λ]+", text)):
        where, there = places.get(word, (path, word))
        if where is None or (where, there) in seen:
            continue
        found = proposition(where, there)
        if found:
            seen[(where, there)] = found
            named(where, found, seen)


@cache
def propositions():
    """What the claims name, as lines: file, then text."""
    seen = {}
    examples = CRATES / "equal_orders" / "specs" / "WorkedExamples.antt"
    named(PAGE, " ".join(claim for claim in claims()), seen)
    named(examples, plain(examples.read_text()), seen)
    return sorted(f"{where.relative_to(CRATES)}: {text}" for (where, _), text in seen.items()
                  if where not in (PAGE,) and not text.startswith("pub record WorkedExamples"))


@cache
def definition(path, name):
    """The text of a definition of any kind, by its name in a file; else nothing."""
    found = proposition(path, name)
    if found:
        return found
    lines = path.read_text().splitlines() if path.exists() else []
    for place, line in enumerate(lines):
        if re.match(rf"(?: *(?:abbrev |unfoldable ))?pub {re.escape(name)} :", line):  # a field of a record has neither word, and stands deeper
            text, place = block(lines, place)
            while place < len(lines) and (re.match(rf" *{re.escape(name)}(?= |$)", lines[place]) or lines[place].lstrip().startswith("--")):
                equation, place = block(lines, place)
                text = text + equation
            return plain("\n".join(text))
    return ""


def reached(path, text, seen):
    """The definitions that a text of a file names, and in turn those that these name."""
    places = {here: (file_of(module, path), there) for here, module, there in brought(path.read_text())}
    for word in dict.fromkeys(re.findall(r"[^\s(){};,.λ]+", text)):
        where, there = places.get(word, (path, word))
        if where is None or (where, there) in seen:
            continue
        found = definition(where, there)
        if found:
            seen[(where, there)] = found
            reached(where, found, seen)


@cache
def of_claims():
    """The definitions that the claims name, directly or through others."""
    seen = {}
    reached(PAGE, " ".join(claims()), seen)
    return seen


@cache
def of_contracts():
    """The definitions that the contracts of the calls that users reach name, directly or through others."""
    seen = {}
    for crate, name in REACHABLE:
        for source in sorted((CRATES / crate / "src").glob("*.rt")):
            reached(source, " ".join(head for found, head in contracts_of(crate) if found == name), seen)
    return seen


@cache
def of_answers():
    """The definitions about a `Result` or an `Option` that the contract of any other pub function names, and what these name, directly or
    through others."""
    named_there, seen = {}, {}
    for folder in sorted(CRATES.iterdir()):
        for source in sorted((folder / "src").glob("*.rt")):
            reached(source, " ".join(head for _, head in contracts_of(folder.name)), named_there)
    for place, text in named_there.items():
        if place not in of_claims() and re.search(r"\b(?:Result|Option)\b", text):
            seen[place] = text
            reached(place[0], text, seen)
    return seen


def listed(definitions):
    """Definitions as lines: file, then text."""
    return sorted(f"{where.relative_to(CRATES)}: {text}" for (where, _), text in definitions.items())


@cache
def unpromised():
    """The definitions that the claims name, directly or through others, and no contract of a call that users reach does: nothing but
    the claims holds them."""
    return listed({(where, name): text for (where, name), text in of_claims().items()
                   if (where, name) not in of_contracts() and not proposition(where, name) and where != PAGE})


@cache
def unclaimed():
    """The definitions that contracts name and no claim does: those of the calls that users reach, and those of answers. Code that is wrong as
    such a definition is would be proved."""
    return listed({place: text for place, text in (of_contracts() | of_answers()).items() if place not in of_claims()})


def methods():
    """The methods that the programs `ring`, `wav` and `sorted` call, of the crates that these name, each with its crate."""
    programs = "".join((CRATES / name / "src" / "main.rt").read_text() for name in ("ring", "wav", "sorted"))
    crates, called = (set(re.findall(pattern, programs)) for pattern in (r"\b(\w+)::", r"\.(\w+)\("))
    return [(crate, head) for crate in sorted(crates) if (CRATES / crate).is_dir() for name, head in contracts_of(crate)
            if name in called and re.search(r"\((?:&(?:'\w+ )?)?(?:mut )?self\b", head)]


def promised():
    """The contract of each call that users reach, and of each method that the programs call."""
    for crate, name in REACHABLE:
        for found, head in contracts_of(crate):
            if found == name:
                yield plain(f"{crate}: {head.rstrip('{').strip()}")
    for crate, head in methods():
        yield plain(f"{crate}: {head.rstrip('{').strip()}")


def kept():
    """All lines that are kept."""
    lines = ["# What is claimed", *claims(), "", "# What the page of claims brings in"]
    lines += [plain(line) for line in PAGE.read_text().splitlines() if line.startswith("use ")]
    lines += ["", "# What the claims name", *propositions(), "", "# Definitions that the claims name and no contract does", *unpromised(), "", "# What the calls that users reach promise", *promised()]
    lines += ["", "# Definitions that contracts name and no claim does", *unclaimed()]
    return lines


def faults():
    """What is wrong, a line each."""
    was, now = KEPT.read_text().splitlines(), kept()
    yield from (f"is gone or says another thing: {line[:400]}" for line in was if line not in now)
    yield from (f"is not in tests/claims.txt: {line[:400]}" for line in now if line not in was)
    proved = PROVED.read_text()
    if not re.search(r"^pub claims : Claims\nclaims =\n", proved, re.M):
        yield "the value `claims : Claims` is gone"
    if "use Rattle.claims.specs.Claims.{Claims}" not in proved:
        yield "the proof of the claims does not bring in their page"
    if "pub mod Proved" not in (CRATES / "claims" / "proofs" / "Lib.antt").read_text().splitlines():
        yield "the proof of the claims is no module of its crate"
    if not re.search(r"^claims:", (CRATES.parent / "crates.txt").read_text(), re.M):
        yield "crates.txt does not list the claims"
    for path in [*CRATES.glob("*/specs/**/*.antt"), *CRATES.glob("*/src/*.rt")]:
        text = path.read_text()
        for here, module, there in brought(text):
            if here in LIBRARY and (module != LIBRARY[here] or here != there):
                yield f"{path.relative_to(CRATES)}: {here} is taken from {module}"
            elif here not in LIBRARY and module.startswith("Rattle.std.specs."):
                yield f"{path.relative_to(CRATES)}: {here} is the library's, and LIBRARY doesn't say so"
        for name in LIBRARY:
            if re.search(rf"^(?:(?:abbrev |unfoldable )?(?:pub )?{re.escape(name)} :|(?:pub )?(?:record|data) {re.escape(name)}(?= |$))", text, re.M):
                yield f"{path.relative_to(CRATES)}: {name} is defined"


def main():
    if sys.argv[1:] == ["--write"]:
        KEPT.write_text("\n".join(kept()) + "\n")
        return
    found = list(faults())
    print("\n".join(found) if found else f"{len(claims())} claims, {len(propositions())} records and propositions that they name, {len(unpromised())} definitions that they alone name, {len(list(promised()))} contracts and {len(unclaimed())} definitions that contracts alone name are as they are kept")
    sys.exit(1 if found else 0)


if __name__ == "__main__":
    main()
