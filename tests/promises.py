"""Checks the sources for what the gate's proofs cannot tell: no call that users reach has a
`requires`, each has its equation with its definition, none that the C host or the programs `ring`, `wav` and `sorted`
call is missing from the list, every other pub function has a promise with an equation, and the named
forms stand. What is claimed and promised, word for word, is looked at by tests/kept.py.

    python3 tests/promises.py
"""

import re
import sys
from pathlib import Path

CRATES = Path(__file__).resolve().parent.parent / "crates"

# The calls that users reach, and the definition that the equation of each goes to.
REACHABLE = {
    ("machine", "fresh"): "fresh_run",
    ("pass", "pass"): "pass_of",
    ("command_update", "update"): "update_of",
    ("compare", "compare"): "compare_of",
    ("any_order", "any_order"): "any_order_of",
    ("any_order_kept", "keep"): "keep_of",
    ("any_order_kept", "change"): "change_of",
    ("any_order_kept", "change_by_numbers"): "change_of",
    ("parts", "parts"): "parts_of",
    ("any_order_kept", "keep"): "keep_of",
    ("any_order_kept", "change"): "change_of",
    ("chain", "chain"): "chain_of",
    ("join", "join"): "join_of",
    ("file_bench", "read"): "read_of",
    ("file_read", "read"): "read_into",
    ("ring_gathering", "gather"): "gathered",
    ("ring_begin", "begin"): "output_of",
    ("ring_wave", "wave"): "wave_output_of",
    ("ring_block", "ring"): "block_of",
    ("sorted_findings", "findings"): "findings_of",
    ("karvelorn", "karvelorn_fresh"): "fresh_run",
    ("karvelorn", "karvelorn_pass"): "pass_of",
    ("karvelorn", "karvelorn_update"): "update_of",
    ("karvelorn", "karvelorn_compare"): "compare_of",
    ("karvelorn", "karvelorn_any_order"): "any_order_of",
    ("karvelorn", "karvelorn_keep"): "keep_of",
    ("karvelorn", "karvelorn_change"): "change_of",
    ("karvelorn", "karvelorn_parts"): "parts_of",
    ("karvelorn", "karvelorn_join"): "join_of",
    ("karvelorn", "karvelorn_keep"): "keep_of",
    ("karvelorn", "karvelorn_change"): "change_of",
    ("karvelorn", "karvelorn_old_pass"): "pass_of",
    ("karvelorn", "karvelorn_old_compare"): "compare_of",
    ("karvelorn", "karvelorn_old_parts"): "parts_of",
    ("karvelorn", "karvelorn_chain"): "chain_of",
    ("karvelorn", "karvelorn_read"): "read_into",
    ("karvelorn", "karvelorn_ring"): "block_of",
    ("karvelorn", "karvelorn_old_ring"): "block_of",
}

# Calls that read and write: what a program reads or writes has no contract in the language.
STREAMS = {("ring_streams", "run"), ("ring_streams", "read_arguments"), ("ring_streams", "read_bench"), ("ring_streams", "complain"), ("trial_octets", "read_full")}

# Makers of a value whose type says what is promised of it: a ghost field of its own or of its fields' types, which is proved where it is made.
BY_TYPE = {("generator_sine", "new"): "Quarter", ("generator_exponential", "new"): "Entries", ("layout_modes", "new"): "Rows", ("generator", "new"): "Tables", ("ring_pass", "new"): "Numbers"}

# The named forms: what it is, the crate, and a pattern that its source has.
FORMS = (
    ("a constant quarter sine of 2,048 entries", "generator_sine", r"const SINE: \[u16; 2048\] = "),
    ("wrapping add, then a remainder by the width's power of two", "base_words", r"a\.wrapping_add\(b\) % \(1 << W\)"),
    ("the part of the machine from 11g", "pass_generators", r"Generator::load\(&m\[at\.\.\]\)"),
    ("a tail of the caller's commands", "command_update", r"pub struct Updated<'a> \{\s*pub rest: &'a \[u32\],"),
    ("a tail at the count taken", "command_update", r"rest: &commands\[taken\.count\.\.\]"),
    ("sum memory as four arrays of 64", "pass_sums", r"= \[u32; layout::QUADRANT_WORDS\];\s*pub type Sums = \[Quadrant; layout::QUADRANTS\];"),
    ("sum memory by value in a pass", "pass", r"sums: pass_sums::load\(m\),"),
    ("pass for C", "karvelorn", r'pub extern "C" fn karvelorn_pass\('),
    ("update for C", "karvelorn", r'pub extern "C" fn karvelorn_update\('),
    ("compare for C", "karvelorn", r'pub extern "C" fn karvelorn_compare\('),
    ("16 rows of switches", "layout_modes", r"const SWITCHES: \[\[u8; 4\]; 16\] = "),
    ("sweep takes self and gives it back", "generator", r"pub fn sweep\(mut self\) -> Generator"),
    ("turn takes self and gives it back", "generator", r"pub fn turn\(mut self, [^)]*\) -> Generator"),
    ("the place in the quarter by arithmetic on its number", "generator_sine", r"let backwards = \(k / 2048 % 2\) as usize;\s*j \^ \(2047 \* backwards\)\n\}"),
    ("the sine's sign by arithmetic on the quarter's number", "generator_sine", r"\{\n\s*k / 2048 / 2\n\}"),
    ("an entry's number by a function that calls itself once, for the entry before", "chain_numbers",
     r"pub fn find\(chain: &Chain, i: usize, numbers: &mut Numbers\) -> u32\n(?:    .*\n)*\{\n    if i == 0 \{[^}]*\}\n"
     r"    let previous = i - 1;\n    let before = find\(chain, previous, numbers\);\n(?:(?!.*\bfind\()    .*\n)*\}"),
    ("decay takes self and gives it back", "generator", r"pub fn decay\(mut self, [^)]*\) -> Generator"),
)

# Records of equations that contracts of inner functions use.
EQUATIONS = ("≡", "Word ", "Wave ", "RunsOf ")

FUNCTION = re.compile(r"^ *pub (?:extern \"C\" )?fn (\w+)")
CLAUSE = re.compile(r"^ *(?:requires|ensures|measure)\b")
ENSURED = re.compile(r"\bensures(?: \w+)? (?=\{)")


def library_of(crate):
    """The source of a library crate, all its files, lib.rt first; else nothing."""
    folder = CRATES / crate / "src"
    if not (folder / "lib.rt").exists():
        return ""
    return "\n".join(path.read_text() for path in sorted(folder.glob("*.rt"), key=lambda path: (path.name != "lib.rt", path.name)))


def contracts_of(crate):
    """The pub functions of a crate, each with its head: from `pub` to its body, which begins with a line `{`, or at the end of a line that is
    no clause."""
    lines, found = library_of(crate).splitlines(), []
    for place, line in enumerate(lines):
        if name := FUNCTION.match(line):
            last = next(at for at in range(place, len(lines)) if lines[at].strip() == "{" or lines[at].endswith("{") and not CLAUSE.match(lines[at]) and at_rest("\n".join(lines[place:at])))
            found.append((name.group(1), "\n".join(lines[place:last + 1])))
    return found


def at_rest(text):
    """Whether each brace of a text is closed."""
    return text.count("{") == text.count("}")


def ensured(head):
    """The clauses that a head ensures: each what stands between its braces."""
    for found in ENSURED.finditer(head):
        depth = 0
        for at in range(found.end(), len(head)):
            depth += {"{": 1, "}": -1}.get(head[at], 0)
            if depth == 0:
                yield head[found.end() + 1:at].strip()
                break


def reached():
    """The calls that the C host exports and that the programs `ring`, `wav` and `sorted` make."""
    exported = re.findall(r'pub extern "C" fn (\w+)', library_of("karvelorn"))
    programs = "".join((CRATES / name / "src" / "main.rt").read_text() for name in ("ring", "wav", "sorted"))
    called = re.findall(r"\b(\w+)::([a-z]\w*)\(", programs)
    return {("karvelorn", name) for name in exported} | {(crate, name) for crate, name in called if (CRATES / crate).is_dir()} - STREAMS


def fields(path, record):
    """The fields of a record, each with its statement on one line."""
    text = path.read_text().split(f"pub record {record}", 1)[1]
    lines = [line for line in text.splitlines()[1:] if not line.lstrip().startswith("--")]
    return re.findall(r"pub ([\w-]+ : .*?)(?= pub [\w-]+ : |$)", re.sub(r"\s+", " ", " ".join(lines)).strip())


def claims():
    """The claims, and the worked examples, which are one of them."""
    return (fields(CRATES / "claims" / "specs" / "Claims.antt", "Claims")
            + fields(CRATES / "equal_orders" / "specs" / "WorkedExamples.antt", "WorkedExamples"))


def promising(crate, kind):
    """Whether a type has a ghost field that is an equation, or only fields of such types."""
    found = re.search(rf"^pub struct {kind} \{{\n(.*?)^\}}", library_of(crate), re.M | re.S)
    body = found.group(1) if found else ""
    named = dict((k, c) for (c, _), k in BY_TYPE.items())
    kinds = re.findall(r"^    pub \w+: (\w+),$", body, re.M)
    return bool(re.search(r"^    (?:pub )?ghost \w+: \{ .*≡.* \},$", body, re.M)) or bool(kinds) and all(k in named and promising(named[k], k) for k in kinds)


def faults():
    """What is wrong, a line each."""
    yield from (f"{crate}::{name} can be reached and is not in the list" for crate, name in sorted(reached() - set(REACHABLE)))
    for (crate, name), definition in REACHABLE.items():
        heads = [head for found, head in contracts_of(crate) if found == name]
        if len(heads) != 1:
            yield f"{crate}::{name} is not there"
        elif "requires" in heads[0]:
            yield f"{crate}::{name} has a requires"
        elif not any("≡" in clause and re.search(rf"\b{definition}\b", clause) for clause in ensured(heads[0])):
            yield f"{crate}::{name} has no equation with {definition}"
    for folder in sorted(CRATES.iterdir()):
        for name, head in contracts_of(folder.name):
            if kind := BY_TYPE.get((folder.name, name)):
                if f"-> {kind}" not in head or not promising(folder.name, kind):
                    yield f"{folder.name}::{name}: the type {kind} promises nothing"
            elif (folder.name, name) not in STREAMS and not any(sign in clause for clause in ensured(head) for sign in EQUATIONS):
                yield f"{folder.name}::{name} has no equation"
    for what, crate, pattern in FORMS:
        if not re.search(pattern, library_of(crate)):
            yield f"the named form is gone: {what} ({crate})"


def main():
    found = list(faults())
    print("\n".join(found) if found else f"{len(REACHABLE)} calls, {len(claims())} claims and {len(FORMS)} named forms stand")
    sys.exit(1 if found else 0)


if __name__ == "__main__":
    main()
