"""Shows that wrong programs fail their tests: what `main` does is promised by no contract, so each likely wrong `main` of
ring, wav and sorted is made by an edit, built without a proof and run on an input of the programs' tests.

    python3 tests/programs.py [--list] [NAME..]

Run from the repository root. Each input is run by the program as it is, which must write what is expected, and by the wrong
ones, which must write something else: compiled with checks, and where it can by an interpreter too (`rt try`, in a folder of its
own, over the crates' sources as they are). It takes some minutes and proves nothing: outside the gate. --list only says what there is
and whether each edit still fits. Exit status 1: a wrong program writes what is expected or doesn't run, an edit's text doesn't stand
exactly once in its file, or there are other than as many wrong programs as docs/TESTED.md says; nothing is run then.
"""

import os
import re
import shutil
import subprocess
import sys
import tempfile
from collections import Counter
from typing import NamedTuple

import ring_files
import wav
from library import ROOT
from reference.by_order import ring_by
from reference.ring import FILE_MOST, ring
from reference.sorted import sorted_text

# What `rt try` says of a case: that the program ended, whether its two ways of running it or one answered, and what it wrote.
CASE = "given"
MATCHES, DIFFERS = (re.compile(rf"^case={CASE} run=ended status=\d+ runners=[12] output={output} ", re.M) for output in ("expected", "differs"))
STREAMS, RING, WAV, SORTED = ("crates/ring_streams/src/lib.rt", *(f"crates/{name}/src/main.rt" for name in ("ring", "wav", "sorted")))
TIME_MOST = 1800


class Case(NamedTuple):
    """What a program is run on, and what it must write: standard input, arguments, files beside it, standard output."""

    stdin: bytes
    stdout: bytes
    arguments: tuple = ()
    files: dict = {}


class Wrong(NamedTuple):
    """A wrong program: its name, the program, its input, and the edits that make it, each a file, what stands there, exactly once, and
    what shall."""

    name: str
    program: str
    case: str
    edits: tuple


# Inputs

def cut_good():
    """A file of one byte too many that is good without it."""
    made = dict(ring_files.sizes())["full of words, one LF more"]
    assert len(made) == FILE_MOST + 1 and ring(made) == b"refused=9\n" and not ring(made[:-1]).startswith(b"refused=9")
    return made


def echo():
    """A click that comes back out of delay memory."""
    return next(made for made in ring_files.echoes() if made.name.startswith("echo, Z 2 "))


CUT_GOOD, ECHO = cut_good(), echo()
# After the command generator 0 writes data, so that the second pass is refused.
COMMANDS = ring_files.bench(4, ((9, 64), (10, 128), (3904, 1000)), (ring_files.TO_WRITE,))
LONG = ring_files.bench(3600)
# By the older text the example has a GMODE that is too wide.
OLD = b"text=old\n" + ring_files.EXAMPLE
ENTRIES = b"order=1\norder=0\n"
# Both generators feed DAC 0: the last one holds.
FEEDERS = ring_files.bench(3, ((0, 16), (9, 1), (10, 128), (20, 2), (21, 128), (3841, 3), (3905, 5), (3906, 7), (4113, 2)))
assert ring_by(FEEDERS, ENTRIES) != ring(FEEDERS)
# The longest order file, and one byte more.
LONGEST = b"order=255\n" * 256
CASES = {
    "ring, one byte too many": Case(CUT_GOOD, b"refused=9\n"),
    "wav, one byte too many": Case(CUT_GOOD, b""),
    "sorted, one byte too many": Case(CUT_GOOD, b"refused=9\n"),
    "ring, an echo": Case(ECHO.text, ECHO.printed),
    "ring, a command": Case(COMMANDS, ring(COMMANDS)),
    "ring, more than a buffer": Case(LONG, ring_files.silence(3600)),
    "ring, an old file": Case(OLD, ring(OLD)),
    "wav, a refused file": Case(ring_files.bench(1, ((4113, 0),)), b""),
    "sorted, an order file": Case(ring_files.EXAMPLE, sorted_text(ring_files.EXAMPLE, ENTRIES).printed, ("A",), {"A": ENTRIES}),
    "ring, an order file": Case(ring_files.EXAMPLE, ring_files.EXAMPLE_PRINTED, ("A",), {"A": ENTRIES}),
    "wav, an order file": Case(ring_files.EXAMPLE, wav.expected(ring_files.EXAMPLE, ring_files.EXAMPLE_PRINTED)[0], ("A",), {"A": ENTRIES}),
    "ring, an order that is heard": Case(FEEDERS, ring_by(FEEDERS, ENTRIES), ("A",), {"A": ENTRIES}),
    "wav, an order that is heard": Case(FEEDERS, wav.expected(FEEDERS, ring_by(FEEDERS, ENTRIES))[0], ("A",), {"A": ENTRIES}),
    "ring, the longest order file and one byte more": Case(FEEDERS, b"order-refused=9\n", ("A",), {"A": LONGEST + b"\n"}),
    "sorted, the longest order file and one byte more": Case(FEEDERS, b"order-refused=9\n", ("A",), {"A": LONGEST + b"\n"}),
    "sorted, two order files": Case(ring_files.EXAMPLE, b"", ("A", "B"), {"A": ENTRIES, "B": ENTRIES}),
}

# Wrong programs

LESS_ROOM = ((STREAMS, "FILE_ROOM: usize = file_lines::FILE_BYTES + 1;", "FILE_ROOM: usize = file_lines::FILE_BYTES;"),)
# No more is taken of an order file than the longest has.
CUT = f"&listing[..listing.len().min({len(LONGEST)})]"

WRONG = (
    # Files are read without the byte more.
    Wrong("ring_reads_no_byte_more", "ring", "ring, one byte too many", LESS_ROOM),
    Wrong("wav_reads_no_byte_more", "wav", "wav, one byte too many", LESS_ROOM),
    Wrong("sorted_reads_no_byte_more", "sorted", "sorted, one byte too many", LESS_ROOM),
    # `begin` clears the delay memory: the ones are written after it.
    Wrong("ring_memory_of_ones", "ring", "ring, an echo", ((RING, "    ring_all(rt, bench,", "    memory = [1u32; layout::MEMORY_WORDS];\n    ring_all(rt, bench,"),)),
    Wrong("ring_without_commands", "ring", "ring, a command", ((RING, "&room[..start.count]", "&room[..0]"),)),
    Wrong("ring_ends_with_its_first_part", "ring", "ring, more than a buffer", ((RING, "while at.passes != 0 {", "if at.passes != 0 {"),)),
    Wrong("ring_by_1978_alone", "ring", "ring, an old file", (
        (RING, "use ring_order::By;\n", "use layout_texts::Text;\nuse ring_order::By;\n"), (RING, "text: start.text,", "text: Text::Of1978,"))),
    Wrong("wav_refusal_on_standard_output", "wav", "wav, a refused file", ((WAV, "rt.stderr().write_all(line.bytes())", "rt.write_all(line.bytes())"),)),
    Wrong("sorted_takes_two_files", "sorted", "sorted, two order files", ((STREAMS, "if is_given(rt, 2) {", "if is_given(rt, 3) {"),)),
    Wrong("sorted_by_its_own_name", "sorted", "sorted, an order file", ((STREAMS, "rt.arg(1, &mut name)", "rt.arg(0, &mut name)"),)),
    Wrong("sorted_without_its_argument", "sorted", "sorted, an order file", ((STREAMS, "if !is_given(rt, 1) {", "if !is_given(rt, 2) {"),)),
    Wrong("sorted_files_exchanged", "sorted", "sorted, an order file", ((SORTED, "print(rt, file, by, listing)", "print(rt, listing, by, file)"),)),
    # The order file is read and not gone by.
    Wrong("ring_ignores_its_order", "ring", "ring, an order that is heard", ((RING, "ring(rt, file, by, listing)", "ring(rt, file, By::Number, listing)"),)),
    Wrong("wav_ignores_its_order", "wav", "wav, an order that is heard", ((WAV, "sound(rt, file, by, listing)", "sound(rt, file, By::Number, listing)"),)),
    Wrong("ring_cuts_its_order_file", "ring", "ring, the longest order file and one byte more", ((RING, "begin(file, by, listing,", f"begin(file, by, {CUT},"),)),
    Wrong("sorted_cuts_its_order_file", "sorted", "sorted, the longest order file and one byte more", ((SORTED, "findings(file, by, listing,", f"findings(file, by, {CUT},"),)),
    Wrong("ring_files_exchanged", "ring", "ring, an order file", ((RING, "ring(rt, file, by, listing)", "ring(rt, listing, by, file)"),)),
    Wrong("wav_files_exchanged", "wav", "wav, an order file", ((WAV, "sound(rt, file, by, listing)", "sound(rt, listing, by, file)"),)),
)


def misfit(wrong):
    """What is amiss with the edits of a wrong program, or nothing: each one's text stands in its file exactly once."""
    for file, old, _ in wrong.edits:
        path = os.path.join(ROOT, file)
        times = open(path).read().count(old) if os.path.exists(path) else 0
        if times != 1:
            return f"its edit fits {times} times: {file}: {old.strip()}"
    return ""


def faults():
    """What is amiss before anything is run, a line each: an edit that doesn't fit, and another number of wrong programs than is told."""
    yield from (f"{wrong.name}: {amiss}" for wrong in WRONG if (amiss := misfit(wrong)))
    told = re.search(r"(\d+) wrong ones are shown to fail", open(os.path.join(ROOT, "docs/TESTED.md")).read())
    names = {wrong.name for wrong in WRONG}
    if not told or len(names) != int(told.group(1)):
        yield f"{len(names)} wrong programs, and docs/TESTED.md says {told.group(1) if told else 'nothing of them'}"


# Running

def scratch(folder, case, edits):
    """A repository with the crates as they are but for the edits, and the program's input and output."""
    shutil.copy(os.path.join(ROOT, "crates.txt"), folder)
    for crate in os.listdir(os.path.join(ROOT, "crates")):
        shutil.copytree(*(os.path.join(top, "crates", crate, "src") for top in (ROOT, folder)))
    for path, old, new in edits:
        with open(os.path.join(folder, path)) as file:
            text = file.read()
        with open(os.path.join(folder, path), "w") as file:
            file.write(text.replace(old, new))
    for name in ("cases", "data"):
        os.mkdir(os.path.join(folder, name))
    written = {CASE: case.stdin, f"{CASE}.stdout": case.stdout, f"{CASE}.args": "".join(word + "\n" for word in case.arguments).encode()}
    for name, content in {**{f"cases/{name}": content for name, content in written.items()}, **{f"data/{name}": content for name, content in case.files.items()}}.items():
        with open(os.path.join(folder, name), "wb") as file:
            file.write(content)


def tried(program, case, edits=()):
    """What `rt try` says."""
    with tempfile.TemporaryDirectory() as folder:
        scratch(folder, case, edits)
        data = [word for name in case.files for word in ("--data", f"{name}={folder}/data/{name}")]
        done = subprocess.run(["rt", "try", "--cases", f"{folder}/cases", *data], cwd=os.path.join(folder, "crates", program), stdout=subprocess.PIPE, stderr=subprocess.STDOUT, timeout=TIME_MOST)
    return done.stdout.decode(errors="replace")


def fault(said, wrong):
    """What is amiss with a run, or nothing: the program as it is must match, a wrong one run and write something else."""
    return "" if (DIFFERS if wrong else MATCHES).search(said) else said[-2000:]


def main(arguments):
    """Reads the arguments; see the head of this file."""
    names = [name for name in arguments if name != "--list"]
    asked = [wrong for wrong in WRONG if not names or wrong.name in names]
    unknown = [f"no wrong program has the name {name}" for name in names if name not in {wrong.name for wrong in WRONG}]
    if "--list" in arguments:
        print("\n".join(f"{wrong.name}: {wrong.case}" for wrong in asked))
    if amiss := [*faults(), *unknown]:
        print("\n".join(amiss))
        return 1
    if "--list" in arguments:
        return 0
    met, good = Counter(), {}
    for wrong in asked:
        case = CASES[wrong.case]
        if wrong.case not in good:
            good[wrong.case] = fault(tried(wrong.program, case), False)
        amiss = good[wrong.case] or fault(tried(wrong.program, case, wrong.edits), True)
        met["amiss" if amiss else "wrong programs that fail"] += 1
        print(f"{wrong.name}: {amiss or 'fails, as it must'} ({wrong.case})", flush=True)
    print(f"{met['wrong programs that fail']} wrong programs fail on {len(good)} inputs of the tests, {met['amiss']} amiss")
    return 1 if met["amiss"] else 0


if __name__ == "__main__":
    sys.exit(main(sys.argv[1:]))
