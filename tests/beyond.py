"""Wrong engines beyond the gate: edits in crates/NAME/beyond/, near ones to edits that the gate tries, which are kept out of it for its
time (rt takes each file below must-fail/ for one that it is to try). The gate looks whether each still fits: its old text stands once
in its file. With --try, each is tried as the gate tries its own, in a copy of the tree, and must be refused because a fact fails.

    python3 tests/beyond.py [--try]
"""

import shutil
import subprocess
import sys
import tempfile
from pathlib import Path

ROOT = Path(__file__).resolve().parent.parent

# So many there are at least: one that goes back to the gate, or goes, is taken off this number.
FLOOR = 95


def pairs(edit):
    """The replacements of an edit: (file, old, new)."""
    file = old = None
    for line in edit.read_text().splitlines():
        if line.startswith("file: "):
            file = line[len("file: "):]
        elif line.startswith("old: "):
            old = line[len("old: "):]
        elif line.startswith("new:"):
            yield file, old, line[len("new:"):].removeprefix(" ")


def faults(edit):
    """What does not fit in an edit, a line each. Each replacement is made on what the one before it left."""
    crate = edit.parent.parent
    name = f"{crate.name}/{edit.stem}"
    if (crate / "must-fail" / edit.name).exists():
        yield f"{name}: stands in the gate too"
    texts = {}
    for file, old, new in pairs(edit):
        path = crate / (file or "")
        if not path.is_file():
            yield f"{name}: no such file: {file}"
            return
        text = texts.get(path) or path.read_text()
        if text.count(old) != 1:
            yield f"{name}: its old text stands {text.count(old)} times in {file}"
            return
        texts[path] = text.replace(old, new)
    if not texts:
        yield f"{name}: has no old and new text"


def tried(edits):
    """Tries the edits in a copy of the tree that has no others. Gives the exit status."""
    with tempfile.TemporaryDirectory() as folder:
        copy = Path(folder) / "tree"
        shutil.copytree(ROOT, copy, ignore=shutil.ignore_patterns(".git", "must-fail", "beyond", "out", "target"))
        for edit in edits:
            there = copy / edit.relative_to(ROOT).parent.parent / "must-fail"
            there.mkdir(exist_ok=True)
            shutil.copy(edit, there)
        names = sorted({edit.parent.parent.name for edit in edits})
        log = copy / "must-fail.log"
        with open(log, "w", encoding="utf-8") as file:
            process = subprocess.Popen(["rt", "must-fail", *names], cwd=copy, stdout=subprocess.PIPE, stderr=subprocess.STDOUT, text=True, errors="replace")
            for line in process.stdout:
                file.write(line)
                print(line, end="", flush=True)
        status = process.wait()
        return status or subprocess.run([sys.executable, copy / "tests" / "refusals.py", "--log", log, *names], cwd=copy).returncode


def main():
    edits = sorted(ROOT.glob("crates/*/beyond/*.edit"))
    found = [fault for edit in edits for fault in faults(edit)]
    found += [f"{path.relative_to(ROOT)}: rt counts it as a bad edit: its place is {path.parents[2].relative_to(ROOT)}/beyond" for path in sorted(ROOT.glob("crates/*/must-fail/*/*.edit"))]
    if len(edits) < FLOOR:
        found.append(f"{len(edits)} edits beyond the gate, and there were {FLOOR}")
    print("\n".join(found) if found else f"{len(edits)} edits beyond the gate fit their crates")
    if found:
        sys.exit(1)
    if sys.argv[1:] == ["--try"]:
        sys.exit(tried(edits))


if __name__ == "__main__":
    main()
