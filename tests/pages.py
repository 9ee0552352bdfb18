"""What the pages name is there: every crate has its place in the layers of docs/ARCHITECTURE.md, and every must-fail edit that a
page names exists. A definition file that is to be believed, any but AsCoded.antt, names of those in the code's shape none but what
docs/ARCHITECTURE.md lists.

    python3 tests/pages.py
"""

import re
import sys
from pathlib import Path

ROOT = Path(__file__).resolve().parent.parent
CRATES = ROOT / "crates"
PAGE = ROOT / "docs" / "ARCHITECTURE.md"
NAMING = (PAGE, ROOT / "README.md", *(ROOT / "docs" / f"{page}.md" for page in ("MAP", "WRONG-ENGINES", "DECISIONS", "TOUR", "FILE", "C", "HEAR", "ORDERS", "BELLS", "TESTED")))


def section(text, head):
    """The part of a page under a head of the second level."""
    return text.split(f"\n## {head}\n", 1)[1].split("\n## ", 1)[0]


def faults():
    """What is wrong, a line each."""
    page = PAGE.read_text()
    crates = {folder.name for folder in CRATES.iterdir() if folder.is_dir()}
    layers = set(re.findall(r"`(\w+)`", "\n".join(line.split("|")[2] for line in page.splitlines() if line.count("|") == 4)))
    yield from (f"the layers lack {name}" for name in sorted(crates - layers))
    named = set(re.findall(r"`(\w+)`", section(page, "Which definitions need belief")))
    for path in sorted(CRATES.glob("*/specs/*.antt")):
        brought = re.findall(r"^use Rattle\.[^\s{]*\.AsCoded\.\{([^}]*)\}", path.read_text(), re.M) if path.stem != "AsCoded" else []
        for name in sorted({name.strip() for names in brought for name in names.split(",")} - named):
            yield f"{path.parent.parent.name}/specs/{path.name} is to be believed and names {name}, which is in the code's shape"
    edits = {f"{path.relative_to(CRATES).parts[0]}/{path.stem}" for folder in ("must-fail", "beyond") for path in CRATES.glob(f"*/{folder}/**/*.edit")}
    for path in NAMING:
        for crate, label in re.findall(r"`(\w+)/([a-z][a-z0-9_]+)`", path.read_text()):
            if crate in crates and label not in ("specs", "proofs", "src") and f"{crate}/{label}" not in edits:
                yield f"{path.name} names an edit that is not there: {crate}/{label}"


def main():
    found = list(faults())
    print("\n".join(found) if found else "crates and edits are as the pages name them, and what is to be believed names nothing in the code's shape but what is listed")
    sys.exit(1 if found else 0)


if __name__ == "__main__":
    main()
