"""What each crate names, crates.txt and the picture in docs/ARCHITECTURE.md say the same.

    python3 tests/edges.py           checks, for the gate
    python3 tests/edges.py --write   writes crates.txt's names and the picture anew

A crate names another where its code says `other::`, or its clauses, definitions or proofs `Rattle.other.`.
The picture leaves out an edge that a chain of others makes."""

import re
import sys
from pathlib import Path

ROOT = Path(__file__).resolve().parent.parent
LIST = ROOT / "crates.txt"
PAGE = ROOT / "docs" / "ARCHITECTURE.md"
BEGIN, END = "<!-- edges: written by tests/edges.py -->", "<!-- end of edges -->"
KIT = {"check"}  # the kit's libraries that a line lists beside std, which none does
LINE = re.compile(r"^(\w+)( staticlib)?:(.*)$")


def listed():
    """The crates of crates.txt in sequence, each with the crates that its line names."""
    return {m.group(1): m.group(3).split() for m in map(LINE.match, LIST.read_text().splitlines()) if m}


def named_by(crate, crates):
    """The crates that a crate's files name."""
    text = ""
    for path in sorted((ROOT / "crates" / crate).rglob("*")):
        if path.suffix in (".rt", ".antt") and "out" not in path.parts:
            lines = path.read_text().splitlines()
            text += "\n".join(line.split("//" if path.suffix == ".rt" else "--")[0] for line in lines) + "\n"
    found = set(re.findall(r"\bRattle\.(\w+)\.", text)) | set(re.findall(r"(?<![\w:])(\w+)::", text))
    return {name for name in found if (name in crates or name in KIT) and name != crate}


def deps():
    """Each crate with what it names, in crates.txt's sequence; the kit's libraries last."""
    crates = list(listed())
    out = {}
    for crate in crates:
        names = named_by(crate, crates)
        out[crate] = [c for c in crates if c in names] + sorted(names & KIT)
    return out


def picture(edges):
    """A line for each crate: those directly below it, without what these stand on anyway."""
    below = {}
    for crate in edges:
        own = [d for d in edges[crate] if d in edges]
        below[crate] = set(own).union(*(below[d] for d in own)) if own else set()
    width = max(map(len, edges))
    lines = []
    for crate in edges:
        own = [d for d in edges[crate] if d in edges]
        direct = [d for d in own if not any(d in below[e] for e in own if e != d)]
        lines.append(f"{crate:<{width}}  {'─ ' + ', '.join(direct) if direct else ''}".rstrip())
    return "```\n" + "\n".join(lines) + "\n```"


def main():
    edges = deps()
    drawn = BEGIN + "\n" + picture(edges) + "\n" + END
    page = PAGE.read_text()
    wanted = re.sub(re.escape(BEGIN) + ".*" + re.escape(END), lambda _: drawn, page, flags=re.S)
    if "--write" in sys.argv:
        def line(text):
            found = LINE.match(text)
            return f"{found.group(1)}{found.group(2) or ''}: {' '.join(edges[found.group(1)])}".rstrip() if found else text
        LIST.write_text("\n".join(map(line, LIST.read_text().splitlines())) + "\n")
        PAGE.write_text(wanted)
        return
    faults = [f"crates.txt: {c} lists {' '.join(have)} and names {' '.join(edges[c])}" for c, have in listed().items() if set(have) != set(edges[c])]
    if BEGIN not in page or page != wanted:
        faults.append("docs/ARCHITECTURE.md: the picture of the edges is not that of crates.txt (tests/edges.py --write)")
    print("\n".join(faults) if faults else f"{len(edges)} crates, {sum(map(len, edges.values()))} edges as listed and drawn")
    sys.exit(1 if faults else 0)


if __name__ == "__main__":
    main()
