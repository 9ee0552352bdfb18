"""Every sentence of the scope document, and of each request of document 02 that has landed, stands in
docs/MAP.md, in full; the scope's named forms in docs/DECISIONS.md.

    python3 tests/sentences.py [SCOPE]

The documents are not part of the repository. Without an argument the scope is looked for beside it; document 02 is
looked for beside the scope. Where they are not at hand nothing is looked at, and the exit status is 3."""

import re
import sys
from pathlib import Path

ROOT = Path(__file__).resolve().parent.parent
PAGES = (ROOT / "docs" / "MAP.md", ROOT / "docs" / "DECISIONS.md")
BESIDE = ROOT.parent / "shared" / "docs" / "01-scope.md"
REQUESTS = "02-change-requests.md"

# The requests that have landed: each landing adds its name.
LANDED = ("Q-1", "Q-2", "Q-3", "Q-4", "Q-5", "Q-6", "Q-7", "Q-8", "Q-9", "Q-10", "Q-11", "Q-12", "Q-13", "Q-14")


def plain(text):
    """Text without marks of layout: backslashes, quotes of code, bold, runs of blanks."""
    return re.sub(r"\s+", " ", re.sub(r"\\|`|\*\*", "", text)).strip()


def sentences(document):
    """The sentences of a document, section heads and the shown file aside."""
    document = re.sub(r"```.*?```", "", document, flags=re.S)
    for block in re.split(r"\n\s*\n|\n(?=- )|\n(?=\d+\. )|\n(?=\d{4} )", document):
        block = block.strip()
        if not block or block.startswith("#"):
            continue
        text = plain(re.sub(r"^- ", "", block))
        for part in re.split(r"(?<=[.?:])\s+(?=[A-Z\"(])|(?<=\.)\s+(?=\d+\. )", text):
            part = part.strip()
            if len(part) > 3:
                yield part


def request(document, name):
    """The paragraph of a request, by its name in bold; nothing where there is none."""
    found = re.search(rf"^\*\*{re.escape(name)}\. .*?(?=\n\s*\n|\Z)", document, flags=re.M | re.S)
    return found.group(0) if found else ""


def parts(scope):
    """What has to stand in the map: the scope, then each request that has landed, each by its name with its text."""
    if scope.exists():
        yield "the scope", scope.read_text()
    requests = scope.with_name(REQUESTS)
    if requests.exists():
        document = requests.read_text()
        yield from ((name, request(document, name)) for name in LANDED)


def main():
    page = " ".join(plain(page.read_text()) for page in PAGES)
    faults, checked = [], []
    for name, text in parts(Path(sys.argv[1]) if len(sys.argv) > 1 else BESIDE):
        found = list(sentences(text))
        faults += [f"missing of {name}: {s}" for s in found if s not in page] if found else [f"no text of {name}"]
        checked.append(f"{len(found)} sentences of {name}")
    if not checked:
        print("the documents are not at hand: not looked at")
        sys.exit(3)
    print("\n".join(faults) if faults else f"{', '.join(checked)} stand in the map")
    sys.exit(1 if faults else 0)


if __name__ == "__main__":
    main()
