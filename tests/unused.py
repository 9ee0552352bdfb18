"""Names that a file of Rattle or antt brings in and doesn't use: none may be left.

  python3 tests/unused.py           lists them, and fails if there are any
  python3 tests/unused.py --write   takes them out of the `use` lines; a line that then brings in nothing goes
"""
import pathlib
import re
import sys

CRATES = pathlib.Path(__file__).resolve().parent.parent / "crates"
USE = re.compile(r"^((?:ghost )?use [^\n{]*\.\{)([^}\n]*)(\};?)\n", re.M)
ANY_USE = re.compile(r"^(?:ghost )?(?:pub )?use [^\n]*\n", re.M)
COMMENT = re.compile(r"--[^\n]*|//[^\n]*")
WORD = re.compile(r"\[\]|[^\s(){}\[\],;.]+")


def words_of(text):
    """The words of a file beside its `use` lines and comments."""
    return set(WORD.findall(COMMENT.sub("", ANY_USE.sub("", text))))


def is_used(name, words):
    """An operator as ◌+◌ is used by what stands between its places."""
    pieces = [p for p in name.split("◌") if p]
    return name in words or all(p in words for p in pieces)


def unused_in(text):
    words = words_of(text)
    for line in USE.finditer(text):
        for part in line.group(2).split(","):
            name = part.split(" as ")[-1].strip()
            if name and not is_used(name, words):
                yield line, part.strip(), name


def without(text):
    """A file's text without them, again until none is left: a `use` line may serve only another."""
    gone = {}
    for line, part, _ in unused_in(text):
        gone.setdefault(line.start(), set()).add(part)

    def kept(line):
        parts = [p.strip() for p in line.group(2).split(",") if p.strip() not in gone.get(line.start(), ())]
        return line.group(1) + ", ".join(parts) + line.group(3) + "\n" if parts else ""

    return USE.sub(kept, text)


def main():
    write = sys.argv[1:] == ["--write"]
    count = 0
    for path in sorted(path for part in ("src", "specs", "proofs") for path in CRATES.glob(f"*/{part}/**/*") if path.suffix in (".rt", ".antt")):
        text = path.read_text()
        names = [name for _, _, name in unused_in(text)]
        if names:
            count += len(names)
            print(path.relative_to(CRATES), *names)
            if write:
                path.write_text(without(text))
    print("%d unused names in use lines" % count)
    sys.exit(count > 0 and not write)


main()
