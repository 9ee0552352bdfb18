"""Reads why each must-fail edit was refused, from what `rt ci` or `rt must-fail` printed: what it names first must be a fact that
fails, not a name, a field or a shape that the proof file no longer fits. An edit of a definition carries the prefix `definition_`,
and no other edit changes one.

    python3 tests/refusals.py [--log FILE] [CRATE..]

FILE is what rt printed; without the option it is what the gate keeps of `rt ci` (target/ci.log).
"""

import re
import sys
from pathlib import Path

ROOT = Path(__file__).resolve().parent.parent
sys.path.append(str(ROOT / "tools"))
import places  # noqa: E402

# So many edits there are at least.
FLOOR = 494

# A line of rt on an edit: the crate, the edit, and what it came to; in round brackets why a refusal may say little.
LINE = re.compile(r"^rt: must-fail (\w+)/([\w.-]+)\.edit: (.*)$", re.M)
REFUSED = re.compile(r"refused, as it must be(?: \((only .*?)\))?(?:: (.*))?")
BY_LIMIT = "only by a limit of the prover"

# What a proof file says where the text no longer fits, and no fact is tried: by what it says anywhere. rt cuts it off after some words.
UNFIT = (
    r"that can be named from here",
    r"has no field",
    r"is not in scope",
    # A test turned round.
    r"a dimension .{,60} is expected here",
    r"one has `[\w.]*◌≢◌`",
    # One need of a function where another was expected.
    r"expected type `[\w.]*Need-",
    # What a compiler says.
    r"error\[",
    r"was not admitted",
    r"no proof: expected",
    r"takes \d+ arguments?",
    r"parse|unexpected",
)


def is_shape(error):
    """Whether a message only says that the text no longer fits."""
    return any(re.search(pattern, error) for pattern in UNFIT)


def fault(told):
    """What is wrong with what an edit came to, or nothing."""
    if not told:
        return "was not tried (run rt ci or rt must-fail first)"
    refused = REFUSED.fullmatch(told)
    if not refused:
        return f"was not refused: {told[:300]}"
    why, error = refused[1] or "", refused[2] or ""
    if why.startswith(BY_LIMIT):
        return ""
    if why or is_shape(error):
        return f"refused for its shape, not for a fact: {(error or why)[:300]}"
    return "" if error else "its refusal has no error"


def faults(log, crates):
    """What is wrong, a line each; the last items are how many edits were looked at, and how many of these a limit of the prover refused."""
    told, seen, limits = {(crate, label): what for crate, label, what in LINE.findall(log)}, 0, 0
    for edit in sorted(ROOT.glob("crates/*/must-fail/*.edit")):
        crate, label = edit.parent.parent.name, edit.stem
        if crates and crate not in crates:
            continue
        seen += 1
        of_definition = any(line.startswith("file: specs/") for line in edit.read_text().splitlines())
        if of_definition != label.startswith("definition_"):
            yield f"{crate}/{label}: " + ("changes a definition without the prefix definition_" if of_definition else "has the prefix definition_ and changes none")
        what = told.get((crate, label), "")
        limits += BY_LIMIT in what
        if amiss := fault(what):
            yield f"{crate}/{label}: {amiss}"
    yield seen
    yield limits


def main(arguments):
    path = places.CI_LOG
    if arguments[:1] == ["--log"]:
        path, arguments = Path(arguments[1]), arguments[2:]
    *found, seen, limits = faults(path.read_text(errors="replace") if path.exists() else "", arguments)
    if not arguments and seen < FLOOR:
        found.append(f"{seen} edits, and there were {FLOOR}: an edit that goes is taken off this number with its reason")
    print("\n".join(found) if found else f"{seen} edits, each refused because a fact fails" + (f", {limits} of them only by a limit of the prover" if limits else ""))
    sys.exit(1 if found or not seen else 0)


if __name__ == "__main__":
    main(sys.argv[1:])
