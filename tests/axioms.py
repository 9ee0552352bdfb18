"""Compares what the checker says that each crate assumes with README's list, after `rt ci`: the programs have the contracts of C's
functions under the toolchain's own library, the library and every other crate nothing.

    python3 tests/axioms.py [--log FILE]

FILE is what `rt ci` printed; without the option it is what the gate keeps of that (target/ci.log). Of a crate that an earlier run
proved `rt ci` doesn't repeat what was said. Such a program, and such a crate that no other stands on, is checked once more; what
stands below a program or the library for C is in their reports.
"""

import re
import subprocess
import sys
from concurrent.futures import ThreadPoolExecutor
from pathlib import Path

ROOT = Path(__file__).resolve().parent.parent
sys.path.append(str(ROOT / "tools"))
import building  # noqa: E402
import places  # noqa: E402

# README, "Assumed": for each program how many axioms the toolchain counts. It names each function in code.
ASSUMED = {"ring": 7, "wav": 7, "sorted": 7, "trial": 3, "speed": 3}
NAMED = ("`libc::read`", "`libc::write`", "`libc::close`", "`os::c::open`", "`os::c::rattle_arg`", "`os::c::rattle_errno`", "`os::c::rattle_set_errno`")

SECTION = re.compile(r"^== (\w+)\n(.*?)(?=^== |^rt: \w+ (?:proved|NOT PROVED)$)", re.M | re.S)
KEPT = re.compile(r"^rt: (\w+) is kept: ", re.M)
VERDICT = re.compile(r"^logic=.*$", re.M)


def said_by_ci(log):
    """What was said of each crate that was proved in the run, and the crates that an earlier one proved."""
    return dict(SECTION.findall(log)), set(KEPT.findall(log))


def said_by_check(crate, named):
    """What a check says of a crate: over what `rt ci` left, or else by `rt check`."""
    words = building.over_ci(crate, named, "check") or ["rt", "check"]
    done = subprocess.run(words, cwd=places.crate(crate), stdin=subprocess.DEVNULL, stdout=subprocess.PIPE, stderr=subprocess.STDOUT, text=True, errors="replace")
    return done.stdout


def faults(log):
    """What is wrong, a line each."""
    readme = next((line for line in (ROOT / "README.md").read_text().splitlines() if line.startswith("Assumed:")), "")
    yield from (f"README's list of what is assumed lacks {name}" for name in (*NAMED, *(f"`{program}`" for program in ASSUMED)) if name not in readme)
    yield from (f"README's list of what is assumed lacks the number {count}" for count in sorted(set(ASSUMED.values())) if not re.search(rf"\b{count}\b", readme))
    named = building.dependencies()
    stood_on = {below for line in named.values() for below in line}
    said, kept = said_by_ci(log)
    asked = [crate for crate in named if crate not in said and crate in kept and crate not in stood_on]
    with ThreadPoolExecutor(2) as pool:
        said.update(zip(asked, pool.map(lambda crate: said_by_check(crate, named), asked)))
    for crate in named:
        if crate not in said and crate in kept:
            continue
        text = said.get(crate, "")
        last = VERDICT.findall(text)[-1:]
        if not last or not last[0].startswith("logic=proved"):
            yield f"{crate}: rt does not say that it is proved"
            continue
        found = re.search(r"\baxioms=(\d+)", last[0])
        count = int(found.group(1)) if found else 0
        if count != ASSUMED.get(crate, 0) or " foreign=" in last[0]:
            yield f"{crate}: {count} axioms, and README says {ASSUMED.get(crate, 0)}: {'; '.join(re.findall(r'^axioms (?!.*none reached).*$', text, re.M))}"


def main(arguments):
    path = Path(arguments[1]) if arguments[:1] == ["--log"] else places.CI_LOG
    found = list(faults(path.read_text(errors="replace") if path.exists() else ""))
    print("\n".join(found) if found else f"{len(building.dependencies())} crates assume what README says")
    sys.exit(1 if found else 0)


if __name__ == "__main__":
    main(sys.argv[1:])
