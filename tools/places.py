"""Where everything that is built lies: what rt makes of a crate is in that crate's folder out/, which `rt ci` empties before it proves;
what gcc makes of that, and what tests and commands keep, is in target/. tools/building.py builds it; tools/built does that for a shell.

A program: rt run in its crate's folder, which proves, builds and then runs it; or rt ci, which leaves it there.
The library for C: rt lib in its crate's folder.
"""

from pathlib import Path

HOME = Path(__file__).resolve().parent.parent  # the repository, or the folder of what is installed
TARGET = HOME / "target"
CI_LOG = TARGET / "ci.log"  # what the gate keeps of what rt ci printed
PROGRAMS = ("ring", "wav", "sorted")
LIBRARY_CRATE = "karvelorn"
PARTS = ("src", "specs", "proofs")  # a crate's files


def crate(name):
    """A crate's folder."""
    return HOME / "crates" / name


def out(name):
    """What rt makes of a crate."""
    return crate(name) / "out"


def program(name):
    """A program that rt builds."""
    return out(name) / name


LIBRARY = out(LIBRARY_CRATE) / f"lib{LIBRARY_CRATE}.a"


def made(name):
    """The file that is built for a name: the library for its crate's, else a program."""
    return LIBRARY if name == LIBRARY_CRATE else program(name)


def rlib(name):
    """What rt makes of a library crate for those above it."""
    return out(name) / "rlib" / f"{name}.rlib"


def proved(name):
    """The file by which rt knows a library crate that it has proved; `rt ci` leaves none."""
    return rlib(name).parent / "stamp"
