"""A bench file rung once by the proved program ring: its lines, how it ends, and how its commands are taken until then."""

import re
import subprocess
from typing import NamedTuple

from building import built
from command_line import Ending, Status
from command_words import course
from rung import said_by

REFUSED = re.compile(rb"refused=(\d+)\n")
NOT_A_BENCH_FILE, OF_COMMANDS = 9, (3, 4)


def rung_lines(program, data):
    """The lines that the program prints, and its refusal or 0."""
    try:
        done = subprocess.run([program], input=data, stdout=subprocess.PIPE, stderr=subprocess.PIPE)
    except OSError as error:
        raise Ending(f"cannot run {program}: {error.strerror}", Status.MISSING) from None
    told = done.stderr.decode(errors="replace").strip()
    if done.returncode or told:
        raise said_by("ring", told)
    lines = done.stdout.splitlines(keepends=True)
    refused = REFUSED.fullmatch(lines[-1]) if lines else None
    return (lines[:-1], int(refused[1])) if refused else (lines, 0)


class AsRung(NamedTuple):
    """How a file rings: the lines of whole passes, the refusal that ends it or 0, whether the program knows the file's text, and the course of its commands."""
    lines: list
    refused: int
    known: bool
    course: object


def as_rung(command, file, data):
    """Rings a file that is read here as a bench file."""
    program, = built(command, "ring")
    lines, refused = rung_lines(program, data)
    if refused == NOT_A_BENCH_FILE:  # the program knows no text= line
        return AsRung([], 0, False, course(file, file.passes))
    updates = len(lines) + (1 if refused in OF_COMMANDS else 0)  # after a pass that was refused itself no update follows
    return AsRung(lines, refused, True, course(file, updates))
