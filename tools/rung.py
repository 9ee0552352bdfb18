#!/usr/bin/env python3
"""Rings a bench file with the proved program ring: a line for each pass, and a status that tells how it ended.

    karvelorn run [FILE]

The program has no exit status; what it printed last and what it said on standard error tell. A refusal is put into words.
"""

import os
import re
import subprocess
import sys

import questions
from building import built
from command_line import HOME, IN_REPOSITORY, Ending, Parser, Status, read_file, start, tell, unwritten

EXAMPLE = HOME / "examples" / "short_bell.txt"
PIECE = 1 << 16
REFUSED = re.compile(rb"refused=(\d+)\n")


def shown_path(path):
    """A path of the repository as the user would name it."""
    return os.path.relpath(path)


def file_of(asked, example):
    """The file that is asked for; the example in the repository where none is."""
    if asked is not None:
        return asked
    if not IN_REPOSITORY:
        raise Ending("name a file", Status.MISUSED)
    return shown_path(example)


def said_by(program, told):
    """What a program said on standard error as an ending."""
    status = Status.UNREAD if "cannot read" in told else Status.UNWRITTEN if "cannot write" in told else Status.FAULT
    return Ending(told or f"the program {program} ended badly", status)


def handed_on(process):
    """Hands on what a program prints; answers how many lines that were and the last one."""
    lines, last = 0, b""
    while piece := process.stdout.read1(PIECE):
        try:
            sys.stdout.buffer.write(piece)
        except OSError as error:
            unwritten(error)
        lines += piece.count(b"\n")
        last = (last + piece)[-100:]
    try:
        sys.stdout.buffer.flush()
    except OSError as error:
        unwritten(error)
    return lines, last[last.rfind(b"\n", 0, -1) + 1:]


def rung(program, text):
    """Rings a text; answers the number of lines and the last one."""
    try:
        process = subprocess.Popen([program], stdin=subprocess.PIPE, stdout=subprocess.PIPE, stderr=subprocess.PIPE)
    except OSError as error:
        raise Ending(f"cannot run {program}: {error.strerror}", Status.MISSING) from None
    try:
        try:
            process.stdin.write(text)
            process.stdin.close()
        except BrokenPipeError:
            pass
        lines, last = handed_on(process)
        told = process.stderr.read().decode(errors="replace").strip()
        if process.wait() or told:
            raise said_by("ring", told)
        return lines, last
    finally:
        process.kill()
        process.wait()


def parser():
    """What may be asked."""
    asked = Parser("run", "Rings a bench file: prints, for each pass, its number and the words of DAC 0 and DAC 1.", "karvelorn run bell.txt >bell.lines")
    asked.add_argument("file", metavar="FILE", nargs="?", help="a bench file, - for standard input" + (" (examples/short_bell.txt where none is named)" if IN_REPOSITORY else ""))
    return asked


def main(arguments):
    asked = parser().parse_args(arguments)
    file = file_of(asked.file, EXAMPLE)
    text = read_file(file, questions.FILE_MOST + 1)
    program, = built("run", "ring")
    lines, last = rung(program, text)
    refused = REFUSED.fullmatch(last)
    if refused:
        head, *causes = questions.refusal(file, int(refused[1]), text)
        raise Ending("\n".join([f"{head}{f' (pass {lines} of the ringing)' if lines > 1 else ''}", *causes]))
    bench, _ = questions.read(text)
    if bench is None or lines != bench.passes:
        tell("run", f"{file} wasn't rung to its end")
        return Status.FAULT
    return Status.DONE


if __name__ == "__main__":
    start("run", main)
