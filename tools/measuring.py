#!/usr/bin/env python3
"""From a recording of a bell to the table of its partials, with what is unsure said.

    karvelorn measure RECORDING -o TABLE.csv [--ratios just|tempered|FILE] [--highest HZ]

RECORDING is a WAVE or FLAC file of one or two channels. TABLE is what `karvelorn partials` reads: name, Hz, level in dB (the loudest
partial has 0) and T60, a row for each partial, the two of a doublet by themselves. Names are given by ratios to the prime: just,
tempered, or those of FILE, lines `name,ratio`. What the recording doesn't let be told stands in the table as a comment, and is
said in lines that begin with `!`; then the status is that of a sound that can't be measured whole. Needs numpy and scipy.
"""

import os

from command_line import Ending, Parser, Status, need_libraries, read_file, say, start, tell
from outputs import destination, set_aside, write_whole
from partials import positive, unlike
from ratios import RATIOS, ratios_of

HIGHEST = 8000.0  # what is above so many Hz is not looked at (recording.py has it too, for hear)


def table_of(asked):
    """The table as text, what is printed, and whether all is told."""
    need_libraries(("numpy", "scipy"), "no table was made")
    import analysis
    import recording
    ratios = ratios_of(asked.ratios)
    rate, channels = analysis.read_sound(asked.recording)
    tell("measure", f"measuring {asked.recording}")
    try:
        found, lines, words = recording.measured(channels, rate, ratios, min(asked.highest, rate / 2))
    except analysis.SUMS_FAIL as error:
        raise analysis.unmeasured(asked.recording, error) from None
    if not any(recording.told(p) for p in found):
        raise Ending(f"{asked.recording}: no partial can be told", Status.UNLIKE)
    rows = list(recording.table_of(found))
    heading = [f"# {line}" for line in (printable(os.path.basename(asked.recording)), *lines, *words)]
    return "\n".join([*heading, *rows]) + "\n", [*rows, *lines, *(f"! {sentence}" for sentence in words)], not words


def printable(name):
    """A file's name as a comment may have it."""
    return "".join(letter if letter.isprintable() and letter != '"' else "?" for letter in name)


def keep_older(table):
    """An older table, which may be somebody's own, is kept under another name."""
    aside = set_aside(table)
    if aside:
        tell("measure", f"{table} was there from before and is not of this recording: it is now {os.path.basename(aside)}")


def parser():
    """What may be asked."""
    asked = Parser("measure", "Makes a table of partials of a recording (WAVE or FLAC): of its longest stroke, below so many Hz, each partial with its name, frequency,\n"
                   "level and decay, the strike note and beats. What the recording doesn't let be told is a comment there, and is said. An older table is\n"
                   "set aside (NAME.older.csv).",
                   "karvelorn measure recording.flac -o bell.csv && karvelorn partials bell.csv -o bell.txt")
    asked.add_argument("recording", metavar="RECORDING", help="WAVE of 8 to 32 bits or floats, or FLAC, of one or two channels")
    asked.add_argument("-o", dest="table", metavar="TABLE", required=True, help="the table, for karvelorn partials")
    asked.add_argument("--ratios", metavar="R", default="just", help="names by ratios to the prime: just, tempered, or a file of lines name,ratio (just where this isn't asked)")
    asked.add_argument("--highest", metavar="HZ", type=positive, default=HIGHEST, help=f"what is above isn't looked at ({HIGHEST:g} where this isn't asked)")
    return asked


def main(arguments):
    asked = parser().parse_args(arguments)
    inputs = [asked.recording] + ([] if asked.ratios in RATIOS else [asked.ratios])
    destination(asked.table, inputs)
    if not os.path.lexists(asked.recording):
        read_file(asked.recording)
    try:
        text, lines, whole = table_of(asked)
        if os.path.lexists(asked.table) and unlike(asked.table, text.encode()):
            keep_older(asked.table)
        write_whole({asked.table: text.encode()}, inputs)
    except BaseException:
        keep_older(asked.table)
        raise
    say("\n".join(lines))
    return Status.DONE if whole else Status.UNLIKE


if __name__ == "__main__":
    start("measure", main)
