"""Bench files rewritten: the same lines with other places and commands, and what stands beside the new file."""

import os
import re

import questions
from command_line import Ending, tell
from outputs import made_here, set_aside
from partials import beside
from reference import layout
from reference.machine import fresh_machine

WORD_LINE = re.compile(rb"word=(\d+):(\d+)")


def place_of(line):
    """The place of a word= line."""
    return int(WORD_LINE.fullmatch(line)[1])


def moved_line(line, place, command):
    """A line with what functions make of its place or its command; nothing where the place goes."""
    word = WORD_LINE.fullmatch(line)
    if word:
        to = place(int(word[1]))
        return None if to is None else b"word=%d:%s" % (to, word[2])
    if line.startswith(questions.COMMAND):
        return b"command=%08X" % command(int(line[len(questions.COMMAND):], 16))
    return line


def rewritten(data, place, command):
    """The bench file with other places and commands. Words that stood in the sequence of their places do so again."""
    lines = data.split(b"\n")[:-1]
    places = [place_of(line) for line in lines if WORD_LINE.fullmatch(line)]
    moved = [line for line in (moved_line(line, place, command) for line in lines) if line is not None]
    if places == sorted(places):
        words = [at for at, line in enumerate(moved) if WORD_LINE.fullmatch(line)]
        for at, line in zip(words, sorted((moved[at] for at in words), key=place_of)):
            moved[at] = line
    return checked(b"".join(line + b"\n" for line in moved))


def text_of(machine, passes):
    """The bench file of a machine without commands: the words that a fresh one hasn't."""
    fresh = fresh_machine()
    words = (f"word={place}:{machine[place]}\n" for place in range(layout.FILE_PLACES) if machine[place] != fresh[place])
    return checked(f"passes={passes}\n{''.join(words)}".encode())


def checked(text):
    """A text that fits into a bench file."""
    if len(text) > questions.FILE_MOST:
        raise Ending(f"the new file would have {len(text)} bytes, more than {questions.FILE_MOST}")
    return text


def set_older_aside(command, new, endings):
    """What stands beside a new file and is of another file gets another name."""
    for path in (beside(new, ending) for ending in endings):
        if os.path.isfile(path) and (path.endswith(".report") or made_here(path)):
            tell(command, f"{path} is not of this file: it is now {os.path.basename(set_aside(path))}")
