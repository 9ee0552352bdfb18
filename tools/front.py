#!/usr/bin/env python3
"""The front of all commands: karvelorn COMMAND ..

A command is a line of COMMANDS: its day, its name, its module here (with a function main from arguments to a Status), and what it
does. --help lists them in the order of the week of a bench file; bash completion asks for them.
"""

import interrupts  # noqa: F401  (first)

import importlib
import sys

from command_line import Ending, Status, ended, finish, say, version
from statuses import table

COMMANDS = (
    ("Monday", "measure", "measuring", "a recording becomes a table of its partials"),
    ("Monday", "partials", "partials", "a table of measured partials becomes a bench file (and a recording a table, as by measure)"),
    ("Tuesday", "show", "shown", "a bench file in words, with what looks wrong, and as a graph"),
    ("Tuesday", "number", "numbered", "numbers for a chain of modifiers, in which each sees whom it must see; also into a bench file"),
    ("Tuesday", "same", "sameness", "is a bench file still the bell of its table?"),
    ("Wednesday", "run", "rung", "a bench file is rung pass by pass: a line for each"),
    ("Wednesday", "hear", "heard", "a bench file is heard and seen: its sound, its picture and its partials"),
    ("Wednesday", "cut", "cutting", "what a cut at each ring makes of a bell, by the foundry's table of rings"),
    ("Thursday", "compare", "compared", "is it the same bell with its generators in another order?"),
    ("Thursday", "renumber", "renumbered", "the generators moved to other numbers, in a bench file that rings the same"),
    ("Thursday", "join", "joining", "two bench files made one, in which each bell sounds as it does alone"),
    ("Friday", "drawer", "drawers", "what was decided is kept in a folder with a page, and can be checked bit for bit"),
)
MODULES = {name: module for _, name, module, _ in COMMANDS}


def help_lines():
    """The commands in the order of the week, and the exit statuses."""
    yield "usage: karvelorn COMMAND ..       karvelorn COMMAND --help says more"
    yield ""
    yield "Rings bells by their bench files, bit for bit as the Systems Concepts Digital Synthesizer of 1978."
    yield ""
    day = None
    for on, name, _, does in COMMANDS:
        yield f"  {on if on != day else '':10} {name:10} {does}"
        day = on
    yield from ("", "options:", "  -h, --help  this list", "  --version   print the version and end", "  --commands  the names of the commands alone, a line each",
                "", "example:", "  karvelorn partials bell.flac -o bell.csv; karvelorn partials bell.csv -o bell.txt && karvelorn hear bell.txt && karvelorn compare bell.txt", "", "exit status:")
    yield from table()


def main(arguments):
    """What is asked of the front itself."""
    asked = arguments[0] if arguments else None
    if asked in ("-h", "--help"):
        say("\n".join(help_lines()))
    elif asked == "--version":
        say(f"karvelorn {version()}")
    elif asked == "--commands":
        say("\n".join(MODULES))
    else:
        raise Ending(f"{'no command' if asked is None else f'no such command: {asked}'}; there are {', '.join(MODULES)} (karvelorn --help says what they do)", Status.MISUSED)
    return Status.DONE


def command_of(arguments):
    """The name, the function and the arguments of what is asked."""
    if arguments and arguments[0] in MODULES:
        name = arguments[0]
        return name, lambda rest: importlib.import_module(MODULES[name]).main(rest), arguments[1:]
    return "karvelorn", main, arguments


if __name__ == "__main__":
    finish(ended(*command_of(sys.argv[1:])))
