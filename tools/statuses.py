"""The exit statuses of all commands: one table, which each --help prints.

A program in Rattle has no exit status; the commands have, and give 0 only where the whole result was written.
"""

from enum import IntEnum


class Status(IntEnum):
    """How a command ended."""
    DONE = 0
    NO = 1
    REFUSED = 2
    UNREAD = 3
    UNWRITTEN = 4
    MISUSED = 5
    MISSING = 6
    UNTIL = 7
    UNLIKE = 8
    FAULT = 9
    INTERRUPTED = 130


MEANINGS = {
    Status.DONE: "the whole result was written; of a question (compare, same, drawer check): yes, for every pass",
    Status.NO: "of a question: no",
    Status.REFUSED: "refused: the file, its machine, an order or a table isn't as it must be; standard error or the answer says where",
    Status.UNREAD: "a file can't be read",
    Status.UNWRITTEN: "the result can't be written: a full disk, a closed pipe, a folder that may not be written",
    Status.MISUSED: "a wrong call: an option, a number of files, an output that is an input or no regular file",
    Status.MISSING: "something that is needed isn't there or can't be built; what it is and how to get it is told",
    Status.UNTIL: "of a question: yes, but only until what is told (a trigger, a command)",
    Status.UNLIKE: "a sound is not what the table says, or can't be measured whole, or a ring has no figure; what can be made of it is written all the same; of show, number and join: something looks wrong",
    Status.FAULT: "a fault of this software",
    Status.INTERRUPTED: "interrupted (Ctrl-C; by another signal 128 and its number)",
}


def table():
    """The lines of the table."""
    return [f"  {status:>3}  {MEANINGS[status]}" for status in Status]
