"""The bench program: a bench file in, its lines out.

Run as: python3 -m reference.ring < file
"""

import sys
from typing import NamedTuple

from reference import layout
from reference.faults import faults
from reference.machine import fresh_machine, put_update_ticks, run_pass, zero_memory
from reference.old import OLD, TEXTS
from reference.text import OF_1978
from reference.update import run_update
from reference.words import low, signed

FILE_MOST = 65536
PASSES_MOST = 65535
VALUE_MOST = (1 << 32) - 1
DIGITS_MOST = 10
HEXADECIMAL = frozenset(b"0123456789ABCDEF")
TEXT = b"text="


class Bench(NamedTuple):
    """A bench file: its passes, initial words, commands, and the value of its text= line."""

    passes: int
    words: list
    commands: list
    named: bytes

    @property
    def text(self):
        """The text that the file follows, else None."""
        return TEXTS.get(self.named, OF_1978 if faults.unknown_text_rung else None)


def number(text, most):
    """The decimal number that bytes hold, without leading zeros and at most so much, else None."""
    if not text.isdigit() or len(text) > DIGITS_MOST or (text[:1] == b"0" and text != b"0"):
        return None
    value = int(text)
    return value if value <= most else None


def initial_word(text):
    """The place and value of a word= line's right side, else None."""
    left, colon, right = text.partition(b":")
    places = layout.MACHINE_WORDS if faults.count_is_file_place else layout.FILE_PLACES
    place, value = number(left, places - 1), number(right, VALUE_MOST)
    return None if not colon or place is None or value is None else (place, value)


def command_word(text):
    """The command of a command= line's right side, else None."""
    return int(text, 16) if len(text) == 8 and HEXADECIMAL.issuperset(text) else None


def lines_of(file):
    """The lines of a file in which each ends in LF, else None."""
    if len(file) > FILE_MOST or not file.endswith(b"\n"):
        return None
    return file.split(b"\n")[:-1]


def part_of(lines, name, read):
    """Reads the leading lines of one name; gives what was read and the lines left."""
    found = []
    while lines and lines[0].startswith(name):
        found.append(read(lines[0][len(name):]))
        lines = lines[1:]
    return found, lines


def text_line(lines):
    """The value of a text= line that stands first, 1978 where there is none, and the lines left."""
    if not lines[0].startswith(TEXT):
        return OF_1978.name, lines
    return lines[0][len(TEXT):], lines[1:]


def bench_file(file):
    """What a bench file holds, else None."""
    lines = lines_of(file)
    if lines is None:
        return None
    named, lines = text_line(lines)
    if not lines or not lines[0].startswith(b"passes="):
        return None
    passes = number(lines[0][len(b"passes="):], PASSES_MOST)
    words, left = part_of(lines[1:], b"word=", initial_word)
    commands, left = part_of(left, b"command=", command_word)
    if passes is None or None in words or None in commands or left:
        return None
    if commands and named == OLD.name and not faults.old_commands_taken:
        return None
    return Bench(passes, words, commands, named)


def file_refusal(file):
    """Question 9 of a file, then 13 of its text= line: 0, 9 or 13."""
    read, lines = bench_file(file), lines_of(file)
    if faults.text_13_before_9 and lines and text_line(lines)[0] not in TEXTS:
        return 13
    if read is None:
        return 9
    return 13 if read.text is None else 0


def first_machine(words):
    """The machine that a file's initial words make, before any pass or command."""
    machine = fresh_machine()
    for place, value in words:
        machine[place] = value
    if not faults.reader_leaves_256:
        # Also with a T or N out of range: question 2 follows.
        put_update_ticks(machine)
    return machine


def pass_line(machine):
    """The line of a pass: the counter, DAC 0 and DAC 1."""
    left, right = (signed(machine[layout.DACS_AT + dac], 20) for dac in (0, 1))
    counter = machine[layout.COUNTER]
    number = low(counter, 20) if faults.prints_20_bits else counter
    return f"pass={number} left={left} right={right}\n"


def updated(machine, commands, text):
    """What follows a pass: an update, but none by the older text. Its number, count and machine."""
    if text is OLD and not faults.old_update_after_pass:
        return 0, 0, machine
    return run_update(machine, commands)


def by_number(machine):
    """The order by number. It is a range and not a list: T may be beyond its range here."""
    return range(machine[layout.T])


def pass_lines(machine, passes, commands, seen, text, order_of=by_number):
    """The lines of the passes, each by an order of its machine and with an update after it."""
    memory = zero_memory()
    for _ in range(passes):
        done = run_pass(machine, order_of(machine), [], [], memory, text)
        refused, memory = done.number, done.memory
        if not refused:
            seen(machine, done.machine)
            refused, taken, machine = updated(done.machine, commands, text)
            commands = commands[taken:]
        if refused:
            yield f"refused={refused}\n"
            return
        yield pass_line(machine)


def ring(file, seen=lambda before, after: None):
    """What the bench program prints for a file, bytes for bytes.

    For each pass that is done, seen gets the machine before and after it."""
    if refused := file_refusal(file):
        return b"refused=%d\n" % refused
    read = bench_file(file)
    lines = pass_lines(first_machine(read.words), read.passes, read.commands, seen, read.text)
    return "".join(lines).encode()


if __name__ == "__main__":
    sys.stdout.buffer.write(ring(sys.stdin.buffer.read(FILE_MOST + 1)))
