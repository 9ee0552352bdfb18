"""The bench program by an order: each pass goes by an order file's entries, or by pitch, instead of by
number. The order is the same in every pass; what a pass asks of it, 5 and 6, it asks each time.

Run as: python3 -m reference.by_order ORDER < file     (ORDER is an order file, or - for by pitch)
"""

import sys

from reference import layout
from reference.faults import faults
from reference.ring import (FILE_MOST, bench_file, by_number, file_refusal, first_machine, pass_lines)
from reference.sorted import ORDER_REFUSED, by_pitch, order_file

BY_PITCH = "-"


def pitch_order(machine):
    """The order by pitch of the machine that a file begins with; any one where T is out of range,
    since question 2 is asked first."""
    return by_pitch(machine) if machine[layout.T] <= layout.T_MOST else []


def order_of(first, entries):
    """By which order each pass goes, from the machine before it."""
    if faults.order_not_rung_by:
        return by_number
    if faults.order_cut_to_t:
        return lambda machine: [g for g in entries if g < machine[layout.T]]
    if faults.pitch_order_made_anew:
        return pitch_order
    return lambda machine: entries


def ring_by(file, order_text):
    """What the bench program prints for a file and an order file, or by pitch."""
    entries = None if order_text == BY_PITCH else order_file(order_text)
    order_bad = order_text != BY_PITCH and entries is None
    if faults.rung_order_asked_first and order_bad:
        return ORDER_REFUSED.printed
    if refused := file_refusal(file):
        return b"refused=%d\n" % refused
    if order_bad:
        return ORDER_REFUSED.printed
    read = bench_file(file)
    machine = first_machine(read.words)
    if entries is None:
        entries = pitch_order(machine)
    lines = pass_lines(machine, read.passes, read.commands, lambda before, after: None, read.text,
                       order_of(machine, entries))
    return "".join(lines).encode()


def main(arguments):
    """Reads the files and prints."""
    order_text = arguments[0]
    if order_text != BY_PITCH:
        with open(order_text, "rb") as file:
            order_text = file.read(FILE_MOST + 1)
    sys.stdout.buffer.write(ring_by(sys.stdin.buffer.read(FILE_MOST + 1), order_text))


if __name__ == "__main__":
    main(sys.argv[1:])
