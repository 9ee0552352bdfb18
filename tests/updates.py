"""Compares updates, called from C, with the reference.

    python3 tests/updates.py [--dry] [--fault NAME] [COUNT] [SEED]

Run from the repository root. Builds tests/updates.c with include/karvelorn.h and
the library for C (which it has rt make where it is missing or older than the
code) and compares each answer, each count of commands taken and each word of the machine.
Fails too where the requests met something too seldom. With --fault the reference has one
fault of reference/faults.py on: the comparison must fail. With --dry nothing is built or
asked: it says what the requests met, and with --fault in how many answers the fault shows.
"""

import struct
import sys
from collections import Counter

from library import (Test, compared, counts, machine_differences, met_seldom, packed,
                     read_arguments, run, show_words, unpacked)

from count_requests import OTHER_COUNT
from reference import layout
from reference.delay import units_refusal
from reference.update import field, limit, low_20, still_lingering
from update_requests import Answer, all_requests, answered

COUNT, SEED = 20000, 1978
HEAD, COUNTS = struct.Struct("<2I"), struct.Struct("<IQ")
DLY, TIMER, TICKS, GMODE, MMODE = 0b00001, 0b00010, 0b00011, (0b10100, 0b10101), 0b11110

# How often each kind is met at least, in COUNT requests.
PROMISED = {
    **{f"refused by {number}": least for number, least in
       ((1, 150), (2, 1200), (3, 2500), (4, 500))},
    "refused by 2 for the count": 200,
    **{f"TICKS leaves {count} update ticks": least for count, least in
       ((0, 300), (1, 100), (2, 100))},
    **{f"{event}, counter above 20 bits": least for event, least in
       (("lingering", 1000), ("a Linger waits", 100), ("Linger ended", 300), ("overrun set", 150),
        ("a Linger at the counter", 80))},
    "high bits of the counter cleared": 300,
    "lingering": 2000, "a Linger waits": 300, "the words end": 2500, "the ticks end": 1000,
    "no ticks": 1500, "Linger ended": 700, "overrun set": 500,
    **{f"code {code:05b} taken": 800 for code in range(32)},
    "DLY X": 2000, "DLY Y": 2000, "DLY Z": 2000, "DLY X or Y, other 4 bits": 3000,
    **{f"DLY P {p:04b}": 400 for p in layout.DELAY_MODES},
    **{f"DLY P {p:04b} refused": 20 for p in range(16) if p not in layout.DELAY_MODES},
    "DLY UU 11 refused": 150, "function 00111 loaded": 60, "oscillator mode 0100 loaded": 200,
    "a pass would be refused by 11 or 12": 4000,
}


def request_bytes(request):
    """A request as the program reads it."""
    return (HEAD.pack(len(request.machine), len(request.commands)) + packed(request.machine)
            + packed(request.commands))


def answer_bytes(answer):
    """An answer as the program writes it."""
    return COUNTS.pack(answer.number, answer.taken) + packed(answer.machine)


def answer_in(got, expected):
    """The answer in the program's bytes; None if cut short."""
    if len(got) != len(answer_bytes(expected)):
        return None
    return Answer(*COUNTS.unpack(got[:COUNTS.size]), unpacked(got[COUNTS.size:]))


def show(request, expected, got):
    """One difference with its request."""
    print("  commands " + " ".join(f"{command:08X}" for command in request.commands[:40]))
    answer = answer_in(got, expected)
    if answer is None:
        print("  the program gave no whole answer")
        return
    for title, given in (("reference", expected), ("program", answer)):
        print(f"  {title}: number {given.number}, taken {given.taken}")
    show_words(machine_differences(request.machine, expected.machine, answer.machine))


UPDATES = Test("updates", request_bytes, answer_bytes, show)


# What the requests met

def ending(request, answer):
    """Why an update ended where it did."""
    if answer.number:
        return f"refused by {answer.number}"
    if still_lingering(request.machine):
        return "lingering"
    if answer.machine[layout.LINGERING]:
        return "a Linger waits"
    if answer.taken == len(request.commands):
        return "the words end"
    return "the ticks end" if limit(request.machine) else "no ticks"


def delay_event(command):
    """What is counted of a DLY that was taken."""
    uu, p = field(command, 29, 30), field(command, 20, 23)
    yield "DLY " + "XYZ"[uu]
    if uu == 0b10:
        yield f"DLY P {p:04b}"
    elif p:
        yield "DLY X or Y, other 4 bits"


def refused_delay_event(command):
    """What is counted of a DLY that was refused."""
    uu, p = field(command, 29, 30), field(command, 20, 23)
    return "DLY UU 11 refused" if uu == 0b11 else f"DLY P {p:04b} refused"


def count_events(request, answer):
    """What is counted about the count of update ticks."""
    if request.name.startswith(OTHER_COUNT):
        yield "refused by 2 for the count"
    taken = request.commands[:answer.taken]
    if any(field(command, 24, 28) == TICKS for command in taken):
        left = answer.machine[layout.UPDATE_TICKS]
        yield f"TICKS leaves {left if left < 3 else 'more'} update ticks"


def linger_events(before, after):
    """What is counted of a Linger that ended or came too late."""
    if before[layout.LINGERING] > after[layout.LINGERING]:
        yield "Linger ended"
    if before[layout.OVERRUN] < after[layout.OVERRUN]:
        yield "overrun set"


def counter_events(request, answer):
    """What is counted of an update with a counter above 20 bits, and that a command sets or not."""
    before, after = request.machine, answer.machine
    counter = before[layout.COUNTER]
    if not counter >> 20:
        return
    if after[layout.COUNTER] != counter:
        yield "high bits of the counter cleared"
        return
    found = [ending(request, answer), *linger_events(before, after)]
    lingers = [field(command, 4, 23) for command in request.commands[:answer.taken]
               if field(command, 24, 28) == TIMER and field(command, 31, 32) == 0b10]
    if low_20(counter) in lingers:
        found.append("a Linger at the counter")
    yield from (f"{event}, counter above 20 bits" for event in found)


def events(request, answer):
    """All that is counted of a request."""
    yield ending(request, answer)
    yield from count_events(request, answer)
    taken, before, after = request.commands[:answer.taken], request.machine, answer.machine
    for command in taken:
        code = field(command, 24, 28)
        yield f"code {code:05b} taken"
        if code == DLY:
            yield from delay_event(command)
        if field(command, 4, 4):
            continue
        if code == MMODE and field(command, 8, 12) == layout.INVOKE_DELAY_UNIT:
            yield "function 00111 loaded"
        if code in GMODE and field(command, 13, 16) == layout.SUM_OF_COSINES:
            yield "oscillator mode 0100 loaded"
    if answer.number in (3, 4):
        yield "refused in its turn " + ("first" if not taken else "later")
        refused = request.commands[answer.taken]
        if field(refused, 24, 28) == DLY:
            yield refused_delay_event(refused)
    if answer.number in (0, 3, 4):
        yield from linger_events(before, after)
        yield from counter_events(request, answer)
        if units_refusal(before):
            yield "a pass would be refused by 11 or 12"


def main(arguments):
    """Reads the arguments; see the head of this file."""
    options = read_arguments(arguments, COUNT, SEED)
    pairs, met = all_requests(options.count, options.seed), Counter()

    def asked():
        status = compared(UPDATES, pairs, lambda *pair: met.update(events(*pair)), options.dry)
        print(f"met: {counts(met)}")
        return met_seldom(met, PROMISED, options.count, COUNT) or status

    return run(UPDATES, options, asked, pairs, lambda request: answered(request)[1])


if __name__ == "__main__":
    sys.exit(main(sys.argv[1:]))
