"""Compares bench files read through the C library with the reference.

    python3 tests/reads.py [--dry] [--fault NAME] [COUNT] [SEED]

Run from the repository root. Builds tests/reads.c with include/karvelorn.h and
the library for C. The files are those of tests/ring.py, by both texts, and
COUNT drawn ones, a third of them damaged, into machines and places for commands of the
right and of other lengths; each answer and each word of both runs is compared. Fails too
where the requests met something too seldom.
"""

import struct
import sys
from collections import Counter
from typing import NamedTuple

from library import Test, compared, counts, machine_differences, met_seldom, packed, read_arguments, run, show_words, unpacked

import ring_files
import text_files
from reference import layout
from reference.ring import bench_file, file_refusal, first_machine
from reference.text import OF_1978
from texts import Chance

COUNT, SEED = 2000, 1978
HEAD, ANSWERS = struct.Struct("<3I"), struct.Struct("<3IQ")
TEXT_1978, TEXT_OLD = 0, 1
COMMANDS_MOST = 3855

# How often each kind is met at least, in COUNT requests.
PROMISED = {
    "answered 0": 600, "refused by 9": 300, "refused by 13": 20, "refused by 1": 50, "refused by 8": 60,
    "older text": 300, "places as many as commands": 200, "one place too few": 40, "places beyond the commands": 500,
    "9 with a machine of another length": 15, "1 with places too few": 4, "T or N out of range": 4,
}


class Request(NamedTuple):
    """A file and the runs that it is to be read into."""

    name: str
    file: bytes
    machine: list
    commands: list


class Answer(NamedTuple):
    """What the call answers and leaves."""

    number: int
    text: int
    passes: int
    count: int
    machine: list
    commands: list


def answered(request):
    """What the reference makes of a request: 9 and 13 of the file, then 1, then 8 of the places for commands."""
    number, read = file_refusal(request.file), bench_file(request.file)
    if not number and len(request.machine) != layout.MACHINE_WORDS:
        number = 1
    if not number and len(request.commands) < len(read.commands):
        number = 8
    if number:
        return Answer(number, 0, 0, 0, request.machine, request.commands)
    text = TEXT_1978 if read.text is OF_1978 else TEXT_OLD
    return Answer(0, text, read.passes, len(read.commands), first_machine(read.words),
                  read.commands + request.commands[len(read.commands):])


def by_hand():
    """The files that are made by hand, of both texts."""
    for group in (ring_files.ringing, ring_files.delay_files, ring_files.numbers, ring_files.sizes, ring_files.not_fitting, text_files.made_by_hand):
        yield from group()
    most = b"passes=1\n" + b"command=00000000\n" * COMMANDS_MOST
    yield "as many commands as a file can have but for its passes", most[:9] + most[26:]
    yield "a command too many for the bytes of a file", most


def drawn(count, seed):
    """So many files at random, in turn of each text."""
    chance, old = Chance(seed), text_files.drawn_texts(count, seed + 1)
    for number in range(count):
        if number % 2:
            yield next(old)
            continue
        text = ring_files.drawn_bench(chance)
        if number % 3 == 2:
            text = chance.choice(ring_files.DAMAGE)(chance, text)
        yield f"drawn {number} of seed {seed}", text


def lengths(chance, file):
    """Lengths for the two runs: mostly those that are right."""
    machine, places = layout.MACHINE_WORDS, COMMANDS_MOST if not chance.randrange(50) else chance.randrange(60)
    read = bench_file(file)
    if read and chance.randrange(3):
        places = max(0, len(read.commands) + chance.choice((0, 0, -1, 1, 7)))
    if not chance.randrange(12):
        machine = chance.choice((0, 1, machine - 1, machine + 1, 4119))
    return machine, places


def requests(count, seed):
    """All requests."""
    chance = Chance(seed + 2)
    for name, file in by_hand():
        yield Request(name, file, [chance.getrandbits(32)] * layout.MACHINE_WORDS, [chance.getrandbits(32)] * COMMANDS_MOST)
    for name, file in drawn(count, seed):
        words, places = lengths(chance, file)
        yield Request(name, file, [chance.getrandbits(32)] * words, [chance.getrandbits(32)] * places)


def pairs(count, seed):
    """Each request with its answer."""
    return ((request, answered(request)) for request in requests(count, seed))


def events(request, answer):
    """What a request met."""
    read = bench_file(request.file)
    yield f"refused by {answer.number}" if answer.number else "answered 0"
    if answer.number == 9 and len(request.machine) != layout.MACHINE_WORDS:
        yield "9 with a machine of another length"
    if read is None or answer.number in (9, 13):
        return
    free = len(request.commands) - len(read.commands)
    if answer.number == 1 and free < 0:
        yield "1 with places too few"
    if answer.text == TEXT_OLD:
        yield "older text"
    yield {0: "places as many as commands", -1: "one place too few"}.get(free, "places beyond the commands" if free > 0 else "places too few")
    if not answer.number and not (1 <= answer.machine[layout.T] <= 256 and 2 <= answer.machine[layout.N] <= 1025):
        yield "T or N out of range"


def request_bytes(request):
    """A request as the program reads it."""
    return HEAD.pack(len(request.file), len(request.machine), len(request.commands)) + request.file + packed(request.machine) + packed(request.commands)


def answer_bytes(answer):
    """An answer as the program writes it."""
    return ANSWERS.pack(*answer[:4]) + packed(answer.machine) + packed(answer.commands)


def show(request, expected, got):
    """One difference with its request."""
    print(f"  {request.file[:200]!r}")
    if len(got) != len(answer_bytes(expected)):
        print("  the program gave no whole answer")
        return
    words = unpacked(got[ANSWERS.size:])
    print(f"  reference {expected[:4]}, program {ANSWERS.unpack(got[:ANSWERS.size])}")
    show_words(machine_differences(request.machine, expected.machine, words[:len(expected.machine)]))
    show_words([(f"command {i}", a, b) for i, (a, b) in enumerate(zip(expected.commands, words[len(expected.machine):])) if a != b])


def main(arguments):
    """Reads the arguments; see the head of this file."""
    options, met, asked = read_arguments(arguments, COUNT, SEED), Counter(), Counter()
    test = Test("reads", request_bytes, answer_bytes, show, stack=512 * 1024)

    def count(request, answer):
        asked["all"] += 1
        met.update(events(request, answer))

    def ask():
        status = compared(test, pairs(options.count, options.seed), count, options.dry)
        print("met " + counts(met))
        return met_seldom(met, PROMISED, asked["all"], COUNT) or status

    return run(test, options, ask, pairs(options.count, options.seed), answered)


if __name__ == "__main__":
    sys.exit(main(sys.argv[1:]))
