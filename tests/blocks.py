"""Compares blocks of passes, called from C, with the reference and with the same pass by pass.

    python3 tests/blocks.py [--text old] [--dry] [--fault NAME] [COUNT] [SEED]

Run from the repository root. Builds tests/blocks.c with include/karvelorn.h and the library for C (which it has rt make
where it is missing or older than the code). COUNT ringings at random, each cut into blocks at random places: with commands, Lingers,
an order or none, chosen DACs, refusals in the middle, runs too short for all frames. Of each call the number, the passes done, the
commands taken and every sample must be the reference's, and at the end every word of the machine and of delay memory; the program
compares each call with karvelorn_pass and karvelorn_update by turns. The first ringings are asked of the program once more, built with
the sanitizers, as C99 and as C++17, all with all warnings. The gate asks few; 5000 make the 5,000 ringings. Fails too where something
was met too seldom. With --dry nothing is built or asked; with --fault it is said in how many answers a fault of reference/faults.py shows.
"""

import os
import struct
import subprocess
import sys
from collections import Counter
from typing import NamedTuple

# First, since it makes the reference known.
from library import LIBRARY, ROOT, Test, compared, counts, make_library, met_seldom, packed, read_arguments, show_words, unpacked

from pass_requests import BAD_ORDERS, good_order
from reference import layout
from reference.block import ring_block
from reference.faults import switched_on
from reference.machine import zero_memory
from reference.ring import bench_file, first_machine
from reference.words import low
from ring_files import NOT_BUILT, TICKS_257, TO_READ, TO_WRITE, drawn_bench
from texts import OLD_TEXT, Chance

COUNT, SEED, SANITIZED = 300, 35, 40
HEAD, CALL, PAIR = struct.Struct("<9I"), struct.Struct("<IIQ"), struct.Struct("<2I")
UNWRITTEN = 0x5A5A5A5A
WARNINGS = ("-Wall", "-Wextra", "-Wpedantic", "-Wconversion", "-Werror")
SANITIZERS = ("-fsanitize=address,undefined", "-fno-sanitize-recover=all")
MADE, SMALL = 2654435761, 1 << 20
# Commands: a Linger without its pass; some that stop a ringing, there or in the next pass; GQ and GP of generators 0 and 1 set to 0.
LINGER, STOPS, HARMLESS = 0x110, (NOT_BUILT, TICKS_257, TO_READ, TO_WRITE), (0x200, 0x201, 0x600, 0x601)

# How often each kind is met at least, in COUNT ringings; and with --text old.
PROMISED = {
    "ringings": 300, "calls": 800, "passes": 1200, "whole": 100, "an order": 90, "by number": 140, "two DACs": 90, "all DACs": 30, "no DACs": 20,
    "a run too short": 50, "no room": 40, "commands taken": 80, "a Linger waits": 60, "refused after passes of its call": 20,
    "joined with more than one block": 60, "delay memory changed": 20, "a command left out": 8,
    **{f"refused by {number}": 8 for number in (1, 2, 3, 4, 5, 6, 7, 8, 10, 11, 12)},
}
PROMISED_OLD = {
    "ringings": 300, "calls": 800, "passes": 1600, "whole": 130, "an order": 90, "by number": 140, "two DACs": 90, "all DACs": 30, "no DACs": 20,
    "a run too short": 50, "no room": 40, "joined with more than one block": 90,
    **{f"refused by {number}": 8 for number in (1, 2, 5, 6, 7, 8, 10)},
}


class Request(NamedTuple):
    """A ringing: its runs, the delay memory by its length, the number that it is made from and its other words, each call's passes and
    room, and whether a refused command is left out by the next call."""

    machine: list
    commands: list
    order: list
    dacs: list
    memory: tuple
    calls: list
    skips: int
    name: str


class Answer(NamedTuple):
    """Of each call what it answers; then the machine and the words of delay memory that are others, by slot."""

    calls: list
    machine: list
    changed: list


class Call(NamedTuple):
    """What a call answers, and its run for samples as words."""

    number: int
    done: int
    taken: int
    frames: list


def memory_of(request):
    """The delay memory that a request begins with."""
    length, fill, others = request.memory
    memory = [((slot + fill) * MADE & 0xFFFFFFFF) >> 12 for slot in range(length)] if fill else zero_memory()[:length]
    for slot, word in others:
        memory[slot] = word
    return memory


def answered(request, text):
    """What the reference answers."""
    machine, memory, commands, calls = request.machine, memory_of(request), request.commands, []
    first = memory
    for passes, room in request.calls:
        block = ring_block(machine, memory, commands, request.order, passes, request.dacs, [UNWRITTEN] * room, text.reference)
        calls.append(Call(block.number, block.done, block.taken, [sample % (1 << 32) for sample in block.frames]))
        left_out = 1 if request.skips and block.number in (3, 4) else 0
        machine, memory, commands = block.machine, block.memory, commands[block.taken + left_out:]
    return Answer(calls, machine, [(slot, word) for slot, (word, before) in enumerate(zip(memory, first)) if word != before])


# The ringings

def dacs_for(chance):
    """Chosen DACs."""
    return chance.choice(([0, 1], [0, 1], [1, 0], [chance.randrange(16)], list(range(16)), [],
                          [chance.randrange(1 << 32) for _ in range(chance.randrange(1, 7))]))


def order_for(chance, machine):
    """An order, mostly none."""
    t = machine[layout.T] if len(machine) > layout.T and 1 <= machine[layout.T] <= layout.T_MOST else 3
    kind = chance.randrange(10)
    if kind < 6:
        return []
    if kind == 9:
        return list(chance.choice(BAD_ORDERS)(chance, t, list(range(t)))) or [t]
    return list(good_order(chance, t))


def calls_for(chance, width):
    """Calls at random: so many passes each, most with room for their frames."""
    left, made = chance.choice((3, 5, 8, 13, 21, 21)), []
    while left > 0:
        passes = min(left, chance.choice((1, 2, 3, 4, 8, 21)))
        kind = chance.randrange(14)
        room = chance.randrange(passes * width + 1) if kind == 0 else max(width - 1, 0) if kind == 1 else passes * width + chance.randrange(3)
        made.append((passes, room))
        left -= passes
    if not chance.randrange(6):
        made.insert(chance.randrange(len(made) + 1), (0, chance.randrange(3)))
    return made


def linger_after(machine, passes):
    """A Linger that waits for so many passes."""
    return low(machine[layout.COUNTER] + passes, 20) << 12 | LINGER


def with_stops(chance, commands, machine):
    """Commands, of which a few at least wait for a later pass, and then some that stop a ringing or turn a generator to data."""
    commands = list(commands)[:chance.randrange(4)]
    for passes in sorted(chance.sample(range(1, 15), chance.randrange(1, 4))):
        commands += [linger_after(machine, passes), *chance.sample(STOPS, chance.randrange(2)), chance.choice(HARMLESS)]
    return commands


def memory_for(chance):
    """A delay memory, mostly of zeros or of words of 20 bits; some of another length or with a wider word."""
    kind = chance.randrange(60)
    length = layout.MEMORY_WORDS - 1 if kind == 0 else 0 if kind == 1 else layout.MEMORY_WORDS
    others = [(chance.randrange(length), SMALL + chance.randrange(9))] if kind == 2 else []
    return length, chance.choice((0, 0, chance.randrange(1, 1 << 20))), others


def drawn(chance, number, text):
    """A ringing at random."""
    read = bench_file(drawn_bench(chance, text is not OLD_TEXT))
    machine = first_machine(read.words)
    if number % 29 == 7:
        machine = machine[:chance.choice((0, 1, layout.MACHINE_WORDS - 1))]
    waits = text is not OLD_TEXT and len(machine) == layout.MACHINE_WORDS and number % 3
    commands = with_stops(chance, read.commands, machine) if waits else list(read.commands)
    dacs = dacs_for(chance)
    return Request(machine, commands, order_for(chance, machine), dacs, memory_for(chance), calls_for(chance, len(dacs)),
                   chance.randrange(2), f"ringing {number}")


def requests(count, seed, text):
    """So many ringings, each with the reference's answer."""
    chance = Chance(seed, text)
    for number in range(count):
        request = drawn(chance, number, text)
        yield request, answered(request, text)


# As bytes, and as people read them

def request_bytes(request):
    """A request as the program reads it."""
    length, fill, others = request.memory
    runs = (request.machine, request.commands, request.order, request.dacs)
    return (HEAD.pack(*(len(run) for run in runs), length, fill, len(others), len(request.calls), request.skips)
            + b"".join(packed(run) for run in runs) + b"".join(PAIR.pack(*pair) for pair in (*others, *request.calls)))


def answer_bytes(answer):
    """An answer as the program writes it."""
    calls = b"".join(CALL.pack(call.number, call.done, call.taken) + packed(call.frames) for call in answer.calls)
    return calls + packed(answer.machine) + packed([len(answer.changed)]) + b"".join(PAIR.pack(*pair) for pair in answer.changed)


def show(request, expected, got):
    """One difference: the first call that differs, else the words."""
    at = 0
    for number, (call, (passes, room)) in enumerate(zip(expected.calls, request.calls)):
        size = CALL.size + 4 * room
        part = got[at:at + size]
        at += size
        if part != CALL.pack(call.number, call.done, call.taken) + packed(call.frames):
            told = (*CALL.unpack(part[:CALL.size]), unpacked(part[CALL.size:])) if len(part) == size else "cut short"
            print(f"  call {number} of {passes} passes, room {room}: reference {call}, program {told}")
            return
    words = unpacked(got[at:at + 4 * len(expected.machine)])
    show_words([(f"word {i}", a, b) for i, (a, b) in enumerate(zip(expected.machine, words)) if a != b])


BLOCKS = Test("blocks", request_bytes, answer_bytes, show)


# What the ringings met

def call_events(request, call, passes, room):
    """What is counted of a call."""
    width = len(request.dacs)
    yield "calls"
    if call.number:
        yield f"refused by {call.number}"
        if call.done:
            yield "refused after passes of its call"
        if request.skips and call.number in (3, 4):
            yield "a command left out"
    elif call.done < passes:
        yield "a run too short"
    if passes and width > room:
        yield "no room"
    if call.taken:
        yield "commands taken"


def events(request, answer):
    """All that is counted of a ringing."""
    yield "ringings"
    yield "an order" if request.order else "by number"
    yield from ({2: "two DACs", 16: "all DACs", 0: "no DACs"}.get(len(request.dacs), "other DACs"),)
    for call, (passes, room) in zip(answer.calls, request.calls):
        yield from call_events(request, call, passes, room)
        yield from ["passes"] * call.done
    if not any(call.number for call in answer.calls):
        yield "whole"
        if sum(call.done > 0 for call in answer.calls) > 1:
            yield "joined with more than one block"
    if len(answer.machine) == layout.MACHINE_WORDS and answer.machine[layout.LINGERING]:
        yield "a Linger waits"
    if answer.changed:
        yield "delay memory changed"


# Building and asking

def build(test, title, *options):
    """The program, under a title. It takes its place whole: another test may be running it."""
    program = f"{test.program}{title}"
    made, defined = f"{program}.{os.getpid()}", ["-DOLD_TEXT"] if test.text is OLD_TEXT else []
    subprocess.run([*options, "-O1", *WARNINGS, *defined, "-I", os.path.join(ROOT, "include"), os.path.join(ROOT, "tests", "blocks.c"),
                    "-x", "none", LIBRARY, "-o", made], check=True)
    os.replace(made, program)
    return program


def sanitized(test, pairs):
    """Asks the program, built with the sanitizers, as C99 and as C++17; gives how many do not answer the same."""
    asked, differ = b"".join(request_bytes(request) for request, _ in pairs), 0
    expected = b"".join(answer_bytes(answer) for _, answer in pairs)
    for title, options in (("C99", ("gcc", "-std=c99", "-x", "c")), ("C++17", ("g++", "-std=c++17", "-x", "c++"))):
        program = build(test, "-" + title.replace("+", "p"), *options, *SANITIZERS)
        done = subprocess.run([program], input=asked, stdout=subprocess.PIPE)
        same = done.returncode == 0 and done.stdout == expected
        print(f"{test.title}, {title} with the sanitizers: {len(pairs)} asked, " + ("as before" if same else f"others, status {done.returncode}"))
        differ += not same
    return differ


def main(arguments):
    """Reads the arguments; see the head of this file."""
    options = read_arguments(arguments, COUNT, SEED)
    test, met, first = BLOCKS.by(options), Counter(), []
    if options.fault:
        pairs = list(requests(options.count, options.seed, options.text))
        with switched_on(options.fault):
            showing = sum(answered(request, options.text) != answer for request, answer in pairs)
        print(f"fault {options.fault} shows in {showing} of {len(pairs)} answers")
        return 0 if showing else 1

    def count(request, answer):
        met.update(events(request, answer))
        if len(first) < SANITIZED:
            first.append((request, answer))

    if not options.dry:
        make_library("blocks")
        build(test, "", "gcc", "-std=c99", "-x", "c")
    status = compared(test, requests(options.count, options.seed, options.text), count, options.dry)
    if not options.dry:
        status = sanitized(test, first) or status
    print(f"met: {counts(met)}")
    return met_seldom(met, PROMISED_OLD if options.text is OLD_TEXT else PROMISED, options.count, COUNT) or int(status != 0)


if __name__ == "__main__":
    sys.exit(main(sys.argv[1:]))
