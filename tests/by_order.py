"""Compares the programs ring and wav, given an order file or - for by pitch, with the reference by the same order.

    python3 tests/by_order.py [--text old] [--dry] [--fault NAME] [COUNT] [SEED]

The programs ring and wav must be built. COUNT bench files at random, of 1978 or with --text old of the older text, some of
them damaged, each with an order: good ones, nearly by number, by number, by pitch, too short, too long, doubled, beyond T, and texts
that are no order file. Some files have a command that sets another T: then the pass after it is refused by 5. What ring prints must be
the reference's, byte for byte; where wav isn't refused it gives these lines as a sound, else the refusal on standard error. By number
both programs answer as without an argument, as long as no command sets another T. The gate asks few; 1500, and 700 with --text old, make the 2,000 files. Fails too where
something was met too seldom. With --dry no program is run; with --fault none is either: it is said for how many inputs a fault of
reference/faults.py shows.
"""

import os
import subprocess
import sys
import tempfile
from collections import Counter
from concurrent.futures import ThreadPoolExecutor
from typing import NamedTuple, Union

# First, since it makes the reference known.
from library import counts, met_seldom, program_of, read_arguments

from pass_requests import BAD_ORDERS, good_order, swapped
from reference import layout
from reference.by_order import BY_PITCH, ring_by
from reference.cases.sortings import NOT_TAKEN
from reference.faults import switched_on
from reference.ring import bench_file, first_machine
from reference.sorted import by_pitch, order_lines
from ring_files import DAMAGE, bench, drawn_bench, examples
from ringing import small_stack
from text_files import OLD_LINE
from texts import NEW_TEXT, OLD_TEXT, Chance
from wav import NO_PASSES, expected as sound_of

COUNT, COUNT_OLD, SEED = 400, 400, 39
RING, WAV = map(program_of, ("ring", "wav"))
TIME_MOST, SHOWN = 60, 5
TICKS_T = 0b00011 << 7

# How often each kind is met at least, in COUNT inputs; and with --text old in COUNT_OLD.
PROMISED = {
    "inputs": 400, "rung": 80, "by pitch": 40, "by number": 20, "other lines than by number": 4, "by pitch, not by number": 12,
    "order-refused=9": 40, "refused=2": 5, "refused=5": 10, "refused=5 later": 15, "refused=6": 8, "refused=9": 15,
}
PROMISED_OLD = {
    "inputs": 400, "rung": 80, "by pitch": 30, "by number": 15, "other lines than by number": 4, "by pitch, not by number": 8,
    "order-refused=9": 25, "refused=2": 5, "refused=5": 8, "refused=6": 8, "refused=9": 12,
}


class Input(NamedTuple):
    """A bench file, an order file's text or - for by pitch, a name for people, and whether the order is the one by number."""
    text: bytes
    order: Union[bytes, str]
    name: str
    by_number: bool = False


# The inputs

def order_for(chance, number, machine):
    """An order of a machine's generators, good or not, as entries; and a name."""
    t = machine[layout.T] if 1 <= machine[layout.T] <= layout.T_MOST else 3
    kind = number % 10
    if kind < 4:
        return good_order(chance, t), "any order"
    if kind < 6:
        return swapped(chance, list(range(t))) if t > 1 else [0], "nearly by number"
    if kind == 6:
        return list(range(t)), "by number"
    if kind == 7:
        entries = chance.choice(BAD_ORDERS)(chance, t, list(range(t)))
        return [entry % 256 for entry in entries][:256] or [t % 256], "a bad order"
    return by_pitch(machine) if t == machine[layout.T] else [0], "by pitch"


def with_other_t(chance, text, machine):
    """The file with a command that sets another T among the first of its commands, or as it is."""
    lines = text.splitlines(keepends=True)
    at = next((i for i, line in enumerate(lines) if line.startswith(b"command=")), len(lines))
    t = chance.choice((machine[layout.T] - 1, machine[layout.T] + 1, 1, 256, machine[layout.T]))
    return b"".join(lines[:at] + [b"command=%08X\n" % (max(t - 1, 0) << 12 | TICKS_T)] + lines[at:])


def drawn(chance, number, old):
    """An input at random."""
    body = drawn_bench(chance, not old)
    machine = first_machine(bench_file(body).words)
    if not old and number % 5 == 1 and machine[layout.T] <= layout.T_MOST:
        body = with_other_t(chance, body, machine)
    text = (OLD_LINE if old else b"") + body
    entries, name = order_for(chance, number, machine)
    order = BY_PITCH if name == "by pitch" and chance.randrange(3) else order_lines(entries)
    if number % 11 == 3:
        order, name = chance.choice(NOT_TAKEN), "no order file"
    if number % 13 == 5:
        text, name = chance.choice(DAMAGE)(chance, text), f"a damaged file, {name}"
    return Input(text, order, f"{name} {number}", name == "by number")


def at_random(count, seed, text):
    """So many inputs."""
    chance = Chance(seed, text)
    return [drawn(chance, number, text is OLD_TEXT) for number in range(count)]


def by_hand(text):
    """The short examples by pitch, backwards and by number; texts that are no order files; files that a question refuses before the order."""
    line = OLD_LINE if text is OLD_TEXT else b""
    for name, file in examples(text).items():
        if bench_file(file).passes <= 100:
            t = first_machine(bench_file(file).words)[layout.T]
            for order, by_number in ((BY_PITCH, False), (order_lines(range(t)), True), (order_lines(range(t - 1, -1, -1)), False)):
                yield Input(file, order, f"examples/{name}", by_number)
    for order in NOT_TAKEN:
        yield Input(line + bench(1), order, "no order file")
    for body in (b"passes=1", b"passes=1\nword=4113:257\n", b"passes=0\n", b"passes=0\nword=0:1048576\n"):
        for order in (b"order=0\n", b"order=x\n", BY_PITCH):
            yield Input(line + body, order, "refused before or after the order")
    yield Input(b"text=new\npasses=1\n", b"order=x\n", "13 before the order")


# The programs

class Outcome(NamedTuple):
    """What a program printed and told, and its status."""
    printed: bytes
    told: bytes
    status: int


def run(program, text, *order):
    """A program's outcome for a file, and an order file's path or -."""
    done = subprocess.run([program, *order], input=text, stdout=subprocess.PIPE, stderr=subprocess.PIPE, timeout=TIME_MOST, preexec_fn=small_stack if program == RING else None)
    return Outcome(done.stdout, done.stderr, done.returncode)


def outcomes(folder, number, tried):
    """Of an input: what ring and wav answer, and by number what they answer without an argument."""
    path = BY_PITCH
    if tried.order != BY_PITCH:
        path = os.path.join(folder, f"{number}.order")
        with open(path, "wb") as file:
            file.write(tried.order)
    return [run(program, tried.text, path) for program in (RING, WAV)], [run(program, tried.text) for program in (RING, WAV) if tried.by_number]


def wav_wanted(tried, printed, got):
    """What wav gives for the lines that ring prints; a file of no passes is asked question 2 before its rate, which tests/wav.py tries."""
    if not printed and NO_PASSES.match(tried.text):
        return got
    if printed == b"order-refused=9\n":
        return Outcome(b"", printed, 0)
    return Outcome(*sound_of(tried.text, printed), 0)


def differences(tried, printed, runs):
    """The programs whose answer isn't the reference's, with what it should be."""
    (ring, wav), without = runs
    wanted = [Outcome(printed, b"", 0), wav_wanted(tried, printed, wav)]
    for name, got, expected in zip(("ring", "wav"), (ring, wav), wanted):
        if got != expected:
            yield name, got, expected
    for name, got, other in zip(("ring without an argument", "wav without an argument"), without, (ring, wav)):
        if got != other and not printed.endswith(b"\nrefused=5\n"):
            yield name, got, other


# What the inputs met

def events(number, tried, printed):
    """All that is counted of an input; whether its lines are others than by number is asked of every sixth."""
    last = printed.splitlines()[-1:] or [b""]
    yield "inputs"
    yield last[0].decode() + (" later" if printed.count(b"\n") > 1 else "") if b"refused=" in last[0] else "rung"
    if tried.by_number:
        yield "by number"
    if tried.order == BY_PITCH:
        yield "by pitch"
    if number % 6 == 0 and tried.order != BY_PITCH and b"pass=" in printed and not tried.by_number:
        t = first_machine(bench_file(tried.text).words)[layout.T]
        if ring_by(tried.text, order_lines(range(t))) != printed:
            yield "other lines than by number"
    if tried.order == BY_PITCH and b"pass=" in printed:
        machine = first_machine(bench_file(tried.text).words)
        if by_pitch(machine) != list(range(machine[layout.T])):
            yield "by pitch, not by number"


# The comparison

def show(number, tried, name, got, expected):
    """One difference; its files are kept."""
    path = f"{RING}-by-{number}"
    for ending, data in ((".txt", tried.text), (".order", tried.order if tried.order != BY_PITCH else b"")):
        with open(path + ending, "wb") as file:
            file.write(data)
    print(f"{name} of {tried.name}, the input is {path}.*{' (by pitch)' if tried.order == BY_PITCH else ''}: {str(got)[:300]}, not {str(expected)[:300]}")


def outside():
    """Order files that can't be read, and a failed write: told on standard error, and nothing printed."""
    text, wrong = bench(2), 0
    with tempfile.TemporaryDirectory() as folder:
        for program, name in ((RING, b"ring"), (WAV, b"wav")):
            for path in (os.path.join(folder, "missing"), folder):
                got = run(program, text, path)
                wrong += got.printed != b"" or got.told != name + b": cannot read the order file\n"
            with open("/dev/full", "wb") as full:
                done = subprocess.run([program, BY_PITCH], input=text, stdout=full, stderr=subprocess.PIPE)
            wrong += done.stderr != name + b": cannot write\n"
    print(f"outside: 6 checks, {wrong} differ")
    return wrong


def main(arguments):
    """Reads the arguments; see the head of this file."""
    options = read_arguments(arguments, None, SEED)
    old = options.text is OLD_TEXT
    count = options.count or (COUNT_OLD if old else COUNT)
    inputs = [*by_hand(options.text), *at_random(count, options.seed, options.text)]
    if options.fault:
        right = [ring_by(tried.text, tried.order) for tried in inputs]
        with switched_on(options.fault):
            shows = sum(ring_by(tried.text, tried.order) != printed for tried, printed in zip(inputs, right))
        print(f"fault {options.fault} shows for {shows} of {len(inputs)} inputs")
        return 0 if shows else 1
    met, differ = Counter(), 0
    with tempfile.TemporaryDirectory() as folder, ThreadPoolExecutor(2) as pool:
        # The programs run while the reference works.
        runs = [None if options.dry else pool.submit(outcomes, folder, number, tried) for number, tried in enumerate(inputs)]
        for number, tried in enumerate(inputs):
            printed = ring_by(tried.text, tried.order)
            met.update(events(number, tried, printed))
            for found in differences(tried, printed, runs[number].result()) if runs[number] else ():
                if differ < SHOWN:
                    show(number, tried, *found)
                differ += 1
    if not options.dry and options.text is NEW_TEXT:
        differ += outside()
    print(f"by order: {len(inputs)} inputs {'made' if options.dry else 'compared through ring and wav'}, {differ} differ\nmet: {counts(met)}")
    return met_seldom(met, PROMISED_OLD if old else PROMISED, count, COUNT_OLD if old else COUNT) or int(differ > 0)


if __name__ == "__main__":
    sys.exit(main(sys.argv[1:]))
