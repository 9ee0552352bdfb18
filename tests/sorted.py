"""Compares the program sorted with the reference.

    python3 tests/sorted.py [--text old] [--dry] [--fault NAME] [COUNT] [SEED]

The program sorted must be built. With --text old most bells follow the older text. Within a stack of 512 kB it sorts the bench files of tests/files and examples, those by hand in
tests/ring_files.py and those of COUNT bells at random, by pitch and by order files, good and bad. All
lines must be the reference's. Where a point fails, the word or the written item must be the first at
which passes of the reference by the two orders differ, from the contents that karvelorn_parts gives:
tests/contents.c is built for that with the library for C (which it has rt make where it
is missing or older than the code). Some orders that the program printed are handed back to it. Last,
but for the older text, come files and streams that cannot be read or written, or come in pieces. Fails too where an outcome
was met too seldom. With --fault the reference has one fault of reference/faults.py on: the comparison
must fail. With --dry nothing is built or run: it says what the inputs met, with the reference's own
contents; with --fault it says for how many inputs the fault shows.
"""

import os
import re
import struct
import subprocess
import sys
import tempfile
import time
from collections import Counter
from concurrent.futures import ThreadPoolExecutor
from contextlib import contextmanager, nullcontext
from threading import Thread
from typing import NamedTuple

# First, since it makes the reference known.
from library import ROOT, Test, build, counts, met_seldom, packed, program_of, read_arguments, unpacked

from reference import layout
from reference.cases.old_orders import settings
from reference.faults import switched_on
from reference.machine import below_t
from reference.parts import parting
from reference.sorted import by_pitch, shown, sorted_text
from ring_files import EXAMPLE
from ringing import small_stack
from sorted_requests import all_inputs
from texts import NEW_TEXT, OLD_TEXT

COUNT, SEED = 500, 1978
PROGRAM = program_of("sorted")
CANNOT_READ, CANNOT_WRITE = b"sorted: cannot read", b"sorted: cannot write"
SHOWN, BATCH, TIME_MOST = 5, 100, 60
HEAD, NUMBERS = struct.Struct("<4I"), struct.Struct("<3I")

# How often each outcome is met at least, whatever the count of bells; and each kind, with COUNT bells or more.
OUTCOMES = ("equal", "point 1", "point 2", "point 3", "point 4", "word", "written", "refused=2", "refused=5",
            "refused=6", "refused=9", "order-refused=9")
OUTCOME_LEAST = 10
PROMISED = {
    **{outcome: 40 for outcome in OUTCOMES},
    "inputs": 3000, "by pitch": 400, "by an order file": 400, "values of T": 140, "T 1": 100, "T 256": 30,
    "handed back": 100, "with commands": 100, "equal, not by number": 100,
    # By pitch, and another order if a pitch were another.
    "another order by pitch_unsigned": 40, "another order by pitch_not_by_magnitude": 40,
    "another order by pitch_of_28_bits": 40, "another order by higher_number_first": 40,
    # Which words show a difference.
    "a generator's word": 20, "a sum word": 20, "a DAC's word": 20, "written, 1 digits": 20, "written, 2 digits": 10,
    "written, 3 digits": 10,
}
# With COUNT bells of the older text or more.
PROMISED_OLD = {
    **{outcome: 30 for outcome in (*OUTCOMES, "refused=13")},
    "inputs": 2000, "by pitch": 300, "by an order file": 300, "values of T": 140, "T 256": 20, "handed back": 80,
    "equal, not by number": 100, "a generator's word": 20, "a sum word": 20, "a DAC's word": 20, "written, 1 digits": 20,
}
PITCH_FAULTS = ("pitch_unsigned", "pitch_not_by_magnitude", "pitch_of_28_bits", "higher_number_first")


# The program

class Outcome(NamedTuple):
    """What a program printed, what it said on the error output, and its exit status."""

    printed: bytes
    told: bytes
    status: int


def run(arguments, **more):
    """The program's outcome."""
    more.setdefault("preexec_fn", small_stack)
    done = subprocess.run([PROGRAM, *arguments], stderr=subprocess.PIPE, timeout=TIME_MOST, **more)
    return Outcome(done.stdout or b"", done.stderr, done.returncode)


def asked(folder, number, text, order_text):
    """The program's outcome for a bench file and, if it is not None, an order file."""
    if order_text is None:
        return run([], input=text, stdout=subprocess.PIPE)
    path = os.path.join(folder, f"{number}.order")
    with open(path, "wb") as file:
        file.write(order_text)
    return run([path], input=text, stdout=subprocess.PIPE)


def order_printed(printed):
    """The lines of the order among those that the program printed."""
    return b"".join(line for line in printed.splitlines(keepends=True) if line.startswith(b"order="))


def outcomes(folder, number, tried):
    """The program's outcome for an input; and for the same with the printed order handed back, or None."""
    first = asked(folder, number, tried.text, tried.order_text)
    if not tried.again or not order_printed(first.printed):
        return first, None
    return first, asked(folder, f"{number}-again", tried.text, order_printed(first.printed))


# What the program must print

CONTENTS = Test("contents", None, None, None)


def contents_request(verdict):
    """What is asked of tests/contents.c for unequal orders."""
    runs = verdict.machine, verdict.first, verdict.second
    readers = below_t(verdict.machine, verdict.text.reads)
    return HEAD.pack(*map(len, runs), readers) + b"".join(map(packed, runs))


def contents_answers(batch):
    """For each verdict of one text that names a point: the library's contents and items, by its number and point."""
    text = next(text for text in (NEW_TEXT, OLD_TEXT) if text.reference is batch[0].text)
    done = subprocess.run([CONTENTS._replace(text=text).program], input=b"".join(map(contents_request, batch)),
                          stdout=subprocess.PIPE, check=True)
    at = 0
    for verdict in batch:
        number, point, place = NUMBERS.unpack_from(done.stdout, at)
        at += NUMBERS.size
        words = layout.MACHINE_WORDS + below_t(verdict.machine, verdict.text.reads)
        run_words = unpacked(done.stdout[at:at + 4 * words])
        at += 4 * words
        said = b"point=%d place=%d " % (point, place)
        assert number == 0 and verdict.printed.endswith(said), f"karvelorn_parts says {number}, {said.decode()}"
        yield run_words[:layout.MACHINE_WORDS], run_words[layout.MACHINE_WORDS:]
    assert at == len(done.stdout)


def batches(verdicts):
    """The verdicts, some at a time, each time of one text."""
    for text in (NEW_TEXT, OLD_TEXT):
        its = [verdict for verdict in verdicts if verdict.text is text.reference]
        yield from (its[at:at + BATCH] for at in range(0, len(its), BATCH))


def wanted(verdicts, dry):
    """What must be printed for each verdict."""
    ends = {}
    for batch in batches([verdict for verdict in verdicts if verdict.point]):
        found = [parting(*verdict[2:]) for verdict in batch] if dry else contents_answers(batch)
        for verdict, (contents, items) in zip(batch, found):
            same = settings(contents, verdict.text) == settings(verdict.machine, verdict.text)
            assert same, "contents have other settings"
            ends[id(verdict)] = shown(contents, items, *verdict[3:])
    return [verdict.printed + ends.get(id(verdict), b"") for verdict in verdicts]


# What the inputs met

LAST_LINE = re.compile(rb"point=(\d) place=\d+ (word|written)=(\d+)\n")


def word_kind(place):
    """What kind of word shows a difference."""
    if place < layout.MODIFIERS_AT:
        return "a generator's word"
    if layout.GENERATOR_THIS <= place < layout.DACS_AT:
        return "a sum word"
    return "a DAC's word" if layout.DACS_AT <= place < layout.DX else "another word"


def pitch_events(machine):
    """Which faults of a pitch would give another order."""
    order = by_pitch(machine)
    for fault in PITCH_FAULTS:
        with switched_on(fault):
            if by_pitch(machine) != order:
                yield f"another order by {fault}"


def events(tried, verdict, printed):
    """All that is counted of an input."""
    last = printed.splitlines(keepends=True)[-1]
    found = LAST_LINE.fullmatch(last)
    yield "inputs"
    if found:
        yield f"point {int(found[1])}"
        yield found[2].decode()
        place = int(found[3])
        yield word_kind(place) if found[2] == b"word" else f"written, {len(found[3])} digits"
    else:
        yield last.decode().strip()
    if verdict.machine is None:
        return
    yield f"T {len(verdict.second)}"
    yield "by pitch" if tried.order_text is None else "by an order file"
    if not verdict.point and verdict.second != verdict.first:
        yield "equal, not by number"
    if b"\ncommand=" in tried.text:
        yield "with commands"
    if tried.order_text is None:
        yield from pitch_events(verdict.machine)


def met_by(tried):
    """What all inputs met."""
    met = Counter()
    for one in tried:
        met.update(events(*one))
    met["values of T"] = sum(bool(re.fullmatch(r"T \d+", kind)) for kind in met)
    return met


def report(met):
    """Prints what was met, the T that are not promised as one count."""
    print("met: " + counts(Counter({kind: times for kind, times in met.items()
                                    if kind in PROMISED or not kind.startswith("T ")})))


# The comparison

def show(number, tried, expected, got):
    """One difference; its files are kept."""
    path = f"{PROGRAM}-{number}"
    for ending, data in ((".txt", tried.text), (".order", tried.order_text)):
        if data is not None:
            with open(path + ending, "wb") as file:
                file.write(data)
    print(f"{tried.name}, the input is {path}.*:")
    lines, printed = expected.split(b"\n"), got.printed.split(b"\n")
    for at, (a, b) in enumerate(zip(lines + [b"(nothing)"], printed + [b"(nothing)"])):
        if a != b:
            print(f"  line {at + 1}: reference {a.decode()}, program {b[:200].decode('latin-1')}")
            break
    if got.status or got.told:
        print(f"  status {got.status}, error output: {got.told[:500].decode(errors='replace')}")


def differing(inputs, expected, runs):
    """How many inputs and orders handed back differ, and how many were handed back."""
    differ, back = 0, 0
    for number, (tried, printed, (got, again)) in enumerate(zip(inputs, expected, runs)):
        back += again is not None
        for one in (got, again):
            if one not in (None, Outcome(printed, b"", 0)):
                if differ < SHOWN:
                    show(number, tried, printed, one)
                differ += 1
    return differ, back


def dry_run(inputs, fault):
    """Says what the inputs met or for how many a fault shows; gives what was met, or None."""
    verdicts = [sorted_text(*tried[1:3]) for tried in inputs]
    if not fault:
        print(f"sorted: {len(inputs)} inputs made and not asked")
        expected = wanted(verdicts, dry=True)
        return met_by(zip(inputs, verdicts, expected))
    with switched_on(fault):
        showing = sum(sorted_text(*tried[1:3]).printed != verdict.printed
                      for tried, verdict in zip(inputs, verdicts))
    print(f"fault {fault} shows for {showing} of {len(inputs)} inputs")
    return None


def compared(inputs, fault):
    """Runs the program on all inputs; gives how many differ, and what they met."""
    with tempfile.TemporaryDirectory() as folder, ThreadPoolExecutor(2) as pool:
        # The program runs while the reference works.
        runs = [pool.submit(outcomes, folder, number, tried) for number, tried in enumerate(inputs)]
        with switched_on(fault) if fault else nullcontext():
            verdicts = [sorted_text(*tried[1:3]) for tried in inputs]
            expected = wanted(verdicts, dry=False)
        differ, back = differing(inputs, expected, [run.result() for run in runs])
    met = met_by(zip(inputs, verdicts, expected))
    met["handed back"] = back
    print(f"sorted: {len(inputs)} inputs and {back} orders handed back compared, {differ} differ")
    return differ, met


# Order files and streams that cannot be read or written

def unreadable_orders(folder):
    """Paths of no file that can be read."""
    missing = os.path.join(folder, "missing")
    yield "a missing order file", missing
    yield "a directory as order file", folder
    yield "a missing folder", os.path.join(missing, "order")
    loop = os.path.join(folder, "loop")
    os.symlink(loop, loop)
    yield "a link to itself", loop


@contextmanager
def pieces(data):
    """A pipe that gives some bytes, a few at a time."""
    reader, writer = os.pipe()

    def write_all():
        with open(writer, "wb", buffering=0) as pipe:
            for at in range(0, len(data), 3):
                pipe.write(data[at:at + 3])
                time.sleep(0.0005)
    thread = Thread(target=write_all)
    thread.start()
    yield reader
    os.close(reader)
    thread.join()


def failing(folder):
    """What cannot be read or written: a name, the outcome, and how the error output begins."""
    order = os.path.join(folder, "order")
    with open(order, "wb") as file:
        file.write(b"order=1\norder=0\n")
    for name, path in unreadable_orders(folder):
        yield name, run([path], input=EXAMPLE, stdout=subprocess.PIPE), CANNOT_READ
    for given in ([], [order]):
        directory = os.open(ROOT, os.O_RDONLY)
        yield "a directory on standard input", run(given, stdin=directory, stdout=subprocess.PIPE), CANNOT_READ
        os.close(directory)
        yield "no standard input", run(given, stdout=subprocess.PIPE, preexec_fn=lambda: os.close(0)), CANNOT_READ
        yield "no standard output", run(given, input=EXAMPLE, preexec_fn=lambda: os.close(1)), CANNOT_WRITE
        for text in (EXAMPLE, b"", EXAMPLE + b"word=0:1048576\n"):
            with open("/dev/full", "wb") as full:
                yield "a full device", run(given, input=text, stdout=full), CANNOT_WRITE


def unusual():
    """Order files that are devices or pipes, and input in pieces: a name, the outcome, what is printed."""
    nothing = sorted_text(EXAMPLE, b"").printed
    for path in (os.devnull, "/dev/zero"):
        yield path, run([path], input=EXAMPLE, stdout=subprocess.PIPE), nothing
    order = b"order=1\norder=0\n"
    with pieces(EXAMPLE) as text, pieces(order) as entries:
        done = run([f"/dev/fd/{entries}"], stdin=text, stdout=subprocess.PIPE, pass_fds=(entries,))
    yield "both in pieces", done, sorted_text(EXAMPLE, order).printed
    with pieces(EXAMPLE[:-1]) as text:
        yield "a text in pieces", run([], stdin=text, stdout=subprocess.PIPE), sorted_text(b"", None).printed


def outside(folder):
    """All of these: a name, the outcome, what is printed, and how the error output begins."""
    for name, got, told in failing(folder):
        yield name, got, b"", told
    for name, got, printed in unusual():
        yield name, got, printed, b""


def outside_differing():
    """How many of these differ; the status counts only where nothing fails."""
    differ, tried = 0, 0
    with tempfile.TemporaryDirectory() as folder:
        for name, got, printed, told in outside(folder):
            tried += 1
            one_line = got.told.count(b"\n") == 1 if told else not got.told
            ended = got.status >= 0 if told else got.status == 0
            if got.printed != printed or not got.told.startswith(told) or not one_line or not ended:
                differ += 1
                print(f"{name}: got {str(got)[:400]}, not {printed!r} and {told!r}")
    print(f"outside: {tried} checks, {differ} differ")
    return differ


def main(arguments):
    """Reads the arguments; see the head of this file."""
    options = read_arguments(arguments, COUNT, SEED)
    inputs = list(all_inputs(options.count, options.seed, options.text))
    if options.dry:
        differ, met = 0, dry_run(inputs, options.fault)
        if met is None:
            return 0
        met["handed back"] = sum(tried.again for tried in inputs)
    else:
        # Files of 1978 stand among those of the older text.
        for text in {NEW_TEXT, options.text}:
            build(CONTENTS._replace(text=text))
        differ, met = compared(inputs, options.fault)
        if options.text is NEW_TEXT:
            differ += outside_differing()
    report(met)
    rare = [outcome for outcome in OUTCOMES if met[outcome] < OUTCOME_LEAST]
    for outcome in rare:
        print(f"FAIL: {outcome} met {met[outcome]} times, promised {OUTCOME_LEAST}")
    # Those by hand are as many for any count.
    promised = PROMISED if options.text is NEW_TEXT else PROMISED_OLD
    seldom = met_seldom(met, promised, min(options.count, COUNT), COUNT)
    print(f"{met['inputs']} inputs, {differ} differ")
    return 1 if differ or rare or seldom else 0


if __name__ == "__main__":
    sys.exit(main(sys.argv[1:]))
