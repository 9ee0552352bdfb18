"""Tries the bench program where the outside fails it: a full device, a closed pipe, a failing descriptor, input in pieces.
Then the recipe of docs/HEAR.md for many files, also on a disk of 500 kB.

    python3 tests/outside.py [PROGRAM]

The programs ring and wav must be built. It runs in a stack of 512 kB. A failed write must end it with one line on
standard error and no later line; a failed read must have it print nothing, since a part of a file may be
another file. The recipe leaves whole sounds or none, and ends with a status that tells. What the machine cannot do is left
out with a sentence.
"""

import fcntl
import os
import re
import resource
import shutil
import signal
import socket
import struct
import subprocess
import sys
import tempfile
import time
from contextlib import contextmanager
from typing import NamedTuple

from library import ROOT, program_of
from ring_files import EXAMPLE, EXAMPLE_PRINTED, PASSES_MOST, bench, file, sizes
from reference.ring import FILE_MOST, ring
from ringing import TIME_MOST, small_stack

PROGRAM = sys.argv[1] if sys.argv[1:] else program_of("ring")
CANNOT_READ, CANNOT_WRITE = b"ring: cannot read\n", b"ring: cannot write\n"
# Silence by all 256 generators, so that it takes many times as long as to start a program.
LONG = bench(PASSES_MOST, [(11 * g + 10, 962) for g in range(256)] + [(4113, 256)])
LONG_PRINTED = "".join(f"pass={i} left=0 right=0\n" for i in range(1, PASSES_MOST + 1)).encode()
NOT_FITTING = b"passes=x\n"
# A cut of the example at the end of a line: a bench file that rings otherwise.
CUT = EXAMPLE[:EXAMPLE.index(b"word=21")]
PAGE, FILE_LIMIT = 4096, 100_000


class Outcome(NamedTuple):
    """What a program printed, what it said on the error output, and its exit status."""

    printed: bytes
    told: bytes
    status: int


def started(source, output=subprocess.PIPE, closed=(), prepare=lambda: None):
    """The program, started; some descriptors are closed in it."""
    def before():
        small_stack()
        prepare()
        for descriptor in closed:
            os.close(descriptor)
    return subprocess.Popen([PROGRAM], stdin=source, stdout=output, stderr=subprocess.PIPE, preexec_fn=before)


def outcome(process):
    """The outcome of a program that was started; one that does not end is ended, and so is this test."""
    try:
        printed, told = process.communicate(timeout=TIME_MOST)
    finally:
        process.kill()
    return Outcome(printed or b"", told, process.returncode)


def opened(text):
    """A file that has a text, open at its start."""
    made = tempfile.TemporaryFile()
    made.write(text)
    made.seek(0)
    return made


def ignore_sigpipe():
    """A write to a closed pipe fails, and no signal comes."""
    signal.signal(signal.SIGPIPE, signal.SIG_IGN)


def limit_files():
    """A file that reaches the limit is as a full disk: the write fails and no signal comes."""
    signal.signal(signal.SIGXFSZ, signal.SIG_IGN)
    resource.setrlimit(resource.RLIMIT_FSIZE, (FILE_LIMIT, FILE_LIMIT))


# Writing. Each check is a name, what was got and what must be got.

def ordinary():
    """Files and pipes that do not fail."""
    yield "the example", outcome(started(opened(EXAMPLE))), Outcome(EXAMPLE_PRINTED, b"", 0)
    with tempfile.TemporaryFile() as printed:
        done = outcome(started(opened(LONG), printed))
        printed.seek(0)
        yield "a long file into a file", (done, printed.read()), (Outcome(b"", b"", 0), LONG_PRINTED)


def processor_time(output):
    """The outcome of the long file, and the processor time that it took."""
    before = resource.getrusage(resource.RUSAGE_CHILDREN)
    done = outcome(started(opened(LONG), output))
    after = resource.getrusage(resource.RUSAGE_CHILDREN)
    return done, after.ru_utime + after.ru_stime - before.ru_utime - before.ru_stime


def full_device():
    """A device that takes no byte. The long file ends in a small part of the time that it takes to ring it all."""
    if not os.path.exists("/dev/full"):
        print("outside: left out, since this machine does not have it: a device that is full")
        return
    failed = Outcome(b"", CANNOT_WRITE, 0)
    with open("/dev/full", "wb") as full, open(os.devnull, "wb") as taking:
        yield "the example on a full device", outcome(started(opened(EXAMPLE), full)), failed
        yield "a refusal on a full device", outcome(started(opened(NOT_FITTING), full)), failed
        yield "no passes on a full device", outcome(started(opened(bench(0)), full)), Outcome(b"", b"", 0)
        done, spent = processor_time(full)
        yield "a long file on a full device", done, failed
        all_rung, needed = processor_time(taking)
        yield "a long file on a device that takes all", all_rung, Outcome(b"", b"", 0)
        yield f"ends at once on a full device ({spent:.3f} s of {needed:.3f} s)", spent * 4 < needed, True


def full_disk():
    """A file that can take only its first bytes: they are those of the whole output."""
    with tempfile.TemporaryFile() as limited:
        done = outcome(started(opened(LONG), limited, prepare=limit_files))
        limited.seek(0)
        yield "a file with a limit", (done, limited.read()), (Outcome(b"", CANNOT_WRITE, 0), LONG_PRINTED[:FILE_LIMIT])


def closed_pipes():
    """A reader that leaves after the first bytes, with the signal ignored and as usual; an output that is not open."""
    endings = (("ignored", ignore_sigpipe, Outcome(b"", CANNOT_WRITE, 0)),
               ("as usual", lambda: None, Outcome(b"", CANNOT_WRITE, 0)))  # the runtime ignores it: the write fails
    for name, prepare, wanted in endings:
        reader, writer = os.pipe()
        process = started(opened(LONG), writer, prepare=prepare)
        os.close(writer)
        first = os.read(reader, 100)
        os.close(reader)
        yield f"a pipe that is closed, its signal {name}", (outcome(process), first), (wanted, LONG_PRINTED[:len(first)])
    yield "no standard output", outcome(started(opened(EXAMPLE), closed=(1,))), Outcome(b"", CANNOT_WRITE, 0)


def filled_pipe():
    """A pipe of one page that refuses a write while it is full, and is read all the time: no line comes after the failed one."""
    reader, writer = os.pipe()
    fcntl.fcntl(writer, getattr(fcntl, "F_SETPIPE_SZ", 1031), PAGE)
    os.set_blocking(writer, False)
    process = started(opened(LONG), writer)
    os.close(writer)
    printed = b""
    while more := os.read(reader, PAGE):
        printed += more
        time.sleep(0.002)
    os.close(reader)
    yield "a pipe that was full for a moment", (outcome(process), printed), (Outcome(b"", CANNOT_WRITE, 0), LONG_PRINTED[:len(printed)])


# Reading

@contextmanager
def reset_socket():
    """A socket that gives the cut, then fails: its other end was closed with a byte unread."""
    ours, theirs = socket.socketpair()
    with theirs:
        with ours:
            theirs.sendall(b"x")
            ours.sendall(CUT)
        yield theirs.fileno()


@contextmanager
def reset_connection():
    """A TCP connection that gives the cut, then fails: its other end reset it."""
    with socket.create_server(("127.0.0.1", 0)) as server, socket.create_connection(server.getsockname()) as theirs:
        with server.accept()[0] as ours:
            ours.sendall(CUT)
            ours.setsockopt(socket.SOL_SOCKET, socket.SO_LINGER, struct.pack("ii", 1, 0))
        yield theirs.fileno()


@contextmanager
def pipe_without_waiting():
    """A pipe that gives the cut, then fails since nothing more is there yet."""
    reader, writer = os.pipe()
    with open(reader, "rb"), open(writer, "wb"):
        os.write(writer, CUT)
        os.set_blocking(reader, False)
        yield reader


def fails_behind_the_cut(make):
    """Whether reads of a source give the cut and then fail."""
    read = b""
    try:
        with make() as source:
            while more := os.read(source, PAGE):
                read += more
    except OSError:
        return read == CUT
    return False


def failing_reads():
    """Descriptors that cannot be read, and those that fail behind a part of a file, which must not be rung."""
    failed = Outcome(b"", CANNOT_READ, 0)
    directory = os.open(ROOT, os.O_RDONLY)
    yield "a directory", outcome(started(directory)), failed
    os.close(directory)
    yield "no standard input", outcome(started(None, closed=(0,))), failed
    assert file("the cut", CUT).printed not in (b"", EXAMPLE_PRINTED)
    for make in (reset_socket, reset_connection, pipe_without_waiting):
        if not fails_behind_the_cut(make):
            print(f"outside: left out, since this machine does not have it: {make.__doc__}")
            continue
        with make() as source:
            yield make.__doc__, outcome(started(source)), failed


def in_pieces(text, size):
    """The outcome of a text that comes in pieces."""
    process = started(subprocess.PIPE)
    try:
        for at in range(0, len(text), size):
            process.stdin.write(text[at:at + size])
            process.stdin.flush()
            time.sleep(0.001)
    except BrokenPipeError:
        pass
    return outcome(process)


def slow_input():
    """Files in pieces ring as whole ones do: the example, one of the most bytes, and one that is too long."""
    yield "the example, byte by byte", in_pieces(EXAMPLE, 1), Outcome(EXAMPLE_PRINTED, b"", 0)
    for name, text in sizes():
        if name in ("full of commands", "full of commands, one LF more"):
            yield f"{name}, in pieces", in_pieces(text, 1000), Outcome(file(name, text).printed, b"", 0)


# Many files, as docs/HEAR.md says

SOUND_BYTES = 44 + 6 * PASSES_MOST
DISK = "500k"
# What is left on a disk of its own, which is gone afterwards: the status and the files with their sizes.
ON_A_DISK = """mount -t tmpfs -o size={disk} none "$1" && cp -a "$2/." "$1" && cd "$1" || exit 99
{recipe}
echo "status $?"; find . -type f -printf '%P/%s\\n'"""


def recipe():
    """The recipe of docs/HEAR.md."""
    with open(os.path.join(ROOT, "docs", "HEAR.md"), encoding="utf-8") as page:
        found = re.findall(r"^    (printf .*xargs.*)$", page.read(), re.M)
    assert len(found) == 1, found
    return found[0]


def bells(folder, names):
    """A folder of bells, each the example with its own name, and ./hear as a link."""
    os.makedirs(os.path.join(folder, "bells"))
    os.symlink(os.path.join(ROOT, "hear"), os.path.join(folder, "hear"))
    for name in names:
        shutil.copy(os.path.join(ROOT, "examples", "bell.txt"), os.path.join(folder, "bells", name + ".txt"))


def left(folder):
    """The sounds in a folder with their sizes, and what is neither a sound nor a bench file."""
    found = sorted(os.listdir(os.path.join(folder, "bells")))
    sizes_ = {name: os.path.getsize(os.path.join(folder, "bells", name)) for name in found if name.endswith(".wav")}
    return sizes_, [name for name in found if not name.endswith((".wav", ".txt"))]


def many_files():
    """The recipe with names that have blanks, apostrophes and umlauts; one file is refused, and had a sound before."""
    names = ["a bell", "the foundry's d'5", "Größe"]
    with tempfile.TemporaryDirectory() as folder:
        bells(folder, names)
        done = subprocess.run(["bash", "-c", recipe()], cwd=folder, stderr=subprocess.PIPE)
        whole = {name + ".wav": SOUND_BYTES for name in names}
        yield "many files", (done.returncode, left(folder)), (0, (whole, []))
        with open(os.path.join(folder, "bells", names[1] + ".txt"), "ab") as bell:
            bell.write(b"word=0:0")
        done = subprocess.run(["bash", "-c", recipe()], cwd=folder, stderr=subprocess.PIPE)
        whole[names[1] + ".older.wav"] = whole.pop(names[1] + ".wav")
        told = b"the foundry's d'5.txt makes no sound: refused=9" in done.stderr and b"has no LF at its end" in done.stderr
        yield "many files, one refused", (done.returncode, left(folder), told), (123, (whole, []), True)
        done = subprocess.run(["bash", "-c", recipe().replace("bells/", "none/")], cwd=folder, stderr=subprocess.PIPE)
        yield "no files", (done.returncode, b"cannot read none/*.txt" in done.stderr), (123, True)


def small_disk():
    """The recipe on a disk with room for one of two sounds: each is whole or not there, and the status tells."""
    if subprocess.run(["unshare", "-m", "sh", "-c", "mount -t tmpfs -o size=4k none /tmp"], stderr=subprocess.DEVNULL).returncode:
        print("outside: left out, since this machine does not have it: a disk of its own for a test")
        return
    for times in ("$(nproc)", "1"):
        with tempfile.TemporaryDirectory() as disk, tempfile.TemporaryDirectory() as folder:
            bells(folder, ["one bell", "another's"])
            script = ON_A_DISK.format(disk=DISK, recipe=recipe().replace("$(nproc)", times))
            done = subprocess.run(["unshare", "-m", "bash", "-c", script, "bash", disk, folder], stdout=subprocess.PIPE, stderr=subprocess.PIPE)
        status, *lines = done.stdout.decode().splitlines()
        sounds = [line for line in lines if not line.rpartition("/")[0].endswith(".txt")]
        whole = all(line.rpartition("/")[0].endswith(".wav") and int(line.rpartition("/")[2]) == SOUND_BYTES for line in sounds)
        least = 1 if times == "1" else 0
        yield f"a disk of {DISK}, {times} at a time", (status, whole, least <= len(sounds) <= 1, b"No space left on device" in done.stderr), ("status 123", True, True, True)


# Arguments and lengths

# 256 longest lines.
LONGEST_ORDER = b"order=255\n" * 256
# Sets T to 1.
TICKS_1 = 0x00000180


def by_arguments(program, arguments, source):
    """What one of the three programs prints and tells of a file on standard input, with arguments."""
    path = program_of(program)
    done = subprocess.run([path, *arguments], input=source, stdout=subprocess.PIPE, stderr=subprocess.PIPE, timeout=TIME_MOST,
                          preexec_fn=None if program == "wav" else small_stack)  # tests/wav.py has its stack
    return done.stdout, done.stderr


def longest_order():
    """An order file of 256 lines."""
    return "".join(f"order={g}\n" for g in range(256)).encode()


def order_arguments():
    """One argument at most; `-` is by pitch; a text that is no order file is refused after the bench file, and before a pass."""
    numbers = b"order=0\norder=1\n"
    two = bench(2, ((11 * 0 + 10, 962), (11 * 1 + 10, 962), (4113, 2)))
    with tempfile.TemporaryDirectory() as folder:
        named = {}
        for name, text in (("numbers", numbers), ("other", b"order=0\norder=01\n"), ("short", b"order=0\n"), ("twice", b"order=0\norder=0\n"),
                           ("256", longest_order()), ("257", longest_order() + b"order=0\n"), ("longest", LONGEST_ORDER), ("longest and a byte", LONGEST_ORDER + b"\n"), ("empty", b""), ("no LF", numbers[:-1])):
            named[name] = os.path.join(folder, name)
            with open(named[name], "wb") as target:
                target.write(text)
        plain = {program: by_arguments(program, [], two) for program in ("ring", "wav", "sorted")}
        for program in ("ring", "wav", "sorted"):
            yield f"{program} with two arguments", by_arguments(program, [named["numbers"]] * 2, two), (b"", program.encode() + b": one order file at most\n")
            yield f"{program} with no such file", by_arguments(program, [os.path.join(folder, "none")], two), (b"", program.encode() + b": cannot read the order file\n")
            yield f"{program} by the numbers", by_arguments(program, [named["numbers"]], two), plain[program]
            yield f"{program} by pitch, all of one pitch", by_arguments(program, ["-"], two), plain[program]
        for name in ("other", "257", "longest and a byte", "empty", "no LF"):
            yield f"ring, {name}", by_arguments("ring", [named[name]], two), (b"order-refused=9\n", b"")
            yield f"wav, {name}", by_arguments("wav", [named[name]], two), (b"", b"order-refused=9\n")
            yield f"sorted, {name}", by_arguments("sorted", [named[name]], two), (b"order-refused=9\n", b"")
            yield f"ring, {name} and no bench file", by_arguments("ring", [named[name]], NOT_FITTING), (b"refused=9\n", b"")
        for name, number in (("short", 5), ("256", 5), ("longest", 5), ("twice", 6)):
            yield f"ring, {name}", by_arguments("ring", [named[name]], two), (b"refused=%d\n" % number, b"")
            yield f"wav, {name}", by_arguments("wav", [named[name]], two), (b"", b"refused=%d\n" % number)
        full = bench(2, [(11 * g + 10, 962) for g in range(256)] + [(4113, 256)])
        yield "ring, 256 lines", by_arguments("ring", [named["256"]], full), by_arguments("ring", [], full)
        yield "ring, 256 longest lines", by_arguments("ring", [named["longest"]], full), (b"refused=6\n", b"")
        # TICKS sets T to 1 after the first pass: the order has one entry too many from then on.
        fewer = bench(3, ((11 * 0 + 10, 962), (11 * 1 + 10, 962), (4113, 2)), (TICKS_1,))
        yield "ring, T made 1 by a command", by_arguments("ring", [named["numbers"]], fewer), (b"pass=1 left=0 right=0\nrefused=5\n", b"")


def lengths():
    """Files of 65,535 to 65,538 bytes that are good, or good when cut to 65,536: the longer ones are refused by each program."""
    line, start = b"word=0:1\n", b"passes=1\n"
    for length in range(FILE_MOST - 1, FILE_MOST + 3):
        more, left = divmod(min(length, FILE_MOST) - len(start), len(line))
        text = (start + line * (more - 1) + line[:-2] + b"1" * (1 + left) + b"\n").ljust(length, b"\n")
        assert len(text) == length and ring(text[:FILE_MOST]) != b"refused=9\n"
        good = length <= FILE_MOST
        for program, refused in (("ring", (b"refused=9\n", b"")), ("wav", (b"", b"refused=9\n")), ("sorted", (b"refused=9\n", b""))):
            yield f"{program}, {length} bytes", by_arguments(program, [], text) != refused, good


def checks():
    """All checks."""
    yield from order_arguments()
    yield from lengths()
    yield from ordinary()
    yield from full_device()
    yield from full_disk()
    yield from closed_pipes()
    yield from filled_pipe()
    yield from failing_reads()
    yield from slow_input()
    yield from many_files()
    yield from small_disk()


def main():
    """Tries all; prints what differs, gives the exit status."""
    tried, differ = 0, 0
    for name, got, wanted in checks():
        tried += 1
        if got != wanted:
            differ += 1
            print(f"{name}: got {str(got)[:400]}, not {str(wanted)[:400]}")
    print(f"outside: {tried} checks, {differ} differ")
    return 1 if differ else 0


if __name__ == "__main__":
    sys.exit(main())
