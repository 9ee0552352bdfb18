#!/usr/bin/env python3
"""Makes a bench file heard and seen: its sound (.wav) and its picture (.png) beside it, and the table of its partials.

    karvelorn hear [FILE [ORDER-FILE]]      karvelorn hear --by-pitch FILE

By an order the sound has a name of its own (NAME.by-ORDER.wav, NAME.by-pitch.wav). FILE is a bench file, or a recording, of which only the picture is made. What stood there before is set aside first, so that after
a refusal, a failure or an interruption no older sound or picture is taken for this file's. A sound needs the proved program wav
alone; a picture needs numpy, scipy and matplotlib, and is made by tools/picture.py.
"""

import os
import re
import subprocess
import sys
import tempfile
from argparse import ArgumentTypeError
from contextlib import suppress
from typing import NamedTuple

import longer
import questions
import sounds
from building import built
from command_line import HOME, IN_REPOSITORY, Ending, Parser, Status, need_libraries, read_file, say, start, tell
from outputs import destination, made_here, same_file, set_aside, write_whole
from rung import file_of, said_by
from table_reader import read_table

EXAMPLE = HOME / "examples" / "bell.txt"
REFUSED = re.compile(r"refused=(\d+)")
ORDER_REFUSED, BY_PITCH = "order-refused=9", "-"  # what wav tells of a text that is no order file, and what it takes for by pitch
WAVE_HEADER, FRAME = 44, 6
LIBRARIES = ("numpy", "scipy", "matplotlib")


class Files(NamedTuple):
    """The files of a call: what is heard, its table if there is one, and the results (no sound where a recording is seen)."""
    file: str
    table: str
    sound: str
    picture: str
    other_rate: str
    order: object = None


class Order(NamedTuple):
    """An order that is rung by: its name in words, and the text of its order file, None for by pitch."""
    name: str
    data: bytes = None


def parser():
    """What may be asked."""
    asked = Parser("hear", "Makes a bench file heard and seen: NAME.wav and NAME.png beside NAME.txt, and the table of its partials. Of a recording (WAVE or FLAC)\n"
                   "the picture and the table are made. An older NAME.wav or NAME.png is set aside (NAME.older.wav) unless a new one takes its place.",
                   "karvelorn hear bell.txt\nkarvelorn hear --no-picture bell.txt\nkarvelorn hear --by-pitch bell.txt\nkarvelorn hear recording.flac --table bell.csv")
    asked.add_argument("file", metavar="FILE", nargs="?", help="a bench file or a recording" + (" (examples/bell.txt where none is named)" if IN_REPOSITORY else ""))
    asked.add_argument("order", metavar="ORDER-FILE", nargs="?", help="lines order=G: each pass takes the generators in this order instead of by number; the sound is NAME.by-ORDER.wav then")
    asked.add_argument("--by-pitch", action="store_true", help="each pass takes them by pitch, as karvelorn compare has it; the sound is NAME.by-pitch.wav then")
    asked.add_argument("-o", dest="output", metavar="SOUND", help="the sound (NAME.wav where this isn't asked); the picture goes beside it")
    asked.add_argument("--table", metavar="CSV", help="a table of partials that gives them their names (NAME.csv beside FILE, where there is one)")
    asked.add_argument("--no-picture", action="store_true", help="only the sound, for which no library is needed")
    asked.add_argument("--seconds", metavar="S", type=seconds_asked, help=f"the sound lasts so long, up to {longer.SECONDS_MOST:g}: beyond the file's passes the machine rings on through the library, for which gcc is needed once")
    asked.add_argument("--rate", metavar="HZ", type=rate_asked, help="beside the exact sound one at 44100 or 48000 Hz, NAME.HZ.wav, by scipy's resample_poly; needs numpy and scipy")
    asked.add_argument("--play", action="store_true", help="hand the sound to a player that is there: aplay, paplay or play")
    return asked


def seconds_asked(text):
    """A length on the command line."""
    seconds = float(text)
    if not 0 < seconds <= longer.SECONDS_MOST:
        raise ArgumentTypeError(f"a sound lasts up to {longer.SECONDS_MOST:g} s: {text}")
    return seconds


def rate_asked(text):
    """Another rate on the command line."""
    if text not in map(str, longer.RATES):
        raise ArgumentTypeError(f"another rate is {' or '.join(map(str, longer.RATES))} Hz: {text}")
    return int(text)


def head_of(file, base):
    """The first bytes of a file. Where it is there and can't be read, older results are set aside too."""
    try:
        return read_file(file, 4)
    except Ending:
        if os.path.isfile(file):
            kept(set_older_aside(path for path in (base + ".wav", base + ".png") if not same_file(path, file)))
        raise


def order_asked(asked):
    """The order that a call asks for, and how its results are called; nothing where each pass goes by number."""
    if asked.by_pitch and asked.order not in (None, BY_PITCH):
        raise Ending("ask for an order file or for --by-pitch, not for both", Status.MISUSED)
    if asked.by_pitch or asked.order == BY_PITCH:
        return Order("by pitch"), "by-pitch"
    if asked.order is None:
        return None, ""
    return Order(asked.order, read_file(asked.order, questions.FILE_MOST + 1)), f"by-{os.path.splitext(os.path.basename(asked.order))[0]}"


def files_of(asked):
    """The files of a call, judged before anything is touched."""
    file = file_of(asked.file, EXAMPLE)
    if file == "-":
        raise Ending("name a file: the results are written beside it", Status.MISUSED)
    order, named = order_asked(asked)
    base = os.path.splitext(asked.output or file)[0] + (f".{named}" if order and not asked.output else "")
    recording = sounds.is_sound(head_of(file, base))
    if recording and (asked.no_picture or asked.output or asked.seconds or asked.rate or order):
        raise Ending(f"{file} is a sound already: only its picture is made", Status.MISUSED)
    beside = os.path.splitext(file)[0] + ".csv"
    table = asked.table or (beside if os.path.isfile(beside) else None)
    if asked.table:
        read_file(asked.table, 1)
    files = Files(file, table, None if recording else asked.output or base + ".wav", base + ".png", f"{base}.{asked.rate}.wav" if asked.rate else None, order)
    if files.sound and same_file(files.sound, files.picture):
        raise Ending(f"{files.sound} can't be the sound: the picture goes there", Status.MISUSED)
    if files.other_rate and same_file(files.sound, files.other_rate):
        raise Ending(f"{files.sound} can't be the sound: that at {asked.rate} Hz goes there", Status.MISUSED)
    for output in filter(None, (files.sound, files.picture, files.other_rate)):
        destination(output, [given for given in (file, table, asked.order) if given])
    return files


# Sound

def sound_of(file, seconds=None, order=None):
    """The sound of a bench file: the bytes of a WAVE file, whole; for so many seconds, where that is asked."""
    text = read_file(file, questions.FILE_MOST + 1)
    sound = sound_of_text("hear", file, text, order)
    return sound if seconds is None else longer.rung_on("hear", file, text, sound, seconds, entries("hear", text, order))


def outcome(program, text, order=None):
    """What the program wav writes of a text, by number or by an order, and what it tells."""
    with tempfile.TemporaryDirectory(prefix="karvelorn-") as folder:
        by = [] if order is None else [BY_PITCH] if order.data is None else [os.path.join(folder, "order")]
        if by and by[0] != BY_PITCH:
            with open(by[0], "wb") as file:
                file.write(order.data)
        try:
            done = subprocess.run([program, *by], input=text, stdout=subprocess.PIPE, stderr=subprocess.PIPE)
        except OSError as error:
            raise Ending(f"cannot run {program}: {error.strerror}", Status.MISSING) from None
    told = done.stderr.decode(errors="replace").strip()
    bench, _ = questions.read(text)
    if REFUSED.fullmatch(told) or told == ORDER_REFUSED:
        return b"", told
    if done.returncode or told or bench is None or len(done.stdout) != WAVE_HEADER + FRAME * bench.passes:
        raise said_by("wav", told)
    return done.stdout, ""


def sound_of_text(command, file, text, order=None):
    """The same of a bench file's text, for a command; by number, or by an order."""
    program, = built(command, "wav")
    tell(command, f"ringing {file}" + (f" by the order {order.name}" if order and order.data is not None else " by pitch" if order else ""))
    sound, told = outcome(program, text, order)
    if told == ORDER_REFUSED:
        raise Ending(f"{order.name} is no order file: {questions.ORDER_FILE}")
    if told:
        number = int(REFUSED.fullmatch(told)[1])
        whose = (f"the order {order.name}" if order.data is not None else "the order by pitch") if order and number in (5, 6) else file
        raise Ending("\n".join([f"{file} makes no sound: {told}", *questions.refusal(whose, number, text)]))
    return sound


def entries(command, text, order):
    """The entries of an order that was rung by; none for by number."""
    if order is None:
        return ()
    data = order.data
    if data is None:
        import compared
        program, = built(command, "sorted")
        data = "".join(f"{line}\n" for line in compared.found(program, text, None)).encode()
    return [int(line[len(b"order="):]) for line in data.split(b"\n") if line.startswith(b"order=")]


# Picture

def need_table(table):
    """A table that gives names must be one."""
    try:
        read_table(table)
    except Ending as ending:
        raise Ending(f"no picture was made: {table}: {ending}", ending.status) from None


def drawn(command, sound, table):
    """A sound measured and drawn: the picture's bytes, what is printed of it, the status with which that ended and what was told."""
    need_libraries(LIBRARIES, "no picture was made")
    if table:
        need_table(table)
    tell(command, "measuring and drawing")
    with tempfile.TemporaryDirectory(prefix="karvelorn-") as folder:
        picture, named = os.path.join(folder, "picture.png"), ["--table", table] if table else []
        done = subprocess.run([sys.executable, str(HOME / "tools" / "picture.py"), sound, "-o", picture, *named], stdin=subprocess.DEVNULL, stdout=subprocess.PIPE, stderr=subprocess.PIPE,
                              env={**os.environ, "TMPDIR": folder, "PYTHONIOENCODING": "utf-8", "PYTHONDONTWRITEBYTECODE": "1"})
        told = done.stderr.decode(errors="replace").strip()
        data = read_file(picture) if os.path.isfile(picture) else b""
    return data, done.stdout.decode(errors="replace"), done.returncode, told


def judged(command, picture, status, told):
    """The status of what was measured and drawn; raised where that wasn't whole."""
    if not picture or status not in (Status.DONE, Status.UNLIKE):
        raise undrawn(status, told)
    if told:
        tell(command, told.removeprefix("picture: "))
    return Status(status)


def seen(files):
    """Measures and draws a sound; prints its partials and writes the picture. Answers whether all agrees, as a status."""
    picture, lines, status, told = drawn("hear", files.sound or files.file, files.table)
    if picture:
        write_whole({files.picture: picture}, [files.file])
        tell("hear", f"wrote {files.picture}")
    if lines:
        say(lines, end="")
    return judged("hear", picture, status, told)


def undrawn(status, told):
    """Why a sound isn't measured or drawn."""
    if told and status in (Status.REFUSED, Status.UNREAD, Status.UNWRITTEN, Status.MISSING, Status.UNLIKE):
        return Ending(f"no picture was made: {told.removeprefix('picture: ')}", Status(status))
    return Ending(f"a fault of this software: {told.splitlines()[-1] if told else f'tools/picture.py ended with {status} and drew nothing'}", Status.FAULT)


# Older files

def kept(asides, command="hear"):
    """What hear had made before goes where a new one has taken its place; all else stays under its other name, and is told."""
    for path, aside in asides.items():
        if not os.path.exists(path):
            tell(command, f"{path} was there from before and is not of this ringing: it is now {os.path.basename(aside)}")
        elif made_here(aside) or same_bytes(aside, path):
            with suppress(FileNotFoundError):
                os.unlink(aside)
        elif os.path.exists(aside):
            tell(command, f"what was {path} was not made by {command}: it is kept as {os.path.basename(aside)}")


def same_bytes(one, other):
    """Whether two files have the same bytes."""
    try:
        return read_file(one) == read_file(other)
    except Ending:
        return False


def set_older_aside(outputs):
    """Sets aside what stands where the results go; answers the other names."""
    return {path: aside for path in outputs if (aside := set_aside(path))}


def written(files, asked):
    """Makes and writes the sounds."""
    if asked.rate:
        need_libraries(("numpy", "scipy"), f"no sound at {asked.rate} Hz was made")
    sound = sound_of(files.file, asked.seconds, files.order)
    write_whole({files.sound: sound}, [files.file])
    tell("hear", f"wrote {files.sound}")
    if files.other_rate:
        other, lowered = longer.resampled(sound, asked.rate)
        write_whole({files.other_rate: other}, [files.file])
        tell("hear", f"wrote {files.other_rate}{f', lowered by {lowered:.2f} dB so that it fits' if lowered else ''}")


def main(arguments):
    asked = parser().parse_args(arguments)
    files = files_of(asked)
    asides = set_older_aside(filter(None, (files.sound, files.picture, files.other_rate)))
    try:
        if files.sound:
            written(files, asked)
        status = Status.DONE if asked.no_picture else seen(files)
    finally:
        kept(asides)
    if asked.play:
        longer.play("hear", files.other_rate or files.sound or files.file)
    return status


if __name__ == "__main__":
    start("hear", main)
