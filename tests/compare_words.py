"""What ./compare says, word for word, with its exit status: bells in two orders that are the same, orders that are parted at each
of the four points, refusals, and what can't be read.

    /usr/bin/python3 tests/compare_words.py      (the programs sorted and wav must be built)

Then random machines: the status is the reference's answer, and the generators that are named are those of its points.
"""

import os
import random
import re
import subprocess
import sys
import tempfile
from itertools import product
from pathlib import Path

ROOT = Path(__file__).resolve().parent.parent
sys.path[:0] = [str(ROOT), str(ROOT / "tools")]
import compared  # noqa: E402
import places  # noqa: E402
import questions  # noqa: E402
from machine_words import name_of  # noqa: E402
from statuses import Status  # noqa: E402
from reference import layout, orders, parts  # noqa: E402
from reference.machine import fresh_machine, put_update_ticks  # noqa: E402
from reference.update import run_update  # noqa: E402

PROGRAM = places.program("sorted")
INACTIVE, PAUSE, TO_DAC, WRITES, READS, WAITS, STOPS, TRIGGERS, RUNS = 0, 1, 0b0010, 0b0011, 0b0111, 0b1001, 0b1101, 0b1110, 0b1111
MODIFIER_LAST = 64
YES, NO = "Yes: the same bell in both orders.", "No: the two orders can ring differently."
SHOWN = "Shown by an example with the file's modes, sum words and DACs: after a pass by each order the first difference is in {}."
COUNT, SEED = 300, 1978


def run(*command):
    done = subprocess.run([str(word) for word in command], stdout=subprocess.PIPE, stderr=subprocess.PIPE, text=True, cwd=ROOT)
    assert "Traceback" not in done.stderr, done.stderr
    return done


def generator(g, mode, gsum=0, gfm=0, go=0, gj=0):
    """The words of a generator that aren't 0 anyway."""
    return {11 * g: go, 11 * g + 1: gj << 8, 11 * g + 8: gsum, 11 * g + 9: gfm, 11 * g + 10: mode << 6}


def bench(generators, commands=(), **others):
    """A bench file of generators, each a mode and more by name, as many as T."""
    words = {4113: len(generators)}
    for g, (mode, more) in enumerate(generators):
        words.update(generator(g, mode, **more))
    words.update({int(place[1:]): value for place, value in others.items()})
    lines = ["passes=1"] + [f"word={place}:{value}" for place, value in sorted(words.items())]
    return "".join(line + "\n" for line in lines + [f"command={command:08X}" for command in commands])


def order_text(order):
    return "".join(f"order={g}\n" for g in order)


class Folder:
    """A folder for files, and what ./compare says of them."""

    def __init__(self, path):
        self.path, self.tried = Path(path), 0

    def file(self, text, name="machine.txt"):
        path = self.path / name
        path.write_bytes(text if isinstance(text, bytes) else text.encode())
        return path

    def says(self, file, order, status, *lines):
        """./compare on a file, and an order if there is one, says these lines and ends with this status."""
        self.tried += 1
        more = [] if order is None else [self.file(order if isinstance(order, (str, bytes)) else order_text(order), "second.order")]
        done = run("./compare", file, *more)
        said = done.stdout.replace(f"{self.path}/", "").splitlines()
        if status != Status.REFUSED:
            assert said.pop().startswith("This very file "), done  # tests/heard_orders.py has its words
        assert (said, done.returncode, done.stderr) == (list(lines), status, ""), f"{file}: {done}\nwanted: {lines}"


def changed(text, words):
    """A bench file with other words."""
    for place, value in words.items():
        text, count = re.subn(rf"^word={place}:\d+$", f"word={place}:{value}", text, flags=re.M)
        if not count:
            text += f"word={place}:{value}\n"
    return text


def bells(at):
    """The example bell, and the same with tierce and quint exchanged in its table; strokes that are triggered."""
    pitches = "The second order, by pitch: 5 clapper, 6 to 19, 0 hum, 1 prime, {}, 4 nominal."
    at.says("examples/bell.txt", None, 0, pitches.format("2 tierce, 3 quint"), YES)
    table = (ROOT / "examples" / "bell.csv").read_text().splitlines(keepends=True)
    tierce, quint = (next(i for i, line in enumerate(table) if line.startswith(name)) for name in ("tierce", "quint"))
    table[tierce], table[quint] = table[quint], table[tierce]
    file = at.path / "exchanged.txt"
    assert run("python3", "tools/partials.py", at.file("".join(table), "exchanged.csv"), "-o", file, "--seconds", "6").returncode == 0
    at.says(file, None, 0, pitches.format("3 tierce, 2 quint"), YES)
    text = file.read_text()

    # Quint sets off tierce, which waits: by pitch tierce is taken first.
    for mode in (TRIGGERS, STOPS):
        file.write_text(changed(text, {32: mode << 6 | 48, 43: WAITS << 6 | 48}))
        at.says(file, None, 1, pitches.format("3 tierce, 2 quint"), NO,
                "Generator 3 (tierce) waits for generator 2 (quint), which the second order takes after it: a trigger of generator 2 no longer starts it.",
                SHOWN.format("GMODE of generator 3 (tierce)"))
    at.says(file, range(20), 0, "The second order, from second.order, the same as by number: 0 hum, 1 prime, 2 quint, 3 tierce, 4 nominal, 5 clapper, 6 to 19.", YES)

    # The report is of a bell with other pitches, or a generator with a name feeds a DAC.
    for g, name, words in ((2, "quint", {23: 12950528}), (5, "clapper", {65: TO_DAC << 6})):
        file.write_text(changed(text, words))
        done = run("./compare", file)
        assert done.returncode == 0 and done.stderr == f"compare: no partials are named: in {file.with_suffix('.report')} generator {g} is {name}, and in the bench file it isn't\n" and "hum" not in done.stdout, done

    strokes = "examples/two_strokes.txt"
    assert run("python3", "examples/two_strokes.py").stdout == (ROOT / strokes).read_text(), f"{strokes} is not what its script writes"
    at.says(strokes, None, 1, "The second order, by pitch: 2, 3, 1, 0.", NO,
            "Generator 1 waits for generator 0, which the second order takes after it: a trigger of generator 0 no longer starts it.",
            SHOWN.format("GMODE of generator 1"))
    at.says(strokes, (ROOT / "examples" / "two_strokes.order").read_text(), 0, "The second order, from second.order: 2, 3, 0, 1.", YES)


def fed(at):
    """Two feeders of one DAC."""
    table = at.file("name,hz,db,t60,channel\nhum,200,0,1,left\nprime,400,0,1,left\nquint,600,0,1,right\n", "sides.csv")
    file = at.path / "sides.txt"
    assert run("python3", "tools/partials.py", table, "-o", file).returncode == 0
    text = file.read_text()
    file.write_text(changed(text, {44: 0, 33: 0}))
    at.says(file, (0, 1, 2, 4, 3), 1, "The second order, from second.order: 0 hum, 1 prime, 2 quint, 4, 3.", NO,
            "DAC 0 is fed last by another generator: by number generator 4 sends it generator-last sum word 1 (quint), in the second order generator 3 sends it generator-last sum word 0 (hum and prime).",
            SHOWN.format("DAC word 0"))
    file.write_text(text)
    at.says(file, (0, 1, 2, 4, 3), 0, "The second order, from second.order: 0 hum, 1 prime, 2 quint, 4, 3.", YES)
    feeders = [(TO_DAC, dict(go=21, gfm=3, gj=7)), (TO_DAC, dict(go=5, gfm=MODIFIER_LAST + 9, gj=-7 % 2 ** 20)), (TO_DAC, dict(go=4, gfm=3, gj=2)), (TO_DAC, dict(go=5, gfm=8, gj=6))]
    at.says(at.file(bench(feeders)), None, 1, "The second order, by pitch: 2, 3, 0, 1.", NO,
            "DAC 5 is fed last by another generator: by number generator 3 sends it generator-last sum word 8, in the second order generator 1 sends it modifier-last sum word 9.",
            SHOWN.format("DAC word 5"))
    feeders[1] = (TO_DAC, dict(go=5, gfm=8, gj=-7 % 2 ** 20))
    at.says(at.file(bench(feeders)), None, 0, "The second order, by pitch: 2, 3, 0, 1.", YES)


def written(at):
    """Generators that write data."""
    writers = [(WRITES, dict(gfm=5)), (RUNS, {}), (WRITES, dict(gfm=5)), (WRITES, dict(gfm=MODIFIER_LAST + 6)), (WRITES, dict(gfm=7))]
    at.says(at.file(bench(writers)), (2, 4, 0, 3, 1), 1, "The second order, from second.order: 2, 4, 0, 3, 1.", NO,
            "Item 1 of the written data (counted from 0) comes from another generator: by number generator 2 writes generator-last sum word 5, in the second order generator 4 writes generator-last sum word 7.",
            SHOWN.format("item 1 of the written data"))
    at.says(at.file(bench(writers)), (0, 2, 4, 3, 1), 1, "The second order, from second.order: 0, 2, 4, 3, 1.", NO,
            "Item 2 of the written data (counted from 0) comes from another generator: by number generator 3 writes modifier-last sum word 6, in the second order generator 4 writes generator-last sum word 7.",
            SHOWN.format("item 2 of the written data"))
    at.says(at.file(bench(writers)), (2, 0, 3, 4, 1), 0, "The second order, from second.order: 2, 0, 3, 4, 1.", YES)


def replaced(at):
    """A sum word that is replaced: another last one, another read item, and adding ones that change sides."""
    file = at.file(bench([(READS, dict(gsum=5)), (READS, dict(gsum=5)), (RUNS, dict(gsum=5))]))
    at.says(file, (1, 0, 2), 1, "The second order, from second.order: 1, 0, 2.", NO,
            "Sum word 5 is replaced last by another generator: by number by generator 1, in the second order by generator 0.",
            SHOWN.format("generator-last sum word 5"))
    file = at.file(bench([(READS, dict(gsum=9)), (READS, dict(gsum=5)), (RUNS, dict(gsum=5))]))
    at.says(file, (1, 0, 2), 1, "The second order, from second.order: 1, 0, 2.", NO,
            "Generator 1 replaces sum word 5 last in both orders, but with another read item (counted from 0): by number item 1, in the second order item 0.",
            SHOWN.format("generator-last sum word 5"))
    words = "Generator {} replaces sum word {} last in both orders, and only what is added after it stays: {}."
    after, before = "after it by number and before it in the second order", "before it by number and after it in the second order"
    file = at.file(bench([(RUNS, dict(gsum=5)), (TRIGGERS, dict(gsum=5)), (READS, dict(gsum=5)), (STOPS, dict(gsum=5)), (RUNS, dict(gsum=6)), (WAITS, dict(gsum=5))]))
    at.says(file, (0, 1, 3, 2, 4, 5), 1, "The second order, from second.order: 0, 1, 3, 2, 4, 5.", NO, words.format(2, 5, f"generator 3 adds {after}"), SHOWN.format("generator-last sum word 5"))
    at.says(file, (3, 4, 2, 1, 5, 0), 1, "The second order, from second.order: 3, 4, 2, 1, 5, 0.", NO, words.format(2, 5, f"generator 3 adds {after} and generators 0 and 1 add {before}"), SHOWN.format("generator-last sum word 5"))
    at.says(file, (4, 1, 0, 2, 3, 5), 0, "The second order, from second.order: 4, 1, 0, 2, 3, 5.", YES)

    # A bell whose tenth generator replaces the word that its partials add to.
    text = (ROOT / "examples" / "bell.txt").read_text()
    at.file((ROOT / "examples" / "bell.report").read_bytes(), "replaced.report")
    file = at.file(changed(text, {120: READS << 6, 119: 63}), "replaced.txt")
    second = [0, 1, 2, 10] + [g for g in range(3, 20) if g != 10]
    at.says(file, second, 1, "The second order, from second.order: 0 hum, 1 prime, 2 tierce, 10, 3 quint, 4 nominal, 5 clapper, 6 to 9, 11 to 19.", NO,
            words.format(10, 0, f"generators 3 (quint) and 4 (nominal) add {before}"), SHOWN.format("generator-last sum word 0"))
    file = at.file(changed(text, {120: READS << 6, 119: 63, 131: READS << 6, 130: 63}), "replaced.txt")
    second = list(range(10)) + [11, 10] + list(range(12, 20))
    at.says(file, second, 1, "The second order, from second.order: 0 hum, 1 prime, 2 tierce, 3 quint, 4 nominal, 5 clapper, 6 to 9, 11, 10, 12 to 19.", NO,
            "Sum word 0 (hum, prime, tierce, quint and nominal) is replaced last by another generator: by number by generator 11, in the second order by generator 10.",
            SHOWN.format("generator-last sum word 0"))


def limited(at):
    """Equal as the file begins, but triggers or commands may change what was compared."""
    begins = "Yes, as the file begins: the same bell in both orders."
    trigger = "Only until a trigger changes {}: with another mode there the orders may part."
    command = "Only until commands change modes, sum words, DACs or T, the first of them in line {} of the file."
    swapped = "The second order, from second.order: 1, 0."
    at.says(at.file(bench([(TRIGGERS, {}), (STOPS, {})])), (1, 0), Status.UNTIL, swapped, begins, trigger.format("generator 1"))
    at.says(at.file(bench([(TRIGGERS, {}), (STOPS, {})])), (0, 1), 0, "The second order, from second.order, the same as by number: 0, 1.", YES)
    at.says(at.file(bench([(RUNS, {}), (STOPS, {})])), (1, 0), 0, swapped, YES)
    at.says(at.file(bench([(WAITS, dict(gsum=3)), (READS, dict(gsum=3))])), (1, 0), Status.UNTIL, swapped, begins, trigger.format("generator 0"))
    at.says(at.file(bench([(WAITS, {}), (WAITS, {}), (STOPS, {})])), (2, 1, 0), Status.UNTIL, "The second order, from second.order: 2, 1, 0.", begins, trigger.format("generators 1 and 2"))
    linger, gp, gmode, gmode_off, t = 30 << 12 | 0b00010 << 7 | 0b10 << 3, 0b0110 << 8 | 1, 0b1010 << 8 | 1, 0b11 << 30 | 0b1010 << 8 | 1, 0b00011 << 7
    two = [(RUNS, {}), (RUNS, {})]
    lines = bench(two).count("\n")
    at.says(at.file(bench(two, (linger, gp, gmode_off, gmode + 1))), (1, 0), 0, swapped, YES)
    at.says(at.file(bench(two, (linger, gp, gmode, t))), (1, 0), Status.UNTIL, swapped, begins, command.format(lines + 3))
    at.says(at.file(bench([(TRIGGERS, {}), (STOPS, {})], (t,))), (1, 0), Status.UNTIL, swapped, begins, trigger.format("generator 1"), command.format(lines + 1))
    at.says(at.file(bench(two, (gmode, t))), (1, 0), Status.UNTIL, swapped, begins, command.format(lines + 1))


def long_orders(at):
    """Of a long order the beginning is said."""
    file = at.file(bench([(RUNS, {})] * 256))
    at.says(file, range(255, -1, -1), 0, "The second order, from second.order: 255, 254, 253, 252, 251, 250, 249, 248, 247, 246, 245, 244 and 244 more.", YES)
    at.says(file, None, 0, "The second order, by pitch, the same as by number: 0 to 255.", YES)
    at.says(file, [*range(1, 256), 0], 0, "The second order, from second.order: 1 to 255, 0.", YES)
    at.says(at.file(bench([(RUNS, {})])), None, 0, "The second order, by pitch, the same as by number: 0.", YES)
    at.says(at.file(bench([(RUNS, {})] * 13)), range(12, -1, -1), 0, "The second order, from second.order: 12, 11, 10, 9, 8, 7, 6, 5, 4, 3, 2, 1, 0.", YES)
    many = [(RUNS, dict(gsum=1)) for _ in range(9)] + [(READS, dict(gsum=1))]
    at.says(at.file(bench(many)), [9, *range(9)], 1, "The second order, from second.order: 9, 0 to 8.", NO,
            "Generator 9 replaces sum word 1 last in both orders, and only what is added after it stays: generators 0, 1, 2, 3, 4, 5 and 3 more add before it by number and after it in the second order.",
            SHOWN.format("generator-last sum word 1"))


def refusals(at):
    """Each refusal, with its question as docs/FILE.md has it and its cause."""
    table = dict(re.findall(r"^\| (\d+) \| (.*\?) \|$", (ROOT / "docs" / "FILE.md").read_text(), flags=re.M))
    assert all(table[str(number)] == question for number, question in questions.QUESTIONS.items()), "the questions aren't those of docs/FILE.md"
    two = bench([(RUNS, {}), (RUNS, {})])
    lines = two.count("\n")
    for text, cause in (("", "the file is empty: passes= is missing"), ("passes=x\n", "line 1 (passes=x): the number of passes is no decimal number"), (two + "\n", f"line {lines + 1}: is empty"),
                        (two[:-1], f"line {lines} (word=4113:2): has no LF at its end"), ("\n", "line 1: is empty"), (two + "#" * 65536, "the file has more than 65536 bytes"),
                        (b"\xff\n", "line 1 (\\xff): passes= is missing: it must be the first line"), (b"passes=1\nword=0:\xb2\n", "line 2 (word=0:\\xb2): the value is no decimal number")):
        for order in (None, "no order"):
            at.says(at.file(text), order, Status.REFUSED, f"machine.txt doesn't pass question 9: {table['9']}", f"  {cause}")
    for words, cause in ((dict(w0=1 << 20), "line 2: GO of generator 0 (word 0) has 1048576, at most 1048575"), (dict(w4113=0), "T (word 4113) has 0, 1 to 256"), (dict(w4113=257), "T (word 4113) has 257, 1 to 256"),
                         (dict(w4114=1), "N (word 4114) has 1, 2 to 1025"), (dict(w10=0b0100 << 6), "GMODE of generator 0 (word 10) has 256: run mode 0100, built are 0000 0001 0010 0011 0111 1001 1101 1110 1111")):
        text = bench([(RUNS, {}), (RUNS, {})], **words)
        place = re.search(r"word (\d+)", cause)[1]
        line = next(number for number, line in enumerate(text.splitlines(), 1) if line.startswith(f"word={place}:"))
        for order in (None, (1, 0), (7, 7, 7)):
            at.says(at.file(text), order, Status.REFUSED, f"The machine of machine.txt doesn't pass question 2: {table['2']}", f"  line {line}: {cause.partition(': ')[2] if cause.startswith('line') else cause}")
    file = at.file(two)
    for order in ((0,), (0, 1, 0), (1, 0, 2), range(256)):
        at.says(file, order, Status.REFUSED, f"second.order doesn't pass question 5: {table['5']} T is 2 in machine.txt.")
    for order in ((0, 0), (1, 2), (255, 0)):
        at.says(file, order, Status.REFUSED, f"second.order doesn't pass question 6: {table['6']} T is 2 in machine.txt.")
    for order in ("", "\n", "order=0\norder=1", "order=0\norder=01\n", "order=0\norder=256\n", "order=0\n\norder=1\n", "order=0 \norder=1\n", "order=1\r\norder=0\r\n", "1\n0\n", "order=\n", "order=0\n" * 257, b"order=\xb2\n"):
        at.says(file, order, Status.REFUSED, "second.order is no order file: it must have 1 to 256 lines order=G, each with a number G from 0 to 255 without leading zeros and ended by LF.")


# Runs what ./compare does with another program.
WITH_PROGRAM = "import sys; sys.path[:0] = ['tools']; import command_line, compared; command_line.start('compare', lambda words: compared.answer(*words))"


def trouble(at):
    """What can't be read or isn't known ends with a status of its own and a line on standard error."""
    file, none = at.file(bench([(RUNS, {})])), at.path / "none"
    for call in ((none,), (file, none), (none, none), (at.path,), (file, at.path)):
        done = run("./compare", *call)
        missing, reason = (none, "No such file or directory") if none in call else (at.path, "Is a directory")
        assert (done.returncode, done.stdout, done.stderr) == (Status.UNREAD, "", f"compare: cannot read {missing}: {reason}\n"), done
    usage = run("./compare", "--help")
    assert usage.returncode == 0 and usage.stdout.startswith("usage: karvelorn compare [-h] [--version] FILE [ORDER-FILE]\n") and '"Only until .."' in usage.stdout and not usage.stderr, usage
    for call in ((), (file, file, file)):
        done = run("./compare", *call)
        assert (done.returncode, done.stdout) == (Status.MISUSED, "") and "--help" in done.stderr, done
    # What can't be written is no verdict, of a bell that is the same neither.
    with open("/dev/full", "w") as full:
        done = subprocess.run(["./compare", "examples/bell.txt"], stdout=full, stderr=subprocess.PIPE, text=True, cwd=ROOT)
    assert (done.returncode, done.stderr) == (Status.UNWRITTEN, "compare: cannot write: No space left on device\n"), done
    reader, writer = os.pipe()
    os.close(reader)
    done = subprocess.run(["./compare", "examples/bell.txt"], stdout=writer, stderr=subprocess.PIPE, text=True, cwd=ROOT)
    os.close(writer)
    assert (done.returncode, done.stderr) == (Status.UNWRITTEN, "compare: cannot write: Broken pipe\n"), done
    done = subprocess.run("./compare examples/bell.txt >&-", shell=True, stdout=subprocess.PIPE, stderr=subprocess.PIPE, text=True, cwd=ROOT)
    assert (done.returncode, done.stderr) == (Status.UNWRITTEN, "compare: cannot write: standard output is closed\n"), done
    other_programs(at, file)


def other_programs(at, file):
    """Programs that print or do what sorted never does."""
    program = at.path / "program"
    for prints, status, sentence in (("echo no", Status.FAULT, "printed what is not known here: ['no']"), ("true", Status.FAULT, "printed what is not known here: []"), ("exit 5", Status.FAULT, "ended with status 5"),
                                     ("echo sorted: cannot read it >&2", Status.UNREAD, "sorted: cannot read it"), ("echo sorted: cannot write >&2", Status.UNWRITTEN, "sorted: cannot write"),
                                     ("echo equal", Status.FAULT, "isn't so in the file"), ("echo order=0; echo point=1 place=1 word=2", Status.FAULT, "isn't so in the file")):
        program.write_text(f"#!/bin/sh\n{prints}\n")
        program.chmod(0o755)
        done = run("/usr/bin/python3", "-c", WITH_PROGRAM, program, file)
        assert done.returncode == status and not done.stdout and done.stderr.startswith("compare: ") and sentence in done.stderr, done


def readme(at):
    """The runs that docs/ORDERS.md shows are real."""
    shown = re.findall(r"^    \$ \./compare (.*)\n((?:    [^$\n].*\n)+)", (ROOT / "docs" / "ORDERS.md").read_text(), flags=re.M)
    for arguments, lines in shown:
        assert run("./compare", *arguments.split()).stdout == re.sub("^    ", "", lines, flags=re.M), f"docs/ORDERS.md shows another run of ./compare {arguments}"
        at.tried += 1
    order = re.search(r"^    \$ cat examples/two_strokes.order\n((?:    order=.*\n)+)", (ROOT / "docs" / "ORDERS.md").read_text(), flags=re.M)
    assert len(shown) == 3 and order[1].replace("    ", "") == (ROOT / "examples" / "two_strokes.order").read_text(), "docs/ORDERS.md lacks a run or shows another order file"


def named_words():
    """Every word of the machine has its name."""
    partials = {255: "nominal"}
    names = {0: "GO of generator 0", 10: "GMODE of generator 0", 2815: "GMODE of generator 255 (nominal)", 2816: "M0 of modifier 0", 3839: "MMODE of modifier 127", 3840: "generator-this sum word 0",
             3967: "generator-last sum word 63", 3968: "modifier-this sum word 0", 4095: "modifier-last sum word 63", 4096: "DAC word 0", 4111: "DAC word 15", layout.DX: "DX", layout.T: "T", layout.N: "N",
             layout.COUNTER: "the pass counter", layout.LINGERING: "lingering", layout.LINGER_PASS: "the Linger pass", layout.OVERRUN: "overrun", 4119: "X of delay unit 0", 4342: "the third word of delay unit 31", 4343: "the update ticks"}
    for place, name in names.items():
        assert name_of(place, partials) == name, (place, name_of(place, partials))
    assert len({name_of(place) for place in range(layout.MACHINE_WORDS)}) == layout.MACHINE_WORDS


def machine_of(text):
    """The machine of a bench file."""
    machine = fresh_machine()
    for place, value in compared.Bell(text).words.items():
        machine[place] = value
    put_update_ticks(machine)
    return machine


def settings(machine):
    """What two orders are compared by."""
    t = machine[layout.T]
    return t, [(machine[11 * g + 8:11 * g + 11], machine[11 * g] % 16 if machine[11 * g + 10] >> 6 == TO_DAC else 0) for g in range(t)]


def drawn(draw, most, modes):
    """A bench file of a few generators at random, and an order of them."""
    count = draw.randint(2, most)
    generators = [(draw.choice(modes), dict(gsum=draw.randrange(2), gfm=draw.choice((0, 1, 64)), go=draw.randrange(3), gj=draw.randrange(2 ** 20))) for _ in range(count)]
    return bench(generators), draw.sample(range(count), count)


def commands_that_set(draw):
    """A command that changes what orders are compared by is told from those that don't."""
    met = {(found, did): 0 for found in (True, False) for did in (True, False)}
    for _ in range(6000):
        text, _ = drawn(draw, 6, (PAUSE, TO_DAC, WAITS, STOPS, RUNS, READS))
        text = text.encode()
        command = draw.randrange(2 ** 20) << 12 | draw.choice((0b0000, 0b0001, *range(16))) << 8 | draw.choice((draw.randrange(8), draw.randrange(256)))
        bell, machine = compared.Bell(text), machine_of(text)
        refused, _, after = run_update(machine, [command])
        if not refused:
            met[bool(compared.sets(bell, command)), settings(after) != settings(machine)] += 1
    assert not met[False, True], f"commands that set something weren't told: {met}"
    assert met[True, True] > 100 and met[False, False] > 2000 and met[True, False] < met[True, True], met


def modes_that_change(draw):
    """Equal orders are equal in every mode that triggers can leave, exactly where nothing is said of it."""
    met = {True: 0, False: 0}
    while min(met.values()) < 200:
        text, second = drawn(draw, 5, (WAITS, STOPS, TRIGGERS, RUNS, READS))
        machine = machine_of(text.encode())
        first = range(len(second))
        if not orders.agree(machine, first, second):
            continue
        moving = [g for g in first if machine[11 * g + 10] >> 6 in (WAITS, STOPS)]
        stays = True
        for modes in product((WAITS, STOPS), repeat=len(moving)):
            other = list(machine)
            for g, mode in zip(moving, modes):
                other[11 * g + 10] = mode << 6
            stays = stays and orders.agree(other, first, second)
        assert stays == (not list(compared.changing(compared.Bell(text.encode()), second))), (text, second)
        met[stays] += 1


def named_behind(point, place, machine, first, second, said):
    """Whether the generators that a sentence names are those of the reference's point."""
    one, other = (orders.POINTS[point - 1](machine, order)[place] for order in (first, second))
    numbers = [int(number) for number in re.findall(r"\bgenerator (\d+)", said, flags=re.I)]
    if point == 1:
        return numbers[:2] == [place, place - 1] and one and not other
    if point in (2, 3):
        return f"{'DAC' if point == 2 else 'Item'} {place} " in said and [machine[11 * g + 9] for g in numbers] == [one, other] and all(machine[11 * g + 10] >> 6 == (TO_DAC, WRITES)[point - 2] for g in numbers)
    if f"um word {place} " not in said:
        return False
    if one[0] != other[0]:
        return numbers == [one[0], other[0]]
    if one[1] != other[1]:
        return numbers == [one[0]] and f"by number item {one[1]}, in the second order item {other[1]}." in said
    changed_sides = {int(number) for number in re.findall(r"\d+", said.split(":", 1)[1])}
    return numbers[0] == one[0] and changed_sides == one[2] ^ other[2]


def at_random(at, draw):
    """Random machines and orders: the status and the generators are the reference's."""
    met = dict.fromkeys(range(5), 0)
    modes = (TO_DAC, WRITES, READS, WAITS, STOPS, TRIGGERS, RUNS)
    for i in range(COUNT):
        text, second = drawn(draw, 8, draw.sample(modes, 3))
        file, order, machine = at.file(text), at.file(order_text(second), "second.order"), machine_of(text.encode())
        answer = parts.parts(machine, range(len(second)), second, [0] * layout.MACHINE_WORDS, [0] * 256)
        said, status = compared.compared(str(PROGRAM), str(file), str(order))
        assert answer.number == 0 and status == (Status.NO if answer.point else Status.UNTIL if "as the file begins" in said[1] else Status.DONE), (text, second, said)
        assert said[1].startswith("No" if answer.point else "Yes") and (not answer.point or named_behind(answer.point, answer.place, machine, range(len(second)), second, said[2])), (text, second, said)
        met[answer.point] += 1
    assert min(met.values()) > 10, met


def main():
    draw = random.Random(SEED)
    named_words()
    commands_that_set(draw)
    modes_that_change(draw)
    with tempfile.TemporaryDirectory() as folder:
        at = Folder(folder)
        for part in (bells, fed, written, replaced, limited, long_orders, refusals, trouble, readme):
            part(at)
        at_random(at, draw)
    print(f"{at.tried} files and orders in the right words; {COUNT} at random with the reference's answer and its generators")


if __name__ == "__main__":
    sys.exit(main())
