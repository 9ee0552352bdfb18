"""The planner's commands show, same and renumber: what they say is held against the reference, and what renumber writes is rung.

    /usr/bin/python3 tests/week.py [--full] [GROUP ..]      (ring, sorted and the library for C must be built; graphviz is needed)

--full takes the whole sizes: 2,000 random machines shown (1,500 of 1978, 500 of the older text), 500 random bells renumbered.
"""

import contextlib
import os
import random
import re
import resource
import shutil
import subprocess
import sys
import tempfile
import time
import xml.etree.ElementTree as ElementTree
from collections import Counter
from itertools import combinations, product
from pathlib import Path

from calls import ROOT, Status, call, ends, names, refused, run
import as_rung
import bench_files
import hosts
import partials
import places
import renumbered
import ring_files
import sameness
import shown
import shown_numbers
from command_line import Ending
from reference import any_order, layout
from reference.ring import ring
from texts import OLD_TEXT, Chance

SEED = 1978
GATE, FULL = {"new": 90, "old": 40, "bells": 60, "orders": 300, "older": 12}, {"new": 1500, "old": 500, "bells": 500, "orders": 3000, "older": 60}
EXAMPLES = sorted((ROOT / "examples").glob("*.txt"))
BELL, TABLE, REPORT = (ROOT / "examples" / f"bell.{ending}" for ending in ("txt", "csv", "report"))
OLD_LINE = b"text=old\n"


@contextlib.contextmanager
def built_already():
    """The programs as they are, without a look at each crate's files for every call."""
    asked = hosts.host("week", "library_calls")
    kept = as_rung.built, renumbered.built, hosts.host, hosts.at_hand
    as_rung.built = renumbered.built = lambda command, *programs: [str(places.program(program)) for program in programs]
    hosts.host, hosts.at_hand = (lambda command, name: asked), lambda name: True
    try:
        yield
    finally:
        as_rung.built, renumbered.built, hosts.host, hosts.at_hand = kept


def changed(text, words):
    """A bench file with other words."""
    lines = [line for line in text.splitlines() if not any(line.startswith(f"word={place}:") for place in words)]
    at = next((i for i, line in enumerate(lines) if line.startswith("command=")), len(lines))
    return "\n".join(lines[:at] + [f"word={place}:{value}" for place, value in words.items()] + lines[at:]) + "\n"


def exchanged(text, one, other, registers=range(layout.GENERATOR_WORDS)):
    """A bench file in which two generators have changed some registers."""
    def moved(line):
        g, register = divmod(int(line[1]), layout.GENERATOR_WORDS)
        return f"word={layout.generator_at({one: other, other: one}[g]) + register}:{line[2]}" if g in (one, other) and register in registers else line[0]
    return re.sub(r"^word=(\d+):(\d+)$", moved, text, flags=re.M)


# show

def good(data):
    """Whether a text is a bench file whose machine passes question 2."""
    try:
        bench_files.read("drawn", data)
    except Ending:
        return False
    return True


def drawn(count, is_old):
    """Good bench files at random, of one text."""
    chance = Chance(SEED, OLD_TEXT) if is_old else Chance(SEED)
    while count:
        data = (OLD_LINE if is_old else b"") + ring_files.drawn_bench(chance, not is_old)
        if good(data):
            count -= 1
            yield data


MET = {"pitch": 500, "level": 700, "T60": 3, "end": 400, "way": 600, "glide": 400, "sends": 400, "formula": 500, "input modifier-this": 500, "input modifier-last": 150, "input generator-last": 150,
       "command sets": 150, "never written": 15, "never set off": 60, "above T": 40, "refused": 8, "can't clip": 30, "clipped": 1, "orders": 15}


def shown_at_random(folder, sizes):
    """Random good machines of both texts: no traceback, and each number is the reference's."""
    path, met = Path(folder, "drawn.txt"), Counter()
    for is_old, count in ((False, sizes["new"]), (True, sizes["old"])):
        for number, data in enumerate(drawn(count, is_old)):
            path.write_bytes(data)
            done = call("show", shown, path)
            assert done.status in (0, Status.REFUSED, Status.UNLIKE) and done.out, done
            assert (done.status == Status.UNLIKE) == ("\n! " in done.out and "is refused with" not in done.out), done.out
            wrong, counts = shown_numbers.faults(done.out, data)
            assert not wrong, (number, is_old, wrong[:5])
            met += counts
    seldom = {name: met[name] for name, least in MET.items() if met[name] < least}
    assert not seldom, f"met too seldom: {seldom}"
    print(f"  show: {sum(met[name] for name in ('pitch', 'level', 'T60', 'end', 'way', 'glide', 'sends', 'formula'))} numbers of generators and modifiers and {met['command sets']} of commands are the reference's; "
          f"{met['clipped']} clipped words, {met['refused']} refusals, {met['orders']} answers about orders")
    return sizes["new"] + sizes["old"]


def older_text(folder, sizes):
    """Files of the older text with a program that knows them, the reference in its place: marks, refusals and loudness are told too, and renumber rings them."""
    program, path = Path(folder, "ring"), Path(folder, "old.txt")
    program.write_text(f"#!/bin/sh\ncd '{ROOT}' && exec /usr/bin/python3 -B -m reference.ring\n")
    program.chmod(0o755)
    kept, met, draw = (as_rung.built, renumbered.built), Counter(), random.Random(SEED)
    as_rung.built = renumbered.built = lambda command, *programs: [str(program)]
    try:
        for data in drawn(sizes["older"], True):
            path.write_bytes(data)
            done = call("show", shown, path)
            wrong, counts = shown_numbers.faults(done.out, data)
            assert "not rung" not in done.out and not wrong, (wrong, done)
            met += counts
            t = bench_files.read("drawn", data).t
            order = swapped(draw, t)
            Path(folder, "old.order").write_text("".join(f"order={g}\n" for g in order))
            done = call("renumber", renumbered, path, Path(folder, "old.order"), "-o", Path(folder, "new.txt"))
            if done.status:
                refused(done, Status.REFUSED, "nothing is written")
            else:
                assert ring(data) == ring(Path(folder, "new.txt").read_bytes()) and bench_files.read("", Path(folder, "new.txt").read_bytes()).machine == bench_files.read("", permuted(data, {g: i for i, g in enumerate(order)})).machine
            met["renumbered" if not done.status else "not renumbered"] += 1
    finally:
        as_rung.built, renumbered.built = kept
    assert met["renumbered"] and met["not renumbered"] and met["never set off"] and met["above T"], met
    return 2 * sizes["older"]


def clipping(folder, sizes):
    """Bells that clip: the first pass of each word is that of the reference's marks; and a bell that can't isn't rung for it."""
    path = Path(folder, "loud.txt")
    count = 0
    for seed in range(6):
        draw = random.Random(seed)
        rows = "".join(f"p{i},{draw.uniform(100, 4000):.2f},{draw.uniform(-6, 0):.1f},{draw.uniform(0.5, 3):.2f},{draw.choice(('left', 'right', 'both'))}\n" for i in range(6))
        Path(folder, "loud.csv").write_text("name,hz,db,t60,channel\n" + rows)
        assert call("partials", partials, Path(folder, "loud.csv"), "-o", path, "--passes", "60", "--gain", "0").status == 0
        done = call("show", shown, path)
        wrong, met = shown_numbers.faults(done.out, path.read_bytes())
        assert not wrong, wrong
        count += met["clipped"]
    assert count >= 3, count
    return 6


def examples(folder, sizes):
    """Every example: shown without a fault, its numbers the reference's, its graph drawn with an arrow for each connection."""
    for example in EXAMPLES:
        data, graph = example.read_bytes(), Path(folder, f"{example.stem}.svg")
        done = run("./karvelorn", "show", example.relative_to(ROOT), "--graph", graph)
        assert done.status == 0 and "nothing looks wrong" in done.out and done.err == f"show: wrote {graph}\n", done
        wrong, _ = shown_numbers.faults(done.out, data, most=500)
        assert not wrong, (example, wrong)
        svg = ElementTree.parse(graph).getroot()
        groups = Counter(group.get("class") for group in svg.iter("{http://www.w3.org/2000/svg}g"))
        edges = expected_edges(bench_files.read(str(example), data))
        titles = {title.text for title in svg.iter("{http://www.w3.org/2000/svg}title")}
        assert groups["edge"] == len(edges) and edges <= titles, (example, groups, edges - titles)
    said = run("./karvelorn", "show", "examples/bell.txt").out
    for line in ("generator 2 (tierce): runs; its envelope stays at its end (1111); sine (0000)", "    526.399 Hz (C5 +10.4 cents); -8.66 dB at first; envelope 11: V = exponential of GQ, T60 5.504 s",
                 "    A = modifier-this sum word 0, early: from modifier 0; B = generator-last sum word 2: from generator 5 (clapper)", "any order of the generators rings alike",
                 "modifier 4: four-quadrant product (11000, AA 2, BB 1): S := 1*L1; L1 := 4*A*B", "DAC 0 (left): fed by generator 6; loudest in pass 7, 394215 (-2.48 dB)"):
        assert f"\n{line}\n" in said, (line, said)
    said = run("./karvelorn", "show", "examples/short_bell.txt").out
    for line in ("sum word 2: written by generator 6; read by modifier 4 (B)", "line 59 (0001E110), after pass 1 (0.000052 s): Linger: waits until the pass counter is 30", "not every order of the generators rings alike: generator 6 waits, and generator 5 below it can trigger",
                 "    adds into sum word 2 once generator 5 sets it off; no modulation (nothing writes sum word 63)"):
        assert f"\n{line}\n" in said, (line, said)
    assert "delay unit 0: delay line of words 0 to 97: a word comes back after 100 passes (0.00517 s); it is at word 0; invoked by modifier 0" in run("./karvelorn", "show", "examples/belfry.txt").out
    return len(EXAMPLES) + 3


def expected_edges(file):
    """The arrows of a graph, worked out here by the registers of machines that are not commanded otherwise."""
    edges, written = set(), set()
    running = (layout.RUNNING_A, layout.RUNNING_B, layout.RUNNING_C, layout.WAIT)
    for g in range(file.t):
        if file.run_mode(g) in running:
            written.add(f"word_g{file.generator(g)[layout.GSUM]}")
            edges.add(f"generator_{g}->word_g{file.generator(g)[layout.GSUM]}")
            upper = g + (2 if file.is_old else 1)
            if file.run_mode(g) != layout.RUNNING_A and upper < file.t and file.run_mode(upper) in (layout.WAIT, layout.RUNNING_C):
                edges.add(f"generator_{g}->generator_{upper}")
        if file.text.dac_fed(file.generator(g)) is not None:
            gfm = file.generator(g)[layout.GFM]
            edges |= {f"word_{'m' if gfm >> 6 else 'g'}{gfm & 63}->generator_{g}", f"generator_{g}->dac_{file.text.dac_fed(file.generator(g))}"}
    for m in range(file.t // 2):
        words = file.modifier(m)
        function = words[layout.MMODE] >> 4
        if function:
            edges.add(f"modifier_{m}->word_m{words[layout.MSUM] & 63}")
            inputs = [] if function == layout.UNIFORM_NOISE else [words[layout.MIN]] if function == layout.INVOKE_DELAY_UNIT else [words[layout.MIN], words[layout.MRM]]
            if function == layout.MIXING and not words[layout.M1] >> 10:
                inputs = inputs[:1]
            edges |= {f"word_{'m' if address >> 6 else 'g'}{address & 63}->modifier_{m}" for address in inputs}
            if function == layout.INVOKE_DELAY_UNIT:
                edges.add(f"modifier_{m}->unit_{words[layout.MRM] & 31}")
    return edges


RUNS, WAITS, TRIGGERS, TO_DAC, MIXING, UNITY = 0b1111 << 6, 0b1001 << 6, 0b1110 << 6, 0b0010 << 6, 0b10100 << 4 | 5, 1 << 28
MODIFIER_THIS, REPLACE = 128, 64
# What looks wrong: words that are set in the short bell, and what is said of it.
WRONG = [
    ({86: 40}, "! generator 7 sends sum word 40, and nothing ever writes that"),
    ({2816 + 64 + 4: 17}, "! modifier 8 (mixing) reads sum word 17 as A, and nothing ever writes that"),
    ({2816 + 8 * 5: UNITY, 2816 + 8 * 5 + 4: MODIFIER_THIS | 1, 2816 + 8 * 5 + 6: REPLACE | 9, 2816 + 8 * 5 + 7: MIXING}, "! modifier 5 reads modifier-this sum word 1 as A, early, and doesn't see modifier 4: an early read sees writers at least 4 below"),
    ({2816 + 8 * 7: UNITY, 2816 + 8 * 7 + 4: MODIFIER_THIS | 1, 2816 + 8 * 7 + 6: REPLACE | 9, 2816 + 8 * 7 + 7: MIXING}, "! modifier 7 reads modifier-this sum word 1 as A, early, and doesn't see modifier 4: an early read sees writers at least 4 below"),
    ({2816 + 8 * 1: UNITY, 2816 + 8 * 1 + 4: MODIFIER_THIS | 2, 2816 + 8 * 1 + 6: REPLACE | 9, 2816 + 8 * 1 + 7: MIXING}, "! modifier 1 reads modifier-this sum word 2 as A, early, and its writer is not below it (modifier 8): it sees 0"),
    ({2816 + 8 * 5 + 6: REPLACE | 1}, "! modifier 5 is inactive and replaces modifier sum word 1 by 0: what modifier 4 wrote is gone after it"),
    ({65: RUNS}, "! generator 6 waits, and generator 5, which would set it off, can't trigger: it isn't in a mode that triggers"),
    ({60: 0}, "! generator 6 waits, and generator 5, which would set it off, can't trigger: its envelope never moves (GP is 0)"),
    ({10: WAITS}, "! generator 0 waits, and there is no generator below it that could set it off"),
    ({11 * 30 + 10: RUNS, 11 * 31 + 10: RUNS}, "! generators 30 and 31: not below T = 18, never taken"),
    ({2816 + 8 * 40 + 7: MIXING}, "! modifier 40: not below T div 2 = 9, never taken"),
    ({11 * 9 + 10: TO_DAC, 11 * 9 + 9: 2}, "! DAC 0 is fed by generators 7 and 9: only the last, generator 9, is heard"),
    ({87: RUNS, 98: RUNS}, "! no generator feeds DAC 0 or DAC 1: nothing is heard"),
    ({4114: 20}, "! N = 20 is less than T + 8 = 26: the machine of 1978 needs so many ticks of 195 ns for a pass, and no command is ever taken"),
    ({4114: 20}, "! the commands in lines 59 to 61 are never taken"),
    ({0: 1, 4: 0, 10: 0b0111 << 6}, "! the ringing is refused with 7 in pass 1: Are there read items for all generators that read data?"),
]


def looks_wrong(folder, sizes):
    """Each kind of thing that looks wrong is said of a file that has it, and of the short bell none is."""
    text, path = (ROOT / "examples" / "short_bell.txt").read_text(), Path(folder, "wrong.txt")
    for words, sentence in WRONG:
        path.write_text(changed(text, words))
        done = call("show", shown, path)
        assert sentence in done.out.splitlines() and done.status == (Status.REFUSED if "refused" in sentence else Status.UNLIKE), (sentence, done.out)
    belfry = (ROOT / "examples" / "belfry.txt").read_text()
    for words, sentence in (({4119 + 7: 50, 4119 + 9: 60, 4119 + 10: 8}, "! delay units 0 and 1 are lines that share words 50 to 97 of delay memory"),
                            ({4113: 13, 2816 + 64 + 7: 0}, "! modifier 1 names delay unit 1, for which T = 13 leaves no time: it acts as inactive (units below (T-6) div 4 = 1 act)"),
                            ({4119 + 3: 0b1010, 4119 + 10: 0b1010}, "! delay unit 0 is a table, and a bench file's delay memory is zero: its answers are 0")):
        path.write_text(re.sub(r"command=.*\n", "", changed(belfry, words)))
        done = call("show", shown, path)
        assert sentence in done.out.splitlines(), (sentence, done.out)
    shutil.copy(REPORT, Path(folder, "wrong.report"))
    path.write_text(changed(BELL.read_text(), {23: 662504 << 8, 11 * 4 + 8: 7}))
    done = call("show", shown, path)
    assert f"! {path.with_suffix('.report')} says that generator 2 is tierce, 526.399 Hz: here it is " in done.out and "! generator 4 (nominal) adds into sum word 7, which reaches neither DAC 0 nor DAC 1" in done.out, done.out
    return len(WRONG) + 4


def any_orders(folder, sizes):
    """What show says of all orders, of small machines: yes where every two agree, and without a limit where that stays so in every mode that triggers leave."""
    draw, path, met = random.Random(SEED), Path(folder, "orders.txt"), Counter()
    modes = (0b0010, 0b0011, 0b0111, 0b1001, 0b1101, 0b1110, 0b1111)
    moving = (0b1001, 0b1101)
    for _ in range(sizes["orders"]):
        few, words = draw.sample(modes, 3), {layout.T: draw.randint(2, 4)}
        for g in range(words[layout.T]):
            at = layout.generator_at(g)
            words.update({at + layout.GSUM: draw.randrange(2), at + layout.GFM: draw.choice((0, 1, 64)), at + layout.GO: draw.randrange(3), at + layout.GMODE: draw.choice(few) << 6})
        path.write_text("passes=1\n" + "".join(f"word={place}:{value}\n" for place, value in words.items()))
        said = shown_numbers.sections(call("show", shown, path).out)["orders"]
        machine = bench_files.read(str(path)).machine
        movable = [layout.generator_at(g) + layout.GMODE for g in range(words[layout.T]) if words[layout.generator_at(g) + layout.GMODE] >> 6 in moving]
        agree = any_order.every_two_orders_agree(machine)
        always = agree
        for others in product(moving, repeat=len(movable)) if agree else ():
            for place, mode in zip(movable, others):
                machine[place] = mode << 6
            always = always and any_order.every_two_orders_agree(machine)
        expected = "not every order" if not agree else "any order of the generators rings alike" if always else "any order of the generators rings alike, as the file begins"
        assert said[0] == expected or not agree and said[0].startswith(expected), (expected, said, words)
        met[expected] += 1
        if not agree:
            named = {int(g) for g in re.findall(r"\d+", re.sub(r"(DAC|sum word) \d+", "", said[0]))}
            assert named and named <= set(range(words[layout.T])), said
    assert len(met) == 3 and min(met.values()) >= 10, met
    return sizes["orders"]


# same

PARTS = {"hum": 0, "prime": 1, "tierce": 2, "quint": 3, "nominal": 4}
PITCH, MANNER = (layout.GJ,), (layout.GM, layout.GP, layout.GQ)


def same(folder, sizes):
    """Each pair of partials exchanged in the example bell is found: all registers with the report beside it, pitches alone, levels and decays alone."""
    path, text = Path(folder, "bell.txt"), BELL.read_text()
    found = Counter()
    for (one, i), (other, j) in combinations(PARTS.items(), 2):
        shutil.copy(REPORT, path.with_suffix(".report"))
        path.write_text(exchanged(text, i, j))
        done = call("same", sameness, TABLE, path)
        said = [f"No: generator {g} is {name} in the report ({hz} Hz) and rings {rung} Hz, which is {instead}." for g, name, instead, hz, rung in
                ((i, one, other, *heard(one, other)), (j, other, one, *heard(other, one)))]
        assert done.status == Status.NO and done.out.splitlines() == said, (said, done)
        found["by number"] += 1
        path.with_suffix(".report").unlink()
        done = call("same", sameness, TABLE, path)
        assert done.status == 0 and f"generator {i}: {other}, " in done.out, done  # the same sound, at other numbers
        for registers, kind in ((PITCH, "pitches"), (MANNER, "levels and decays")):
            path.write_text(exchanged(text, i, j, registers))
            done = call("same", sameness, TABLE, path)
            assert done.status == Status.NO and f"level and decay are those of {one if registers == PITCH else other}" in done.out, done
            found[kind] += 1
    assert set(found.values()) == {10} and len(found) == 3, found
    table = Path(folder, "exchanged.csv")  # the names of two rows exchanged: the file that is made of it has its own report
    table.write_text(TABLE.read_text().replace("tierce,", "x,").replace("quint,", "tierce,").replace("x,", "quint,"))
    assert call("partials", partials, table, "-o", path, "--seconds", "6").status == 0
    done = call("same", sameness, TABLE, path)
    assert done.status == Status.NO and "No: generator 2 is quint in the report (526.40 Hz) and rings 526.40 Hz, which is tierce." in done.out, done
    print(f"  same: each of 10 pairs found in 10 of 10, by number, by {' and by '.join(name for name in found if name != 'by number')}")
    return 41 + other_bells(Path(folder))


def heard(name, instead):
    """A partial's Hz in the report, and what another's register rings."""
    hz = dict(re.findall(r"^(\w+) +\d+ +(\d+\.\d+)", REPORT.read_text(), flags=re.M))
    words = dict(re.findall(r"^word=(\d+):(\d+)$", BELL.read_text(), flags=re.M))
    gj = int(words[str(layout.generator_at(PARTS[instead]) + layout.GJ)])
    return f"{float(hz[name]):.2f}", f"{(gj >> 8) / 2 ** 20 * 1e9 / (195 * int(words[str(layout.N)])):.2f}"


def random_table(draw, most=8):
    """A table of partials at random, some on one side; no two within 3 cents."""
    rows, hz = ["name,hz,db,t60,channel"], 60.0
    for i in range(draw.randint(2, most)):
        hz *= draw.uniform(1.01, 1.7)
        rows.append(f"partial {i},{hz:.2f},{draw.uniform(-30, 0):.1f},{draw.uniform(0.3, 20):.2f},{draw.choice(('left', 'right', 'both', 'both'))}")
    if draw.randrange(2):
        rows.append("clapper,noise,-12,0.1,both")
    return "\n".join(rows) + "\n"


def other_bells(at):
    """Bells of random tables are their tables'; with a register moved they aren't, and with a command only until it."""
    draw, table, path = random.Random(SEED), at / "drawn.csv", at / "drawn.txt"
    for _ in range(40):
        table.write_text(random_table(draw))
        done = call("partials", partials, table, "-o", path, "--passes", "20", *draw.choice(([], ["--gain", "-20"])))
        assert done.status == 0, done
        if draw.randrange(2):
            path.with_suffix(".report").unlink()
        ends(call("same", sameness, table, path), 0)
        text = path.read_text()
        registers = {layout.GJ: 1 << 15, layout.GP: 300, layout.GQ: 1 << 18, layout.GSUM: 1}
        register = draw.choice(list(registers))
        place = layout.generator_at(0) + register
        old = int((re.search(rf"^word={place}:(\d+)$", text, flags=re.M) or [0, 0])[1])
        path.write_text(changed(text, {place: old + registers[register] if register != layout.GSUM else 9}))
        done = call("same", sameness, table, path)
        assert done.status == Status.NO and done.out.startswith("No: "), (register, done)
        path.write_text(text + "command=1D4C0600\n")
        done = call("same", sameness, table, path)
        assert done.status == Status.UNTIL and "Only until the command in line" in done.out and "GP of generator 0 := 120000" in done.out, done
    return 120


# renumber

def permuted(data, new_of):
    """The bench file with its generators moved, by the sentences of README alone."""
    def line_of(line):
        if line.startswith(b"word="):
            place, value = line[5:].split(b":")
            g, register = divmod(int(place), 11)
            return b"word=%d:%s" % (11 * new_of.get(g, g) + register, value)
        if line.startswith(b"command=") and 2 <= int(line[13:14], 16) <= 11:
            g = int(line[14:], 16)
            return line[:14] + b"%02X" % new_of.get(g, g)
        return line
    return b"".join(line_of(line) + b"\n" for line in data.splitlines())


def bell_drawn(folder, draw, chance, number):
    """A bell at random: of a table, of a table with strokes that set off others and commands, or any good machine."""
    path = Path(folder, f"bell{number}.txt")
    if number % 3 == 2:
        data = ring_files.drawn_bench(chance)
        while not good(data):
            data = ring_files.drawn_bench(chance)
        path.write_bytes(data)
        return path
    table = Path(folder, "table.csv")
    table.write_text(random_table(draw))
    assert call("partials", partials, table, "-o", path, "--passes", str(draw.choice((40, 3000)))).status == 0
    text = path.read_text()
    t = int(re.search(r"^word=4113:(\d+)$", text, flags=re.M)[1])
    if number % 3 == 1:
        words, feeders = {}, [g for g in range(t) if re.search(rf"^word={11 * g + 10}:{TO_DAC + 48}$", text, flags=re.M)]
        for g in draw.sample(range(t), draw.randint(0, 3)):
            words[11 * g + 10] = draw.choice((TRIGGERS, WAITS, 0b1101 << 6, RUNS, TO_DAC)) | 48
        if draw.randrange(2) and feeders:
            words[11 * feeders[-1]] = draw.randrange(2)
        commands = [draw.randrange(2 ** 20) << 12 | code << 8 | draw.randrange(t) for code in draw.choice(((), (), (0b0110, 0b1011), (0b0100, 0b1001, 0b1100), (0b0010, 0b1101, 0b1110)))]
        commands += [draw.randint(1, t + 3) - 1 << 12 | 0b00011 << 7] if draw.randrange(4) == 0 else []
        path.write_text(changed(text, words) + "".join(f"command={command:08X}\n" for command in commands))
    return path


def renumber(folder, sizes):
    """Random bells by random permutations: refused, or written and rung alike, with words, commands and report moved."""
    draw, chance, met = random.Random(SEED), Chance(SEED + 1), Counter()
    for number in range(sizes["bells"]):
        path = bell_drawn(folder, draw, chance, number)
        data, t = path.read_bytes(), bench_files.read(str(path)).t
        order = draw.sample(range(t), t) if draw.randrange(3) else swapped(draw, t)
        new_of, new, order_file = {g: at for at, g in enumerate(order)}, Path(folder, f"new{number}.txt"), Path(folder, "bell.order")
        order_file.write_text("".join(f"order={g}\n" for g in order))
        by_names = draw.randrange(3) == 0 and t < 40
        done = call("renumber", renumbered, path, *([f"{g}={at}" for g, at in new_of.items()] if by_names else [order_file]), "-o", new)
        if done.status:
            refused(done, Status.REFUSED, "nothing is written")
            assert not new.exists() and not new.with_suffix(".report").exists(), done
            met["refused: " + ("neighbours" if "must stand" in done.err or "would set it off" in done.err else "T" if "move across" in done.err else "rings otherwise")] += 1
            if "rings otherwise" in done.err:
                assert printed(data) != printed(permuted(data, new_of)), done
            continue
        written = new.read_bytes()
        expected = permuted(data, new_of)
        assert sorted(written.splitlines()) == sorted(expected.splitlines()) and bench_files.read(str(new)).machine == bench_files.read("expected", expected).machine, (path, done)
        assert printed(data) == printed(written), (path, done)
        if len(data.splitlines()) < 400 and int(data.split(b"\n")[0][7:]) <= 40:
            assert ring(data) == ring(written), path
            met["by the reference too"] += 1
        report = path.with_suffix(".report")
        if report.exists() and "no report is written" not in done.err:
            rows, gain = bench_files.report_rows(report)
            moved, gain_too = bench_files.report_rows(new.with_suffix(".report"))
            assert gain == gain_too and moved == [(name, [new_of[g] for g in generators], hz) for name, generators, hz in rows], (rows, moved)
            met["with its report"] += 1
        met["alike"] += 1
        if "could part" in done.out:
            met["alike as it is"] += 1
        for left in (path, new, report, new.with_suffix(".report")):
            left.unlink(missing_ok=True)
    least = sizes["bells"] / 500
    assert met["alike"] > 250 * least and met["refused: neighbours"] > 20 * least and met["refused: rings otherwise"] > 5 * least and met["with its report"] > 100 * least and met["by the reference too"] > 60 * least, met
    print(f"  renumber: {sizes['bells']} bells: {dict(met)}")
    return sizes["bells"]


def swapped(draw, t):
    """An order in which few generators change places."""
    order = list(range(t))
    for _ in range(draw.randint(0, 2)):
        i, j = draw.randrange(t), draw.randrange(t)
        order[i], order[j] = order[j], order[i]
    return order


def printed(data):
    """What the proved program prints of a file."""
    return subprocess.run([str(places.program("ring"))], input=data, stdout=subprocess.PIPE, check=True).stdout


def by_name(folder, sizes):
    """Partials by name and by pitch; what stands beside NEW; `same` of the new numbers."""
    at = Path(folder)
    for ending in ("txt", "report"):
        shutil.copy(ROOT / "examples" / f"bell.{ending}", at / f"bell.{ending}")
    (at / "new.report").write_text("older")
    done = ends(call("renumber", renumbered, at / "bell.txt", "tierce=3", "quint=2", "-o", at / "new.txt"), 0)
    assert done.out.startswith("2 tierce is now 3, 3 quint is now 2\n") and f"{at / 'new.txt'} rings as {at / 'bell.txt'}: the same lines in 65535 passes\n" in done.out, done
    assert (at / "new.txt").read_text() == exchanged_sorted(BELL.read_text(), 2, 3) and "tierce            3   526.399" in (at / "new.report").read_text()
    assert call("same", sameness, TABLE, at / "new.txt").status == 0
    done = ends(call("renumber", renumbered, at / "bell.txt", "--by-pitch", "-o", at / "pitch.txt"), 0)
    assert "0 hum is now 15" in done.out and call("same", sameness, TABLE, at / "pitch.txt").status == 0
    done = ends(call("renumber", renumbered, at / "bell.txt", "hum=4", "-o", at / "one.txt"), 0)
    assert done.out.startswith("0 hum is now 4, 4 nominal is now 0\n"), done  # the one that is driven out gets the free number
    (at / "bell.report").unlink()
    ends(call("renumber", renumbered, at / "bell.txt", "2=3", "-o", at / "new.txt"), 0, "new.report is not of this file: it is now new.older.report")
    refused(call("renumber", renumbered, at / "bell.txt", "tierce=3", "-o", at / "x.txt"), Status.MISUSED, "tierce names no generator here")
    strokes = ROOT / "examples" / "two_strokes.txt"
    refused(call("renumber", renumbered, strokes, "--by-pitch", "-o", at / "x.txt"), Status.REFUSED, "generator 0 can set off generator 1, which waits: it must stand just below it")
    ends(call("renumber", renumbered, strokes, strokes.with_suffix(".order"), "-o", at / "strokes.txt"), 0)
    (at / "ticks.txt").write_text("passes=50\n" + BELL.read_text().split("\n", 1)[1] + f"command={2 << 12 | 0b00011 << 7:08X}\n")  # T becomes 3
    ends(call("renumber", renumbered, at / "ticks.txt", "0=1", "-o", at / "moved.txt"), 0)
    refused(call("renumber", renumbered, at / "ticks.txt", "0=4", "-o", at / "x.txt"), Status.REFUSED, "sets T to 3, and generators 0 and 4 would move across it")
    (at / "pair.txt").write_text(changed(strokes.read_text(), {10: TRIGGERS, 21: RUNS, 11 * 4 + 10: WAITS, layout.T: 5}))  # 0 triggers nobody, 4 waits for nobody
    ends(call("renumber", renumbered, at / "pair.txt", "0=1", "-o", at / "moved.txt"), 0)
    refused(call("renumber", renumbered, at / "pair.txt", "0=3", "-o", at / "x.txt"), Status.REFUSED, "generator 0, which can trigger, would stand just below generator 4, which waits, and would set it off")
    refused(call("renumber", renumbered, at / "pair.txt", "4=1", "-o", at / "x.txt"), Status.REFUSED, "generator 0, which can trigger, would stand just below generator 4")
    assert "x.txt" not in names(folder)
    feeding = changed(BELL.read_text(), {77: 0})  # both feeders feed DAC 0, from different words
    (at / "feeding.txt").write_text(changed(feeding, {11 * 7 + 9: 0}))
    refused(call("renumber", renumbered, at / "feeding.txt", "6=7", "-o", at / "x.txt"), Status.REFUSED, "rings otherwise from pass", "DAC 0 is fed last by another generator: by number generator 7")
    return 15


def exchanged_sorted(text, one, other):
    """The same, its words in the sequence of their places."""
    lines = exchanged(text, one, other).splitlines()
    return "\n".join([lines[0], *sorted(lines[1:], key=lambda line: int(line[5:].split(":")[0]))]) + "\n"


# Habits of the command line

def calls(folder, sizes):
    """Wrong calls, files that can't be read or written, inputs that would be written over: a sentence and a status, nothing destroyed."""
    at, bell = Path(folder), Path(folder, "bell.txt")
    shutil.copy(BELL, bell)
    shutil.copy(REPORT, at / "bell.report")
    shutil.copy(bell, at / "bell.svg")
    (at / "folder.svg").mkdir()
    before = {name: (at / name).read_bytes() for name in names(folder) if (at / name).is_file()}
    for module, name, arguments, status, sentence in (
            (shown, "show", [], Status.MISUSED, "FILE"), (shown, "show", ["none.txt"], Status.UNREAD, "cannot read"), (shown, "show", [bell, "--graph", at / "x.png"], Status.MISUSED, "name it .svg"),
            (shown, "show", [at / "bell.svg", "--graph", at / "bell.svg"], Status.MISUSED, "is an input"), (shown, "show", [bell, "--graph", at / "folder.svg"], Status.MISUSED, "is a folder"),
            (shown, "show", [bell, "--graph", at / "none" / "x.svg"], Status.UNWRITTEN, "cannot write"),
            (sameness, "same", [TABLE], Status.MISUSED, "FILE"), (sameness, "same", [at / "none.csv", bell], Status.UNREAD, "cannot read"), (sameness, "same", [TABLE, at / "none"], Status.UNREAD, "cannot read"),
            (sameness, "same", [bell, bell], Status.REFUSED, "not a head of a table"), (sameness, "same", [TABLE, ROOT / "examples" / "old_bell.txt"], Status.REFUSED, "older text"),
            (renumbered, "renumber", [bell, "0=1"], Status.MISUSED, "-o"), (renumbered, "renumber", [bell, "-o", at / "x.txt"], Status.MISUSED, "ask for one of"),
            (renumbered, "renumber", [bell, "0=1", "--by-pitch", "-o", at / "x.txt"], Status.MISUSED, "ask for one of"), (renumbered, "renumber", [bell, "0=1", "-o", bell], Status.MISUSED, "is an input"),
            (renumbered, "renumber", [bell, "0=1", "-o", at / "bell.report"], Status.MISUSED, "the report goes there"), (renumbered, "renumber", [bell, "0=1", "-o", at / "bell.bench"], Status.MISUSED, "is an input"),
            (renumbered, "renumber", [bell, "0=20", "-o", at / "x.txt"], Status.MISUSED, "below T = 20"), (renumbered, "renumber", [bell, "0=1", "2=1", "-o", at / "x.txt"], Status.MISUSED, "was there before"),
            (renumbered, "renumber", [bell, bell, "-o", at / "x.txt"], Status.REFUSED, "is no order file"), (renumbered, "renumber", [bell, at / "none.order", "-o", at / "x.txt"], Status.UNREAD, "cannot read"),
            (renumbered, "renumber", [ROOT / "examples" / "old_bell.txt", "0=2", "2=0", "-o", at / "x.txt"], Status.REFUSED, "it must stand two below it")):
        refused(call(name, module, *arguments), status, sentence)
    for text, number, sentence in ((b"passes=x\n", 9, "no decimal number"), (b"passes=1\nword=4113:0\n", 2, "T (word 4113) has 0, 1 to 256"), (b"text=new\npasses=1\n", 13, "the text is 'new'"),
                                   (b"text=old\npasses=1\ncommand=00000000\n", 9, "line 3: a file of the older text has no commands"), (b"text=old\npasses=1\nword=10:512\n", 2, "GMODE of generator 0 (word 10) has 512, at most 255"),
                                   (b"text=old\npasses=1\nword=10:32\n", 2, "run mode 001 with oscillator mode 000, which isn't built"), (b"text=old\npasses=1\nword=2823:272\n", 2, "function 10001, which isn't built")):
        (at / "bad.txt").write_bytes(text)
        for module, name, arguments in ((shown, "show", [at / "bad.txt"]), (sameness, "same", [TABLE, at / "bad.txt"]), (renumbered, "renumber", [at / "bad.txt", "0=1", "-o", at / "x.txt"])):
            refused(call(name, module, *arguments), Status.REFUSED, f"question {number}: ", sentence)
    assert {name: (at / name).read_bytes() for name in before} == before and not {"x.txt", "x.png", "x.svg", "x.report"} & set(names(folder)), names(folder)
    return 29 + older_graphs(at, bell) + streams(at, bell)


def older_graphs(at, bell):
    """A graph that somebody else made is kept under another name, one of ours is replaced; after a refusal none stands there as this file's."""
    graph = at / "graph.svg"
    graph.write_text("<svg>by hand</svg>")
    ends(call("show", shown, bell, "--graph", graph), 0, "it is now graph.older.svg", "wrote")
    drawn_ = graph.read_bytes()
    ends(call("show", shown, bell, "--graph", graph), 0)
    assert graph.read_bytes() == drawn_ and (at / "graph.older.svg").read_text() == "<svg>by hand</svg>" and "graph.older-2.svg" not in names(at)
    refused(call("show", shown, at / "bad.txt", "--graph", graph), Status.REFUSED, "it is now graph.older-2.svg")
    assert not graph.exists()
    bare = run("/usr/bin/python3", "tools/front.py", "show", bell, "--graph", graph, env={**os.environ, "PATH": "/nonexistent"})
    refused(bare, Status.MISSING, "apt install graphviz")
    return 4


def streams(at, bell):
    """Standard input, a full device, a closed pipe; --help has the words of the trade, the statuses and an example."""
    for command in (("show", bell), ("same", TABLE, bell), ("renumber", bell, "2=3", "-o", at / "new.txt")):
        with open("/dev/full", "w") as full:
            ends(run("./karvelorn", *command, stdout=full), Status.UNWRITTEN, "cannot write: No space left on device")
        done = run("./karvelorn", command[0], "--help")
        assert done.status == 0 and "\nexample:\n" in done.out and "exit status:" in done.out and run("./karvelorn", command[0], "--version").out.startswith("karvelorn "), done
        refused(run("./karvelorn", command[0], "--nonsense"), Status.MISUSED, "--help")
    text = run("./karvelorn", "show", "--help").out
    assert all(re.search(rf"^  {word} +\S", text, flags=re.M) for word in ("pass", "tick", "T", "N", "register", "sum word")), text
    piped = run("./karvelorn", "show", "-", input=bell.read_bytes())
    assert piped.status == 0 and piped.out.startswith("-: by the text of 1978") and "generator 2: runs" in piped.out, piped
    assert run("./karvelorn", "same", TABLE, "-", input=bell.read_bytes()).status == 0
    return 12


def pages(folder, sizes):
    """The runs that docs/PLANNING.md shows are real."""
    page = (ROOT / "docs" / "PLANNING.md").read_text()
    runs = re.findall(r"^    \$ \./karvelorn (.*)\n((?:    [^$\n].*\n)+)", page, flags=re.M)
    assert len(runs) >= 3, "docs/PLANNING.md shows too few runs"
    for path in (ROOT / "examples").iterdir():
        if path.suffix in (".txt", ".csv", ".report", ".chain"):
            shutil.copy(path, folder)
    for arguments, lines in runs:
        said = run(ROOT / "karvelorn", *arguments.replace("examples/", "").split(), cwd=folder)
        at, text = 0, said.out + said.err
        for line in (line[4:] for line in lines.splitlines()):
            if line.strip() == "...":
                continue
            found = text.replace("examples/", "").find(line.replace("examples/", ""), at)
            assert found >= 0, (arguments, line, text)
            at = found + 1
    return len(runs)


def worked():
    """Seconds of a processor, of the programs that are called too."""
    return time.process_time() + sum(resource.getrusage(resource.RUSAGE_CHILDREN)[:2])


GROUPS = (shown_at_random, older_text, clipping, examples, looks_wrong, any_orders, same, renumber, by_name, calls, pages)


def main(arguments):
    sizes = FULL if "--full" in arguments else GATE
    asked = [name for name in arguments if name != "--full"]
    tried, began = 0, worked()
    with built_already():
        for group in GROUPS:
            if asked and group.__name__ not in asked:
                continue
            start = worked()
            with tempfile.TemporaryDirectory() as folder:
                count = group(folder, sizes)
            tried += count
            print(f"{group.__name__}: {count} cases, {worked() - start:.1f} s")
    print(f"week: {tried} cases of show, same and renumber, {worked() - began:.1f} s")


if __name__ == "__main__":
    sys.exit(main(sys.argv[1:]))
