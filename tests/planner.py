"""The planner's commands number and join, and partials on words and DACs of its own: what they say and write is held to the reference.

    /usr/bin/python3 tests/planner.py [--full] [GROUP ..]      (ring and the library for C must be built)

--full takes the whole sizes: 1,000 chains numbered, 300 put into files, 300 pairs of bells joined.
"""

import contextlib
import os
import random
import re
import resource
import shutil
import sys
import tempfile
import time
from collections import Counter
from pathlib import Path

from calls import ROOT, Status, call, ends, names, refused, run
import as_rung
import bench_files
import chain_requests
import hosts
import join_requests
import joining
import longer
import numbered
import partials
import places
import ring_files
import sameness
import shown
from command_line import Ending
from command_words import names_modifier
from reference import layout
from reference.cases.chains import runs_of
from reference.chain import chain_refusal, earliest, listed
from reference.join import dacs_used, join, words_used
from reference.machine import fresh_machine, run_pass, zero_memory
from reference.ring import ring
from texts import OLD_TEXT, Chance

SEED = 1978
GATE, FULL = {"chains": 90, "into": 45, "pairs": 30, "bells": 6}, {"chains": 1000, "into": 300, "pairs": 300, "bells": 30}
LOW, HIGH = (ROOT / "examples" / f"{name}_bell.txt" for name in ("low", "high"))
BELL, REPORT, TABLE = (ROOT / "examples" / f"bell.{ending}" for ending in ("txt", "report", "csv"))


@contextlib.contextmanager
def built_already(*others):
    """The programs as they are, without a look at each crate's files for every call."""
    asked = {name: hosts.host("planner", name) for name in hosts.HOSTS}
    asking = (as_rung, numbered, joining, *others)
    kept, kept_host, kept_at_hand = [module.built for module in asking], hosts.host, hosts.at_hand
    for module in asking:
        module.built = lambda command, *programs: [str(places.program(program)) for program in programs]
    hosts.host, hosts.at_hand = (lambda command, name: asked[name]), lambda name: True
    longer.host = hosts.host
    try:
        yield
    finally:
        for module, was in zip(asking, kept):
            module.built = was
        hosts.host, hosts.at_hand, longer.host = kept_host, kept_at_hand, kept_host


# number

def chain_text(draw, chain, called, present=None):
    """A chain in the form of its text, with comments, commas and blanks here and there."""
    lines = []
    for i, (read, seen) in enumerate(chain):
        name = called(i) + (f"={present[i]}" if present else "")
        words = [name] if not seen and draw.randrange(2) else [name, read, *map(called, seen)]
        lines.append(draw.choice((" ", "  ", "\t")).join(words) if draw.randrange(3) or len(words) < 3 else f"{words[0]} {words[1]} {', '.join(words[2:])}")
        if draw.randrange(6) == 0:
            lines.append(draw.choice(("", "# a comment", "   ")))
    return "\n".join(lines) + draw.choice(("", "\n", "  # the end\n"))


def chains(folder, sizes):
    """Chains at random: the numbers are the reference's, refusals 14 and 15 name the line and why."""
    draw, path, met = Chance(SEED), Path(folder, "chain"), Counter()
    for number in range(sizes["chains"]):
        chain = chain_requests.drawn_chain(draw, *chain_requests.sizes(draw, number)) or [("late", [])]
        if number % 6 == 1:
            late = draw.randrange(40)
            chain = [("late" if i == late else "early", [i - 1] if i else []) for i in range(draw.randint(31, 37))]
        wrong = None
        if number % 3 == 2:
            at = draw.randrange(len(chain))
            wrong = at, draw.choice((at, len(chain), *([at + 1] if at + 1 < len(chain) else [])))
            chain[at] = chain[at][0], [*chain[at][1], wrong[1]]
        called = [f"{draw.choice(('m', 'left', 'ü', '1.'))}{i}" for i in range(len(chain) + 1)]
        text = chain_text(draw, chain, called.__getitem__)
        path.write_text(text)
        line = {word.split()[0]: at for at, word in enumerate(text.splitlines(), 1) if word.split()}
        question = chain_refusal(*runs_of(chain))
        done = call("number", numbered, path)
        if question == 14:
            cause = misnaming(chain, called, line, *wrong)
            refused(done, Status.REFUSED, "question 14: Do a chain's entries have their form", f"  line {line[called[wrong[0]]]}: {called[wrong[0]]} {cause}\n")
        elif question == 15:
            first = next(i for i, most in enumerate(earliest(listed(*runs_of(chain)))) if most > 127)
            refused(done, Status.REFUSED, "question 15: Are a chain's earliest numbers at most 127?", f"  line {line[called[first]]}: for {called[first]} no number up to 127 is left: it comes after {called[first - 1]}, which has ")
        else:
            found = [(row.split()[0], int(row.split()[1])) for row in done.out.splitlines()]
            assert done.status == 0 and found == list(zip(called, earliest(listed(*runs_of(chain))))), (chain, done)
        met[question] += 1
    assert min(met[question] for question in (0, 14, 15)) >= sizes["chains"] / 20, met
    print(f"  number: {sizes['chains']} chains: {dict(met)}")
    return sizes["chains"]


def misnaming(chain, called, line, at, named):
    """Why an entry may not name another place of the list."""
    if at == named:
        return "names itself"
    return f"names {called[named]}, " + ("and no line begins with that" if named == len(chain) else f"which stands later, in line {line[called[named]]}: put it before")


TEXTS = (("early x\n", "line 1: begins with 'early', and not with a name"), ("a\n=3 late\n", "line 2: begins with '=3'"), ("a=128\n", "line 1: 'a=128': a present number goes from 0 to 127"), ("a= late\n", "a present number goes from"),
         ("a=x\n", "a present number goes from"), ("\n\na soon b\n", "line 3: a is followed by 'soon', and not by early or late"), ("a\nb early a=3\n", "line 2: 'a=3' is not a name"), ("a\nb late early\n", "line 2: 'early' is not a name"),
         ("a\nb\na late\n", "line 3: the name a is that of line 1 too"), ("a=3\nb=3 late a\n", "line 2: the present number 3 is that of line 1 too"), ("# nothing\n\n", "names no modifier"), ("", "names no modifier"),
         ("a" * 65537, "has more than 65536 bytes"), (b"a\xff\n", "byte 2 is no UTF-8"))


def chain_texts(folder, sizes):
    """Texts that are no chains: the line and why. CR LF and a byte-order mark are no matter."""
    path = Path(folder, "chain")
    for text, sentence in TEXTS:
        path.write_bytes(text if isinstance(text, bytes) else text.encode())
        refused(call("number", numbered, path), Status.REFUSED, sentence)
    path.write_bytes(b"\xef\xbb\xbfnoise\r\nshaped early, noise # by the clapper\r\n\r\nleft late shaped,noise\r\n")
    assert call("number", numbered, path).out == "noise    0\nshaped   4\nleft     5\n"
    assert run("./karvelorn", "number", "-", input=path.read_bytes()).out == "noise    0\nshaped   4\nleft     5\n"
    path.write_text("a=9\nb=1 early a\nc=5 early b\n")
    assert call("number", numbered, path).out == "a   0  (now 9)\nb   4  (now 1)\nc   8  (now 5)\n"
    return len(TEXTS) + 3


def used(draw, number):
    """A chain put to use, its modifiers scattered, in a bench file: entry i adds bit i into modifier-this word 0 and keeps what it read there in L1."""
    chain, numbers = chain_requests.drawn_use(draw)
    scattered = sorted(draw.sample(range(128), len(chain)), key=lambda m: draw.random()) if number % 2 else draw.sample(range(len(chain)), len(chain))
    machine = chain_requests.used_machine(Chance(number), chain, scattered, False)
    return chain, numbers, scattered, machine


def bench_of(machine, passes, commands=()):
    """A machine as a bench file."""
    fresh = fresh_machine()
    words = "".join(f"word={place}:{value}\n" for place, value in enumerate(machine[:layout.FILE_PLACES]) if value != fresh[place])
    return f"passes={passes}\n{words}" + "".join(f"command={command:08X}\n" for command in commands)


def expected_moved(machine, new_of):
    """A machine with its modifiers moved, by the sentence of the page alone."""
    moved = list(machine)
    for m in new_of:
        moved[2816 + 8 * m:2824 + 8 * m] = [0] * 8
    for m, number in new_of.items():
        moved[2816 + 8 * number:2824 + 8 * number] = machine[2816 + 8 * m:2824 + 8 * m]
    return moved


def into(folder, sizes):
    """Chains in bench files at scattered numbers: after `number --into` each reader finds the bit of every entry that it names, in a pass of the reference; commands follow."""
    draw, at, met = Chance(SEED), Path(folder), Counter()
    for number in range(sizes["into"]):
        chain, numbers, scattered, machine = used(draw, number)
        called = [f"m{i}" for i in range(len(chain))]
        commands = [draw.randrange(2 ** 20) << 12 | code << 8 | draw.choice((0, 128)) | m for code, m in ((0b1100, scattered[0]), (0b1110, scattered[-1]), (0b0110, 5))] if number % 4 == 0 else []
        commands += [0x00003110] if number % 8 == 0 else []
        (at / "bell.txt").write_text(bench_of(machine, 3, commands))
        (at / "chain").write_text(chain_text(draw, chain, called.__getitem__, scattered))
        (at / "new.txt").unlink(missing_ok=True)
        done = call("number", numbered, at / "chain", "--into", at / "bell.txt", "-o", at / "new.txt")
        new_of = dict(zip(scattered, numbers))
        assert done.status in (0, Status.UNLIKE), done
        new = bench_files.read("new", (at / "new.txt").read_bytes())
        assert new.machine == expected_moved(bench_files.read("bell", (at / "bell.txt").read_bytes()).machine, new_of), done
        moved = [command & ~127 | new_of[names_modifier(command)] if command >> 8 & 15 > 11 else command for command in commands]
        assert [command for _, command in new.commands] == moved, (commands, new.commands)
        after = run_pass(new.machine, range(256), [], [], zero_memory()).machine
        wanted = [(i, j) for i, (_, seen) in enumerate(chain) for j in seen]
        assert all(chain_requests.seen_by(after, chain, numbers, i, False) >> j & 1 for i, j in wanted), chain
        met["reads seen"] += len(wanted)
        alike = ring((at / "bell.txt").read_bytes()) == ring((at / "new.txt").read_bytes())
        assert ("rings as" in done.out) == alike, done
        met["with doubts" if done.status else "without doubts"] += 1  # all write one word here, and each reads it
    assert met["reads seen"] > 10 * sizes["into"], met
    print(f"  number --into: {sizes['into']} files: {dict(met)}")
    return sizes["into"]


def anything(folder, sizes):
    """Random good machines of both texts with any chain of their modifiers: refused, or the modifiers moved and nothing else; and what is said of the ringing is so."""
    at, met, draw = Path(folder), Counter(), random.Random(SEED)
    sources = (Chance(SEED), b""), (Chance(SEED, OLD_TEXT), b"text=old\n")
    for number in range(sizes["into"]):
        chance, line = sources[number % 3 == 2]
        data = line + ring_files.drawn_bench(chance, not line)
        try:
            file = bench_files.read("bell", data)
        except Ending:
            continue
        (at / "bell.txt").write_bytes(data)
        most = draw.choice((max(file.t // 2, 1), max(file.t // 2, 1), 128))
        present = draw.sample(range(most), draw.randint(1, min(most, 12)))
        present = sorted(present) if draw.randrange(2) else present
        chain = chain_requests.drawn_chain(draw, len(present), draw.randrange(3), draw.randrange(3))
        (at / "chain").write_text(chain_text(draw, chain, lambda i: f"m{i}", present))
        (at / "new.txt").unlink(missing_ok=True)
        done = call("number", numbered, at / "chain", "--into", at / "bell.txt", "-o", at / "new.txt")
        assert done.status in (0, Status.REFUSED, Status.UNLIKE) and ((at / "new.txt").exists() == (done.status != Status.REFUSED)), done
        met[int(done.status)] += 1
        if done.status != Status.REFUSED:
            new = bench_files.read("new", (at / "new.txt").read_bytes())
            new_of = dict(zip(present, earliest(listed(*runs_of(chain)))))
            assert new.machine == expected_moved(file.machine, new_of) and new.text is file.text, done
            assert [command for _, command in new.commands] == [command & ~127 | new_of.get(command & 127, command & 127) if command >> 8 & 15 > 11 else command for _, command in file.commands]
            assert ("rings as" in done.out) == (ring(data) == ring((at / "new.txt").read_bytes())), done
    assert met[0] and met[Status.REFUSED], met
    print(f"  number --into random machines: {dict(met)}")
    return sum(met.values())


CLAPPER = "noise={}\nshaped={} early noise\nleft={} early shaped\nright={} early shaped\n"


def renumbered_bell(new_of):
    """The example bell with its modifiers at other numbers."""
    def moved(line):
        m, register = divmod(int(line[1]) - 2816, 8)
        return f"word={2816 + 8 * new_of.get(m, m) + register}:{line[2]}" if 0 <= m < 128 else line[0]
    return re.sub(r"^word=(\d+):(\d+)$", moved, BELL.read_text(), flags=re.M)


def into_bell(folder, sizes):
    """The example bell: as it is, with numbers too low, and what can't follow or looks wrong."""
    at = Path(folder)
    chain, bell, new = at / "chain", at / "bell.txt", at / "new.txt"

    def numbered_into(text, words, **more):
        chain.write_text(text)
        bell.write_text(words)
        return call("number", numbered, chain, "--into", bell, "-o", more.get("new", new))
    shutil.copy(REPORT, at / "bell.report")
    done = numbered_into(CLAPPER.format(0, 4, 8, 9), BELL.read_text())
    assert done.status == 0 and done.out == f"noise    0\nshaped   4\nleft     8\nright    9\n{new} rings as {bell}: the same lines in 65535 passes\n" and new.read_text() == BELL.read_text(), done
    assert (at / "new.report").read_bytes() == REPORT.read_bytes()
    low = renumbered_bell({0: 0, 4: 1, 8: 2, 9: 3})
    done = numbered_into(CLAPPER.format(0, 1, 2, 3), low)
    assert done.status == 0 and new.read_text() == BELL.read_text() and "rings otherwise than" in done.out and "from pass 4 on (left=143212 right=143212 becomes left=167273 right=167273): a reader sees what it missed before" in done.out, done
    after = new.read_bytes()
    cases = (
        (CLAPPER.format(0, 1, 2, 3).replace("=1", ""), low, "line 2: shaped has no present number: with --into write shaped=NUMBER"),
        ("noise=0\nshaped=1 late noise\n", low, "line 2: shaped must see noise, and in the file it reads modifier-this sum word 0 early (as A, four-quadrant product): the chain says late"),
        (CLAPPER.format(0, 1, 2, 3), low.replace("word=4113:20\n", "word=4113:18\n"), "right (line 4) would be 9, and T = 18 leaves time for modifiers below 9 alone: it needs a T of 20"),
        (CLAPPER.format(0, 1, 2, 3), low + f"command={15 << 12 | 0b00011 << 7:08X}\n", "left (line 3) would be 8, and T = 16 leaves time for modifiers below 8 alone: it needs a T of 18"),
        ("noise=0\nshaped=1 early noise\nleft=2 early shaped\n", low.replace("word=4113:", f"word={2816 + 8 * 8 + 6}:5\nword=4113:"), "modifier 8 isn't in the chain and is in use, and left (line 3) would go there: name it in the chain too"),
        (CLAPPER.format(0, 1, 2, 3), low + f"command={0b1100 << 8 | 8:08X}\n", "modifier 8 isn't in the chain and is in use"),
    )
    for text, words, sentence in cases:
        refused(numbered_into(text, words), Status.REFUSED, sentence)
    done = numbered_into(CLAPPER.format(0, 1, 2, 3).replace("early shaped\nright", "early noise\nright"), low)  # left names another than it reads
    assert done.status == Status.UNLIKE and "! line 3: left is to see noise, and in the file it reads no modifier-this sum word that noise writes" in done.out, done
    done = numbered_into("left=8\nright=9\nnoise=0\nshaped=4\n", BELL.read_text())  # nobody is named: shaped misses the noise
    assert done.status == Status.UNLIKE and "! modifier shaped (4) reads modifier-this sum word 0 as A, which modifier noise (0) writes: the chain doesn't name that, and it no longer sees it" in done.out and "! " + str(new) + " rings otherwise than" in done.out, done
    done = numbered_into("noise=0\nshaped=4 early noise\nleft=8 early shaped\nright=40 early shaped\n", renumbered_bell({9: 40}))
    assert done.status == 0 and "modifier 40 had no turn, since T = 20; numbered so it has one" in done.out, done
    (at / "bell.report").unlink()
    ends(numbered_into(CLAPPER.format(0, 4, 8, 9), BELL.read_text()), 0, "new.report is not of this file: it is now new.older.report")
    done = numbered_into("near=0\nfar=1 late near\nmix=6 early near\necho=8 early far\n", (ROOT / "examples" / "belfry.txt").read_text())  # delay units go with their modifiers
    assert done.status == 0 and done.out == f"near   0\nfar    1\nmix    4  (now 6)\necho   5  (now 8)\n{new} rings as {bell}: the same lines in 420 passes\n", done
    old = (ROOT / "examples" / "old_bell.txt").read_text()
    assert numbered_into("a=0\n", old).status == 0 and new.read_text() == old, "the older text"
    return len(cases) + 9 + (after == BELL.read_bytes())


# join

def pair_files(at, machines, passes):
    """Two machines as bench files."""
    for name, machine, count in zip(("one.txt", "two.txt"), machines, passes):
        (at / name).write_text(bench_of(machine, count))
    return [bench_files.read("one", (at / name).read_bytes()).machine for name in ("one.txt", "two.txt")]


def pairs(folder, sizes):
    """Pairs of random machines: joined as the reference joins them, or refused by its number with a cause; --apart makes 18 go away."""
    draw, at, met = Chance(SEED), Path(folder), Counter()
    pool = [join_requests.idle_modifiers(join_requests.whole_machine(draw)) for _ in range(4)]
    for number in range(sizes["pairs"]):
        machines, name = join_requests.pair(draw, pool, number % 2 == 0), "good"
        if number % 2:
            changes = draw.choices(join_requests.CHANGES, k=draw.choice((1, 1, 2)))
            for change in changes:
                change(draw, *draw.choice((machines, machines[::-1])))
        passes = draw.choice(((9, 5), (4, 12), (6, 6)))
        first, second = pair_files(at, machines, passes)
        question, joined = join(first, second)
        (at / "both.txt").unlink(missing_ok=True)
        done = call("join", joining, at / "one.txt", at / "two.txt", "-o", at / "both.txt")
        met[question] += 1
        if question:
            refused(done, Status.REFUSED, f"can't be joined: question {question}: ", "\n  ")
            assert not (at / "both.txt").exists()
            met["causes"] += causes_hold(question, done.err, first, second)
        else:
            written = bench_files.read("both", (at / "both.txt").read_bytes())
            assert done.status in (0, Status.UNLIKE) and written.machine == joined and written.passes == max(passes), (name, done)
            met["heard otherwise"] += bool(done.status)
        if question in (0, 18):
            apart(at, done, first, second, question, met)
    assert all(met[question] for question in (0, 17, 18)) and met["apart"] and met["causes"] >= met[17] + met[18], met
    print(f"  join: {sizes['pairs']} pairs: {dict(met)}")
    return sizes["pairs"]


def causes_hold(question, said, first, second):
    """Each cause of a refusal is so in the machines; answers how many there are."""
    lines = said.splitlines()[1:]
    if question == 16:
        assert f"T = {first[layout.T]} and " in lines[0] and f"T = {second[layout.T]}: {first[layout.T] + second[layout.T]} together" in lines[0], said
    if question == 18:
        words = {int(line.split()[2].rstrip(":")) for line in lines if line.startswith("  sum word ")}
        dacs = {int(line.split()[1].rstrip(":")) for line in lines if line.startswith("  DAC ")}
        assert words == words_used(first) & words_used(second) and dacs == dacs_used(first) & dacs_used(second) or "more" in lines[-1], said
    for line in lines if question == 17 else ():
        machine = first if "one.txt: " in line else second
        if found := re.search(r"generator (\d+) (reads|writes) data", line):
            assert layout.run_mode(machine[11 * int(found[1]) + 10]) == {"reads": 0b0111, "writes": 0b0011}[found[2]], line
        elif found := re.search(r"GFM of generator (\d+) names modifier-last sum word (\d+)", line):
            assert machine[11 * int(found[1]) + 9] == 64 + int(found[2]), line
        elif found := re.search(r"modifier (\d+) is active", line):
            assert machine[2816 + 8 * int(found[1]) + 7] >> 4, line
        else:
            assert "and could set it off" in line and layout.run_mode(second[10]) in (0b1001, 0b1101) or " more" in line, line
    return len(lines)


def apart(at, plain, first, second, question, met):
    """--apart: nothing is shared then, and what is said is what was moved; without a need the file is the same."""
    before = (at / "both.txt").read_bytes() if not question else None
    done = call("join", joining, at / "one.txt", at / "two.txt", "-o", at / "both.txt", "--apart")
    if done.status == Status.REFUSED:
        assert "can't be put apart: all" in done.err, done
        met["no room"] += 1
        return
    assert done.status in (0, Status.UNLIKE), done
    if before is not None:
        assert (at / "both.txt").read_bytes() == before and "nothing has to be moved apart" in done.out, done
        return
    moved = {(kind, int(one)): int(to) for kind, one, to in re.findall(r"(sum word|DAC) (\d+) is now (\d+)", done.out.splitlines()[0])}
    words = {one: to for (kind, one), to in moved.items() if kind == "sum word"}
    dacs = {one: to for (kind, one), to in moved.items() if kind == "DAC"}
    assert words.keys() == words_used(first) & words_used(second) and dacs.keys() == dacs_used(first) & dacs_used(second), done
    assert join(first, moved_machine(second, words, dacs)) == (0, bench_files.read("", (at / "both.txt").read_bytes()).machine), done
    met["apart"] += 1


def moved_machine(machine, words, dacs):
    """A machine with sum words and DACs at other places."""
    moved = list(machine)
    for g in range(machine[layout.T]):
        at = 11 * g
        moved[at + 8], moved[at + 9] = words.get(machine[at + 8], machine[at + 8]), words.get(machine[at + 9], machine[at + 9])
        if machine[at + 10] >> 6 == 0b0010:
            moved[at] = machine[at] & ~15 | dacs.get(machine[at] & 15, machine[at] & 15)
    for base, given in ((3840, words), (3904, words), (4096, dacs)):
        for one in given:
            moved[base + one] = 0
        for one, to in given.items():
            moved[base + to] = machine[base + one]
    return moved


def examples(folder, sizes):
    """The two bells of examples/, the lines that are said, and what is told of other pairs."""
    at = Path(folder)
    for name in ("low", "high"):
        shutil.copy(ROOT / "examples" / f"{name}_bell.txt", at / f"{name}.txt")
    done = run(ROOT / "karvelorn", "join", "low.txt", "high.txt", "-o", "both.txt", cwd=folder)
    assert done == (0, "both.txt: 12000 passes, T = 11, N = 1025\n  low.txt: generators 0 to 5; sum words 0 and 63; DAC 0 (left), in each pass as it is alone\n"
                    "  high.txt: generators 6 to 10; sum words 1 and 62; DAC 1 (right), in each pass as it is alone\n", ""), done
    low, high, both = ([line.split() for line in as_rung.rung_lines(str(places.program("ring")), (at / f"{name}.txt").read_bytes())[0]] for name in ("low", "high", "both"))
    assert [line[1] for line in both] == [line[1] for line in low] and [line[2] for line in both] == [line[2] for line in high] and len(both) == 12000
    (at / "both.report").write_text("older")
    ends(call("join", joining, at / "low.txt", at / "low.txt", "-o", at / "both.txt", "--apart"), 0, "both.report is not of this file: it is now both.older.report")
    (at / "slow.txt").write_text((at / "high.txt").read_text().replace("word=4114:1025", "word=4114:900").replace("passes=12000", "passes=40"))
    (at / "short.txt").write_text((at / "low.txt").read_text().replace("passes=12000", "passes=50"))
    done = call("join", joining, at / "short.txt", at / "slow.txt", "-o", at / "both.txt")
    assert done.status == Status.UNLIKE and done.out.startswith(f"{at / 'both.txt'}: 50 passes") and f"! {at / 'slow.txt'} has N = 900, and {at / 'both.txt'} has 1025: pass for pass it is the same, but 225.2 cents lower and longer than alone" in done.out, done
    (at / "fast.txt").write_text((at / "short.txt").read_text().replace("word=4114:1025", "word=4114:18"))
    done = call("join", joining, at / "fast.txt", at / "high.txt", "-o", at / "both.txt")
    assert "! N = 18 is less than T + 8 = 19: the machine of 1978 needs so many ticks for a pass" in done.out, done
    return 5 + refused_pairs(at)


def refused_pairs(at):
    """Pairs that are refused by 16 and 17: each cause in words."""
    low, high = (at / "low.txt").read_text(), (at / "high.txt").read_text()
    t, u = (int(re.search(r"^word=4113:(\d+)$", text, flags=re.M)[1]) for text in (low, high))
    cases = ((low.replace(f"word=4113:{t}", "word=4113:254"), high, 16, f"has T = 254 and {at / 'b.txt'} T = {u}: {254 + u} together"),
             (low.replace("word=10:1008", "word=10:496"), high, 17, f"{at / 'a.txt'}: generator 0 reads data (0111)"),
             (low, high.replace("word=21:1008", "word=21:240"), 17, f"{at / 'b.txt'}: generator 1 writes data (0011)"),
             (low, high.replace("word=9:62", "word=9:126"), 17, f"{at / 'b.txt'}: GFM of generator 0 names modifier-last sum word 62"),
             (low, high.replace("word=4113:", f"word={2816 + 8 * 100 + 7}:320\nword=4113:"), 17, f"{at / 'b.txt'}: modifier 100 is active (mixing)"),
             (low, high.replace("word=10:1008", "word=10:624"), 17, f"{at / 'b.txt'}: generator 0 waits (1001): the first bell's last generator would stand below it and could set it off"),
             (low, high.replace("word=10:1008", "word=10:880"), 17, f"{at / 'b.txt'}: generator 0 runs to its envelope's end, triggers there and waits (1101)"))
    for first, second, number, sentence in cases:
        (at / "a.txt").write_text(first)
        (at / "b.txt").write_text(second)
        refused(call("join", joining, at / "a.txt", at / "b.txt", "-o", at / "x.txt"), Status.REFUSED, f"question {number}: ", sentence)
    (at / "a.txt").write_text(low.replace("word=10:1008", "word=10:624"))  # of the first bell a waiting generator 0 is no matter
    (at / "b.txt").write_text(high)
    ends(call("join", joining, at / "a.txt", at / "b.txt", "-o", at / "x.txt"), 0)
    return len(cases) + 1


def own_words(folder, sizes):
    """partials on words and DACs of its own: two bells by their defaults are refused by 18, on their own they are joined and each is heard on its side."""
    draw, at, program = random.Random(SEED), Path(folder), str(places.program("ring"))
    for number in range(sizes["bells"]):
        both_sides = number % 2
        for name in ("one", "two"):
            rows = [f"p{i},{draw.uniform(100, 3000):.2f},{draw.uniform(-20, -9):.1f},{draw.uniform(0.5, 9):.2f}{draw.choice((',left', ',right', ',both')) if both_sides else ''}" for i in range(draw.randint(1, 5))]
            (at / f"{name}.csv").write_text(f"name,hz,db,t60{',channel' if both_sides else ''}\n" + "\n".join(rows) + "\n")
        ends(call("partials", partials, at / "one.csv", "-o", at / "one.txt", "--passes", "50"), 0)
        ends(call("partials", partials, at / "two.csv", "-o", at / "two.txt", "--passes", "70"), 0)
        plain = (at / "two.txt").read_text()
        refused(call("join", joining, at / "one.txt", at / "two.txt", "-o", at / "both.txt"), Status.REFUSED, "question 18", "  sum word 63: ", "  DAC 0: ", "  DAC 1: ")
        done = call("join", joining, at / "one.txt", at / "two.txt", "-o", at / "both.txt", "--apart")
        assert done.status == Status.UNLIKE and "! " + str(at / "two.txt") + " feeds DAC 2 and DAC 3: run and hear give DAC 0 and DAC 1 alone, so that it is heard through the library only" in done.out, done
        report = (at / "both.report").read_text()
        assert "\np0 (one)  " in report and "\np0 (two)  " in report and f"generator {bench_files.read('', (at / 'one.txt').read_bytes()).t} (p0 (two)): runs" in call("show", shown, at / "both.txt").out, report
        ends(call("partials", partials, at / "two.csv", "-o", at / "two.txt", "--passes", "70", "--words", "5,6,7,62", "--dacs", "2,3"), 0)
        second = bench_files.read("", (at / "two.txt").read_bytes()).machine
        assert second == moved_machine(bench_files.read("", plain.encode()).machine, {0: 5, 1: 6, 63: 62}, {0: 2, 1: 3}), "another bell"
        assert call("join", joining, at / "one.txt", at / "two.txt", "-o", at / "both.txt").status == Status.UNLIKE
        if not both_sides:
            left, right = ((at / f"{name}.txt") for name in ("left", "right"))
            ends(call("partials", partials, at / "one.csv", "-o", left, "--passes", "50", "--dacs", "0"), 0)
            ends(call("partials", partials, at / "two.csv", "-o", right, "--passes", "50", "--dacs", "1", "--words", "4,1,2,62"), 0)
            ends(call("join", joining, left, right, "-o", at / "both.txt"), 0)
            one, two, both = (as_rung.rung_lines(program, path.read_bytes())[0] for path in (left, right, at / "both.txt"))
            assert [(line.split()[1], other.split()[2]) for line, other in zip(one, two)] == [tuple(line.split()[1:]) for line in both], "not each on its side"
            assert call("same", sameness, at / "one.csv", left).status == Status.NO  # what is heard on one side alone isn't on both
        ends(call("partials", partials, at / "one.csv", "-o", at / "moved.txt", "--passes", "50", "--words", "9,8,7,6"), 0)
        ends(call("same", sameness, at / "one.csv", at / "moved.txt"), 0)
    return 7 * sizes["bells"] + other_places(at, program)


def other_places(at, program):
    """Words and DACs that can't be; a bell with noise on other words sounds as it did."""
    for options, sentence in ((["--words", "1,2,3"], "four sum words, different ones from 0 to 63"), (["--words", "1,2,3,64"], "from 0 to 63"), (["--words", "1,2,2,3"], "different ones"), (["--dacs", "16"], "one or two DACs, different ones from 0 to 15"),
                              (["--dacs", "1,1"], "different ones"), (["--dacs", ""], "from 0 to 15"), (["--words", "a,b,c,d"], "four sum words")):
        refused(call("partials", partials, at / "one.csv", "-o", at / "x.txt", *options), Status.MISUSED, sentence)
    (at / "sides.csv").write_text("name,hz,db,t60,channel\nhum,200,-9,5,left\n")
    refused(call("partials", partials, at / "sides.csv", "-o", at / "x.txt", "--dacs", "3"), Status.MISUSED, "a bell with partials on one side feeds two DACs, and one is named")
    ends(call("partials", partials, TABLE, "-o", at / "noise.txt", "--passes", "300", "--words", "10,11,12,13", "--dacs", "1,0"), 0)
    ends(call("partials", partials, TABLE, "-o", at / "plain.txt", "--passes", "300"), 0)
    one, two = (as_rung.rung_lines(program, (at / f"{name}.txt").read_bytes())[0] for name in ("noise", "plain"))
    assert one == two and len(one) == 300, "the noise is another on other words"
    return 9


# Habits of the command line

def calls(folder, sizes):
    """Wrong calls, files that can't be read or written, inputs that would be written over: a sentence and a status, nothing destroyed."""
    at, bell, chain = Path(folder), Path(folder, "bell.txt"), Path(folder, "chain.txt")
    shutil.copy(BELL, bell)
    shutil.copy(REPORT, at / "bell.report")
    shutil.copy(LOW, at / "low.txt")
    chain.write_text(CLAPPER.format(0, 4, 8, 9))
    (at / "folder").mkdir()
    before = {name: (at / name).read_bytes() for name in names(folder) if (at / name).is_file()}
    for name, module, arguments, status, sentence in (
            ("number", numbered, [], Status.MISUSED, "CHAIN"), ("number", numbered, [at / "none"], Status.UNREAD, "cannot read"), ("number", numbered, [chain, "--into", bell], Status.MISUSED, "go together"),
            ("number", numbered, [chain, "-o", at / "x.txt"], Status.MISUSED, "go together"), ("number", numbered, [chain, "--into", bell, "-o", bell], Status.MISUSED, "is an input"),
            ("number", numbered, [chain, "--into", bell, "-o", chain], Status.MISUSED, "is an input"), ("number", numbered, [chain, "--into", bell, "-o", at / "bell.bench"], Status.MISUSED, "is an input"),
            ("number", numbered, [chain, "--into", bell, "-o", at / "x.report"], Status.MISUSED, "the report goes there"), ("number", numbered, [chain, "--into", at / "none", "-o", at / "x.txt"], Status.UNREAD, "cannot read"),
            ("number", numbered, [chain, "--into", "-", "-o", at / "x.txt"], Status.MISUSED, "standard input is for the chain alone"), ("number", numbered, [chain, "--into", bell, "-o", at / "folder"], Status.MISUSED, "is a folder"),
            ("number", numbered, [chain, "--into", bell, "-o", at / "none" / "x.txt"], Status.UNWRITTEN, "cannot write"), ("number", numbered, [bell], Status.REFUSED, "line 1: 'passes=65535': a present number"),
            ("number", numbered, [chain, "--into", chain, "-o", at / "x.txt"], Status.REFUSED, "question 9"),
            ("join", joining, [bell], Status.MISUSED, "B"), ("join", joining, [bell, bell], Status.MISUSED, "-o"), ("join", joining, [at / "low.txt", HIGH, "-o", at / "low.txt"], Status.MISUSED, "is an input"),
            ("join", joining, [at / "low.txt", bell, "-o", at / "bell.bench"], Status.MISUSED, "is an input"), ("join", joining, [at / "low.txt", HIGH, "-o", at / "x.report"], Status.MISUSED, "the report goes there"),
            ("join", joining, [at / "none", HIGH, "-o", at / "x.txt"], Status.UNREAD, "cannot read"), ("join", joining, [at / "low.txt", "-", "-o", at / "x.txt"], Status.MISUSED, "name two files"),
            ("join", joining, [at / "low.txt", HIGH, "-o", at / "folder"], Status.MISUSED, "is a folder"), ("join", joining, [at / "low.txt", HIGH, "-o", at / "none" / "x.txt"], Status.UNWRITTEN, "cannot write"),
            ("join", joining, [at / "low.txt", ROOT / "examples" / "old_bell.txt", "-o", at / "x.txt"], Status.REFUSED, "is a file of the older text, and join knows files of 1978 alone"),
            ("join", joining, [ROOT / "examples" / "short_bell.txt", at / "low.txt", "-o", at / "x.txt"], Status.REFUSED, "has commands (line 59)"), ("join", joining, [at / "low.txt", chain, "-o", at / "x.txt"], Status.REFUSED, "question 9")):
        refused(call(name, module, *arguments), status, sentence)
    assert {name: (at / name).read_bytes() for name in before} == before and not {"x.txt", "x.report"} & set(names(folder)), names(folder)
    for command in (("number", chain), ("number", chain, "--into", bell, "-o", at / "new.txt"), ("join", at / "low.txt", HIGH, "-o", at / "new.txt")):
        with open("/dev/full", "w") as full:
            ends(run("./karvelorn", *command, stdout=full), Status.UNWRITTEN, "cannot write: No space left on device")
    bare = run("/usr/bin/python3", "tools/front.py", "number", chain, env={**os.environ, "PATH": "/nonexistent"})
    assert bare.status == 0 or bare.status == Status.MISSING and "needed" in bare.err, bare
    return 30


def worked():
    """Seconds of a processor, of the programs that are called too."""
    return time.process_time() + sum(resource.getrusage(resource.RUSAGE_CHILDREN)[:2])


GROUPS = (chains, chain_texts, into, anything, into_bell, pairs, examples, own_words, calls)


def tried(groups, asked, sizes):
    """Runs the groups that are asked for, all where none is; answers how many cases that were."""
    tried_ = 0
    for group in groups:
        if asked and group.__name__ not in asked:
            continue
        start = worked()
        with tempfile.TemporaryDirectory() as folder:
            count = group(folder, sizes)
        tried_ += count
        print(f"{group.__name__}: {count} cases, {worked() - start:.1f} s")
    return tried_


def main(arguments):
    with built_already():
        count = tried(GROUPS, [name for name in arguments if name != "--full"], FULL if "--full" in arguments else GATE)
    print(f"planner: {count} cases of number, join and partials on words of its own, {worked():.1f} s")


if __name__ == "__main__":
    sys.exit(main(sys.argv[1:]))
