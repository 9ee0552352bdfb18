"""hear and compare by another order of the generators: what they write and say is held to the reference's ringing by that order.

    /usr/bin/python3 tests/heard_orders.py [--full] [GROUP ..]      (wav, sorted and the library for C must be built)
"""

import random
import re
import sys
from collections import Counter
from pathlib import Path

from calls import ROOT, Status, call, ends, names, refused
import bench_files
import compared
import heard
import ring_files
from command_line import Ending
from planner import SEED, built_already, tried, worked
from reference.by_order import BY_PITCH, ring_by
from reference.ring import ring
from texts import Chance
from wav import file_of, n_of

GATE, FULL = {"bells": 6}, {"bells": 60}
FEEDERS = "passes=3\nword=0:16\nword=9:1\nword=10:128\nword=20:2\nword=21:128\nword=3841:3\nword=3905:5\nword=3906:7\nword=4113:2\n"  # both feed DAC 0; the last one holds


def sound_of(text, order):
    """The sound of a bench file by an order, from the reference's lines."""
    return sound_of_lines(ring_by(text, order), n_of(text))


def sound_of_lines(printed, n):
    """The sound of printed lines."""
    return file_of(printed.splitlines(), n)


def heard_by_order(folder, sizes):
    """hear by an order file and by pitch: a sound of its own name, the reference's byte for byte; refusals; nothing of another name is touched."""
    at, bell = Path(folder), Path(folder, "bell.txt")
    draw, chance, count = random.Random(SEED), Chance(SEED), 0
    while count < 2 * sizes["bells"]:
        data = ring_files.drawn_bench(chance)
        if not good(data) or b"refused" in ring(data):
            continue
        bell.write_bytes(data)
        t = bench_files.read("bell", data).t
        order = "".join(f"order={g}\n" for g in draw.sample(range(t), t))
        (at / "mine.order").write_text(order)
        for arguments, name, text in (([bell, at / "mine.order"], "bell.by-mine.wav", order.encode()), (["--by-pitch", bell], "bell.by-pitch.wav", BY_PITCH)):
            printed = ring_by(data, text)
            done = call("hear", heard, "--no-picture", *arguments)
            if b"refused" in printed:
                refused(done, Status.REFUSED, f"makes no sound: {printed.splitlines()[-1].decode()}")
                assert not (at / name).exists()
            else:
                assert done.status == 0 and (at / name).read_bytes() == sound_of_lines(printed, n_of(data)), (name, done)
                (at / name).unlink()
        count += 1
    assert names(folder) == ["bell.txt", "mine.order"], names(folder)
    bell.write_text(FEEDERS)
    (at / "back.order").write_text("order=1\norder=0\n")
    (at / "bell.by-back.wav").write_text("by hand")
    ends(call("hear", heard, "--no-picture", bell, at / "back.order"), 0, "ringing", "by the order", "it is kept as bell.by-back.older.wav")
    assert (at / "bell.by-back.wav").read_bytes() == sound_of(FEEDERS.encode(), b"order=1\norder=0\n") and not (at / "bell.wav").exists()
    ends(call("hear", heard, "--no-picture", bell, at / "back.order", "-o", at / "own.wav"), 0)
    assert (at / "own.wav").read_bytes() == (at / "bell.by-back.wav").read_bytes()
    ends(call("hear", heard, "--no-picture", bell, "-"), 0, "by pitch")
    assert (at / "bell.by-pitch.wav").read_bytes() == sound_of(FEEDERS.encode(), BY_PITCH)
    for order, sentence in (("order=0\n", "makes no sound: refused=5"), ("order=0\norder=0\n", "the order {} doesn't pass question 6"), ("order=x\n", "is no order file: it must have 1 to 256 lines"), ("", "is no order file")):
        (at / "bad.order").write_text(order)
        refused(call("hear", heard, "--no-picture", bell, at / "bad.order"), Status.REFUSED, sentence.format(at / "bad.order"))
    refused(call("hear", heard, "--by-pitch", bell, at / "back.order"), Status.MISUSED, "not for both")
    refused(call("hear", heard, bell, at / "none.order"), Status.UNREAD, "cannot read")
    refused(call("hear", heard, bell, at / "back.order", "-o", at / "back.order"), Status.MISUSED, "is an input")
    refused(call("hear", heard, at / "own.wav", at / "back.order"), Status.MISUSED, "is a sound already")
    seconds = str(9 * 195e-9 * 265)
    ends(call("hear", heard, "--no-picture", "--seconds", seconds, bell, at / "back.order"), 0, "ringing on to 9 passes")
    assert (at / "bell.by-back.wav").read_bytes() == sound_of(FEEDERS.replace("passes=3", "passes=9").encode(), b"order=1\norder=0\n")
    ends(call("hear", heard, "--no-picture", "--seconds", seconds, "--by-pitch", bell), 0)
    old = at / "old.txt"
    old.write_text(re.sub("passes=[0-9]+", "passes=30", (ROOT / "examples" / "old_bell.txt").read_text()))
    ends(call("hear", heard, "--no-picture", "--seconds", "0.01", "--by-pitch", old), 0, "ringing on to")
    return 4 * sizes["bells"] + 14


def compared_sounds(folder, sizes):
    """compare says at its end whether this very file sounds the same in both orders, as the reference does; beside what holds for all contents."""
    at, bell, met = Path(folder), Path(folder, "bell.txt"), Counter()
    draw, chance = random.Random(SEED), Chance(SEED + 1)
    for number in range(4 * sizes["bells"]):
        data = ring_files.drawn_bench(chance)
        while not good(data):
            data = ring_files.drawn_bench(chance)
        bell.write_bytes(data)
        t = bench_files.read("bell", data).t
        order = swapped(draw, t) if number % 2 else draw.sample(range(t), t)
        (at / "mine.order").write_text("".join(f"order={g}\n" for g in order))
        done = call("compare", compared, bell, at / "mine.order")
        assert done.status in (0, Status.NO, Status.UNTIL), done
        one, other = ring(data), ring_by(data, (at / "mine.order").read_bytes())
        wanted = said_of(one, other)
        assert done.out.splitlines()[-1] == wanted, (done, wanted)
        met[" ".join(wanted.split()[3:5]), int(done.status)] += 1
    assert {kind for kind, _ in met} >= {"sounds the", "makes no"}, met
    bell.write_text(FEEDERS)
    (at / "back.order").write_text("order=1\norder=0\n")
    done = call("compare", compared, bell, at / "back.order")
    assert done.status == Status.NO and done.out.splitlines()[-1] == "This very file sounds otherwise in the second order from frame 1 on: left=7 right=0 becomes left=5 right=0.", done
    bell.write_text(FEEDERS.replace("3906:7", "3906:5").replace("word=3841:3\n", ""))
    done = call("compare", compared, bell, at / "back.order")
    assert done.status == Status.NO and done.out.splitlines()[-1] == "This very file sounds the same in both orders: 3 frames, bit for bit.", done
    print(f"  compare: {4 * sizes['bells']} files rung by both orders: {dict(met)}")
    return 4 * sizes["bells"] + 2


def said_of(one, other):
    """The last line of compare, by what the bench program prints for both orders."""
    ours, theirs = one.splitlines(), other.splitlines()
    refusals = [lines[-1].decode() if lines and lines[-1].startswith(b"refused=") else "" for lines in (ours, theirs)]
    if any(refusals):
        said = [f"{who} {f'it is refused ({told})' if told else 'it sounds'}" for who, told in zip(("by number", "in the second order"), refusals)]
        return f"This very file makes no sound in either order: {refusals[0]}." if refusals[0] == refusals[1] else f"This very file: {' and '.join(said)}."
    if one == other:
        return f"This very file sounds the same in both orders: {len(ours)} frames, bit for bit." if ours else "This very file has no passes, and so no sound."
    at = next(at for at, (a, b) in enumerate(zip(ours, theirs)) if a != b)
    line, instead = (lines[at].decode().split(" ", 1)[1] for lines in (ours, theirs))
    return f"This very file sounds otherwise in the second order from frame {at + 1} on: {line} becomes {instead}."


def swapped(draw, t):
    """An order in which few generators change places."""
    order = list(range(t))
    for _ in range(draw.randint(0, 2)):
        i, j = draw.randrange(t), draw.randrange(t)
        order[i], order[j] = order[j], order[i]
    return order


def good(data):
    """Whether a text is a bench file whose machine passes question 2."""
    try:
        bench_files.read("drawn", data)
    except Ending:
        return False
    return True


GROUPS = (heard_by_order, compared_sounds)


def main(arguments):
    with built_already(heard, compared):
        count = tried(GROUPS, [name for name in arguments if name != "--full"], FULL if "--full" in arguments else GATE)
    print(f"other orders: {count} cases of hear and compare, {worked():.1f} s")


if __name__ == "__main__":
    sys.exit(main(sys.argv[1:]))
