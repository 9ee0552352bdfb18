"""The week: one bell through it by the commands of docs/WEEK.md, whose output is held to what the page prints; cut, hear's longer
sounds, other rates and players, the drawer and its check, each with good and bad input; and the drawer's page in a browser.

    /usr/bin/python3 tests/bell_week.py [GROUP..]      (needs numpy, scipy and matplotlib; for the page chromium and poppler-utils)
"""

import hashlib
import math
import os
import re
import resource
import shutil
import sys
import tempfile
import time
from pathlib import Path

import numpy as np

from calls import ROOT, Status, call, ends, names, refused, run
import cutting
import drawers
import heard
import longer
import partials
import places
import sounds
from recording_cases import wave_file, whole_numbers

PAGE = ROOT / "docs" / "WEEK.md"
EXAMPLES = ROOT / "examples"
BELL, TABLE = EXAMPLES / "bell.txt", EXAMPLES / "bell.csv"
SHORT = EXAMPLES / "short_bell.txt"
HEADS = "ring,hum,prime,tierce,quint,nominal\n"
RINGS = HEADS + "1,1.5,-0.5,0.2,-1.5,-4\n3,3.2,-0.5,4,-4.5,-0.5\n"
UNLIKE, MISUSED, REFUSED, UNREAD, UNWRITTEN, MISSING = Status.UNLIKE, Status.MISUSED, Status.REFUSED, Status.UNREAD, Status.UNWRITTEN, Status.MISSING


# The page

def sessions(text):
    """The commands of a page, and the lines that it prints after each."""
    found, within = [], False
    for line in text.splitlines():
        if line.startswith("    $ "):
            found.append((line[6:], []))
            within = True
        elif line.startswith("    ") and within:
            found[-1][1].append(line[4:])
        elif line:
            within = False
    return found


NUMBER = re.compile(r"[+-]?\d+\.\d+")


def unlike_lines(printed, shown):
    """Whether lines differ: in a word, or in a number with decimals by more than one unit of its last digit."""
    if len(printed) != len(shown):
        return True
    for one, other in zip(printed, shown):
        if NUMBER.sub("#", one).split() != NUMBER.sub("#", other).split():
            return True
        for a, b in zip(NUMBER.findall(one), NUMBER.findall(other)):
            if len(a.split(".")[1]) != len(b.split(".")[1]) or abs(float(a) - float(b)) > 1.01 * 10 ** -len(a.split(".")[1]):
                return True
    return False


def shown_in_part(printed, shown):
    """Whether lines are those of a page on which ... stands for some that aren't shown."""
    parts, at = [[]], 0
    for line in shown:
        parts.append([]) if line == "..." else parts[-1].append(line)
    for i, part in enumerate(parts):
        last = i == len(parts) - 1 and i > 0
        places = [len(printed) - len(part)] if last else [0] if i == 0 else range(at, len(printed))
        at = next((place + len(part) for place in places if place >= at and not unlike_lines(printed[place:place + len(part)], part)), None)
        if at is None:
            return False
    return at == len(printed) or len(parts) > 1


def readme(folder):
    """What README, docs/HEAR.md and examples/README.md show of hear, run and partials is what they print (tests/compare_words.py has the runs of compare)."""
    shutil.copytree(EXAMPLES, Path(folder, "examples"), ignore=shutil.ignore_patterns("*.wav", "*.older*"))
    for name in ("karvelorn", "hear", "run"):
        Path(folder, name).symlink_to(ROOT / name)
    whole = {"./hear": "./hear examples/bell.txt", "./run": "./run examples/short_bell.txt"}  # without a name these take the repository's own
    pages = "\n".join((ROOT / page).read_text() for page in ("README.md", "docs/HEAR.md", "examples/README.md"))
    tried = [(command, shown) for command, shown in sessions(pages) if command in whole or command.startswith("./karvelorn ")]
    for command, shown in tried:
        done = run("bash", "-c", whole.get(command, command), cwd=folder)
        assert done.status == 0 and (shown_in_part(done.out.splitlines(), shown) or command == "./run" and shown_in_part(done.out.splitlines(), [*shown, "..."])), (command, done.out, shown)
        assert not shown_in_part(done.out.splitlines(), ["nonsense", *shown]), command
    assert len(tried) == 4, tried
    return len(tried)


def walk(folder):
    """Each command of docs/WEEK.md prints what the page shows; and a page that is off would be seen."""
    for name in ("karvelorn", "hear", "compare", "examples"):
        Path(folder, name).symlink_to(ROOT / name)
    tried = sessions(PAGE.read_text())
    for command, shown in tried:
        done = run("bash", "-c", command, cwd=folder, env={**os.environ, "LC_ALL": "C.UTF-8"})
        assert not unlike_lines(done.out.splitlines(), shown), (command, done, shown)
        assert not shown or unlike_lines(done.out.splitlines(), shown[:-1]), command
    assert len(tried) >= 12 and unlike_lines(["a 1.25"], ["a 1.27"]) and unlike_lines(["a 1.25"], ["b 1.25"]) and not unlike_lines(["a 1.25"], ["a 1.26"])
    return len(tried)


# Monday

def monday(folder):
    """partials makes a table of a recording, and tells what isn't one or isn't for one."""
    at = Path(folder)
    times = np.arange(3 * 22050) / 22050
    sound = sum(level * np.exp(-6.9 * times / 3) * np.sin(2 * np.pi * hz * times) for hz, level in ((220, 0.2), (440, 0.2), (528, 0.15), (880, 0.25)))
    (at / "struck").write_bytes(wave_file(1, 16, 1, whole_numbers(sound, 16)))
    done = ends(call("partials", partials, at / "struck", "-o", at / "bell.csv", "--ratios", "tempered"), 0)
    assert re.search(r"^tierce,52[78]\.\d+,", done.out, re.M) and "strike note: 440.0" in done.out and (at / "bell.csv").read_text().startswith("# struck\n"), done
    ends(call("partials", partials, at / "bell.csv", "-o", at / "bell.txt"), 0)
    for more, sentence in ((("-o", at / "bell.txt"), "name it NAME.csv"), (("-o", at / "new.csv", "--seconds", "3"), "are for a table"), (("-o", at / "struck"), "name it NAME.csv")):
        refused(call("partials", partials, at / "struck", *more), MISUSED, sentence)
    refused(call("partials", partials, at / "bell.csv", "-o", at / "new.txt", "--ratios", "just"), MISUSED, "are for a recording")
    (at / "empty.wav").write_bytes(wave_file(1, 16, 1, b""))
    refused(call("partials", partials, at / "empty.wav", "-o", at / "new.csv"), UNLIKE, "too little sound")
    (at / "zero.wav").write_bytes(b"")
    refused(call("partials", partials, at / "zero.wav", "-o", at / "new.csv"), REFUSED, "the table is empty")
    (at / "cut.wav").write_bytes((at / "struck").read_bytes()[:-100])
    refused(call("partials", partials, at / "cut.wav", "-o", at / "new.csv"), REFUSED, "is cut off")
    assert not {"new.csv", "new.txt"} & set(names(folder)), names(folder)
    return 9


# Wednesday

BAD_RINGS = [
    ("", "the table of rings is empty"), ("hum,prime\n1,2\n", "line 1, column 1: the first head must be ring"), ("ring\n1\n", "no column of a partial"), (HEADS, "has no ring"), ("ring,hum,hum\n1,2,3\n", "there twice: 'hum'"),
    (HEADS + "1,2,3\n", "line 2, column 3: 3 columns where the first line has 6"), (HEADS + "1,a,0,0,0,0\n", "line 2, column 2: the cents of hum is not a number: 'a'"), (HEADS + "1,1,1,1,1,1\n1,2,2,2,2,2\n", "line 3, column 1: a ring's name"),
    (HEADS + "a/b,1,1,1,1,1\n", "a ring's name"), (HEADS + ",1,1,1,1,1\n", "a ring's name"), (HEADS + "1,1300,1,1,1,1\n", "above -1200 and below 1200"), ("ring;hum\n1;1,5\n2;1.5\n", "decimal commas"), (b"ring,hum\n\xf6,1\n", "no UTF-8"),
]


def cuts(folder):
    """What a cut makes of a bell, worked out here by itself; the sorting, what is better and worse, and what isn't known."""
    at = Path(folder)
    table, rings = at / "bell.csv", at / "rings.csv"
    table.write_text("name,hz,db,t60\nhum,219,-3,9\nprime,441,-3,7\ntierce,527,-3,5\ntierce b,528,-9,5\nnominal,880,0,3\nclapper,noise,-9,0.1\n")
    rings.write_text("ring;hum;prime;tierce;tierce b;nominal;other\n1;1,5;-0,5;2;;-4;\ndeep;-2;-3;4;4;1;7\n")
    done = ends(call("cut", cutting, table, "--rings", rings, "--turns", "2"), UNLIKE)
    rows = {line.split()[0]: line.split()[1:] for line in done.out.splitlines()[3:5]}
    for ring, moved in (("1", (1.5, -0.5, 2, -4)), ("deep", (-2, -3, 4, 1))):
        hz = [f * 2 ** (2 * cents / 1200) for f, cents in zip((219, 441, 527, 880), moved)]
        off = [1200 * math.log2(f / (hz[3] / 2 * ratio)) for f, ratio in zip(hz, (0.5, 1, 1.2, 2))]
        measure = math.sqrt(sum(cents ** 2 for cents in off[:3]) / 3)
        assert [float(cell) for cell in rows[ring][1:5]] == [round(cents, 1) for cents in off] and float(rows[ring][0]) == round(measure, 1), (rows, off, measure)
        assert float(rows[ring][5]) == round(hz[3] / 2, 2), rows
    assert list(rows) == sorted(rows, key=lambda ring: float(rows[ring][0])) and rows["1"][7] == "?" and float(rows["deep"][7]) == round(2 ** (8 / 1200), 3), rows
    for sentence in ("! ring 1 has no figure for tierce b", "! the bell has no partial other", "It is one measure only", "ring deep: better tierce; worse hum, prime"):
        assert sentence in done.out, (sentence, done.out)
    for text, sentence in BAD_RINGS:
        rings.write_bytes(text if isinstance(text, bytes) else text.encode())
        refused(call("cut", cutting, table, "--rings", rings), REFUSED, "rings.csv: ", sentence)
    rings.write_text(RINGS)
    refused(call("cut", cutting, table, "--rings", rings, "--ring", "7"), MISUSED, "there is no ring 7", "there are 1, 3")
    for more in (("--turns", "0"), ("--turns", "x"), ("--turns", "nan"), ("--seconds", "0"), ()):
        refused(call("cut", cutting, table, *(("--rings", rings) if more else ()), *more), MISUSED, "--help")
    refused(call("cut", cutting, table, "--rings", at / "none.csv"), UNREAD, "cannot read")
    refused(call("cut", cutting, at / "none.csv", "--rings", rings), UNREAD, "cannot read")
    (at / "low.csv").write_text("name,hz,db,t60\nhum,219,-3,9\nprime,441,-3,7\n")
    refused(call("cut", cutting, at / "low.csv", "--rings", rings), REFUSED, "low.csv: there is no nominal")
    (at / "few.csv").write_text("name,hz\nhum,219\n")
    refused(call("cut", cutting, at / "few.csv", "--rings", rings), REFUSED, "few.csv: line 1: the heads lack db, t60")
    assert names(folder) == ["bell.csv", "few.csv", "low.csv", "rings.csv"], names(folder)
    return 12 + len(BAD_RINGS) + chosen(at)


def chosen(at):
    """The files of the rings that are chosen: bench files and reports as partials makes them, sounds as wav rings them, both in one."""
    table, rings = at / "bell.csv", at / "rings.csv"
    shutil.copy(TABLE, table)
    ends(call("cut", cutting, table, "--rings", rings, "--ring", "3", "--ring", "1", "--ring", "3", "--seconds", "2"), 0, "wrote", "bell.ring-1.png")
    made = {f"bell.{part}" for ring in ("1", "3") for part in (f"ring-{ring}.csv", f"ring-{ring}.txt", f"ring-{ring}.report", f"ring-{ring}.wav", f"ring-{ring}.both.wav", f"ring-{ring}.png")} | {f"bell.before.{part}" for part in ("txt", "report", "wav")}
    assert made <= set(names(at)) and not [name for name in names(at) if "older" in name], names(at)
    before, after, both = ((at / f"bell.{name}.wav").read_bytes() for name in ("before", "ring-3", "ring-3.both"))
    rate = sounds.frames_of(before)[0]
    assert both[44:] == before[44:] + bytes(6 * rate) + after[44:] and both[:44] == sounds.wave_file(rate, both[44:])[:44] and before != after
    gain = re.search(r"gain (-[\d.]+)", (at / "bell.before.report").read_text())[1]
    assert gain == re.search(r"gain (-[\d.]+)", (at / "bell.ring-3.report").read_text())[1]
    done = call("hear", heard, at / "bell.ring-3.txt", "--table", at / "bell.ring-3.csv")
    assert done.status == 0 and re.search(r"^tierce +527\.6", done.out, re.M), done  # 526.4 Hz and 4 cents
    ends(call("cut", cutting, table, "--rings", rings, "--ring", "3", "--seconds", "2"), 0)
    assert not [name for name in names(at) if "older" in name], names(at)
    (at / "bell.ring-3.csv").write_text("somebody's own")
    ends(call("cut", cutting, table, "--rings", rings, "--ring", "3", "--seconds", "2"), 0, "it is kept as bell.ring-3.older.csv")
    assert (at / "bell.ring-3.older.csv").read_text() == "somebody's own"
    refused(call("cut", cutting, at / "bell.ring-3.csv", "--rings", rings, "--ring", "3", "-o", at / "bell"), MISUSED, "is an input")
    refused(call("cut", cutting, table, "--rings", rings, "--ring", "3", "--seconds", "99"), REFUSED, "bell.csv: that needs passes", "it is now bell.ring-3.older.txt")
    bare = run("/usr/bin/python3", "-S", ROOT / "tools" / "front.py", "cut", table, "--rings", rings, "--ring", "1", "-o", at / "bare", "--seconds", "1")
    assert bare.status == MISSING and "no picture was made" in bare.err and "measure" in bare.out and (at / "bare.ring-1.wav").exists() and not (at / "bare.ring-1.png").exists(), bare
    return 8


def lengths(folder):
    """Longer sounds are what a longer bench file rings, bit for bit; shorter ones the beginning; other rates and players."""
    at = Path(folder)
    for name, passes in (("short", 40), ("long", 5000)):
        (at / f"{name}.txt").write_text(re.sub(r"passes=\d+", f"passes={passes}", SHORT.read_text()))
    ends(call("hear", heard, "--no-picture", at / "long.txt"), 0)
    long = (at / "long.wav").read_bytes()
    rate = sounds.frames_of(long)[0]
    for name in ("short", "long"):
        ends(call("hear", heard, "--no-picture", "--seconds", f"{3000 / rate:.6f}", at / f"{name}.txt"), 0)
        sound = (at / f"{name}.wav").read_bytes()
        count = (len(sound) - 44) // 6
        assert abs(count - 3000) <= 1 and sound == sounds.wave_file(rate, long[44:44 + 6 * count]), (name, count)
    (at / "stops.txt").write_text("passes=2\ncommand=00003110\ncommand=000000E0\n")  # a command that is refused, after the file's passes
    refused(call("hear", heard, "--no-picture", "--seconds", "0.01", at / "stops.txt"), REFUSED, "can't ring on: refused=3 after pass 2")
    for more, sentence in ((("--seconds", "0"), "a sound lasts up to"), (("--seconds", "4000"), "a sound lasts up to"), (("--rate", "22050"), "another rate is 44100 or 48000 Hz"), (("--rate", "x"), "another rate is")):
        refused(call("hear", heard, "--no-picture", at / "short.txt", *more), MISUSED, sentence)
    refused(call("hear", heard, at / "long.wav", "--rate", "44100"), MISUSED, "is a sound already")
    return 8 + rates(at) + players(at)


def rates(at):
    """A sine at another rate is that sine, within -100 dB; a bell's partials stay where they are, and the exact sound stays beside it."""
    rate = 10911
    for to in (44100, 48000):
        sine = np.round(0.5 * np.sin(2 * np.pi * 1000 * np.arange(2 * rate) / rate) * 2 ** 23).astype("<i4")
        data = np.repeat(sine, 2).reshape(-1, 1).view(np.uint8).reshape(-1, 4)[:, :3].tobytes()
        sound, lowered = longer.resampled(sounds.wave_file(rate, data), to)
        found = sounds.pcm_numbers(sound[44:], 24).reshape(-1, 2)[:, 0]
        ideal = 0.5 * np.sin(2 * np.pi * 1000 * np.arange(len(found)) / to)
        assert not lowered and abs(len(found) / to - 2) < 0.001 and np.abs(found - ideal)[to // 10:-to // 10].max() < 0.5e-5, np.abs(found - ideal)[to // 10:-to // 10].max()
    shutil.copy(BELL, at / "bell.txt")
    ends(call("hear", heard, "--no-picture", "--rate", "48000", at / "bell.txt"), 0, "bell.48000.wav")
    assert sounds.frames_of((at / "bell.48000.wav").read_bytes())[0] == 48000 and sounds.frames_of((at / "bell.wav").read_bytes())[0] == rate
    assert run("soxi", "-r", at / "bell.48000.wav").out == "48000\n"
    refused(run("/usr/bin/python3", "-S", ROOT / "tools" / "front.py", "hear", "--no-picture", "--rate", "48000", at / "bell.txt"), MISSING, "numpy, scipy are needed")
    return 4


def players(at):
    """The first player that is there gets the sound, and is named; one that fails, and none at all, are told."""
    tools = at / "players"
    tools.mkdir()
    path = os.environ["PATH"]
    try:
        os.environ["PATH"] = str(tools)
        ends(call("hear", heard, "--no-picture", "--play", at / "bell.txt"), MISSING, "wrote", "no player is here (aplay, paplay, play)")
        for name, body, status, sentence in (("play", 'echo "$@" >"$0.said"', 0, "playing {} with play"), ("paplay", "echo no server >&2; exit 1", MISSING, "paplay didn't play {}: no server"), ("aplay", ": ", 0, "with aplay")):
            (tools / name).write_text(f"#!/bin/sh\n{body}\n")
            (tools / name).chmod(0o755)
            ends(call("hear", heard, "--no-picture", "--play", at / "bell.txt"), status, sentence.format(at / "bell.wav"))
    finally:
        os.environ["PATH"] = path
    assert (tools / "play.said").read_text() == f"-q {at / 'bell.wav'}\n"
    return 4


# Friday

def a_drawer(at):
    """A drawer with a cut, in a folder."""
    for path in (BELL, TABLE, EXAMPLES / "bell.report"):
        shutil.copy(path, at)
    (at / "rings.csv").write_text(RINGS)
    (at / "own.order").write_text("".join(f"order={g}\n" for g in range(20)))
    return call("drawer", drawers, at / "d 5", at / "bell.csv", at / "bell.txt", "--weight", "412.5", "--rings", at / "rings.csv", "--ring", "3", "--turns", "2", "--by", "Zoë <b>", "--note", "\"a & b\"", "--order", at / "own.order")


def kept(folder):
    """A drawer has all, each with its checksum; its check says so, and finds what was changed."""
    at, drawer = Path(folder), Path(folder, "d 5")
    ends(a_drawer(at), 0, "index.html is its page")
    files = names(drawer)
    assert {"bell.csv", "bell.txt", "bell.report", "bell.wav", "bell.png", "by-pitch.order", "by-pitch.verdict", "own.order", "own.verdict", "rings.csv", "bell.ring-3.both.wav", "index.html", "SHA256SUMS"} <= set(files), files
    assert run("sha256sum", "--quiet", "-c", "SHA256SUMS", cwd=drawer) == (0, "", "")
    for name in ("bell.csv", "bell.txt", "bell.report"):
        assert (drawer / name).read_bytes() == (at / name).read_bytes()
    text = (drawer / "index.html").read_text()
    for part in ("Zoë &lt;b&gt;", "412.5 kg", "ring 3, 2 turns of 0.4 mm", "&quot;a &amp; b&quot;", "Yes: the same bell in both orders.", 'src="bell.wav"', 'src="bell.ring-3.both.wav"', run("git", "rev-parse", "HEAD").out.strip(),
                 hashlib.sha256(places.program("wav").read_bytes()).hexdigest(), *(hashlib.sha256((drawer / name).read_bytes()).hexdigest() for name in files if name not in ("index.html", "SHA256SUMS"))):
        assert part in text, part
    assert not re.search(r"https?:|//", text.split("</style>")[1]), "the page names something outside"
    done = call("drawer", drawers, "check", drawer)
    assert done.status == 0 and done.out.count("the same 65,535 frames, bit for bit") == 3 and done.out.endswith(f"{len(files) - 1} files as they were\n"), done
    return 3 + found_changed(at, drawer) + no_drawers(at, drawer)


def found_changed(at, drawer):
    """A byte of a sound, a word of a bench file, a file that is gone and one that is new: each is said, with the first frame that differs."""
    sound, bench = drawer / "bell.wav", drawer / "bell.txt"
    good, text = sound.read_bytes(), bench.read_text()
    at_frame = 44 + 6 * 1234 + 3
    sound.write_bytes(good[:at_frame] + bytes([good[at_frame] ^ 0x10]) + good[at_frame + 1:])
    done = call("drawer", drawers, "check", drawer)
    assert done.status == Status.NO and "! bell.txt does not ring bell.wav: the first frame that differs is 1,235 (at 0.113 s)" in done.out and "! bell.wav was changed since" in done.out, done
    sound.write_bytes(good[:-6])
    assert "bell.txt rings 65,535 frames, and bell.wav has 65,534; the first 65,534 are the same" in call("drawer", drawers, "check", drawer).out
    sound.write_bytes(good)
    bench.write_text(text.replace("word=1:", "word=1:1", 1))
    done = call("drawer", drawers, "check", drawer)
    assert done.status == Status.NO and "! bell.txt was changed since" in done.out and "the first frame that differs is" in done.out and "bell.wav was changed" not in done.out, done
    bench.write_text("passes=x\n")
    assert "! bell.txt no longer rings" in call("drawer", drawers, "check", drawer).out
    bench.write_text(text)
    (drawer / "index.html").rename(drawer / "other.html")
    done = call("drawer", drawers, "check", drawer)
    assert done.status == Status.NO and "! index.html is gone" in done.out and "! other.html was not there then" in done.out, done
    (drawer / "other.html").rename(drawer / "index.html")
    assert call("drawer", drawers, "check", drawer).status == 0
    return 6


def no_drawers(at, drawer):
    """Bad calls: nothing is written, and nothing of an older drawer is lost."""
    before = {name: (drawer / name).read_bytes() for name in names(drawer)}
    refused(a_drawer(at), MISUSED, "is there already: a drawer is never written over")
    assert before == {name: (drawer / name).read_bytes() for name in names(drawer)}
    new, table, bench = at / "new", at / "bell.csv", at / "bell.txt"
    for given, status, sentence in (((at / "none.csv", bench), UNREAD, "cannot read"), ((table, at / "none.txt"), UNREAD, "cannot read"), ((table, bench, "--ring", "3"), MISUSED, "a cut needs --ring and --rings"), ((table, bench, "--turns", "2"), MISUSED, "a cut needs"),
                                    ((table, bench, "--rings", at / "rings.csv", "--ring", "9"), MISUSED, "there is no ring 9"), ((table, bench, "--weight", "0"), MISUSED, "--weight"), ((table,), MISUSED, "FILE"), ((bench, bench), REFUSED, "bell.txt: ")):
        refused(call("drawer", drawers, new, *given), status, sentence)
    (at / "bad.txt").write_text("passes=x\n")
    refused(call("drawer", drawers, new, table, at / "bad.txt"), REFUSED, "makes no sound: refused=9")
    refused(call("drawer", drawers, at / "none" / "new", table, bench), UNWRITTEN, "cannot write")
    refused(call("drawer", drawers, "check", at / "none"), UNREAD, "cannot read")
    (at / "empty").mkdir()
    refused(call("drawer", drawers, "check", at / "empty"), REFUSED, "is no drawer")
    (at / "empty" / "SHA256SUMS").write_text("nothing\n")
    refused(call("drawer", drawers, "check", at / "empty"), REFUSED, "no list of checksums")
    full = run(ROOT / "karvelorn", "drawer", new, table, bench, preexec_fn=lambda: resource.setrlimit(resource.RLIMIT_FSIZE, (100_000, 100_000)))
    refused(full, UNWRITTEN, "cannot write", "File too large")
    assert not new.exists() and not [name for name in names(at) if name.startswith(".")], (full, names(at))
    (at / "other.csv").write_text(table.read_text().replace("526.4", "540"))
    done = call("drawer", drawers, new, at / "other.csv", bench)
    assert done.status == UNLIKE and "! no peak for the row tierce, 540 Hz" in done.out and call("drawer", drawers, "check", new).status == 0, done
    return 16


# The page in a browser

PROBE = """<script>
Promise.all([...document.querySelectorAll("audio")].map(a => new Promise(done => {
  const say = () => done(a.getAttribute("src") + "=" + (a.error ? "error" : a.duration.toFixed(3)));
  if (a.readyState > 0) say(); else { a.onloadedmetadata = say; a.onerror = say; }
}))).then(all => { document.title = "heard " + all.join(" ") + " pictures " + [...document.images].map(i => i.naturalWidth).join(" "); });
</script></body>"""


def browser(folder):
    """The page in headless Chromium: nothing on its console, sounds of the right length, pictures, a screenshot, and a print of one or two sheets."""
    if not shutil.which("chromium") or not shutil.which("pdfinfo"):
        print("week: left out, since Chromium can't be installed here: the drawer's page in a browser")
        return 0
    at, drawer = Path(folder), Path(folder, "d 5")
    ends(a_drawer(at), 0)
    before = {name: (drawer / name).read_bytes() for name in names(drawer)}
    (at / "probe").mkdir()
    for name in names(drawer):
        shutil.copy(drawer / name, at / "probe")
    (at / "probe" / "index.html").write_text((drawer / "index.html").read_text().replace("</body>", PROBE))

    def opened(page, *options):
        return run("chromium", "--headless", "--no-sandbox", "--disable-gpu", "--disable-dev-shm-usage", "--no-first-run", f"--user-data-dir={at / 'profile'}", "--enable-logging=stderr", *options, (page / "index.html").as_uri(),
                   env={**os.environ, "HOME": folder})
    done = opened(at / "probe", "--virtual-time-budget=10000", "--dump-dom")
    said = re.search(r"<title>(heard .*)</title>", done.out)
    lengths_ = {name: sounds.frames_of((drawer / name).read_bytes()) for name in ("bell.wav", "bell.before.wav", "bell.ring-3.wav", "bell.ring-3.both.wav")}
    assert said and "CONSOLE" not in done.err, (said, [line for line in done.err.splitlines() if "CONSOLE" in line])
    for name, (rate, frames) in lengths_.items():
        assert f"{name}={len(frames) / 6 / rate:.3f} " in said[1].replace(" pictures", "  pictures"), said[1]
    assert re.search(r"pictures [1-9]\d+ [1-9]\d+$", said[1]), said[1]
    opened(drawer, f"--screenshot={at / 'page.png'}", "--window-size=1000,1800")
    shot = (at / "page.png").read_bytes()
    assert (int.from_bytes(shot[16:20], "big"), int.from_bytes(shot[20:24], "big")) == (1000, 1800) and len(shot) > 50_000, len(shot)
    opened(drawer, "--no-pdf-header-footer", f"--print-to-pdf={at / 'page.pdf'}")
    pages = int(re.search(r"Pages:\s+(\d+)", run("pdfinfo", at / "page.pdf").out)[1])
    assert 1 <= pages <= 2, pages
    assert run("pdftoppm", "-r", "30", "-png", at / "page.pdf", at / "sheet").status == 0 and len(list(at.glob("sheet*.png"))) == pages
    broken = (at / "probe" / "index.html").read_text().replace("</body>", "<script>nonsense()</script></body>")
    (at / "probe" / "index.html").write_text(broken)
    (at / "probe" / "bell.before.wav").write_bytes(b"no sound")
    done = opened(at / "probe", "--virtual-time-budget=10000", "--dump-dom")
    assert "CONSOLE" in done.err and "bell.before.wav=error" in done.out, "a fault of the page would not be seen"
    assert before == {name: (drawer / name).read_bytes() for name in names(drawer)}
    return 6


GROUPS = (walk, readme, monday, cuts, lengths, kept, browser)


def main(arguments):
    tried = 0
    for group in GROUPS:
        if arguments and group.__name__ not in arguments:
            continue
        began = time.monotonic()
        with tempfile.TemporaryDirectory() as folder:
            count = group(folder)
        tried += count
        print(f"{group.__name__}: {count} cases, {time.monotonic() - began:.1f} s", flush=True)
    print(f"bell_week: {tried} cases: the page's commands print what it shows, and each ending has its status")


if __name__ == "__main__":
    sys.exit(main(sys.argv[1:]))
