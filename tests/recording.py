"""From a recording to the table of its partials: bells made here, with noise 50 dB below the peak, the clapper's noise, a
room's first echoes and a doublet, at 44.1 and 48 kHz, come back within 1 cent and 10 % of each T60, with their names and no
other partial. Of partials 46 to 60 dB down in that noise none comes back wrong, and none above the printed level is missed. In a hall
and between far walls the echoes are waited out: what is in the table is within 1 cent and 10 %.
Every common form of file is read alike; the mains' hum, clipping, a second stroke and bad files are told.

    /usr/bin/python3 tests/recording.py      (needs numpy and scipy, and soundfile for FLAC)
"""

import random
import re
import sys
import tempfile
from pathlib import Path

import numpy as np
from scipy import signal
from scipy.io import wavfile

from calls import ROOT, Status, ends, names, refused, run
import measuring
import naming
import recording
from recording_cases import wave_file, whole_numbers
from table_reader import read_table

BELLS, QUIET, ROOMS = 8, 6, 4
SURE_LEAST = 0.7  # of the partials in rooms at least so many are in the table
SEVEN = (("hum", -6, 14), ("prime", -8, 7), ("tierce", -2, 6), ("quint", -18, 3), ("nominal", 0, 4), ("superquint", -6, 2.5), ("octave nominal", -10, 2))


def rows_of(draw):
    """The rows of a bell: seven partials up to 25 cents off their ratios, and a doublet of the tierce."""
    prime = draw.uniform(200, 500)
    rows = [(word, prime * measuring.RATIOS["just"][word] * 2 ** (draw.uniform(-25, 25) / 1200), db + draw.uniform(-3, 3), t60 * draw.uniform(0.7, 1.3)) for word, db, t60 in SEVEN]
    _, hz, db, t60 = rows[2]
    return rows + [("tierce b", hz + draw.uniform(0.4, 3), db - draw.uniform(1, 10), t60 * draw.uniform(0.7, 1.3))]


def struck(draw, rows, rate, seconds, echoes=6):
    """The sound of a stroke, with the clapper's noise and some echoes."""
    times = np.arange(int(seconds * rate)) / rate
    sound = sum(10 ** (db / 20) * np.exp(-6.9077553 * times / t60) * np.sin(2 * np.pi * hz * times + draw.uniform(0, 6.28)) for _, hz, db, t60 in rows)
    sound += np.random.default_rng(draw.randrange(2 ** 32)).normal(0, 0.5, len(times)) * np.exp(-6.9 * times / 0.05)
    heard = sound.copy()
    for _ in range(echoes):
        late = int(draw.uniform(0.005, 0.09) * rate)
        heard[late:] += sound[:-late] * draw.uniform(0.05, 0.3) * draw.choice([-1, 1])
    return heard


def recorded(draw, sound, rate, noise=-50.0):
    """A recording of a sound: some time before it, and noise so many dB below the peak."""
    whole = np.concatenate([np.zeros(int(0.3 * rate)), sound])
    whole *= 0.7 / np.abs(whole).max()
    return whole + np.random.default_rng(draw.randrange(2 ** 32)).normal(0, 0.7 * 10 ** (noise / 20), len(whole))


def measured(path, table, *more, **how):
    return run(ROOT / "karvelorn", "measure", path, "-o", table, *more, **how)


def save(path, rate, sound, kind=np.int16):
    wavfile.write(path, rate, sound.astype(kind) if np.dtype(kind).kind == "f" else np.round(sound * np.iinfo(kind).max).astype(kind))


def bells(folder):
    """Each bell comes back: its table holds its rows and no other."""
    faults = []
    for seed in range(BELLS):
        draw, rate = random.Random(f"recording {seed}"), (44100, 48000)[seed % 2]
        rows = rows_of(draw)
        path, table = Path(folder, "bell.wav"), Path(folder, "bell.csv")
        save(path, rate, recorded(draw, struck(draw, rows, rate, 6), rate))
        done = measured(path, table)
        found = {row.name: row for row in read_table(str(table))} if table.exists() else {}
        for word, hz, _, t60 in rows:
            names = ("tierce", "tierce b") if word.startswith("tierce") else (word,)  # of a doublet the louder one has the plain name
            if not any(abs(naming.cents(found[n].hz, hz)) < 1 and abs(found[n].t60 / t60 - 1) < 0.1 for n in names if n in found):
                faults.append(f"bell {seed}: {word} {hz:.3f} Hz {t60:.2f} s: {done.out or done.err}")
        if len(found) != len(rows) or "strike note" not in done.out or "beat of" not in done.out or done.status:
            faults.append(f"bell {seed}: {len(found)} rows, status {done.status}: {done.out}{done.err}")
    return faults


def quiet():
    """Of partials 46 to 60 dB down with T60 of 2 to 8 s, in noise 50 dB below the peak: none is in the table with wrong numbers, and those above the printed level are found."""
    faults, counts = [], {"right": 0, "unsure": 0, "missed": 0}
    for seed in range(QUIET):
        draw, rate = random.Random(f"quiet {seed}"), (44100, 48000)[seed % 2]
        rows, soft = rows_of(draw), []
        while len(soft) < 6:
            hz = draw.uniform(200, 4000)
            if all(abs(hz - row[1]) > 15 for row in rows + soft):
                soft.append((f"soft {len(soft)}", hz, -draw.uniform(46, 60), draw.uniform(2, 8)))
        found, lines, _ = recording.measured(recorded(draw, struck(draw, rows + soft, rate, 6), rate)[:, None], rate, measuring.RATIOS["just"], measuring.HIGHEST)
        limit = float(re.search(r"one below (\S+) dB may be missed", "\n".join(lines))[1])
        for word, hz, db, t60 in soft:
            near = [p for p in found if abs(p.hz - hz) < 1.5]
            right = [p for p in near if abs(naming.cents(p.hz, hz)) < 1 and abs(p.t60 / t60 - 1) < 0.1]
            counts["missed" if not near else "right" if any(map(recording.told, near)) else "unsure"] += 1
            if not near and db - max(row[2] for row in rows) > limit or any(recording.told(p) for p in near if p not in right):
                faults.append(f"quiet {seed}: {word} {hz:.3f} Hz {db:.1f} dB {t60:.2f} s, limit {limit}: {near}")
        faults += [f"quiet {seed}: {p} is not there" for p in found if all(abs(p.hz - row[1]) > 1.5 for row in rows + soft)]
    return faults, counts


def hall(draw, sound, rate):
    """A sound in a hall: an even tail that falls by 60 dB in 0.8 s, 8 dB below the sound itself."""
    times = np.arange(int(1.2 * rate)) / rate
    tail = np.random.default_rng(draw.randrange(2 ** 32)).normal(0, 1, len(times)) * np.exp(-6.9 * times / 0.8) * (times > 0.01)
    tail *= 10 ** (-8 / 20) / np.sqrt((tail ** 2).sum())
    tail[0] = 1.0
    return signal.fftconvolve(sound, tail)[:len(sound)]


def between_walls(draw, sound, rate):
    """A sound with four echoes of far walls, 0.1 to 0.7 s late."""
    heard = sound.copy()
    for _ in range(4):
        late = int(draw.uniform(0.1, 0.7) * rate)
        heard[late:] += sound[:-late] * draw.uniform(0.05, 0.25) * draw.choice([-1, 1])
    return heard


def rooms():
    """Bells in halls and between far walls: each partial in the table is right, no other is there, and most are in it."""
    faults, counts = [], {"right": 0, "unsure": 0, "missed": 0}
    for seed in range(ROOMS):
        draw, rate = random.Random(f"room {seed}"), (44100, 48000)[seed % 2]
        rows = rows_of(draw)
        heard = (hall, between_walls)[seed // 2 % 2](draw, struck(draw, rows, rate, 6), rate)
        found, _, _ = recording.measured(recorded(draw, heard, rate)[:, None], rate, measuring.RATIOS["just"], measuring.HIGHEST)
        for word, hz, _, t60 in rows:
            near = [p for p in found if abs(naming.cents(p.hz, hz)) < 8 and abs(p.hz - hz) < 0.3]
            sure = [p for p in near if recording.told(p)]
            right = [p for p in sure if abs(naming.cents(p.hz, hz)) < 1 and abs(p.t60 / t60 - 1) < 0.1]
            counts["right" if right else "unsure" if near else "missed"] += 1
            faults += [f"room {seed}: {word} {hz:.3f} Hz {t60:.2f} s: {p}" for p in sure if p not in right]
        faults += [f"room {seed}: {p} is not there" for p in found if recording.told(p) and all(abs(p.hz - row[1]) > 0.3 for row in rows)]
    if counts["right"] < SURE_LEAST * sum(counts.values()):
        faults.append(f"in rooms only {counts}")
    return faults, counts


def forms(folder):
    """One sound in every form: the same table, within what the bits change."""
    draw = random.Random("forms")
    sound = recorded(draw, struck(draw, rows_of(draw), 44100, 4), 44100)
    tables = []
    for number, kind in enumerate((np.int16, np.int32, np.float32, np.float64, "24", "flac")):
        path, table = Path(folder, f"form{number}.wav"), Path(folder, "form.csv")
        if kind == "24":
            path.write_bytes(wave_file(1, 24, 2, whole_numbers(np.stack([sound, sound], 1), 24), 44100, extensible=True))
        elif kind == "flac":
            import soundfile
            path = path.with_suffix(".flac")
            soundfile.write(path, np.stack([sound, sound], 1), 44100)
        else:
            save(path, 44100, sound, kind)
        ends(measured(path, table), 0)
        tables.append([(row.name, round(row.hz, 1)) for row in read_table(str(table))])
    assert all(t == tables[0] for t in tables), tables
    ends(run(ROOT / "karvelorn", "partials", table, "-o", Path(folder, "form.txt")), 0)
    assert "-40" not in run(ROOT / "karvelorn", "hear", path).out and path.with_suffix(".png").exists()


def told(folder):
    """The mains, clipping and a second stroke are said, with a table and the status of what can't be measured whole."""
    draw = random.Random("told")
    rows = rows_of(draw)
    first = recorded(draw, struck(draw, rows, 44100, 5), 44100)
    mains = first + 0.02 * np.sin(2 * np.pi * 50 * np.arange(len(first)) / 44100)
    second = first.copy()
    second[3 * 44100:] += 0.5 * struck(draw, rows, 44100, 5)[:len(first) - 3 * 44100] * 0.2
    path, table = Path(folder, "told.wav"), Path(folder, "told.csv")
    for sound, sentence in ((mains, "! hum of the mains at 50.0 Hz"), (np.clip(first, -0.3, 0.3), "! clipped"), (second, "! 2 strokes")):
        save(path, 44100, sound)
        done = measured(path, table)
        assert done.status == Status.UNLIKE and sentence in done.out and table.exists(), (sentence, done)
        assert done.err.count("it is now told.older") == (sound is not mains), done
    return 3 + untold(folder, first)


def untold(folder, first):
    """Bad files and bad calls end with one sentence and make no table; an older one has another name then."""
    path, table, ratios = Path(folder, "bad.wav"), Path(folder, "bad.csv"), Path(folder, "ratios")
    refused(measured(path, table), Status.UNREAD, "cannot read")
    path.write_bytes(b"no sound")
    table.write_text("somebody's own")
    refused(measured(path, table), Status.REFUSED, "no sound that can be read", "bad.csv was there from before", "it is now bad.older.csv")
    assert Path(folder, "bad.older.csv").read_text() == "somebody's own" and not table.exists()
    for sound, sentence in ((np.zeros(44100), "too little sound"), (first[:200], "too little sound"), (first[:15000], "too short to measure")):
        save(path, 44100, sound)
        refused(measured(path, table), Status.UNLIKE, sentence)
    save(path, 1000, first)
    refused(measured(path, table), Status.UNLIKE, "1000 samples a second")
    for text, sentence in (("", "no line name,ratio"), ("hum,0.5\nhum,1\n", "line 2: a line must be name,ratio"), ("hum;0.5\n", "line 1"), ("hum,nan\n", "line 1"), ("hum,1e9\n", "line 1")):
        ratios.write_text(text)
        refused(measured(path, table, "--ratios", ratios), Status.REFUSED, sentence)
    refused(measured(path, table, "--ratios", Path(folder, "none")), Status.UNREAD, "cannot read")
    refused(measured(path, path), Status.MISUSED, "is an input")
    refused(measured(path, ratios, "--ratios", ratios), Status.MISUSED, "is an input")
    refused(measured(path, table, "--highest", "none"), Status.MISUSED, "--highest")
    refused(run("/usr/bin/python3", "-S", ROOT / "tools" / "front.py", "measure", path, "-o", table), Status.MISSING, "no table was made: numpy, scipy are needed", "apt install python3-numpy python3-scipy")
    assert not table.exists() and not [name for name in names(folder) if name.startswith(".")], names(folder)
    return 16


def main():
    with tempfile.TemporaryDirectory() as folder:
        said = told(folder)
        forms(folder)
        faults = bells(folder)
    more, counts = quiet()
    in_rooms, heard = rooms()
    faults += more + in_rooms
    print("\n".join(faults))
    print(f"{BELLS} recordings of {len(SEVEN) + 1} partials each, 6 forms of file, {said} calls that are told; of {6 * QUIET} partials 46 to 60 dB down {counts['right']} are right, {counts['unsure']} told to be unsure, {counts['missed']} below what is printed; of {8 * ROOMS} partials in {ROOMS} rooms {heard['right']} are right, {heard['unsure']} told to be unsure, {heard['missed']} missed; {len(faults)} wrong")
    sys.exit(1 if faults else 0)


if __name__ == "__main__":
    main()
