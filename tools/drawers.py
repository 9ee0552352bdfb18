#!/usr/bin/env python3
"""What was decided goes into the drawer: a folder with a bell's files and a page; and years later it is rung again and compared.

    karvelorn drawer NEW-FOLDER TABLE FILE [--weight KG] [--rings RINGS --ring R [--turns N]] [--by NAME] [--note TEXT]
    karvelorn drawer check FOLDER

The folder is there whole or not at all, and never in the place of another. In it: bell.csv, bell.txt, bell.report where there is one,
orders with their verdicts, bell.wav, bell.png, what was measured, the files of the cut, index.html and SHA256SUMS (which `sha256sum
-c` reads). `check` says of each sound whether its bench file rings the same frames, bit for bit, and which files were changed.
"""

import datetime
import hashlib
import os
import re
import shutil
import tempfile

import compared
import cutting
import heard
import page
import partials
import questions
import sounds
from building import built
from command_line import Ending, Parser, Status, need_libraries, read_file, say, start, tell
from outputs import umask
from rings import lacking
from table_reader import read_table
from versions import versions

SUMS = "SHA256SUMS"
PAGE = "index.html"
SUM_LINE = re.compile(r"([0-9a-f]{64})  (.+)")


# Making

def verdicts(text_path, text, orders):
    """By name: the order by pitch and each order file with what is said of it; and the words of the first for the page."""
    program, = built("drawer", "sorted")
    said, status = compared.compared(program, text_path)
    if status == Status.REFUSED:
        raise Ending("\n".join(said))
    lines = compared.found(program, text, None)
    files = {"by-pitch.order": "".join(line + "\n" for line in lines if line.startswith("order=")).encode(), "by-pitch.verdict": ("\n".join(said) + "\n").encode()}
    for order in orders:
        name = os.path.splitext(os.path.basename(order))[0]
        if f"{name}.order" in files:
            raise Ending(f"two orders would be called {name}.order in the drawer", Status.MISUSED)
        words, _ = compared.compared(program, text_path, order)
        files[f"{name}.order"], files[f"{name}.verdict"] = read_file(order), ("\n".join(words).replace(order, f"{name}.order") + "\n").encode()
    return files, said


def files_of_cut(asked, rows):
    """The files of a cut, its lines, and what isn't known."""
    _, known, ratios = cutting.read_all(asked.table, asked.rings, [asked.ring], "just")
    before, after = cutting.judged(asked.table, rows, known, asked.turns, ratios)
    files = {"rings.csv": read_file(asked.rings)}
    for path, data in cutting.make_files("drawer", "bell", rows, known, [asked.ring], asked.turns, None).items():
        files[path] = data
    chosen = next(bell for bell in after if bell.ring == asked.ring)
    files[f"bell.ring-{asked.ring}.png"] = cutting.both_spectra(files["bell.before.wav"], files[f"bell.ring-{asked.ring}.wav"], asked.ring, (before, chosen), before.off)
    unknown = list(cutting.unknown(rows, known, [asked.ring]))
    lines = "\n".join([*cutting.lines_of(before, after, asked.turns), *(f"! {sentence}" for sentence in unknown)])
    return files, lines + "\n", bool(lacking(rows, known.cents[asked.ring]))


def gathered(asked):
    """All files of a drawer by name, what is printed, and a status."""
    text = read_file(asked.file, questions.FILE_MOST + 1)
    try:
        rows = read_table(asked.table)
    except Ending as ending:
        raise ending if ending.status == Status.UNREAD else Ending(f"{asked.table}: {ending}", ending.status) from None
    files = {"bell.csv": read_file(asked.table), "bell.txt": text, "bell.wav": heard.sound_of_text("drawer", asked.file, text)}
    report = partials.report_beside(asked.file)
    if os.path.isfile(report):
        files["bell.report"] = read_file(report)
    orders, said = verdicts(asked.file, text, asked.orders)
    files.update(orders)
    with tempfile.TemporaryDirectory(prefix="karvelorn-") as folder:
        sound = os.path.join(folder, "bell.wav")
        with open(sound, "wb") as file:
            file.write(files["bell.wav"])
        files["bell.png"], measured, status, told = heard.drawn("drawer", sound, asked.table)
        status = heard.judged("drawer", files["bell.png"], status, told)
    files["bell.measured"] = measured.encode()
    cut = None
    if asked.ring is not None:
        more, lines, unknown = files_of_cut(asked, rows)
        files.update(more)
        files["cut.lines"] = lines.encode()
        cut, status = (lines, f"bell.ring-{asked.ring}.png"), Status.UNLIKE if unknown else status
    sums = [(name, hashlib.sha256(data).hexdigest()) for name, data in sorted(files.items())]
    files[PAGE] = page_of(asked, rows, measured, said, cut, sums).encode()
    sums.append((PAGE, hashlib.sha256(files[PAGE]).hexdigest()))
    files[SUMS] = "".join(f"{digest}  {name}\n" for name, digest in sums).encode()
    return files, measured, status


def page_of(asked, rows, measured, said, cut, sums):
    """The page of a drawer."""
    title = os.path.splitext(os.path.basename(asked.table))[0]
    decided = [("decided", f"ring {asked.ring}, {asked.turns:g} turn{'' if asked.turns == 1 else 's'} of {cutting.TURN}" if cut else "no cut"),
               *((head, text) for head, text in (("weight", f"{asked.weight:g} kg" if asked.weight else ""), ("by", asked.by), ("note", asked.note)) if text),
               ("kept on", datetime.date.today().isoformat()), ("table and bench file", f"{os.path.basename(asked.table)}, {os.path.basename(asked.file)}")]
    sounds_ = [("The bell as its bench file rings it", "bell.wav")]
    if cut:
        sounds_ += [("Before", "bell.before.wav"), (f"After ring {asked.ring}", f"bell.ring-{asked.ring}.wav"), ("Before, a second's silence, after", f"bell.ring-{asked.ring}.both.wav")]
    cells = [(row.name, "noise" if row.noise else f"{row.hz:.3f}", f"{row.db:g}", f"{row.t60:g}", row.channel) for row in rows]
    return page.page(title, decided, cells, measured, said, sounds_, cut, list(versions().items()), sums)


def put(folder, files):
    """A folder with these files, whole or not at all."""
    parent = os.path.dirname(os.path.abspath(folder))
    try:
        made = tempfile.mkdtemp(dir=parent, prefix=".karvelorn-")
    except OSError as error:
        raise Ending(f"cannot write {folder}: {error.strerror}", Status.UNWRITTEN) from None
    try:
        for name, data in files.items():
            with open(os.path.join(made, name), "wb") as file:
                file.write(data)
                file.flush()
                os.fsync(file.fileno())
        os.chmod(made, 0o777 & ~umask())
        if os.path.lexists(folder):
            raise Ending(f"{folder} is there already: a drawer is never written over", Status.MISUSED)
        os.rename(made, folder)
    except OSError as error:
        raise Ending(f"cannot write {folder}: {error.strerror}", Status.UNWRITTEN) from None
    finally:
        shutil.rmtree(made, ignore_errors=True)


def make(asked):
    """Makes a drawer."""
    if os.path.lexists(asked.folder):
        raise Ending(f"{asked.folder} is there already: a drawer is never written over", Status.MISUSED)
    if (asked.ring is None) != (asked.rings is None) or (asked.turns != 1.0 and asked.ring is None):
        raise Ending("a cut needs --ring and --rings, the table of rings", Status.MISUSED)
    for path in (asked.table, asked.file, *filter(None, (asked.rings,)), *asked.orders):
        read_file(path, 1)
    need_libraries(heard.LIBRARIES, "no drawer was made")
    files, measured, status = gathered(asked)
    put(asked.folder, files)
    tell("drawer", f"wrote {asked.folder}: {len(files)} files, {os.path.join(asked.folder, PAGE)} is its page")
    say("".join(line + "\n" for line in measured.splitlines() if line.startswith("!")), end="")
    return status


# Checking

def listed(folder):
    """The checksums of a drawer by name."""
    path = os.path.join(folder, SUMS)
    if os.path.isdir(folder) and not os.path.isfile(path):
        raise Ending(f"{folder} is no drawer: {SUMS} isn't there")
    found = [SUM_LINE.fullmatch(line) for line in read_file(path).decode("utf-8", "replace").splitlines()]
    if not found or not all(found) or any("/" in line[2] for line in found):
        raise Ending(f"{path} is no list of checksums")
    return {line[2]: line[1] for line in found}


def changed(folder, sums):
    """Which files aren't as they were, in words."""
    for name, digest in sums.items():
        path = os.path.join(folder, name)
        if not os.path.isfile(path):
            yield f"{name} is gone"
        elif hashlib.sha256(read_file(path)).hexdigest() != digest:
            yield f"{name} was changed since"
    for name in sorted(os.listdir(folder)):
        if name not in sums and name != SUMS:
            yield f"{name} was not there then"


def counted(number, what):
    return f"{number:,} {what}{'' if number == 1 else 's'}"


def compared_frames(folder, name):
    """What is said of a sound whose bench file is rung again, and whether it is the same."""
    path, file = os.path.join(folder, f"{name}.wav"), os.path.join(folder, f"{name}.txt")
    kept, text = read_file(path), read_file(file, questions.FILE_MOST + 1)
    try:
        now = heard.sound_of_text("drawer", file, text)
    except Ending as ending:
        if ending.status != Status.REFUSED:
            raise
        return f"{name}.txt no longer rings: {str(ending).splitlines()[0]}", False
    (rate, new), old = sounds.frames_of(now), kept[44:]
    if now == kept:
        return f"{name}.txt rings the same {counted(len(new) // 6, 'frame')}, bit for bit", True
    if len(kept) < 44 or kept[:44] != now[:44] and len(new) == len(old):
        return f"{name}.wav is no sound of {name}.txt: its header is another", False
    frames = min(len(new), len(old)) // 6
    first = next((i for i in range(frames) if new[6 * i:6 * i + 6] != old[6 * i:6 * i + 6]), frames)
    if first == frames:
        return f"{name}.txt rings {counted(len(new) // 6, 'frame')}, and {name}.wav has {len(old) // 6:,}; the first {frames:,} are the same", False
    were, are = (tuple(int.from_bytes(data[6 * first + 3 * side:6 * first + 3 * side + 3], "little", signed=True) // 16 for side in (0, 1)) for data in (old, new))
    return f"{name}.txt does not ring {name}.wav: the first frame that differs is {first + 1:,} (at {first / rate:.3f} s): left {were[0]} and right {were[1]} then, {are[0]} and {are[1]} now", False


def check(folder):
    """Rings what is in a drawer again; says what is the same and what isn't."""
    sums = listed(folder)
    lost = list(changed(folder, sums))
    lines, same = [], not lost
    for name in sorted(name[:-4] for name in sums if name.endswith(".txt") and name[:-4] + ".wav" in sums):
        if all(os.path.isfile(os.path.join(folder, name + ending)) for ending in (".txt", ".wav")):
            words, alike = compared_frames(folder, name)
            lines, same = [*lines, words if alike else f"! {words}"], same and alike
    lines += [f"! {sentence}" for sentence in lost] or [f"{counted(len(sums), 'file')} as they were"]
    say("\n".join(lines))
    return Status.DONE if same else Status.NO


# The command

def kilograms(text):
    """A weight on the command line."""
    if not 0 < float(text) < 1e6:
        raise ValueError
    return float(text)


def parser():
    """What may be asked."""
    asked = Parser("drawer", "Puts what was decided into a new folder: table, bench file, report, orders with their verdicts, sound, picture, the files of a cut, and\n"
                   "index.html, a page that opens without a network and has it all, with checksums. `karvelorn drawer check FOLDER` rings it again and\n"
                   "says whether each frame is the same, bit for bit, and which files were changed since (0: all is the same, 1: it isn't).",
                   "karvelorn drawer d5 bell.csv bell.txt --weight 412 --rings rings.csv --ring 3 --by 'M. Bodmer'\nkarvelorn drawer check d5")
    asked.add_argument("folder", metavar="NEW-FOLDER", help="the drawer; a folder that exists is never written over")
    asked.add_argument("table", metavar="TABLE", help="the bell's partials")
    asked.add_argument("file", metavar="FILE", help="its bench file")
    asked.add_argument("--weight", metavar="KG", type=kilograms, help="the bell's weight")
    asked.add_argument("--rings", metavar="RINGS", help="the table of rings, for the cut that was chosen")
    asked.add_argument("--ring", metavar="R", help="the ring that was chosen")
    asked.add_argument("--turns", metavar="N", type=cutting.turns_asked, default=1.0, help="so many turns (1 where this isn't asked)")
    asked.add_argument("--order", metavar="ORDER-FILE", dest="orders", action="append", default=[], help="an order of its generators, kept with its verdict; may be asked more than once")
    asked.add_argument("--by", metavar="NAME", help="who decided")
    asked.add_argument("--note", metavar="TEXT", help="a note")
    return asked


def main(arguments):
    if len(arguments) == 2 and arguments[0] == "check" and not arguments[1].startswith("-"):
        return check(arguments[1])
    return make(parser().parse_args(arguments))


if __name__ == "__main__":
    start("drawer", main)
