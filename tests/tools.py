"""The commands and tools: what they make, that nothing is destroyed, that no older or short result is taken for a whole one, and that
each bad call ends with a sentence, the status of the table in tools/statuses.py, and no traceback.

    /usr/bin/python3 tests/tools.py      (needs numpy, scipy, matplotlib and soundfile; ring, wav and sorted must be built)
"""

import os
import re
import resource
import shutil
import signal
import socket
import subprocess
import sys
import tempfile
import time
from pathlib import Path

from calls import ROOT, Status, call, ends, heeding, names, refused, run
import heard
import partials
import questions
import rung
import statuses
from building_cases import building
from measured_cases import unlike_tables
from recording_cases import recordings
from table_cases import HEADS, ONE, channels_and_clipping, example, made, tables

BELL, TABLE_OF_BELL = ROOT / "examples" / "bell.txt", ROOT / "examples" / "bell.csv"
SHORT = ROOT / "examples" / "short_bell.txt"
PYTHON = "/usr/bin/python3"
REFUSED, UNREAD, UNWRITTEN, MISUSED, MISSING, UNLIKE = Status.REFUSED, Status.UNREAD, Status.UNWRITTEN, Status.MISUSED, Status.MISSING, Status.UNLIKE


# Nothing is destroyed

def outputs(folder):
    """No output is written over an input or to what is no regular file; one behind a symbolic link is written there."""
    at, table = Path(folder), Path(folder, "d5.csv")
    table.write_text(ONE)
    (at / "link.csv").symlink_to("d5.csv")
    os.link(table, at / "hard.csv")
    (at / "folder").mkdir()
    (at / "folder.report").mkdir()
    os.mkfifo(at / "pipe")
    with socket.socket(socket.AF_UNIX) as bound:
        bound.bind(str(at / "socket"))
    before = names(folder)
    for output, sentence in (("d5.csv", "is an input"), ("./folder/../d5.csv", "is an input"), ("link.csv", "is an input"), ("hard.csv", "is an input"), ("folder", "is a folder"), ("pipe", "no regular file"),
                             ("socket", "no regular file"), ("folder.txt", "folder.report is a folder"), ("d5.report", "the report goes there"), ("/dev/null", "no regular file")):
        refused(call("partials", partials, table, "-o", output if output[0] == "/" else f"{folder}/{output}"), MISUSED, sentence)
    refused(call("partials", partials, at / "link.csv", "-o", table), MISUSED, "is an input")
    refused(call("partials", partials, table, "-o", at / "none" / "file.txt"), UNWRITTEN, "cannot write")
    assert names(folder) == before and table.read_text() == ONE, names(folder)
    for name in ("pipe", "socket"):
        (at / name).unlink()
    return 12 + through_links(at, table)


def through_links(at, table):
    """Links stay links; the file behind one has the new text and its rights."""
    (at / "far").mkdir()
    (at / "far" / "real.txt").write_text("older")
    (at / "far" / "real.txt").chmod(0o600)
    (at / "near.txt").symlink_to("far/real.txt")
    (at / "near.report").symlink_to("far/new.report")  # a link to what isn't there yet
    assert call("partials", partials, table, "-o", at / "near.txt").status == 0
    assert (at / "near.txt").is_symlink() and (at / "near.report").is_symlink() and (at / "far" / "real.txt").read_text().startswith("passes=")
    assert (at / "far" / "real.txt").stat().st_mode & 0o777 == 0o600 and names(at / "far") == ["new.report", "real.txt"], names(at / "far")
    (at / "near.wav").symlink_to("far/near.wav")
    ends(call("hear", heard, "--no-picture", at / "near.txt"), 0)
    assert (at / "near.wav").is_symlink() and (at / "far" / "near.wav").read_bytes()[:4] == b"RIFF" and names(at / "far") == ["near.wav", "new.report", "real.txt"], names(at / "far")
    for name, sentence in (("bench.wav", "is an input"), ("bench.png", "is an input")):  # a bench file under the name of its own result
        shutil.copy(SHORT, at / name)
        refused(call("hear", heard, at / name), MISUSED, sentence)
        assert (at / name).read_bytes() == SHORT.read_bytes()
    (at / "held.wav").mkdir()
    shutil.copy(SHORT, at / "held.txt")
    refused(call("hear", heard, at / "held.txt"), MISUSED, "is a folder")
    refused(call("hear", heard, at / "held.txt", "-o", table, "--table", table), MISUSED, "is an input")
    refused(call("hear", heard, at / "held.txt", "-o", at / "other.png"), MISUSED, "the picture goes there")
    (at / "kept.txt").write_text("write-protected")
    (at / "kept.txt").chmod(0o444)
    refused(call("partials", partials, table, "-o", at / "kept.txt"), UNWRITTEN, "write-protected")
    assert (at / "kept.txt").read_text() == "write-protected" and "kept.report" not in names(at)
    (at / "half.report").symlink_to("no folder/half.report")  # of two outputs the second can't be written
    before = names(at)
    refused(call("partials", partials, table, "-o", at / "half.txt"), UNWRITTEN, "half.report")
    assert names(at) == before, names(at)
    return 9


def limited():
    """A file that reaches the limit is as a full disk."""
    resource.setrlimit(resource.RLIMIT_FSIZE, (100_000, 100_000))


def older(folder):
    """After a refusal or a failure nothing older stands there as this file's: it has another name, and that is told."""
    at, file = Path(folder), Path(folder, "bell.txt")
    shutil.copy(BELL, file)
    ends(call("hear", heard, "--no-picture", file), 0)
    sound = (at / "bell.wav").read_bytes()
    ends(call("hear", heard, "--no-picture", file), 0)
    assert names(folder) == ["bell.txt", "bell.wav"] and (at / "bell.wav").read_bytes() == sound, names(folder)
    (at / "bell.png").write_text("an older picture")
    file.write_text("passes=x\n")
    done = refused(call("hear", heard, file), REFUSED, "makes no sound: refused=9", "bell.wav was there from before", "it is now bell.older.wav", "it is now bell.older.png")
    assert names(folder) == ["bell.older.png", "bell.older.wav", "bell.txt"] and (at / "bell.older.wav").read_bytes() == sound, (names(folder), done)
    shutil.copy(BELL, file)
    (at / "bell.wav").write_bytes(b"RIFF, a recording that nobody can make again")
    ends(call("hear", heard, "--no-picture", file), 0, "was not made by hear: it is kept as bell.older-2.wav")
    assert (at / "bell.older-2.wav").read_bytes().endswith(b"again") and (at / "bell.wav").read_bytes() == sound
    ends(run(ROOT / "hear", "--no-picture", file, preexec_fn=limited), UNWRITTEN, "cannot write", "bell.wav: File too large", "it is now bell.older-3.wav")
    assert names(folder) == ["bell.older-2.wav", "bell.older-3.wav", "bell.older.png", "bell.older.wav", "bell.txt"], names(folder)
    (at / "none.wav").write_text("beside a file that isn't there")
    refused(call("hear", heard, at / "none.txt"), UNREAD, "cannot read")
    assert "none.wav" in names(folder)
    (at / "broken.txt").symlink_to("/proc/self/mem")  # a file whose reading fails
    (at / "broken.wav").write_text("older")
    refused(call("hear", heard, at / "broken.txt"), UNREAD, "cannot read", "it is now broken.older.wav")
    assert "broken.wav" not in names(folder)
    return 7 + older_reports(at)


def older_reports(at):
    """The same for the report of a table that is refused, and for the sound of a bench file that is written anew."""
    for name in names(at):
        (at / name).unlink()
    assert made(at, ONE, file="bell.txt").status == 0
    ends(call("hear", heard, "--no-picture", at / "bell.txt"), 0)
    assert made(at, ONE, file="bell.txt").status == 0 and "bell.wav" in names(at), "the same bench file again: its sound is still its own"
    refused(call("partials", partials, at / "none.csv", "-o", at / "bell.txt"), UNREAD, "cannot read")
    assert names(at) == ["bell.report", "bell.txt", "bell.wav", "table.csv"], "a table that isn't there: nothing was tried"
    refused(made(at, HEADS, file="bell.txt"), REFUSED, "bell.report is not of this table: it is now bell.older.report", "bell.wav is not of this table")
    assert names(at) == ["bell.older.report", "bell.older.wav", "bell.txt", "table.csv"], names(at)
    ends(call("hear", heard, "--no-picture", at / "bell.txt"), 0)
    ends(made(at, ONE.replace("100", "200"), file="bell.txt"), 0, "bell.wav is not of this table: it is now bell.older-2.wav")
    (at / "bell.wav").write_bytes(b"RIFF, a recording from which the table was made")
    ends(made(at, ONE, file="bell.txt"), 0)
    assert (at / "bell.wav").exists(), "a recording that hear hasn't made stays"
    return 6


# Heard and seen

def bells(folder):
    """./hear on a good file and on bad ones."""
    at, file = Path(folder), Path(folder, "bell.txt")
    shutil.copy(BELL, file)
    shutil.copy(TABLE_OF_BELL, at / "bell.csv")
    done = run("./hear", file)
    assert done.status == 0 and done.out.splitlines()[1].startswith("hum") and "nominal" in done.out and done.out.count("\n") == 9 and "!" not in done.out, done
    assert (at / "bell.wav").read_bytes()[:4] == b"RIFF" and (at / "bell.png").read_bytes()[1:4] == b"PNG"
    assert names(folder) == ["bell.csv", "bell.png", "bell.txt", "bell.wav"], names(folder)
    for text, sentence in (("passes=x\n", "the number of passes is no decimal number"), ("passes=1\nword=4113:0\n", "T (word 4113) has 0, 1 to 256"), ("passes=3\ncommand=000000E0\n", "question 3: Is the command built")):
        (at / "bad.txt").write_text(text)
        refused(call("hear", heard, at / "bad.txt"), REFUSED, "makes no sound: refused=", sentence)
        assert not {"bad.wav", "bad.png"} & set(names(folder))
    (at / "bad.txt").write_text("passes=2000\n")
    refused(call("hear", heard, at / "bad.txt"), UNLIKE, "too little sound")
    assert "bad.wav" in names(folder) and "bad.png" not in names(folder), names(folder)
    assert run("./hear", "-o", at / "other.wav", "--no-picture", file).status == 0 and (at / "other.wav").read_bytes() == (at / "bell.wav").read_bytes()
    (at / "bell.csv").write_text(HEADS + "hum,low,0,1\n")
    refused(call("hear", heard, file), REFUSED, "wrote", "no picture was made", "bell.csv: line 2, column 2 (hz): the frequency is not a number", "it is now bell.older.png")
    assert "bell.wav" in names(folder) and "bell.png" not in names(folder)
    refused(call("hear", heard, file, "--table", at / "none.csv"), UNREAD, "none.csv")
    return 8


def without_libraries(folder):
    """The sound needs no library; for the picture what is missing is named, with the command that installs it."""
    shutil.copy(SHORT, Path(folder, "bell.txt"))
    bare = (PYTHON, "-S", ROOT / "tools" / "front.py", "hear")
    assert run(*bare, "--no-picture", "bell.txt", cwd=folder).status == 0
    Path(folder, "bell.wav").unlink()
    refused(run(*bare, "bell.txt", cwd=folder), MISSING, "wrote bell.wav", "numpy, scipy, matplotlib are needed", "apt install python3-numpy python3-scipy python3-matplotlib")
    assert names(folder) == ["bell.txt", "bell.wav"]
    Path(folder, "bell.flac").write_bytes(b"fLaC")
    refused(run(*bare, "bell.flac", cwd=folder), MISSING, "apt install python3-numpy")
    installing = [path.name for path in [*(ROOT / "tools").iterdir(), *(ROOT / name for name in ("karvelorn", "hear", "run", "compare", "install"))] if path.is_file() and "apt-get" in path.read_text()]
    assert installing == ["libraries"], f"something is installed unasked: {installing}"
    return 4


# Words for questions 9 and 2

SAID = [
    (b"passes=1\r\nword=0:0\r\n", 9, "line 1 (passes=1\\r): ends in CR LF"), (b"\xef\xbb\xbfpasses=1\n", 9, "byte-order mark"), (b"passes=1\nword=0:0", 9, "line 2 (word=0:0): has no LF at its end"),
    (b"passes=1\nword=07:1\n", 9, "line 2 (word=07:1): the place has a leading zero"), (b"passes=1\nword=7:01\n", 9, "the value has a leading zero"), (b"passes=01\n", 9, "line 1 (passes=01): the number of passes has a leading zero"),
    (b"passes=1\nword=7:4294967296\n", 9, "line 2 (word=7:4294967296): the value is too large: a value is below 2^32"), (b"word=7:1\n", 9, "line 1 (word=7:1): passes= is missing"), (b"", 9, "the file is empty"),
    (b"passes=1\npasses=2\n", 9, "line 2 (passes=2): passes= is there twice"), (b"passes=1\ncommand=00000000\nword=0:0\n", 9, "line 3 (word=0:0): lines are out of sequence"), (b"passes=1\nword=4343:0\n", 9, "places go from 0 to 4342"),
    (b"passes=1\nword=0:1\nword=40:4096\n", 2, "line 3: GL of generator 3 (word 40) has 4096, at most 4095"), (b"passes=1\nword=10:256\n", 2, "GMODE of generator 0 (word 10) has 256: run mode 0100, built are 0000 0001"),
    (b"passes=1\nword=2823:16\n", 2, "MMODE of modifier 0 (word 2823) has 16: function 00001"), (b"passes=1\nword=4114:1\n", 2, "N (word 4114) has 1, 2 to 1025"), (b"passes=1\nword=4122:1\n", 2, "P of delay unit 0 (word 4122) has 1: mode 0001"),
    (b"passes=1\nword=2820:192\n", 2, "MIN of modifier 0 (word 2820) has 192: top bits 11"), (b"passes=1\nword=3904:1048576\n", 2, "generator-last sum word 0 (word 3904) has 1048576, at most 1048575"),
    (b"passes=1\n" + b"".join(b"word=%d:4096\n" % (11 * g + 7) for g in range(20)), 2, "and 14 words more"),
]


def question_words(folder):
    """The line, its number and the cause; the word by name and number, what it has and what it may have."""
    file = Path(folder, "bell.txt")
    for text, number, sentence in SAID:
        file.write_bytes(text)
        done = ends(call("run", rung, file), REFUSED, f"question {number}: {questions.QUESTIONS[number]}", sentence)
        assert done.out == f"refused={number}\n", done
    refused(call("hear", heard, file), REFUSED, "makes no sound: refused=2", sentence)
    table = dict(re.findall(r"^\| (\d+) \| (.*\?) \|$", (ROOT / "docs" / "FILE.md").read_text(), flags=re.M))
    assert table == {str(number): question for number, question in questions.QUESTIONS.items()}, "the questions aren't those of docs/FILE.md"
    file.write_bytes(b"passes=9\ncommand=00003110\ncommand=000000E0\n")
    done = ends(call("run", rung, file), REFUSED, "question 3", "(pass 3 of the ringing)")
    assert done.out.endswith("pass=2 left=0 right=0\nrefused=3\n"), done
    return len(SAID) + 2


# Habits of the command line

def helps(_folder):
    """Each script and tool has -h, --help and --version; the help has each option, the exit statuses and an example."""
    callers = [("./karvelorn",), ("./hear",), ("./run",), ("./compare",), ("./install",), ("./karvelorn", "partials"), ("./karvelorn", "measure"), ("./karvelorn", "hear"), ("./karvelorn", "show"), ("./karvelorn", "same"), ("./karvelorn", "renumber"), ("./karvelorn", "number"), ("./karvelorn", "join"), ("./karvelorn", "cut"), ("./karvelorn", "drawer"), (PYTHON, "tools/compared.py"), (PYTHON, "tools/rung.py"), (PYTHON, "tools/picture.py")]
    for caller in callers:
        text = run(*caller, "--help")
        assert text.status == 0 and not text.err and run(*caller, "-h") == text, text
        assert all(f"{status:>3}  {meaning}" in text.out for status, meaning in statuses.MEANINGS.items()) and "\nexample:\n" in text.out and "--version" in text.out, text.out
        assert run(*caller, "--version").out == f"karvelorn {(ROOT / 'VERSION').read_text()}"
        refused(run(*caller, "--nonsense"), MISUSED, "--help")
    table = dict(re.findall(r"^\| (\d+) \| (.*) \|$", (ROOT / "docs" / "COMMANDS.md").read_text().split("| Exit status |")[1].split("\n\n")[0], flags=re.M))
    assert {int(number) for number in table} == set(map(int, statuses.Status)), table
    listed = run("./karvelorn", "--help").out
    places = [listed.index(f" {name} ") for name in ("measure", "partials", "show", "number", "same", "run", "hear", "cut", "compare", "renumber", "join", "drawer")]
    assert places == sorted(places) and listed.index("Monday") < listed.index("Tuesday") < listed.index("Wednesday") < listed.index("Thursday") < listed.index("Friday"), listed
    assert run("./karvelorn", "--commands").out.split() == ["measure", "partials", "show", "number", "same", "run", "hear", "cut", "compare", "renumber", "join", "drawer"]
    refused(run("./karvelorn"), MISUSED, "no command")
    refused(run("./karvelorn", "ring"), MISUSED, "no such command: ring")
    assert "The gate: " in run(".ci/run", "--help").out and run(".ci/run", "-h").status == 0 and run(".ci/run", "--version").out == run("./hear", "--version").out
    assert run("tools/libraries", "--help").status == run("tools/libraries", "-h").status == 0 and run("tools/libraries", "--version").out == run("./hear", "--version").out
    assert run("tools/built", "--help").status == run("tools/built", "-h").status == 0 and run("tools/built", "--version").out == run("./hear", "--version").out
    refused(run("tools/built"), MISUSED, "name what is to be built")
    refused(run("tools/built", "ring_pass"), MISUSED, "no program and not the library: ring_pass")
    return len(callers) * 4 + 8


def completion(folder):
    """Bash completes commands, options and files."""
    Path(folder, "bell one.txt").write_text("")
    shutil.copy(ROOT / "tools" / "completion.bash", folder)
    ask = 'source ./completion.bash; COMP_WORDS=("$@"); COMP_CWORD=$(($# - 1)); _karvelorn; printf "%s\\n" "${COMPREPLY[@]}"'
    for words, wanted in ((("",), {"measure", "partials", "show", "number", "same", "run", "hear", "cut", "compare", "renumber", "join", "drawer", "--help", "--version"}), (("he",), {"hear"}), (("partials", "--"), {"--help", "--version", "--passes", "--rate", "--seconds", "--gain", "--words", "--dacs", "--ratios", "--highest"}),
                          (("show", "--g"), {"--graph"}), (("number", "--i"), {"--into"}), (("join", "--a"), {"--apart"}), (("hear", "--no"), {"--no-picture"}), (("hear", "-o"), {"-o"}), (("hear", "bell"), {"bell one.txt"})):
        done = run("bash", "-c", ask, "bash", ROOT / "karvelorn", *words, cwd=folder)
        assert set(done.out.splitlines()) == wanted, (words, done)
    return 9


def places(folder):
    """Files are named from where the user stands; commands are found through links, from any folder, under any name."""
    at = Path(folder)
    for name in ("hear", "run", "compare", "karvelorn", "install"):
        (at / f"my {name}").symlink_to(ROOT / name)
    (at / "again").symlink_to("my run")
    (at / "examples").mkdir()
    (at / "examples" / "short_bell.txt").write_text("passes=2\n")  # the repository has another file of that name
    two = "pass=1 left=0 right=0\npass=2 left=0 right=0\n"
    for caller in (("./my run",), ("./again",), ("./my karvelorn", "run"), (ROOT / "run",)):
        done = run(*caller, "examples/short_bell.txt", cwd=folder)
        assert (done.status, done.out, done.err) == (0, two, ""), done
    streams = run("bash", "-c", "'./my compare' <(cat '%s') <(printf 'order=%%s\\n' {0..19})" % BELL, cwd=folder)
    assert streams.status == 0 and "the same as by number" in streams.out, streams
    assert run("./my run", cwd=folder).out.count("\n") == 40 and run("./my run", "-", cwd=folder, input=b"passes=2\n").out == two
    bell = "Große Glocke d'5"
    shutil.copy(SHORT, at / bell)
    (at / "dotted.folder").mkdir()
    shutil.copy(SHORT, at / "dotted.folder" / "bell")
    assert run("./my hear", "--no-picture", bell, cwd=folder).status == 0 and (at / f"{bell}.wav").exists()
    assert run("./my hear", "--no-picture", "dotted.folder/bell", cwd=folder).status == 0 and (at / "dotted.folder" / "bell.wav").exists()
    assert run("./my compare", bell, cwd=folder).out.startswith("The second order, by pitch: ")
    (at / f"{bell}.order").write_text("order=0\n")
    done = run("./my compare", bell, f"{bell}.order", cwd=folder, env={**os.environ, "LC_ALL": "C", "PYTHONIOENCODING": "ascii"})
    assert done.status == REFUSED and "Gro\\xdfe Glocke d'5.order doesn't pass question 5" in done.out, done
    strange = os.path.join(os.fsencode(folder), b"d\xf6rfli.txt")  # a name that is no UTF-8
    shutil.copy(SHORT, strange)
    assert subprocess.run([str(ROOT / "hear"), "--no-picture", strange], stderr=subprocess.PIPE).returncode == 0 and os.path.exists(strange[:-4] + b".wav")
    (at / "table ü.csv").write_text(ONE)
    assert run("./my karvelorn", "partials", "table ü.csv", "-o", "Glocke eins", cwd=folder).status == 0 and (at / "Glocke eins.report").exists()
    return 13 + at_once(at)


def at_once(at):
    """Several runs at once, of one file and of others."""
    for name in ("one", "two"):
        shutil.copy(BELL, at / f"{name}.txt")
    running = [subprocess.Popen([str(ROOT / "hear"), "--no-picture", f"{name}.txt"], cwd=at, stderr=subprocess.PIPE) for name in ("one", "two", "one", "two", "one")]
    assert [process.communicate()[1] and process.returncode for process in running] == [0] * 5
    assert (at / "one.wav").read_bytes() == (at / "two.wav").read_bytes() and len((at / "one.wav").read_bytes()) == 44 + 6 * 65535
    assert not [name for name in names(at) if name.startswith(".karvelorn")], names(at)
    return 1


def no_tracebacks(folder):
    """A closed pipe, a closed or full standard output, files that can't be read, a full disk: a line and a status."""
    at, long = Path(folder), Path(folder, "bell.txt")
    shutil.copy(BELL, long)
    (at / "rings.csv").write_text("ring,hum,prime,tierce,quint,nominal\n1,1,1,1,1,1\n")
    calls = (["./run", str(long)], ["./compare", str(long)], ["./karvelorn", "--help"], ["./karvelorn", "partials", str(TABLE_OF_BELL), "-o", str(at / "new.txt")], ["./karvelorn", "cut", str(TABLE_OF_BELL), "--rings", str(at / "rings.csv")], ["./run", "--help"], ["./install", "-h"])
    for command in calls:
        with open("/dev/full", "w") as full:
            ends(run(*command, stdout=full), UNWRITTEN, "cannot write: No space left on device")
        reader, writer = os.pipe()
        os.close(reader)
        ends(run(*command, stdout=writer), UNWRITTEN, "cannot write: Broken pipe")
        os.close(writer)
        ends(run("sh", "-c", 'exec "$@" >&-', "sh", *command), UNWRITTEN, "standard output is closed")
        assert run("sh", "-c", 'exec "$@" 2>&- <&-', "sh", *command).status == 0
    done = run("sh", "-c", f"./run '{long}' | head -n 2")
    assert done.out.count("\n") == 2 and done.err.count("\n") == 1, done
    for command in (("./run",), ("./hear",), ("./compare",), ("./compare", long), ("./karvelorn", "partials", "-o", at / "x.txt")):
        for path, reason in ((at / "none", "No such file"), (at, "Is a directory"), ("/proc/self/mem", "error")):
            refused(run(*command, path), UNREAD, f"cannot read {path}: ", reason)
    ends(run("./karvelorn", "partials", TABLE_OF_BELL, "-o", at / "x.txt", preexec_fn=lambda: resource.setrlimit(resource.RLIMIT_FSIZE, (100, 100))), UNWRITTEN, "cannot write")
    assert not [name for name in names(folder) if name.startswith((".", "x"))], names(folder)
    return len(calls) * 4 + 17


NOBODY = ("setpriv", "--reuid=65534", "--regid=65534", "--clear-groups")


def without_rights(folder):
    """Files that may not be read, and folders that may not be written, by a user who is not root."""
    at = Path(folder)
    at.chmod(0o755)
    shutil.copy(BELL, at / "bell.txt")
    ends(call("hear", heard, "--no-picture", at / "bell.txt"), 0)
    sound = (at / "bell.wav").read_bytes()
    shutil.copy(SHORT, at / "secret.txt")
    (at / "secret.txt").chmod(0o600)
    before = names(folder)
    if os.geteuid() != 0 or not shutil.which("setpriv") or run(*NOBODY, ROOT / "karvelorn", "--version", cwd="/").status:
        print("tools: left out, since this machine does not have it: another user who reaches the repository")
        return 0
    for command in (("run",), ("hear",), ("compare",)):
        refused(run(*NOBODY, ROOT / "karvelorn", *command, at / "secret.txt"), UNREAD, "cannot read", "Permission denied")
    refused(run(*NOBODY, ROOT / "hear", "--no-picture", at / "bell.txt"), UNWRITTEN, "cannot write", "write-protected")
    refused(run(*NOBODY, ROOT / "karvelorn", "partials", TABLE_OF_BELL, "-o", at / "new.txt"), UNWRITTEN, "cannot write", "Permission denied")
    refused(run(*NOBODY, ROOT / "install", at / "prefix"), UNWRITTEN, "cannot write under", "Permission denied")
    assert names(folder) == before and (at / "bell.wav").read_bytes() == sound, names(folder)
    return 6


def interrupted(folder):
    """Ctrl-C and an end by signal: a word and a status, and nothing half done is left."""
    file = Path(folder, "bell.txt")
    shutil.copy(BELL, file)
    for number in (signal.SIGINT, signal.SIGTERM):
        reader, writer = os.pipe()  # nobody reads: it waits with its output
        process = subprocess.Popen([str(ROOT / "run"), str(file)], stdout=writer, stderr=subprocess.PIPE, text=True, preexec_fn=heeding)
        os.close(writer)
        os.read(reader, 1)
        process.send_signal(number)
        told = process.communicate(timeout=20)[1]
        os.close(reader)
        assert (process.returncode, told) == (128 + number, "run: interrupted\n"), (process.returncode, told)
    process = subprocess.Popen([str(ROOT / "hear"), str(file)], stdout=subprocess.PIPE, stderr=subprocess.PIPE, text=True, env={**os.environ, "TMPDIR": folder}, start_new_session=True,
                               preexec_fn=heeding)
    while "measuring" not in process.stderr.readline():
        pass
    time.sleep(0.3)
    os.killpg(process.pid, signal.SIGINT)  # as a terminal does: to all of them
    out, told = process.communicate(timeout=20)
    assert (process.returncode, out, told) == (Status.INTERRUPTED, "", "hear: interrupted\n"), (process.returncode, told)
    assert names(folder) == ["bell.txt", "bell.wav"], names(folder)
    return 3 + while_starting()


def while_starting():
    """Ctrl-C while Python is still starting, at 24 moments of it: no traceback."""
    for moment in range(24):
        process = subprocess.Popen([str(ROOT / "run"), str(SHORT)], stdout=subprocess.DEVNULL, stderr=subprocess.PIPE, text=True, start_new_session=True, preexec_fn=heeding)
        time.sleep(0.003 * moment)
        os.killpg(process.pid, signal.SIGINT)
        told = process.communicate(timeout=20)[1]
        assert (process.returncode, told) in ((-signal.SIGINT, ""), (Status.INTERRUPTED, "run: interrupted\n")), (moment, process.returncode, told)
    return 24


GROUPS = (tables, channels_and_clipping, example, outputs, older, recordings, bells, unlike_tables, without_libraries, question_words, helps, completion, places, no_tracebacks, without_rights, interrupted, building)


def main(arguments):
    tried = 0
    for group in GROUPS:
        if arguments and group.__name__ not in arguments:
            continue
        began = time.process_time() + sum(resource.getrusage(resource.RUSAGE_CHILDREN)[:2])
        with tempfile.TemporaryDirectory() as folder:
            count = group(folder)
        tried += count
        print(f"{group.__name__}: {count} cases, {time.process_time() + sum(resource.getrusage(resource.RUSAGE_CHILDREN)[:2]) - began:.1f} s")
    print(f"tools: {tried} cases: nothing destroyed, nothing older or short left, each ending with its status")


if __name__ == "__main__":
    sys.exit(main(sys.argv[1:]))
