"""Cases of tests/tools.py about building: a small repository with a toolchain that only pretends."""

import os
import shutil
import signal
import subprocess
import time
from pathlib import Path

from calls import ROOT, Status, ends, heeding, names, run
import places

CRATES = "# a remark\nwords:\nlists: words\nwav: words lists\nring: words\n"
# Prints as rt does of a library that it proves and of the program in whose folder it is, puts the program that was built before, and
# ends as a program does that was given nothing. A library that it knows as proved it doesn't name.
RT = """#!/bin/sh
name=${{PWD##*/}}
echo "$* in $name" >>../../calls
{extra}
echo "rt: chose --jobs 1 for lists"
echo "crate lists: modules loaded=3 checked=2"
echo "axioms std: none reached of the 2 declared"
echo "logic=proved functions=2 sum=0"
echo "rt: chose --jobs 1 for $name"
echo "crate $name: modules loaded=3 checked=2"
echo "logic=proved functions=2 target=any sum=0"
mkdir -p out
cp "{crates}/$name/out/$name" out/
echo "rt: running out/$name; to give it other input, run that file yourself"
exit 1
"""


def repository(folder):
    """A repository of four crates."""
    home = Path(folder, "a repository")
    home.mkdir()
    for name in ("karvelorn", "hear", "run"):
        shutil.copy(ROOT / name, home)
    shutil.copy(ROOT / "VERSION", home)
    for name in ("tools", "reference"):
        shutil.copytree(ROOT / name, home / name, ignore=shutil.ignore_patterns("__pycache__"))
    (home / "crates.txt").write_text(CRATES)
    for crate in ("words", "lists", "wav", "ring"):
        (home / "crates" / crate / "src").mkdir(parents=True)
        (home / "crates" / crate / "src" / "lib.rt").write_text("")
    (home / "bin").mkdir()
    return home


def toolchain(home, extra=""):
    """The environment with a toolchain that does something more."""
    program = home / "bin" / "rt"
    program.write_text(RT.format(extra=extra, crates=ROOT / "crates"))
    program.chmod(0o755)
    return {**os.environ, "PATH": f"{home / 'bin'}:{os.environ['PATH']}"}


def asked(home):
    """What was asked of the toolchain."""
    path = home / "calls"
    return path.read_text().splitlines() if path.exists() else []


def built_at(home, name):
    """Where a program of that repository is built."""
    return home / places.program(name).relative_to(ROOT)


def known(home, name):
    """A crate is one that rt knows as proved."""
    stamp = home / places.proved(name).relative_to(ROOT)
    stamp.parent.mkdir(parents=True)
    stamp.touch()


def changed(path):
    """A file is changed, later than whatever was built."""
    later = time.time() + 2
    os.utime(path, (later, later))


def built_when_stale(home, bell):
    """A program is built where it isn't there or is older than its crates, and told crate by crate. Of three crates one is known as proved."""
    known(home, "words")
    good = toolchain(home)
    done = ends(run(home / "hear", "--no-picture", bell, env=good), 0, "building wav: 2 of 3 crates to be proved, about ", " idle cores", "2 of 3 crates: lists proved (0 s), about", "3 of 3 crates: wav proved (0 s)")
    assert "1 of 3" not in done.err and asked(home) == ["run in wav"], (done, asked(home))
    ends(run(home / "hear", "--no-picture", bell, env=good), 0)
    assert len(asked(home)) == 1, "built again, though nothing had changed"
    known(home, "lists")
    built_at(home, "wav").unlink()
    ends(run(home / "hear", "--no-picture", bell, env=good), 0, "building wav: 1 of 3 crates to be proved")
    assert len(asked(home)) == 2 and built_at(home, "wav").exists(), "a program that isn't there"
    changed(home / "crates" / "ring" / "src" / "lib.rt")  # wav doesn't stand on it
    ends(run(home / "hear", "--no-picture", bell, env=good), 0)
    assert len(asked(home)) == 2, "built again for a crate that it doesn't stand on"
    changed(home / "crates" / "lists" / "src" / "lib.rt")
    ends(run(home / "hear", "--no-picture", bell, env=good), 0, "building wav: 2 of 3 crates to be proved")
    assert len(asked(home)) == 3, "not built again for a crate that it stands on"
    return 5


def not_built(home, bell):
    """Without a toolchain, with one that fails, and interrupted: no program, nothing older as if it were new, and nothing left running."""
    shutil.rmtree(home / "target")
    shutil.rmtree(built_at(home, "wav").parent)
    (bell.parent / "bell.wav").write_bytes(b"RIFF older")
    failing = toolchain(home, "echo 'rt: lists NOT PROVED'; exit 1")
    ends(run(home / "hear", bell, env=failing), Status.MISSING, "rt: lists NOT PROVED", "the build failed, see ", "bell.wav was there from before")
    assert "bell.wav" not in names(bell.parent)
    tools = home / "few"
    tools.mkdir()
    for name in ("sh", "dirname", "readlink"):
        (tools / name).symlink_to(shutil.which(name))
    ends(run(home / "run", bell, env={"PATH": str(tools)}), Status.MISSING, "the Rattle toolchain (rt) is needed to build ring")
    slow = toolchain(home, "sleep 60 & echo $! >../../child; wait")
    process = subprocess.Popen([home / "run", bell], env=slow, stdout=subprocess.PIPE, stderr=subprocess.PIPE, text=True, preexec_fn=heeding)
    while not (home / "child").exists() or not (home / "child").read_text().strip():
        time.sleep(0.02)
    process.send_signal(signal.SIGINT)
    out, told = process.communicate(timeout=20)
    assert process.returncode == Status.INTERRUPTED and not out and told.endswith("run: interrupted\n") and "Traceback" not in told, (process.returncode, told)
    for _ in range(100):
        if not os.path.exists(f"/proc/{(home / 'child').read_text().strip()}/exe"):
            break
        time.sleep(0.02)
    else:
        raise AssertionError("what rt had started goes on")
    return 3


def two_at_once(home, bell):
    """Of two that need the program one builds it and the other waits for that."""
    for path in home.glob("crates/*/src/lib.rt"):
        os.utime(path, (0, 0))  # those that were changed a moment ago have a time to come
    before = len(asked(home))
    slow = toolchain(home, "sleep 0.7")
    running = [subprocess.Popen([home / "hear", "--no-picture", bell], env=slow, stderr=subprocess.PIPE, text=True) for _ in range(2)]
    told = "".join(process.communicate(timeout=30)[1] for process in running)
    assert [process.returncode for process in running] == [0, 0] and "another build is running: waiting for it" in told and len(asked(home)) == before + 1, (told, asked(home))
    return 1


def cut_off(home, bell):
    """Programs that end before their end, killed or not, or say that they can't read or write: no status 0, and no short sound."""
    (home / "bin" / "rt").unlink()
    for script, status in (("exit 0", Status.FAULT), ("{real} | head -c 100", Status.FAULT), ("{real}; kill -9 $$", Status.FAULT), ("echo {name}: cannot read >&2", Status.UNREAD), ("{real} | head -c 60; echo {name}: cannot write >&2", Status.UNWRITTEN)):
        for command, name in (("hear", "wav"), ("run", "ring")):
            program = built_at(home, name)
            program.parent.mkdir(exist_ok=True, parents=True)
            program.unlink(missing_ok=True)
            program.write_text("#!/bin/sh\n" + script.format(real=places.program(name), name=name) + "\n")
            program.chmod(0o755)
            changed(program)
            ends(run(home / "karvelorn", command, *(["--no-picture"] if command == "hear" else []), bell), status, f"{command}: ")
            assert "bell.wav" not in names(bell.parent), (script, names(bell.parent))
            program.chmod(0o644)
            ends(run(home / "karvelorn", command, bell), Status.MISSING, f"{command}: cannot run ", "Permission denied")
    return 20


# A picture.py that draws or doesn't, says something and ends with a status.
PICTURE = """import sys
if {draws}:
    open(sys.argv[sys.argv.index("-o") + 1], "wb").write(b"PNG")
print("partial")
{ending}
"""


def measured(home, bell):
    """What the measurement says is the status of hear; what was drawn is written all the same."""
    cases = ((True, "sys.exit(0)", Status.DONE, ""), (True, "print('picture: hum is 40 cents low', file=sys.stderr); sys.exit(8)", Status.UNLIKE, "hear: hum is 40 cents low"), (False, "print('picture: no partial', file=sys.stderr); sys.exit(8)", Status.UNLIKE, "hear: no picture was made: no partial"),
             (False, "sys.exit(0)", Status.FAULT, "a fault of this software: tools/picture.py ended with 0 and drew nothing"), (True, "1 / 0", Status.FAULT, "a fault of this software: ZeroDivisionError"), (False, "print('picture: cannot read it', file=sys.stderr); sys.exit(3)", Status.UNREAD, "cannot read it"))
    for name in ("wav", "ring"):
        shutil.copy(places.program(name), built_at(home, name))
        changed(built_at(home, name))
    for draws, ending, status, sentence in cases:
        (home / "tools" / "picture.py").write_text(PICTURE.format(draws=draws, ending=ending))
        (bell.parent / "bell.png").write_text("an older picture")
        done = ends(run(home / "hear", bell), status, "wrote ", sentence)
        assert done.out == "partial\n" and "bell.wav" in names(bell.parent) and ("bell.png" in names(bell.parent)) == draws, (done, names(bell.parent))
        assert not draws or (bell.parent / "bell.png").read_bytes() == b"PNG"
    return len(cases)


def building(folder):
    """All of them."""
    home, bell = repository(folder), Path(folder, "bells", "bell.txt")
    bell.parent.mkdir()
    shutil.copy(ROOT / "examples" / "short_bell.txt", bell)
    return built_when_stale(home, bell) + not_built(home, bell) + two_at_once(home, bell) + cut_off(home, bell) + measured(home, bell)
