"""`./install PREFIX` puts everything in place, also under a prefix with a space and behind DESTDIR, and takes it away again: the
example host, built with what pkg-config says, and built with the static library, rings as the program does; the installed command works without the repository; bad
calls end with a sentence and a status, and leave nothing.

    /usr/bin/python3 tests/install.py      (what isn't built is built)
"""

import os
import re
import shlex
import shutil
import sys
import tempfile
from pathlib import Path

from calls import ROOT, Status, names, refused, run
import places

VERSION = (ROOT / "VERSION").read_text().strip()
BELL = ROOT / "examples" / "short_bell.txt"


def files_below(folder):
    """All files below a folder."""
    return {str(path.relative_to(folder)) for path in Path(folder).rglob("*") if not path.is_dir()}


def host(folder, prefix):
    """The example host, with the library, the header and the pkg-config file of a prefix."""
    here = dict(os.environ, PKG_CONFIG_PATH=str(prefix / "lib" / "pkgconfig"))
    flags = shlex.split(run("pkg-config", "--cflags", "--libs", "karvelorn", env=here).out)
    assert f"-I{prefix}/include" in flags and f"-L{prefix}/lib" in flags and "-lkarvelorn" in flags, flags
    assert run("pkg-config", "--modversion", "karvelorn", env=here).out.strip() == VERSION and re.fullmatch(r"\d+\.\d+\.\d+", VERSION)
    rung = []
    for name, more in (("shared_host", ()), ("static_host", ("-static",))):
        program = Path(folder, name)
        made = run("gcc", "-std=c99", "-O2", "-Wall", "-Werror", *more, "examples/ring_host.c", *flags, "-o", program)
        assert made.status == 0, made.err
        assert (f"libkarvelorn.so.{VERSION.rpartition('.')[0]}" in run("readelf", "-d", program).out) == (not more)
        rung.append(run(program, input=BELL.read_bytes()).out)
    assert rung[0] == rung[1]
    return rung[0]


def links(prefix):
    """The shared library by its three names."""
    lib = prefix / "lib"
    whole = lib / f"libkarvelorn.so.{VERSION}"
    assert not whole.is_symlink() and (lib / "libkarvelorn.so").resolve() == (lib / f"libkarvelorn.so.{VERSION.rpartition('.')[0]}").resolve() == whole.resolve()


def commands(folder, prefix):
    """The installed command, by a link to it, in a folder of its own and without rt: all its commands work."""
    at = Path(folder, "a bell")
    at.mkdir()
    shutil.copy(BELL, at / "bell.txt")
    shutil.copy(ROOT / "examples" / "bell.csv", at)
    (at / "karvelorn").symlink_to(prefix / "bin" / "karvelorn")
    here = {"cwd": at, "env": {"PATH": "/usr/bin:/bin"}}
    rung = run("./karvelorn", "run", "bell.txt", **here)
    assert rung.status == 0 and rung.out.count("\n") == 40
    assert run("./karvelorn", "hear", "--no-picture", "bell.txt", **here).status == 0 and (at / "bell.wav").read_bytes()[:4] == b"RIFF"
    assert run("./karvelorn", "compare", "bell.txt", **here).out.startswith("The second order, by pitch: ")
    assert run("./karvelorn", "partials", "bell.csv", "-o", "new.txt", "--passes", "9000", **here).status == 0
    assert run("./karvelorn", "same", "bell.csv", "new.txt", **here).status == 0 and "\ngenerator 2 (tierce): runs" in run("./karvelorn", "show", "new.txt", **here).out
    assert run("./karvelorn", "renumber", "new.txt", "tierce=3", "-o", "moved.txt", **here).status == 0 and (at / "moved.report").exists()
    (at / "chain").write_text("noise=0\nshaped=4 early noise\n")
    assert run("./karvelorn", "number", "chain", "--into", "new.txt", "-o", "again.txt", **here).status == 0 and (at / "again.txt").read_bytes() == (at / "new.txt").read_bytes()
    joined = run("./karvelorn", "join", ROOT / "examples" / "low_bell.txt", ROOT / "examples" / "high_bell.txt", "-o", "both.txt", **here)
    assert joined.status == 0 and "DAC 1 (right), in each pass as it is alone" in joined.out, joined
    seen = run("./karvelorn", "hear", "new.txt", "--table", "bell.csv", **here)
    assert (seen.status in (Status.DONE, Status.UNLIKE)) and (at / "new.png").exists(), seen
    taken = run("./karvelorn", "measure", "new.wav", "-o", "again.csv", **here)
    assert (taken.status in (Status.DONE, Status.UNLIKE)) and "name,hz,db,t60" in (at / "again.csv").read_text(), taken
    ended = run("./karvelorn", "hear", "--no-picture", "--seconds", "0.01", "bell.txt", **here)
    assert ended.status == 0 and len((at / "bell.wav").read_bytes()) > 44 + 6 * 150, ended
    shutil.copy(ROOT / "examples" / "rings.csv", at)
    assert run("./karvelorn", "cut", "bell.csv", "--rings", "rings.csv", **here).status == Status.UNLIKE
    assert run("./karvelorn", "drawer", "d5", "bell.csv", "new.txt", **here).status in (Status.DONE, Status.UNLIKE) and "rattle" in (at / "d5" / "index.html").read_text()
    assert "the same 9,000 frames, bit for bit" in run("./karvelorn", "drawer", "check", "d5", **here).out
    assert run("./karvelorn", "--version", **here).out == f"karvelorn {VERSION}\n" and "hear" in run("./karvelorn", "--help", **here).out
    refused(run("./karvelorn", "run", **here), Status.MISUSED, "name a file")
    return rung.out


def in_place(folder):
    """Under a prefix with a space and an apostrophe, twice; then gone."""
    prefix = Path(folder, "the foundry's prefix")
    done = run("./install", prefix)
    assert done.status == 0 and f"stand under {prefix}" in done.err, done
    assert names(prefix / "bin") == ["karvelorn"], "everybody's path has one name"
    for name in ("ring", "wav", "sorted"):
        assert (prefix / "libexec" / "karvelorn" / "programs" / name).read_bytes() == places.program(name).read_bytes()
    before = files_below(prefix)
    links(prefix)
    assert commands(folder, prefix) == host(folder, prefix)
    assert files_below(prefix) == before, "a command has left something under the prefix"
    completion = prefix / "share" / "bash-completion" / "completions" / "karvelorn"
    asked = run("bash", "-c", 'source "$1"; COMP_WORDS=("$2" ""); COMP_CWORD=1; _karvelorn; echo "${COMPREPLY[@]}"', "bash", completion, prefix / "bin" / "karvelorn")
    assert asked.out.split() == ["measure", "partials", "show", "number", "same", "run", "hear", "cut", "compare", "renumber", "join", "drawer", "--help", "--version"], asked
    stale = prefix / "libexec" / "karvelorn" / "tools" / "of_an_earlier_version.py"
    stale.write_text("")
    listed = prefix / "libexec" / "karvelorn" / "LIST"
    listed.write_text("f libexec/karvelorn/tools/of_an_earlier_version.py\n" + listed.read_text())
    assert run("./install", prefix).status == 0 and files_below(prefix) == before
    (prefix / "bin" / "another").write_text("")
    assert run("./install", "--uninstall", prefix).status == 0
    assert files_below(prefix) == {"bin/another"} and names(prefix) == ["bin"], files_below(prefix)
    refused(run("./install", "--uninstall", prefix), Status.UNREAD, "nothing is installed under")


def behind(folder):
    """Behind DESTDIR: what the files say is the prefix alone."""
    package = Path(folder, "a package")
    here = dict(os.environ, DESTDIR=str(package))
    assert run("./install", "/opt/bells", env=here).status == 0 and not os.path.exists("/opt/bells")
    root = package / "opt" / "bells"
    assert (root / "lib" / "pkgconfig" / "karvelorn.pc").read_text().startswith("prefix=/opt/bells\n") and str(package) not in (root / "bin" / "karvelorn").read_text()
    assert run(root / "bin" / "karvelorn", "run", BELL).out.count("\n") == 40
    assert run("./install", "uninstall", "/opt/bells", env=here).status == 0 and not files_below(package)


def main():
    with tempfile.TemporaryDirectory() as folder:
        in_place(folder)
        behind(folder)
        blocked = Path(folder, "file")
        blocked.write_text("")
        for call, status, sentence in (([], Status.MISUSED, "PREFIX"), (["a", "b"], Status.MISUSED, "name one prefix"), ([""], Status.MISUSED, "name one prefix"), (["--nonsense", "a"], Status.MISUSED, "--nonsense"),
                                       ([str(blocked / "below")], Status.UNWRITTEN, "cannot write under"), (["--uninstall", str(blocked)], Status.UNWRITTEN, "cannot write under")):
            refused(run("./install", *call), status, "install: ", sentence)
        link = Path(folder, "link to install")
        link.symlink_to(ROOT / "install")
        assert run(link, "relative prefix", cwd=folder).status == 0 and Path(folder, "relative prefix", "bin", "karvelorn").exists()
        assert run(link, "--uninstall", "relative prefix", cwd=folder).status == 0 and not Path(folder, "relative prefix").exists()
    print(f"installed and taken away: commands, programs, tools, library, header, completion and karvelorn.pc {VERSION}; the example host rings as the command does")


if __name__ == "__main__":
    sys.exit(main())
