#!/usr/bin/env python3
"""Puts the commands, the library for C, static and shared, its header and its pkg-config file under a prefix, and takes them away again.

    ./install PREFIX                     ./install --uninstall PREFIX

On everybody's path comes one name, bin/karvelorn. Programs and tools stand under libexec/karvelorn, where it finds them, with a list
of what was put where; by that list they are taken away.
"""

import interrupts  # noqa: F401  (first)

import json
import os

from building import built
from command_line import HOME, Ending, Parser, Status, start, tell, version
from outputs import temporary_beside
from places import LIBRARY, LIBRARY_CRATE, PROGRAMS, made
import hosts
import sharing
import versions

OWN = "libexec/karvelorn"
LIST = f"{OWN}/LIST"
NOT_INSTALLED = ("installing.py", "sharing.py", "selftest.py")
PKG_CONFIG = """prefix={prefix}
libdir=${{prefix}}/lib
includedir=${{prefix}}/include

Name: karvelorn
Description: The Systems Concepts Digital Synthesizer of 1978 in whole numbers, proved
Version: {version}
Cflags: -I${{includedir}}
Libs: -L${{libdir}} -Wl,-rpath,${{libdir}} -lkarvelorn
"""


def escaped(path):
    """A path as pkg-config reads it."""
    return "".join(f"\\{letter}" if letter in " \\\"'$#()&;<>|*?`" else letter for letter in path)


def contents(prefix):
    """What is installed: path below the prefix, bytes (of a symbolic link the name that it stands for), and whether it is executed."""
    yield "bin/karvelorn", (HOME / "karvelorn").read_bytes(), True
    for program in PROGRAMS:
        yield f"{OWN}/programs/{program}", made(program).read_bytes(), True
    for program in filter(os.path.exists, map(hosts.program, hosts.HOSTS)):
        yield f"{OWN}/programs/{program.name}", program.read_bytes(), True
    yield f"{OWN}/{versions.BUILD}", json.dumps(versions.versions(), indent=1).encode(), False
    yield f"{OWN}/VERSION", (HOME / "VERSION").read_bytes(), False
    for folder in ("tools", "reference"):
        for path in sorted((HOME / folder).glob("*.py")):
            if path.name not in NOT_INSTALLED:
                yield f"{OWN}/{folder}/{path.name}", path.read_bytes(), False
    yield "lib/libkarvelorn.a", LIBRARY.read_bytes(), False
    shared = sharing.shared()
    if shared.exists():
        yield f"lib/{shared.name}", shared.read_bytes(), True
        yield f"lib/{sharing.soname()}", shared.name, False
        yield "lib/libkarvelorn.so", sharing.soname(), False
    yield "lib/pkgconfig/karvelorn.pc", PKG_CONFIG.format(prefix=escaped(prefix), version=version()).encode(), False
    yield "include/karvelorn.h", (HOME / "include" / "karvelorn.h").read_bytes(), False
    yield "share/bash-completion/completions/karvelorn", (HOME / "tools" / "completion.bash").read_bytes(), False


def make_folders(root, path):
    """Makes the folders of a path that aren't there; answers them, relative to the root, the lowest last."""
    missing = []
    while not os.path.isdir(path):
        missing.append(path)
        path = os.path.dirname(path)
    for folder in reversed(missing):
        os.mkdir(folder, 0o755)
    return [os.path.relpath(folder, root) for folder in reversed(missing)]


def put(path, data, executed):
    """A file, whole, or a symbolic link."""
    if isinstance(data, str):
        name = f"{path}.{os.getpid()}"
        os.symlink(data, name)
        os.replace(name, path)
        return
    name = temporary_beside(path, data)
    os.chmod(name, 0o755 if executed else 0o644)
    os.replace(name, path)


def listed(root):
    """What the list of an earlier installation has: files, and the folders that it made."""
    try:
        with open(os.path.join(root, LIST), encoding="utf-8") as file:
            lines = file.read().split("\n")[:-1]
    except FileNotFoundError:
        return [], []
    return [line[2:] for line in lines if line.startswith("f ")], [line[2:] for line in lines if line.startswith("d ")]


def install(root, prefix):
    """Puts everything in its place and lists it; what an earlier version had more is taken away."""
    earlier, folders = listed(root)
    files = []
    for path, data, executed in contents(prefix):
        place = os.path.join(root, path)
        folders += make_folders(root, os.path.dirname(place))
        put(place, data, executed)
        files.append(path)
    put(os.path.join(root, LIST), "".join([*(f"f {path}\n" for path in [*files, LIST]), *(f"d {path}\n" for path in dict.fromkeys(folders))]).encode(), False)
    remove(root, [path for path in earlier if path not in (*files, LIST)], [])
    return len(files)


def remove(root, files, folders):
    """Takes files away, and folders that are empty then."""
    for path in files:
        if os.path.lexists(os.path.join(root, path)):
            os.unlink(os.path.join(root, path))
    for path in sorted((os.path.normpath(os.path.join(root, path)) for path in folders), key=len, reverse=True):
        try:
            os.rmdir(path)
        except OSError:
            pass  # others have files there


def uninstall(root):
    """Takes away what the list has."""
    files, folders = listed(root)
    if not files:
        raise Ending(f"nothing is installed under {root}: {LIST} isn't there", Status.UNREAD)
    remove(root, files, folders)
    return len(files)


def parser():
    """What may be asked."""
    asked = Parser("install", "Puts the command karvelorn with its programs and tools, the library for C, static and shared, its header, its pkg-config file and bash\n"
                   "completion under a prefix, or takes them away again. Builds what is missing. DESTDIR, where it is set, is put before the prefix.",
                   "./install \"$HOME/.local\"\nDESTDIR=/tmp/package ./install /usr\n./install --uninstall \"$HOME/.local\"\n"
                   "gcc host.c $(PKG_CONFIG_PATH=PREFIX/lib/pkgconfig pkg-config --cflags --libs karvelorn)")
    asked.prog = "./install"
    asked.add_argument("--uninstall", action="store_true", help="take away what was installed under the prefix")
    asked.add_argument("prefix", metavar="PREFIX", nargs="+", help="a folder, made where it isn't there")
    return asked


def main(arguments):
    asked = parser().parse_args(arguments)
    away = asked.uninstall or asked.prefix[0] == "uninstall" and len(asked.prefix) > 1
    names = asked.prefix[1:] if away and not asked.uninstall else asked.prefix
    if len(names) != 1 or not names[0]:
        raise Ending("name one prefix: ./install PREFIX", Status.MISUSED)
    prefix = os.path.abspath(names[0])
    root = os.environ.get("DESTDIR", "") + prefix
    if not away:
        built("install", *PROGRAMS, LIBRARY_CRATE)
        try:
            for name in hosts.HOSTS:
                hosts.host("install", name)
            sharing.built_shared()
        except Ending as ending:
            tell("install", f"without number and join, what rings on after a bench file's passes and the shared library: {ending}")
        tell("install", f"putting programs, tools, library and header under {root}")
    try:
        count = uninstall(root) if away else install(root, prefix)
    except OSError as error:
        raise Ending(f"cannot write under {root}: {error.strerror}", Status.UNWRITTEN) from None
    tell("install", f"{count} files {'are gone from' if away else 'stand under'} {root}")
    return Status.DONE


if __name__ == "__main__":
    start("install", main)
