"""The shared library, made of the proved static one: the same code, exporting nothing but the calls of karvelorn.h.

Its soname has the version's first number, and the second one too as long as the first is 0, since such versions may change a call.
"""

import os
import shutil
import subprocess

from command_line import Ending, Status, version
from places import LIBRARY, TARGET

EXPORTS = "{ global: karvelorn_*; local: *; };\n"


def soname():
    """The name that a program which is linked with the library asks for."""
    first, second, _ = version().split(".")
    return f"libkarvelorn.so.{first}.{second}" if first == "0" else f"libkarvelorn.so.{first}"


def shared():
    """Where the shared library stands."""
    return TARGET / f"libkarvelorn.so.{version()}"


def linked(library, to):
    """Links the static library to a shared one: no relocation of its code, nothing undefined that the C library lacks."""
    compiler = shutil.which("gcc") or shutil.which("cc")
    if not compiler:
        raise Ending("to make the shared library a C compiler is needed: apt install gcc", Status.MISSING)
    made, exports = f"{to}.{os.getpid()}", f"{to}.{os.getpid()}.exports"
    try:
        with open(exports, "w", encoding="utf-8") as file:
            file.write(EXPORTS)
    except OSError as error:
        raise Ending(f"the shared library can't be linked: {to}: {error.strerror}", Status.UNWRITTEN) from None
    flags = ["-Wl,-soname," + soname(), "-Wl,-z,text", "-Wl,-z,defs", "-Wl,-z,now", "-Wl,--version-script=" + exports]
    done = subprocess.run([compiler, "-shared", "-nostdlib", *flags, "-Wl,--whole-archive", str(library), "-Wl,--no-whole-archive", "-lc", "-o", made],
                          stdout=subprocess.PIPE, stderr=subprocess.STDOUT)
    os.unlink(exports)
    if done.returncode:
        raise Ending(f"the shared library can't be linked: {done.stdout.decode(errors='replace').strip()}", Status.MISSING)
    os.replace(made, to)


def built_shared():
    """The shared library, linked where it is older than the static one."""
    TARGET.mkdir(exist_ok=True)
    if not shared().exists() or os.path.getmtime(shared()) < os.path.getmtime(LIBRARY):
        linked(LIBRARY, shared())
    return shared()
