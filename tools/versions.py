"""What made a result: version, commit, toolchain, and the checksums of library and programs."""

import hashlib
import json
import subprocess

from command_line import HOME, IN_REPOSITORY, version
from places import LIBRARY, PROGRAMS, made

BUILD = "BUILD"  # what an installation knows of its making


def checksum(path):
    """The SHA-256 of a file; None where it isn't there."""
    try:
        with open(path, "rb") as file:
            return hashlib.sha256(file.read()).hexdigest()
    except OSError:
        return None


def said_by(*command):
    """The first line that a command prints, or nothing."""
    try:
        done = subprocess.run(command, cwd=HOME, stdin=subprocess.DEVNULL, stdout=subprocess.PIPE, stderr=subprocess.DEVNULL, text=True, timeout=20)
    except (OSError, subprocess.TimeoutExpired):
        return ""
    return done.stdout.split("\n")[0].strip() if done.returncode == 0 else ""


def commit():
    """The repository's commit, and whether files were changed since."""
    name = said_by("git", "rev-parse", "HEAD")
    return name + (", with changes since" if name and said_by("git", "status", "--porcelain", "--untracked-files=no") else "") if name else "unknown: there is no git"


def versions():
    """By name: what a result was made with."""
    if not IN_REPOSITORY:
        try:
            known = json.loads((HOME / BUILD).read_text(encoding="utf-8"))
        except (OSError, ValueError):
            known = {}
        programs = {name: HOME / "programs" / name for name in PROGRAMS}
        return {"karvelorn": version(), "commit": known.get("commit", "unknown"), "toolchain": known.get("toolchain", "unknown"), "library (SHA-256)": known.get("library (SHA-256)", "unknown"),
                **{f"program {name} (SHA-256)": checksum(path) or "not there" for name, path in programs.items()}}
    return {"karvelorn": version(), "commit": commit(), "toolchain": said_by("rt", "--version") or "unknown", "library (SHA-256)": checksum(LIBRARY) or "not built here",
            **{f"program {name} (SHA-256)": checksum(made(name)) or "not built here" for name in PROGRAMS}}
