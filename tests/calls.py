"""How the tests call commands: as processes, or in this process where many calls are made."""

import io
import os
import signal
import subprocess
import sys
from pathlib import Path
from typing import NamedTuple

ROOT = Path(__file__).resolve().parent.parent
sys.path[:0] = [str(ROOT), str(ROOT / "tools")]
import command_line  # noqa: E402
from statuses import Status  # noqa: E402


class Done(NamedTuple):
    """How a call ended, what it printed and what it told on standard error."""
    status: int
    out: str
    err: str


def run(*command, cwd=ROOT, **more):
    """A process. No traceback ever reaches a user."""
    done = subprocess.run([str(word) for word in command], stdout=more.pop("stdout", subprocess.PIPE), stderr=more.pop("stderr", subprocess.PIPE), cwd=cwd, timeout=120, **more)
    result = Done(done.returncode, (done.stdout or b"").decode(errors="replace"), (done.stderr or b"").decode(errors="replace"))
    assert "Traceback" not in result.err and "Exception ignored" not in result.err, result.err
    return result


def call(name, module, *arguments):
    """A command in this process."""
    kept = sys.stdout, sys.stderr
    sys.stdout, sys.stderr = (io.TextIOWrapper(io.BytesIO(), "utf-8") for _ in range(2))
    try:
        status = command_line.ended(name, module.main, [str(word) for word in arguments])
        out, err = (stream.buffer.getvalue().decode() for stream in flushed(sys.stdout, sys.stderr))
    finally:
        sys.stdout, sys.stderr = kept
    assert status != Status.FAULT, err
    return Done(status, out, err)


def flushed(*streams):
    """Streams with nothing left to write."""
    for stream in streams:
        stream.flush()
    return streams


def heeding():
    """Before a process that is to be interrupted: a test that runs beside others has the signal ignored, and would hand that on."""
    signal.signal(signal.SIGINT, signal.SIG_DFL)


def ends(done, status, *sentences):
    """A call that ended with this status and said all this on standard error."""
    assert done.status == status and all(sentence in done.err for sentence in sentences), (status, sentences, done)
    return done


def refused(done, status, *sentences):
    """The same, with nothing printed."""
    assert not done.out, done
    return ends(done, status, *sentences)


def names(folder):
    """What is in a folder."""
    return sorted(os.listdir(folder))
