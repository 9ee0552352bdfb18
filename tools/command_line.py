"""What all commands share: reading the command line, --help with the exit statuses, --version, and endings without a traceback.

A command is a function from its arguments to a Status. What ends it early is an Ending: a sentence and a status.
"""

import argparse
import errno
import importlib.util
import os
import signal
import sys

from places import HOME

if str(HOME) not in sys.path:
    sys.path.append(str(HOME))  # the reference stands there

from statuses import Status, table  # noqa: E402

IN_REPOSITORY = (HOME / "crates.txt").is_file()
NO_ROOM = (errno.ENOSPC, errno.EDQUOT, errno.EFBIG, errno.EROFS)


class Ending(Exception):
    """A sentence that says why a command ends, and its status."""

    def __init__(self, sentence, status=Status.REFUSED):
        super().__init__(sentence)
        self.status = status


def version():
    """The version by number; the file VERSION is its one place."""
    return (HOME / "VERSION").read_text(encoding="ascii").strip()


class Parser(argparse.ArgumentParser):
    """A command's options, with -h and --help (what it does, an example, the statuses), --version, and wrong calls as Endings."""

    def __init__(self, name, description, example, **more):
        called = f"karvelorn {name}" if name != "karvelorn" else name
        text = "\n".join(["example:", *(f"  {line}" for line in example.splitlines()), "", "exit status:", *table()])
        super().__init__(prog=called, description=description, epilog=text, formatter_class=argparse.RawDescriptionHelpFormatter, allow_abbrev=False, **more)
        self.add_argument("--version", action="version", version=f"karvelorn {version()}", help="print the version and end")

    def error(self, message):
        raise Ending(f"{message} ({self.prog} --help lists what may be asked)", Status.MISUSED)

    def exit(self, status=0, message=None):
        raise SystemExit(status)

    def _print_message(self, message, file=None):
        say(message, end="")


def say(text, end="\n"):
    """Prints to standard output, whole."""
    try:
        sys.stdout.write(text + end)
        sys.stdout.flush()
    except OSError as error:
        unwritten(error)


def unwritten(error):
    """Standard output failed."""
    raise Ending(f"cannot write: {error.strerror}", Status.UNWRITTEN) from None


def silence(descriptor):
    """Has a descriptor lead nowhere."""
    nowhere = os.open(os.devnull, os.O_RDWR)
    if nowhere != descriptor:
        os.dup2(nowhere, descriptor)
        os.close(nowhere)


def tell(name, text):
    """Says something on standard error, if that is open."""
    try:
        sys.stderr.write(f"{name}: {text}\n")
        sys.stderr.flush()
    except (OSError, ValueError, AttributeError):
        pass


def read_file(path, most=-1):
    """The bytes of a file, or of standard input where it is called -."""
    try:
        if path == "-":
            return sys.stdin.buffer.read(most)
        with open(path, "rb") as file:
            return file.read(most)
    except (OSError, AttributeError) as error:
        reason = getattr(error, "strerror", None) or "standard input is closed"
        raise Ending(f"cannot read {path}: {reason}", Status.UNREAD) from None


def need_libraries(names, undone):
    """Ends where libraries aren't there: what wasn't done, which ones are needed for it, and the command that installs them."""
    missing = [name for name in names if importlib.util.find_spec(name) is None]
    if missing:
        raise Ending(f"{undone}: {', '.join(missing)} {'is' if len(missing) == 1 else 'are'} needed for it: apt install {' '.join(f'python3-{name}' for name in missing)}", Status.MISSING)


ENDING_SIGNALS = (signal.SIGINT, signal.SIGTERM, signal.SIGHUP)


def interrupted(number, _frame):
    """A signal that asks a command to end is an exception, so that what is half done is cleared away."""
    raise KeyboardInterrupt(number)


def open_streams():
    """Sees to it that descriptors 0 to 2 are open, so that no file is given one of their numbers; answers whether standard output was."""
    was_open = True
    for descriptor in (0, 1, 2):
        try:
            os.fstat(descriptor)
        except OSError:
            was_open = was_open and descriptor != 1
            silence(descriptor)
    for stream in (sys.stdout, sys.stderr):
        if stream is not None:
            stream.reconfigure(errors="backslashreplace")
    return was_open and sys.stdout is not None


def ended(name, command, arguments):
    """Runs a command; gives its status whatever happens."""
    try:
        if not open_streams():
            raise Ending("cannot write: standard output is closed", Status.UNWRITTEN)
        for number in ENDING_SIGNALS:
            if signal.getsignal(number) != signal.SIG_IGN:
                signal.signal(number, interrupted)
        return int(command(arguments))
    except Ending as ending:
        tell(name, str(ending))
        return int(ending.status)
    except SystemExit as end:
        return int(end.code or 0)
    except KeyboardInterrupt as signal_:
        tell(name, "interrupted")
        return 128 + int(signal_.args[0]) if signal_.args else int(Status.INTERRUPTED)
    except Exception as error:
        if isinstance(error, OSError) and error.errno in NO_ROOM:
            tell(name, f"cannot write: {error.strerror}")
            return int(Status.UNWRITTEN)
        return fault(name, error)


def fault(name, error):
    """What nobody thought of: told in one line, with its place in the code."""
    place = error.__traceback__
    while place.tb_next:
        place = place.tb_next
    tell(name, f"a fault of this software, nothing is sure: {error!r} ({os.path.basename(place.tb_frame.f_code.co_filename)}, line {place.tb_lineno})")
    return int(Status.FAULT)


def finish(status):
    """Ends the process; what is still to be written to standard output counts."""
    try:
        if sys.stdout is not None:
            sys.stdout.flush()
    except (OSError, ValueError):
        status = status or int(Status.UNWRITTEN)
    os._exit(status)


def start(name, command):
    """A command as a script of its own."""
    finish(ended(name, command, sys.argv[1:]))
