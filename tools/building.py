"""The one place where programs and the library are built from the crates, for all commands, ./install, tests and benchmarks.

What is older than the files it is made of is built by `rt`, which proves only what has changed, one crate after the other, lowest
first (for a large one it takes several processors). Each step is told: "12 of 59 crates". One build runs at a time; a second one
waits for it. What is installed is never built. tools/places.py says where everything lies.
"""

import fcntl
import os
import re
import shutil
import signal
import subprocess
import sys
import time

from command_line import ENDING_SIGNALS, IN_REPOSITORY, Ending, Status, ended, finish, say, tell
from places import CI_LOG, HOME, LIBRARY, LIBRARY_CRATE, PARTS, TARGET, crate, made, proved, rlib

# What rt prints of a crate at its end: its name, and some lines later whether it is proved; then of a program that it is run.
NAMED, PROVED, RUNS, WAITS = re.compile(r"crate (\w+): modules"), "logic=proved ", "rt: running out/", "rt: waiting for "
LOG, LOG_SHOWN = TARGET / "build.log", 20
# Estimates: a crate costs so much, and more the more crates stand below it. Measured: `wav` from nothing, two idle cores, with the older kit.
CRATE_COST, MEASURED, MEASURED_SECONDS, MEASURED_CORES = 20, "wav", 580, 2


def dependencies():
    """The crates that each crate names."""
    found = {}
    for line in (HOME / "crates.txt").read_text(encoding="utf-8").splitlines():
        name, colon, named = line.partition("#")[0].partition(":")
        if colon:
            found[name.split()[0]] = named.split()  # after the name may stand what kind of crate it is
    return {name: [other for other in named if other in found] for name, named in found.items()}


def below(name, named):
    """A crate and all that stand below it."""
    found, left = set(), [name]
    while left:
        name = left.pop()
        if name not in found:
            found.add(name)
            left += named[name]
    return found


def changed_at(crates, newest):
    """When a file of some crates was changed last, or the time that is given, whichever is later."""
    for name in crates:
        for part in PARTS:
            for folder, _, names in os.walk(crate(name) / part):
                newest = max([newest, os.path.getmtime(folder), *(os.path.getmtime(os.path.join(folder, file)) for file in names)])
    return newest


def stamp(name):
    """A file whose time says up to when a program's crates are known to be proved."""
    return TARGET / "built" / name


def is_stale(name, crates):
    """Whether something isn't built or a file of its crates has changed since."""
    known = [os.path.getmtime(path) for path in (made(name), stamp(name)) if path.exists()]
    return not made(name).exists() or max(known) < changed_at(crates, os.path.getmtime(HOME / "crates.txt"))


def pending(crates, named):
    """Crates that rt will probably prove: those that it doesn't know or that were changed since, and what stands on them. For the estimate alone."""
    changed = {name for name in crates if not proved(name).exists() or os.path.getmtime(proved(name)) < changed_at([name], 0)}
    return {name for name in crates if below(name, named) & changed}


def length(seconds):
    """A time in words."""
    seconds = max(5, round(seconds / 5) * 5)
    return f"{seconds} s" if seconds < 100 else f"{seconds // 60} min {seconds % 60} s" if seconds % 60 else f"{seconds // 60} min"


class Progress:
    """How far a build is, in crates and by an estimate of its time."""

    def __init__(self, command, crates, named, cores):
        self.command, self.began, self.count = command, time.monotonic(), len(crates)
        self.since, self.crate = self.began, ""
        cost = {name: CRATE_COST + len(below(name, named)) for name in named}
        self.left = {name: cost[name] for name in pending(crates, named)}
        self.pending = len(self.left)
        self.pace = MEASURED_SECONDS * MEASURED_CORES / cores / sum(cost[name] for name in below(MEASURED, named))
        self.all, self.done = sum(self.left.values()), 0

    def expected(self):
        """The time that is left. Once a third of the work is done, what it took counts."""
        left = sum(self.left.values())
        pace = (time.monotonic() - self.began) / self.done if self.done > self.all / 3 else self.pace
        return left * pace

    def take(self, line):
        """Counts a line that rt printed, and tells of a crate that was proved now, and of another rt that has to end first."""
        if found := NAMED.match(line):
            self.crate = found[1]
        elif line.startswith(WAITS):
            tell(self.command, line.rstrip())
        elif line.startswith(PROVED) and self.crate in self.left:
            self.done += self.left.pop(self.crate)
            took, self.since = time.monotonic() - self.since, time.monotonic()
            left = f", about {length(self.expected())} left" if self.left else ""
            tell(self.command, f"{self.count - len(self.left)} of {self.count} crates: {self.crate} proved ({took:.0f} s){left}")


def cores():
    """The processors that may be used."""
    return len(os.sched_getaffinity(0))


def over_ci(name, named, verb, *more):
    """The words by which rattle checks or builds a crate over what `rt ci` left of the crates below it, where the gate's log says that it
    passed since the last change and nothing was built there since: `rt lib` and `rt check` take none of that, and would prove each of them
    again. Else none."""
    lower, log = sorted(below(name, named) - {name}), CI_LOG.read_text(errors="replace") if CI_LOG.exists() else ""
    if not log.endswith(" passed, 0 failed\n") or CI_LOG.stat().st_mtime < changed_at([*lower, name], os.path.getmtime(HOME / "crates.txt")):
        return []
    if any(proved(other).exists() or not rlib(other).is_dir() for other in lower):
        return []
    doc = subprocess.run(["rt", "doc"], stdin=subprocess.DEVNULL, stdout=subprocess.PIPE, stderr=subprocess.DEVNULL, text=True).stdout.strip()
    kit = os.path.dirname(doc)
    libraries = [f"std={kit}/rlibs/std.rlib", *(f"{other}={rlib(other)}" for other in named[name])]
    folders = [f"{kit}/rlibs", *(str(rlib(other).parent) for other in lower)]
    return [f"{kit}/bin/rattle", verb, "--crate-name", name, next(path for path in ("src/main.rt", "src/lib.rt") if (crate(name) / path).exists()),
            *(word for library in libraries for word in ("--extern", library)), *(word for folder in folders for word in ("-L", f"dependency={folder}")),
            "--antt-project", f"{kit}/rattle/logic/antt-project.json", "--logic-built", f"{kit}/logic_built", "--links", f"{name}=",
            *(("--crate-type", "staticlib") if name == LIBRARY_CRATE else ()), "--jobs", "1", *(word.format(kit=kit) for word in more)]


def run_rt(words, name, progress):
    """Runs rt (or rattle) in a crate's folder; what it prints goes to the log. Ended early, it ends with all that it started. A program is
    run by rt as it is built, on nothing: how that ends is not looked at."""
    kept = signal.pthread_sigmask(signal.SIG_BLOCK, ENDING_SIGNALS)  # none comes between the start of rt and what sees to its end
    try:
        process = subprocess.Popen(words, cwd=crate(name), stdin=subprocess.DEVNULL, stdout=subprocess.PIPE, stderr=subprocess.STDOUT,
                                   text=True, errors="replace", start_new_session=True, preexec_fn=lambda: signal.pthread_sigmask(signal.SIG_SETMASK, kept))
    except OSError as error:
        signal.pthread_sigmask(signal.SIG_SETMASK, kept)
        raise Ending(f"cannot run rt: {error.strerror}", Status.MISSING) from None
    runs = False
    try:
        signal.pthread_sigmask(signal.SIG_SETMASK, kept)
        with open(LOG, "a", encoding="utf-8") as log:
            for line in process.stdout:
                log.write(line)
                log.flush()
                progress(line)
                runs = runs or line.startswith(f"{RUNS}{name};")
        if process.wait() != 0 and not runs or not made(name).exists():
            shown = LOG.read_text(encoding="utf-8", errors="replace").splitlines()[-LOG_SHOWN:]
            raise Ending("\n".join([*shown, f"the build failed, see {LOG}"]), Status.MISSING)
    finally:
        if process.poll() is None:
            os.killpg(process.pid, signal.SIGTERM)
            process.wait()


def build(command, names, named):
    """Builds programs and perhaps the library."""
    words = {name: over_ci(name, named, "build", "--toolchain", "{kit}/toolchain", "--backend", "llvm", "-o", str(LIBRARY)) if name == LIBRARY_CRATE else [] for name in names}
    crates = set().union(*({name} if words[name] else below(name, named) for name in names))
    progress, began = Progress(command, crates, named, cores()), time.time()
    tell(command, f"building {', '.join(names)}: {progress.pending} of {len(crates)} crates to be proved, about {length(progress.expected())} on {cores()} idle cores")
    LOG.write_text("")
    stamp("").mkdir(exist_ok=True)
    for name in names:
        plain = ["rt", "lib" if name == LIBRARY_CRATE else "run"]
        try:
            run_rt(words[name] or plain, name, progress.take)
        except Ending:
            if not words[name]:
                raise
            run_rt(plain, name, progress.take)
        stamp(name).touch()
        os.utime(stamp(name), (began, began))


def built(command, *names):
    """The files of programs (or of the library, by its crate's name), in their sequence; builds those that are stale."""
    if not IN_REPOSITORY:
        return [str(HOME / "programs" / name) for name in names]
    named = dependencies()

    def stale():
        return [name for name in names if is_stale(name, below(name, named))]
    if stale():
        if not shutil.which("rt"):
            raise Ending(f"the Rattle toolchain (rt) is needed to build {', '.join(stale())}", Status.MISSING)
        try:
            TARGET.mkdir(exist_ok=True)
            with open(TARGET / "build.lock", "w", encoding="ascii") as lock:
                wait_for(command, lock)
                if left := stale():
                    build(command, left, named)
        except OSError as error:
            raise Ending(f"cannot build under {TARGET}: {error.strerror}", Status.MISSING) from None
    return [str(made(name)) for name in names]


def wait_for(command, lock):
    """Takes the lock; says so where another build has it."""
    try:
        fcntl.flock(lock, fcntl.LOCK_EX | fcntl.LOCK_NB)
    except BlockingIOError:
        tell(command, "another build is running: waiting for it")
        fcntl.flock(lock, fcntl.LOCK_EX)


def main(arguments):
    """Builds what is named, for a shell: tools/built."""
    named = dependencies()
    if unknown := [name for name in arguments if name not in named or name != LIBRARY_CRATE and not (crate(name) / "src" / "main.rt").exists()] or not arguments:
        raise Ending(f"no program and not the library: {' '.join(unknown)}" if arguments else "name what is to be built: tools/built NAME..", Status.MISUSED)
    for path in built("built", *arguments):
        say(path)
    return Status.DONE


if __name__ == "__main__":
    finish(ended("built", main, sys.argv[1:]))
