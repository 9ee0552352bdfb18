"""What the tests that call the library from C share: building, asking in batches, words by name.

A test has a C program, tests/NAME.c, that answers requests. A request and its answer
are runs of bytes that the test makes; an answer must be the reference's, byte for byte.
"""

import os
import resource
import subprocess
import sys
from array import array
from itertools import islice
from typing import Callable, NamedTuple, Optional

ROOT = os.path.dirname(os.path.dirname(os.path.abspath(__file__)))
sys.path.insert(0, ROOT)
sys.path.append(os.path.join(ROOT, "tools"))

import building  # noqa: E402
import places  # noqa: E402
from reference import layout  # noqa: E402
from reference.faults import NAMES, switched_on  # noqa: E402
from texts import NEW_TEXT, OLD_TEXT, TEXTS, Text  # noqa: E402

BATCH, SHOWN, WORDS_SHOWN = 500, 5, 8
LIBRARY, TARGET = str(places.LIBRARY), str(places.TARGET)


class Test(NamedTuple):
    """A test: its name, a request and an answer as bytes, how a difference is shown; its text, and
    the most bytes of stack that its program has, or None for as many as there are."""

    name: str
    request_bytes: Callable
    answer_bytes: Callable
    show: Callable
    text: Text = NEW_TEXT
    stack: Optional[int] = None

    @property
    def title(self):
        """The name of the test with its text, if that is the older one."""
        return f"old_{self.name}" if self.text is OLD_TEXT else self.name

    @property
    def program(self):
        """The path of the C program."""
        return os.path.join(TARGET, self.title)

    def limit_stack(self):
        """The limit for the program's stack, in a child that is to run it."""
        if self.stack:
            resource.setrlimit(resource.RLIMIT_STACK, (self.stack, self.stack))

    def by(self, options):
        """The test of the text that the options name."""
        return self._replace(text=options.text)


# Building

def program_of(name):
    """A program's path; it must be built (tools/built NAME)."""
    return str(places.program(name))


def make_library(test):
    """Builds the library where it is not there or a file of its crates is newer."""
    building.built(test, places.LIBRARY_CRATE)
    os.makedirs(TARGET, exist_ok=True)


def build(test):
    """The test's program, over the static library. It takes its place whole: another test may be running it."""
    make_library(test.name)
    source = os.path.join(ROOT, "tests", test.name + ".c")
    defined = ["-DOLD_TEXT"] if test.text is OLD_TEXT else []
    # Put in its place whole: a test beside this one may run the same program.
    made = f"{test.program}.{os.getpid()}"
    subprocess.run(["gcc", "-std=c99", "-Wall", "-Wextra", "-pedantic", "-Werror", "-O1", *defined,
                    "-I", os.path.join(ROOT, "include"), source, LIBRARY, "-o", made], check=True)
    os.replace(made, test.program)


# Words as bytes

def packed(words):
    """Words as bytes, the low byte first."""
    run = array("I", words)
    if sys.byteorder == "big":
        run.byteswap()
    return run.tobytes()


def unpacked(data):
    """Bytes as words, the low byte first."""
    run = array("I", data)
    if sys.byteorder == "big":
        run.byteswap()
    return run.tolist()


# Asking

def differing(test, batch, first, shown):
    """Asks a batch; shows the first differences, gives how many differ."""
    asked = b"".join(test.request_bytes(request) for request, _ in batch)
    done = subprocess.run([test.program], input=asked, stdout=subprocess.PIPE, preexec_fn=test.limit_stack)
    at, differ = 0, 0
    for number, (request, expected) in enumerate(batch, first):
        good = test.answer_bytes(expected)
        got = done.stdout[at:at + len(good)]
        at += len(good)
        if got == good:
            continue
        if shown + differ < SHOWN:
            print(f"request {number} ({request.name}), whole in {kept(test, number, request)}:")
            test.show(request, expected, got)
        differ += 1
    if done.returncode:
        print(f"the program ended with status {done.returncode}")
    return differ + (done.returncode != 0) + (len(done.stdout) > at)


def kept(test, number, request):
    """Keeps a request whole in a file; gives its path."""
    path = f"{test.program}-{number}.request"
    with open(path, "wb") as file:
        file.write(test.request_bytes(request))
    return path


def compared(test, pairs, count, dry=False):
    """Asks all pairs of request and answer; count sees each. Prints and gives the exit status.

    A dry run asks nothing: it makes the requests and the reference's answers, as bytes too."""
    asked, differ, size = 0, 0, 0
    while batch := list(islice(pairs, BATCH)):
        if dry:
            size += sum(len(test.request_bytes(request)) + len(test.answer_bytes(answer))
                        for request, answer in batch)
        else:
            differ += differing(test, batch, asked, differ)
        asked += len(batch)
        for request, answer in batch:
            count(request, answer)
    if dry:
        print(f"{test.title}: {asked} made and not asked, {size} bytes")
    else:
        print(f"{test.title}: {asked} compared, {differ} differ")
    return 1 if differ else 0


class Options(NamedTuple):
    """What a test is told: whether its run is dry, a fault of the reference, a text, count, seed."""

    dry: bool
    fault: str
    text: Text
    count: int
    seed: int


def taken_out(arguments, option, known, default=None):
    """The value of an option, which must be known, and the arguments without both."""
    if option not in arguments:
        return default, arguments
    at = arguments.index(option)
    value = (arguments[at + 1:] + [""])[0]
    if value not in known:
        sys.exit(f"{option}: " + ", ".join(known))
    return value, arguments[:at] + arguments[at + 2:]


def read_arguments(arguments, count, seed):
    """The options [--dry] [--fault NAME] [--text old] [COUNT] [SEED]; the numbers have defaults."""
    dry, numbers = "--dry" in arguments, [text for text in arguments if text != "--dry"]
    fault, numbers = taken_out(numbers, "--fault", NAMES)
    text, numbers = taken_out(numbers, "--text", TEXTS, NEW_TEXT.name)
    numbers = [int(number) for number in numbers[:2]]
    return Options(dry, fault, TEXTS[text], *numbers, *[count, seed][len(numbers):])


def run(test, options, asked, pairs, answered):
    """Runs a test by its options and gives the exit status: asked() asks everything.

    A dry run with a fault says in how many answers the fault shows: pairs are made without
    it, and answered(request) is the reference's answer with it."""
    if not options.dry:
        build(test)
    if not options.fault:
        return asked()
    if not options.dry:
        with switched_on(options.fault):
            return asked()
    showing, made = 0, 0
    for request, answer in pairs:
        with switched_on(options.fault):
            showing += answered(request) != answer
        made += 1
    print(f"fault {options.fault} shows in {showing} of {made} answers")
    return 0 if showing else 1


def met_seldom(met, promised, asked, whole):
    """Prints each promised kind that was met too seldom; gives the exit status.

    What is promised goes for so many requests as the whole; fewer are not judged."""
    if asked < whole:
        print(f"not judged by what was met: fewer than {whole}")
        return 0
    seldom = {kind: least for kind, least in promised.items() if met[kind] * whole < least * asked}
    for kind, least in seldom.items():
        print(f"FAIL: {kind} met {met[kind]} times in {asked}, promised {least} in {whole}")
    return 1 if seldom else 0


# Words by name

CONTROL_NAMES = ("DX", "T", "N", "counter", "lingering", "Linger pass", "overrun")


def word_name(place):
    """What stands at a place of the machine."""
    if place < layout.MODIFIERS_AT:
        g, register = divmod(place, layout.GENERATOR_WORDS)
        return f"{layout.GENERATOR_NAMES[register]} of generator {g}"
    if place < layout.GENERATOR_THIS:
        m, register = divmod(place - layout.MODIFIERS_AT, layout.MODIFIER_WORDS)
        return f"{layout.MODIFIER_NAMES[register]} of modifier {m}"
    if layout.DX <= place < layout.DELAY_UNITS_AT:
        return CONTROL_NAMES[place - layout.DX]
    if layout.DELAY_UNITS_AT <= place < layout.UPDATE_TICKS:
        u, register = divmod(place - layout.DELAY_UNITS_AT, layout.DELAY_UNIT_WORDS)
        return f"{layout.DELAY_UNIT_NAMES[register]} of delay unit {u}"
    return "update ticks" if place == layout.UPDATE_TICKS else f"word {place}"


def unit_words(machine, place):
    """The words of the unit that a place belongs to, as they were before the call."""
    alone = (layout.GENERATOR_THIS <= place < layout.DELAY_UNITS_AT
             or place >= layout.UPDATE_TICKS)
    if alone or len(machine) != layout.MACHINE_WORDS:
        return ""
    at, size = (0, layout.GENERATOR_WORDS)
    if place >= layout.MODIFIERS_AT:
        at, size = layout.MODIFIERS_AT, layout.MODIFIER_WORDS
    if place >= layout.DELAY_UNITS_AT:
        at, size = layout.DELAY_UNITS_AT, layout.DELAY_UNIT_WORDS
    first = place - (place - at) % size
    return f", before {machine[first:first + size]}"


def machine_differences(before, expected, got):
    """The words of the machine that differ: name, reference's word, program's word."""
    return [(word_name(i) + unit_words(before, i), a, b)
            for i, (a, b) in enumerate(zip(expected, got)) if a != b]


def show_words(differences):
    """The first words that differ."""
    for name, a, b in differences[:WORDS_SHOWN]:
        print(f"  {name}: reference {a}, program {b}")
    if len(differences) > WORDS_SHOWN:
        print(f"  and {len(differences) - WORDS_SHOWN} words more")


def counts(counter):
    """A counter as one line."""
    return ", ".join(f"{key}: {counter[key]}" for key in sorted(counter))
