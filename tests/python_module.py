"""The module python/karvelorn.py, over the shared library: what it rings is what `ring` prints, on files of the tests; every call
answers as the reference has it; its names are the header's; and `pip install` of the folder works without a network. Of the shared
library: it exports the calls of the header and nothing else, has no text relocations, and needs the C library alone.

    /usr/bin/python3 tests/python_module.py [COUNT] [SEED]

The library must be built (tools/built karvelorn). Where the program ring is not, the reference alone says what is printed.
"""

import os
import re
import subprocess
import sys
import tempfile
from itertools import chain, islice
from pathlib import Path

import numpy as np

from library import ROOT, make_library, program_of

import ring_files
import text_files
from reference import layout

HOME = Path(ROOT)
sys.path[:0] = [str(HOME / "tools"), str(HOME / "python")]
import sharing  # noqa: E402

COUNT, SEED, SHORT = 15, 1978, 400  # files with more passes are left to the program itself
RING = Path(program_of("ring"))


def printed(karvelorn, file):
    """What `ring` prints for a file, by the module."""
    counter = None

    def lines(rows):
        return "".join(f"pass={(counter + i) % 2 ** 32} left={left} right={right}\n" for i, (left, right) in enumerate(rows.tolist(), 1))

    try:
        bench = karvelorn.read(file)
        counter = int(bench.machine.words[karvelorn.COUNTER])
        return lines(bench.ring()), bench
    except karvelorn.Refused as refused:
        rows = lines(refused.done) if refused.done is not None else ""
        return rows + f"refused={refused.number}\n", None


def moves_counter(file):
    """Whether a file's commands may set the pass counter: the module's rows don't have it."""
    return any(int(command, 16) >> 7 & 31 == 2 and int(command, 16) >> 3 & 3 in (1, 3) for command in re.findall(rb"^command=([0-9A-F]{8})$", file, re.M))


def rings(karvelorn, count, seed):
    """Files as `ring` prints them; those that set the counter are compared without it."""
    tried = refused = lines = 0
    files = chain(ring_files.written_out(), ring_files.shown(), text_files.shown(), ring_files.at_random(count, seed), text_files.at_random(count // 2, seed))
    for made in files:
        if made.printed.count(b"\n") > SHORT:
            continue
        told = made.printed
        if RING.exists():
            told = subprocess.run([RING], input=made.text, stdout=subprocess.PIPE, check=True).stdout
            assert told == made.printed, made.name
        got, told = printed(karvelorn, made.text)[0], told.decode()
        if moves_counter(made.text):
            got, told = (re.sub(r"^pass=\d+", "pass=", text, flags=re.M) for text in (got, told))
        assert got == told, (made.name, got[:200], told[:200])
        tried, refused, lines = tried + 1, refused + ("refused=" in got), lines + got.count("\n")
    assert refused > tried // 10 and lines > 5 * tried, (tried, refused, lines)
    return f"{tried} files and {lines} lines as {'ring' if RING.exists() else 'the reference'} prints them, {refused} of them refused"


def refusal(karvelorn, number, call, *arguments, **more):
    """A call that is refused by a number."""
    try:
        call(*arguments, **more)
    except karvelorn.Refused as refused:
        assert refused.number == number and karvelorn.QUESTIONS[number] in str(refused), refused
        return refused
    raise AssertionError(f"{call} is not refused by {number}")


def calls(karvelorn):
    """Every call once and more, with its refusals."""
    two = karvelorn.read((HOME / "examples" / "two_strokes.txt").read_bytes()).machine
    by_number = list(range(int(two.words[karvelorn.T])))
    other = [2, 3, 1, 0]
    assert not two.any_order() and not two.compare(by_number, other) and two.compare(by_number, [2, 3, 0, 1])
    parts = two.parts(by_number, other)
    assert (parts.point, parts.place) == (1, 1) and not parts.contents.compare(by_number, other)
    assert two.parts(by_number, [2, 3, 0, 1]).point == 0
    low, high = (karvelorn.read((HOME / "examples" / name).read_bytes()).machine for name in ("low_bell.txt", "high_bell.txt"))
    joined, t = low.copy(), int(low.words[karvelorn.T]) + int(high.words[karvelorn.T])
    joined.join(high)
    assert int(joined.words[karvelorn.T]) == t
    refusal(karvelorn, 18, low.copy().join, low)
    machine = karvelorn.Machine()
    kept = machine.keep()
    assert kept[karvelorn.KEPT_ALIKE] == 1 and machine.change(kept, "tick more") and machine.change(kept, "GMODE", 0, karvelorn.gmode("free", "linear minus", "sine"))
    assert not machine.change(kept, "GMODE", 1, karvelorn.gmode("wait", "linear minus", "sine")) and (kept == machine.keep()).all() and not machine.any_order()
    refusal(karvelorn, 2, machine.change, kept, "DAC", 0, 16)
    assert karvelorn.chain([(True, []), (True, [0]), (False, [1]), (True, [])]).tolist() == [0, 4, 5, 6]
    refusal(karvelorn, 14, karvelorn.chain, [(True, [0])])
    refusal(karvelorn, 5, machine.pass_, [0])
    refusal(karvelorn, 6, machine.pass_, [0, 0])
    refusal(karvelorn, 1, karvelorn.Machine(machine.words[:100]).pass_, [0])
    refusal(karvelorn, 10, karvelorn.Machine(machine.words.copy(), [0] * 7).pass_)
    assert refusal(karvelorn, 3, machine.copy().update, [0x00004020, 0x00000001]).done == 1
    assert machine.copy().update([0x00004020] * 300) == karvelorn.update_ticks(2, 265) == int(machine.words[karvelorn.UPDATE_TICKS])
    reader = karvelorn.Machine()
    reader.generators.GMODE[0] = karvelorn.gmode("read", "linear plus", "sine")
    refusal(karvelorn, 7, reader.pass_)
    assert reader.pass_(items=[-5]).read == 1 and karvelorn.signed(reader.sums[1, 0], 20) == -5
    writer = karvelorn.Machine()
    writer.generators.GMODE[0] = karvelorn.gmode("write", "linear plus", "sine")
    writer.sums[1, 0] = 77
    refusal(karvelorn, 8, writer.pass_)
    assert writer.pass_(places=2).written.tolist() == [77]
    loud = karvelorn.Machine()
    loud.set_ticks(t=3)
    loud.generators.GMODE[:3], loud.generators.GL[:3] = karvelorn.gmode("sticky", "linear plus", "square"), 4095
    loud.sums[0, 0] = 500000
    assert loud.pass_().clipped.tolist() == [True] + [False] * 63
    tone = karvelorn.Machine()
    tone.set_ticks(t=2)
    tone.generators.GMODE[:2], tone.generators.GL[0] = [karvelorn.gmode("sticky", "linear plus", "square"), karvelorn.gmode("dac", "linear minus", "sine")], 4095
    heard = tone.ring(3, dacs=(0, 5))
    assert heard.tolist() == [[0, 0], [131040, 0], [131040, 0]] and heard.dtype == "int32" and karvelorn.floats(heard)[1, 0] == 131040 / 524288
    blocks(karvelorn)
    return "every call and its refusals"


def blocks(karvelorn):
    """Blocks one after another are the whole ringing, as integers and as floats; a refusal has what was done before it."""
    bench = karvelorn.read((HOME / "examples" / "two_strokes.txt").read_bytes())
    whole, one = bench.ring(100, dacs=range(16)), bench.machine.copy()
    cut = list(islice(one.blocks(32, bench.commands, dacs=range(16)), 3))
    assert whole.any() and np.array_equal(np.concatenate(cut), whole[:96]) and whole.shape == (100, 16)
    by_passes, commands = bench.machine.copy(), bench.commands
    for row in whole:
        by_passes.pass_()
        commands = commands[by_passes.update(commands):]
        assert np.array_equal(karvelorn.signed(by_passes.dacs, 20), row)
    heard = bench.ring(100, dtype=np.float32)
    assert heard.dtype == np.float32 and np.array_equal(heard * karvelorn.FULL, whole[:, :2])
    block = bench.machine.copy().block(5, [0x00003110, 0x00004020], dacs=())
    assert block.frames.shape == (5, 0) and block.taken == 2
    refused = refusal(karvelorn, 3, bench.machine.copy().block, 5, [0x00003110, 0x00000001])
    assert len(refused.done.frames) == 2 and refused.done.taken == 1
    last = bench.machine.copy().blocks(4, [0x00003110, 0x00000001])
    assert len(next(last)) == 2 and refusal(karvelorn, 3, next, last).done.taken == 1
    refusal(karvelorn, 5, bench.machine.copy().ring, 1, order=[0])


def names(karvelorn):
    """The names of the module are those of the header and of the reference's layout."""
    header = (HOME / "include" / "karvelorn.h").read_text()
    defined = {name: int(value, 0) for name, value in re.findall(r"#define KARVELORN_(\w+) (0x[0-9A-F]+|\d+)$", header, re.M)}
    assert f'#define KARVELORN_VERSION "{karvelorn.VERSION}"' in header and karvelorn.VERSION == (HOME / "VERSION").read_text().strip()
    for name in ("WORDS", "MEMORY_WORDS", "MARKS", "COMMANDS", "KEPT", "KEPT_ALIKE", "DX", "T", "N", "COUNTER", "LINGERING", "LINGER_PASS", "OVERRUN", "UPDATE_TICKS", "TEXT_1978", "TEXT_OLD"):
        assert getattr(karvelorn, name) == defined[name], name
    assert tuple(karvelorn.GENERATOR) == tuple(layout.GENERATOR_NAMES) and tuple(karvelorn.MODIFIER) == tuple(layout.MODIFIER_NAMES)
    for registers in (karvelorn.GENERATOR, karvelorn.MODIFIER, karvelorn.DELAY):
        assert [defined[name] for name in registers] == list(range(len(registers)))
    questions = dict((int(number), text) for number, text in re.findall(r'case (\d+): return "(.*)";', header) if number != "0")
    assert questions == karvelorn.QUESTIONS
    said = {"dac": "DAC", "sine of J": "SINE_OF_J", "four-quadrant": "FOUR_QUADRANT", "invoke delay": "INVOKE_DELAY"}
    prefixes = ((karvelorn.RUN, "RUN_"), (karvelorn.ENVELOPE, ""), (karvelorn.OSCILLATOR, ""), (karvelorn.FUNCTION, ""))
    for table, prefix in prefixes:
        for name, value in table.items():
            assert defined[prefix + said.get(name, re.sub(r"\W+", "_", name).upper())] == value, name
    assert karvelorn.DELAY_MODE == {"inactive": defined["DELAY_INACTIVE"], "line": defined["DELAY_LINE"], "table": defined["TABLE"], "rounded table": defined["TABLE_ROUNDED"]}
    assert list(karvelorn.CHANGE.values()) == [defined[name] for name in ("CHANGE_GMODE", "CHANGE_GSUM", "CHANGE_GFM", "CHANGE_DAC", "TICK_MORE", "TICK_FEWER")]
    machine = karvelorn.Machine()
    machine.words[:] = range(karvelorn.WORDS)
    assert machine.generators.GJ[3] == 34 and machine.modifiers.MMODE[127] == 3839 and machine.delays.P[31] == 4119 + 7 * 31 + 3 and machine.sums[2, 5] == 3973 and machine.dacs[15] == 4111
    return "its names are the header's"


def told(*command):
    """What a command prints."""
    return subprocess.run(command, check=True, stdout=subprocess.PIPE, stderr=subprocess.STDOUT).stdout.decode()


def library():
    """The shared library, by its dynamic section and its symbols."""
    path = str(sharing.built_shared())
    prototypes = set(re.findall(r"^uint32_t (karvelorn_\w+)\(", (HOME / "include" / "karvelorn.h").read_text(), re.M))
    assert set(re.findall(r"^\S+ (?!U)\w (\S+)$", told("nm", "-D", "--defined-only", path), re.M)) == prototypes
    dynamic = told("readelf", "-dW", path)
    assert "TEXTREL" not in dynamic and re.findall(r"NEEDED.*\[(.*)\]", dynamic) == ["libc.so.6"] and f"[{sharing.soname()}]" in dynamic, dynamic
    assert re.search(r"GNU_STACK\s.*\sRW\s", told("readelf", "-lW", path))
    wanted = set(re.findall(r" U (\w+)", told("nm", "-D", path)))
    assert wanted <= {"memcpy", "memset", "memcmp"}, wanted
    return f"{Path(path).name} exports {len(prototypes)} calls and nothing else"


def by_pip(folder):
    """pip installs the folder without a network, and what it installed rings by itself."""
    told(sys.executable, "-m", "pip", "install", "--quiet", "--no-build-isolation", "--no-index", "--prefix", folder, str(HOME / "python"))
    module, = Path(folder).rglob("karvelorn.py")
    program = "import karvelorn, sys; print(karvelorn.__file__, karvelorn.read(open(sys.argv[1], 'rb').read()).ring()[7].tolist())"
    here = {**os.environ, "PYTHONPATH": str(module.parent), "KARVELORN_LIBRARY": ""}
    done = subprocess.run([sys.executable, "-c", program, str(HOME / "examples" / "short_bell.txt")], cwd=folder, env=here, check=True, stdout=subprocess.PIPE)
    assert done.stdout.decode() == f"{module} [246090, 228629]\n", done.stdout
    return "pip installs it without a network"


def main(arguments):
    count, seed = (int(number) for number in [*arguments, *(str(number) for number in (COUNT, SEED)[len(arguments):])])
    make_library("python_module")
    print(f"python: {library()}")
    import karvelorn
    for step in (names, calls):
        print(f"python: {step(karvelorn)}")
    print(f"python: {rings(karvelorn, count, seed)}")
    with tempfile.TemporaryDirectory() as folder:
        print(f"python: {by_pip(folder)}")


if __name__ == "__main__":
    sys.exit(main(sys.argv[1:]))
