"""Karvelorn from Python: the Systems Concepts Digital Synthesizer of 1978 in whole numbers, over the proved library.

    import karvelorn

    bell = karvelorn.read(open("examples/bell.txt", "rb").read())
    sound = bell.ring(20000)             # DAC 0 and DAC 1 of 20,000 passes: an array of int32, 20 bits each
    heard = karvelorn.floats(sound)      # the same from -1 to 1

    for block in bell.machine.blocks(64, bell.commands, dtype=np.float32):   # blocks for an audio program, without end
        play(block)

A machine is its run of words, a numpy array of uint32, with names for its parts that stand over the same memory:

    machine = karvelorn.Machine()
    machine.generators.GJ[0] = 256 * round(440 / machine.rate * 2 ** 20)
    machine.generators.GMODE[0] = karvelorn.gmode("sticky", "exponential plus", "sine")
    machine.set_ticks(t=2, n=265)

include/karvelorn.h says what each word means and what each call does. Its calls stand here under their names without
`karvelorn_`, as methods of Machine where they are handed a machine; where the library refuses, Refused is raised with the number
and the question. This module decides nothing: every answer is the library's.

The library is libkarvelorn.so: the file that the variable KARVELORN_LIBRARY names, else the one beside this module, else that of
the repository around it, else the one that the system finds.
"""

import ctypes
import os
from pathlib import Path
from typing import NamedTuple

import numpy as np

VERSION = "0.4.0"
WORDS, MEMORY_WORDS, MARKS, COMMANDS, KEPT, KEPT_ALIKE = 4344, 65536, 64, 3855, 2327, 2326
TICK = 195e-9  # seconds
DX, T, N, COUNTER, LINGERING, LINGER_PASS, OVERRUN, UPDATE_TICKS = 4112, 4113, 4114, 4115, 4116, 4117, 4118, 4343
TEXT_1978, TEXT_OLD = 0, 1
FULL = 524288  # a DAC plays -FULL to FULL - 1

# The registers with their widths; signed ones keep their two's-complement bits.
GENERATOR = {"GO": 20, "GJ": 28, "GK": 20, "GN": 11, "GM": 4, "GP": 20, "GQ": 24, "GL": 12, "GSUM": 6, "GFM": 7, "GMODE": 10}
MODIFIER = {"M0": 30, "M1": 30, "L0": 20, "L1": 20, "MIN": 8, "MRM": 8, "MSUM": 7, "MMODE": 9}
DELAY = {"X": 16, "Y": 16, "Z": 16, "P": 4, "DUE_1": 20, "DUE_2": 20, "DUE_3": 20}

RUN = {"inactive": 0b0000, "pause": 0b0001, "dac": 0b0010, "write": 0b0011, "read": 0b0111, "wait": 0b1001, "once": 0b1101, "free": 0b1110, "sticky": 0b1111}
ENVELOPE = {"linear minus": 0b00, "linear plus": 0b01, "exponential minus": 0b10, "exponential plus": 0b11}
OSCILLATOR = {"sine": 0b0000, "sawtooth": 0b0001, "square": 0b0010, "pulse train": 0b0011, "sum of cosines": 0b0100, "sine of J": 0b1000}
FUNCTION = {"inactive": 0b00000, "noise": 0b00010, "triggered noise": 0b00011, "latch": 0b00100, "threshold": 0b00110, "invoke delay": 0b00111,
            "two poles": 0b01000, "two poles, M0 variable": 0b01001, "two poles, M1 variable": 0b01011, "two zeros": 0b01100,
            "two zeros, M0 variable": 0b01101, "two zeros, M1 variable": 0b01111, "integer mixing": 0b10000, "one pole": 0b10001,
            "mixing": 0b10100, "one zero": 0b10110, "four-quadrant": 0b11000, "amplitude modulation": 0b11001, "maximum": 0b11010,
            "minimum": 0b11011, "signum": 0b11100, "pulser": 0b11101}
DELAY_MODE = {"inactive": 0b0000, "line": 0b1000, "table": 0b1010, "rounded table": 0b1011}
CHANGE = {"GMODE": 0, "GSUM": 1, "GFM": 2, "DAC": 3, "tick more": 4, "tick fewer": 5}

QUESTIONS = {
    1: "Has the machine 4344 words?",
    2: "Are all words within their width and range, with built modes, and the update ticks those of T and N?",
    3: "Is the command built, its modes and addresses too?",
    4: "Is the number of a TICKS with Q 0 at most 255?",
    5: "Has the order T entries?",
    6: "Is each number below T in the order once?",
    7: "Are there read items for all generators below T that read data?",
    8: "Are there places for all that is written?",
    9: "Is the text a bench file?",
    10: "Has delay memory 65536 words, none above 20 bits?",
    11: "Has each delay line that runs X+Z at most 65535 and Y at most Z?",
    12: "Do the modifiers that invoke delay units name different ones?",
    13: "Is the text that the file names known?",
    14: "Do the entries of the chain have their form, and name only entries before them?",
    15: "Are the earliest numbers for the chain at most 127?",
    16: "Is the sum of both machines' T at most 256?",
    17: "Do both machines sound by generators alone, and can the second follow the first?",
    18: "Is there no sum word and no DAC that both machines use?",
}


class Refused(Exception):
    """A call that the library refused: the number of the question that was answered no, and what had been done by then (of an update
    how many commands were taken, of a ringing the frames that were rung)."""

    def __init__(self, number, done=None):
        super().__init__(f"refused by {number}: {QUESTIONS[number]}")
        self.number, self.done = number, done


# The library

def _library():
    """The shared library, by the places that the head of this file names."""
    here = Path(__file__).resolve().parent
    built = here.parent / "target" / f"libkarvelorn.so.{VERSION}"
    places = [os.environ.get("KARVELORN_LIBRARY"), here / "libkarvelorn.so", built]
    found = next((str(place) for place in places if place and Path(place).exists()), "libkarvelorn.so." + VERSION.rpartition(".")[0])
    try:
        return ctypes.CDLL(found)
    except OSError as error:
        raise ImportError(f"libkarvelorn.so is needed ({error}): `./install PREFIX` in Karvelorn's repository makes it, and KARVELORN_LIBRARY can name it") from None


_RUN, _SIZE, _NUMBER = ctypes.c_void_p, ctypes.c_size_t, ctypes.c_uint32
_LIBRARY = _library()


def _call(name, *arguments):
    """A call of the library: an array is handed as its pointer and its length, a counter or number to be answered by reference."""
    handed = []
    for argument in arguments:
        if isinstance(argument, np.ndarray):
            handed += [_RUN(argument.ctypes.data if argument.size else None), _SIZE(argument.size)]
        elif isinstance(argument, int):
            handed.append(_NUMBER(argument))
        else:
            handed.append(argument)
    function = getattr(_LIBRARY, "karvelorn_" + name)
    function.restype = _NUMBER
    return function(*handed)


def _words(values):
    """Words as the library reads them: an array of uint32 as it is, anything else as a new one, of which the low 32 bits count."""
    if isinstance(values, np.ndarray) and values.dtype == np.uint32 and values.flags.c_contiguous and values.ndim == 1:
        return values
    return np.ascontiguousarray(np.atleast_1d(np.asarray(values, dtype=np.int64)) & 0xFFFFFFFF, dtype=np.uint32)


def _whole(array):
    """An array that the library fills as a whole: only its pointer is handed."""
    return _RUN(array.ctypes.data)


def _answered(number, done=None):
    """Raises Refused where a call refused."""
    if number:
        raise Refused(number, done)


# Words

def word(value, bits):
    """A signed number as a word of so many bits keeps it."""
    return np.uint32(int(value) & (1 << bits) - 1)


def signed(words, bits):
    """The signed numbers of words of so many bits."""
    half = 1 << bits - 1
    return ((np.asarray(words, dtype=np.int64) & 2 * half - 1) ^ half) - half


def floats(samples):
    """Samples of DACs from -1 to 1, as float64."""
    return np.asarray(samples) / FULL


def _samples(frames, dtype):
    """Frames as they are, or as floats from -1 to 1 where a type of floats is asked for."""
    return floats(frames).astype(dtype) if np.issubdtype(dtype, np.floating) else frames.astype(dtype, copy=False)


def gmode(run, envelope, oscillator):
    """GMODE, by the names of RUN, ENVELOPE and OSCILLATOR."""
    return RUN[run] << 6 | ENVELOPE[envelope] << 4 | OSCILLATOR[oscillator]


def mmode(function, aa=0, bb=0):
    """MMODE, by the names of FUNCTION, with the scales of the second and of the first multiplication."""
    return FUNCTION[function] << 4 | (aa & 3) << 2 | bb & 3


def update_ticks(t, n):
    """How many commands an update takes at most."""
    return max(0, n - t - 8)


# Machines

class Pass(NamedTuple):
    """What a pass answers: how many items it read, the items that it wrote, and the generator-this words that left their range."""
    read: int
    written: np.ndarray
    clipped: np.ndarray


class Block(NamedTuple):
    """What a block answers: the frames, a row a pass, and how many commands were taken."""
    frames: np.ndarray
    taken: int


class Parts(NamedTuple):
    """What parts two orders: the point, 1 to 4 (0: nothing), its place, and the contents and items that show it."""
    point: int
    place: int
    contents: "Machine"
    items: np.ndarray


def _records(words, registers):
    """Words as records with named registers, over the same memory."""
    return words.view(np.dtype([(name, np.uint32) for name in registers])).view(np.recarray)


class Machine:
    """A machine: `words`, its run of words; `memory`, its delay memory; and the text that it follows. Its parts by name, over the same
    memory: `generators`, `modifiers` and `delays` (records: `generators.GJ[3]`), `sums` (four quadrants of 64) and `dacs`."""

    def __init__(self, words=None, memory=None, text=TEXT_1978):
        self.words = np.zeros(WORDS, np.uint32) if words is None else _words(words)
        self.memory = np.zeros(MEMORY_WORDS, np.uint32) if memory is None else _words(memory)
        self.text = text
        if words is None:
            self.fresh()

    generators = property(lambda self: _records(self.words[:2816], GENERATOR))
    modifiers = property(lambda self: _records(self.words[2816:3840], MODIFIER))
    sums = property(lambda self: self.words[3840:4096].reshape(4, 64))
    dacs = property(lambda self: self.words[4096:4112])
    delays = property(lambda self: _records(self.words[4119:4343], DELAY))
    rate = property(lambda self: 1 / (TICK * float(self.words[N])), doc="Passes a second.")

    def copy(self):
        """Another machine with the same words."""
        return Machine(self.words.copy(), self.memory.copy(), self.text)

    def set_ticks(self, t=None, n=None):
        """Sets T, N or both, with the update ticks that follow."""
        self.words[T] = self.words[T] if t is None else t
        self.words[N] = self.words[N] if n is None else n
        self.words[UPDATE_TICKS] = update_ticks(int(self.words[T]), int(self.words[N]))

    def _name(self, name):
        """The call of the machine's text."""
        return name if self.text == TEXT_1978 else "old_" + name

    def fresh(self):
        """Makes the run a fresh machine, and delay memory zero."""
        _answered(_call("fresh", self.words))
        self.memory[:] = 0

    def pass_(self, order=None, items=(), places=0):
        """One pass, by number where no order is given, with items to read and so many places for written ones."""
        order = np.arange(min(int(self.words[T]), 256), dtype=np.uint32) if order is None else _words(order)
        written_to, clipped = np.zeros(places, np.uint32), np.zeros(MARKS, np.uint8)
        read, written = ctypes.c_size_t(), ctypes.c_size_t()
        _answered(_call(self._name("pass"), self.words, order, _words(items), written_to, self.memory, ctypes.byref(read), ctypes.byref(written), _whole(clipped)))
        return Pass(read.value, written_to[:written.value], clipped.astype(bool))

    def update(self, commands):
        """One update; answers how many commands were taken. A Refused has that too (`done`)."""
        taken = ctypes.c_size_t()
        number = _call("update", self.words, _words(commands), ctypes.byref(taken))
        _answered(number, taken.value)
        return taken.value

    def block(self, passes, commands=(), dacs=(0, 1), order=None, dtype=np.int32):
        """Up to so many passes in one call of the library, by number where no order is given, each followed by an update with the commands
        still left (by the older text by none): what the DACs play after each, and how many commands were taken. A Refused has the same
        of what was done before it (`done`)."""
        frames, done, taken = np.zeros((passes, len(dacs)), np.int32), _NUMBER(), ctypes.c_size_t()
        number = _call(self._name("ring"), self.words, self.memory, _words(commands), _words(() if order is None else order), passes,
                       _words(dacs), frames, ctypes.byref(done), ctypes.byref(taken))
        block = Block(_samples(frames[:done.value], dtype), taken.value)
        _answered(number, block)
        return block

    def blocks(self, size, commands=(), dacs=(0, 1), order=None, dtype=np.int32):
        """Blocks of so many passes each, one after the other without end, as audio programs want them: for frames in machine.blocks(64).
        At a refusal the last block is as short as it came to be (none if nothing was done), and then Refused is raised."""
        commands = _words(commands)
        while True:
            try:
                block = self.block(size, commands, dacs, order, dtype)
            except Refused as refused:
                if len(refused.done.frames):
                    yield refused.done.frames
                raise
            commands = commands[block.taken:]
            yield block.frames

    def ring(self, passes, commands=(), dacs=(0, 1), order=None, dtype=np.int32):
        """So many passes, each followed by an update with the commands still left (by the older text by none), and what the DACs play
        after each: an array of int32, or of floats from -1 to 1, a row a pass. A refusal has the rows before it (`done`)."""
        try:
            return self.block(passes, commands, dacs, order, dtype).frames
        except Refused as refused:
            raise Refused(refused.number, refused.done.frames) from None

    def compare(self, first, second):
        """Whether two orders are equal."""
        equal = _NUMBER()
        _answered(_call(self._name("compare"), self.words, _words(first), _words(second), ctypes.byref(equal)))
        return bool(equal.value)

    def any_order(self):
        """Whether every two orders are equal."""
        alike = _NUMBER()
        _answered(_call("any_order", self.words, ctypes.byref(alike)))
        return bool(alike.value)

    def parts(self, first, second, items=256):
        """What parts two orders, with room for so many items."""
        contents, found = np.zeros(WORDS, np.uint32), np.zeros(items, np.uint32)
        point, place = _NUMBER(), _NUMBER()
        _answered(_call(self._name("parts"), self.words, _words(first), _words(second), contents, found, ctypes.byref(point), ctypes.byref(place)))
        return Parts(point.value, place.value, Machine(contents, text=self.text), found)

    def join(self, second):
        """Joins a second machine to this one."""
        _answered(_call("join", self.words, second.words))

    def keep(self):
        """What is kept beside the machine: an array of KEPT words; at KEPT_ALIKE stands 1 where every two orders are equal."""
        kept = np.zeros(KEPT, np.uint32)
        _answered(_call("keep", self.words, _whole(kept)))
        return kept

    def change(self, kept, kind, generator=0, value=0):
        """Changes one partial, by the names of CHANGE, and brings what is kept up to date; answers whether every two orders are equal."""
        assert isinstance(kept, np.ndarray) and kept.dtype == np.uint32 and kept.shape == (KEPT,) and kept.flags.c_contiguous
        _answered(_call("change", self.words, _whole(kept), CHANGE[kind], int(generator), int(value)))
        return bool(kept[KEPT_ALIKE])


class Bench(NamedTuple):
    """A bench file: the machine that it begins with, how many passes it asks for, and its commands."""
    machine: Machine
    passes: int
    commands: np.ndarray

    def ring(self, passes=None, dacs=(0, 1), order=None, dtype=np.int32):
        """Rings it from its beginning, as many passes as it asks for or as are given, and leaves it as it was."""
        return self.machine.copy().ring(self.passes if passes is None else passes, self.commands, dacs, order, dtype)


def read(file):
    """Reads a bench file, given as bytes."""
    machine, commands = Machine(), np.zeros(COMMANDS, np.uint32)
    text, passes, count = _NUMBER(), _NUMBER(), ctypes.c_size_t()
    run = np.frombuffer(bytes(file), np.uint8)
    _answered(_call("read", run, machine.words, commands, ctypes.byref(text), ctypes.byref(passes), ctypes.byref(count)))
    machine.text = text.value
    return Bench(machine, passes.value, commands[:count.value].copy())


def chain(entries):
    """Numbers for a chain of modifiers: of each entry whether its read is early, and the places of the entries whose writes it must see."""
    runs, names = [], []
    for early, seen in entries:
        names += seen
        runs += [1 if early else 0, len(names)]
    numbers = np.zeros(128, np.uint32)
    _answered(_call("chain", _words(runs), _words(names), _whole(numbers)))
    return numbers[:len(runs) // 2]
