"""Questions 9, 13 and 2 in words: what makes a text no bench file, and which words of its machine are not as they must be.

The programs decide; this reader of the tools' own says why. tests/questions.py compares it with the programs on all files of the
tests: it finds nothing exactly where they refuse nothing. Places and ranges are those of the reference.
"""

from typing import NamedTuple

import command_line  # noqa: F401  (makes the reference known)
from machine_words import name_of
from reference import layout, old_layout
from reference.old import OLD as OLD_TEXT
from reference.old_modifier import function_built as old_function_built
from reference.machine import RANGES, function_built, oscillator_mode_built, run_mode_built, source_built

FILE_MOST, PASSES_MOST, VALUE_MOST = 65536, 65535, 2 ** 32 - 1
COMMAND_DIGITS, HEXADECIMAL = 8, b"0123456789ABCDEF"
TEXT, PASSES, WORD, COMMAND = b"text=", b"passes=", b"word=", b"command="
NEW, OLD = b"1978", b"old"
OLD_GMODE_MOST = 2 ** old_layout.GMODE_WIDTH - 1
BYTE_ORDER_MARKS = {b"\xef\xbb\xbf": "UTF-8", b"\xff\xfe": "UTF-16", b"\xfe\xff": "UTF-16"}
ORDER_FILE = "it must have 1 to 256 lines order=G, each with a number G from 0 to 255 without leading zeros and ended by LF"
SHOWN, CUT = 6, 40  # so many words of a machine are named, so many characters of a line are shown

# In the words of docs/FILE.md.
QUESTIONS = {
    1: "Is the run 4,344 words long?",
    2: "Are all words within their width and range, with built modes and addresses, and are the update ticks those of T and N?",
    3: "Is the command built, its modes and addresses too?",
    4: "Is the TICKS Q 0 number at most 255?",
    5: "Are there T entries in the order?",
    6: "Is each number below T in the order once?",
    7: "Are there read items for all generators that read data?",
    8: "Are there written places for all generators that write data?",
    9: "Is the text a bench file?",
    10: "Has delay memory 65,536 words, none above 20 bits?",
    11: "Of the delay lines that run: is X+Z at most 65,535 and Y at most Z?",
    12: "Do the modifiers that invoke delay units name different ones?",
    13: "Is the text that the file names known?",
    14: "Do a chain's entries have their form, and name only entries before them?",
    15: "Are a chain's earliest numbers at most 127?",
    16: "Is the sum of both T at most 256?",
    17: "Do both machines sound by generators alone, and can the second follow?",
    18: "Do they share no sum word and no DAC?",
}


class Fault(NamedTuple):
    """What is wrong in a text: the line by its number, 0 for the whole text, the cause, and the line itself where it tells more."""
    line: int
    cause: str
    text: bytes = b""

    def __str__(self):
        where = f"line {self.line}" + (f" ({shown(self.text)})" if self.text else "")
        return f"{where}: {self.cause}" if self.line else self.cause


class Bench(NamedTuple):
    """A bench file: how many passes, words as place, value and line, commands as line and number, and the text that it names."""
    passes: int
    words: list
    commands: list
    text: bytes = NEW

    @property
    def is_old(self):
        """Whether it follows the older text."""
        return self.text == OLD


class NotBench(Exception):
    """Why a line can't stand in a bench file."""


def shown(line):
    """The beginning of a line as it can be printed."""
    text = line[:CUT].decode("ascii", "backslashreplace").encode("unicode_escape").decode().replace("\\\\", "\\")
    return f"{text}{'..' if len(line) > CUT else ''}"


# Question 9

def number(digits, what, most, limit):
    """A decimal number, or why it is none."""
    if not digits:
        raise NotBench(f"{what} is missing")
    if not digits.isdigit():
        raise NotBench(f"{what} has a blank in it" if len(digits.split()) != 1 or digits.strip() != digits else f"{what} is no decimal number")
    if digits[:1] == b"0" and len(digits) > 1:
        raise NotBench(f"{what} has a leading zero")
    if len(digits) > 10 or int(digits) > most:
        raise NotBench(f"{what} is too large: {limit}")
    return int(digits)


def initial_word(text):
    """The place and value of a word= line."""
    place, colon, value = text.partition(b":")
    if not colon:
        raise NotBench("word=PLACE:VALUE is without its colon")
    return (number(place, "the place", layout.FILE_PLACES - 1, f"places go from 0 to {layout.FILE_PLACES - 1}"),
            number(value, "the value", VALUE_MOST, "a value is below 2^32"))


def command_word(digits):
    """The number of a command= line."""
    if len(digits) != COMMAND_DIGITS:
        raise NotBench(f"a command has {COMMAND_DIGITS} hexadecimal digits, and here are {len(digits)}")
    for digit in digits:
        if digit not in HEXADECIMAL:
            raise NotBench("a command has digits 0 to 9 and capitals A to F")
    return int(digits, 16)


def line_end(line, is_first):
    """Marks and ends that a line may not have."""
    mark = next((mark for mark in BYTE_ORDER_MARKS if is_first and line.startswith(mark)), None)
    if mark:
        raise NotBench(f"begins with a byte-order mark ({BYTE_ORDER_MARKS[mark]}): save the file as plain text without one")
    if line.endswith(b"\r"):
        raise NotBench("ends in CR LF: a line ends in LF alone")
    if b"\r" in line:
        raise NotBench("has a CR in it: lines end in LF alone")
    if not line:
        raise NotBench("is empty")


def kind_of(line, seen, is_old):
    """Which of the four a line is; seen is the kind of the lines before it, None at the first."""
    kind = next((kind for kind in (TEXT, PASSES, WORD, COMMAND) if line.startswith(kind)), None)
    if kind == TEXT and seen is not None:
        raise NotBench("text= is there twice" if seen == TEXT else "text= may only be the very first line")
    if seen in (None, TEXT) and kind not in (PASSES, TEXT):
        raise NotBench("passes= is missing: it must be the first line" + (" after text=" if seen else ""))
    if kind is None:
        raise NotBench("begins with neither word= nor command=")
    if kind == PASSES and seen not in (None, TEXT):
        raise NotBench("passes= is there twice: the first line has it")
    if kind == COMMAND and is_old:
        raise NotBench("a file of the older text has no commands")
    if kind == WORD and seen == COMMAND:
        raise NotBench("lines are out of sequence: word= after command=")
    return kind


def read(text):
    """The bench file and no fault, or nothing and the first fault."""
    if len(text) > FILE_MOST:
        return None, Fault(0, f"the file has more than {FILE_MOST} bytes")
    if not text:
        return None, Fault(0, "the file is empty: passes= is missing")
    bench, kind = Bench(0, [], []), None
    lines = text.split(b"\n")
    for at, line in enumerate(lines[:-1], 1):
        try:
            if not (at == 1 and line.startswith(TEXT)):  # the value of text= may have any byte; another text than the two gets 13
                line_end(line, at == 1)
            kind = kind_of(line, kind, bench.is_old)
            rest = line[len(kind):]
            if kind == TEXT:
                bench = bench._replace(text=rest)
            elif kind == PASSES:
                bench = bench._replace(passes=number(rest, "the number of passes", PASSES_MOST, f"at most {PASSES_MOST}"))
            elif kind == WORD:
                bench.words.append((*initial_word(rest), at))
            else:
                bench.commands.append((at, command_word(rest)))
        except NotBench as cause:
            return None, Fault(at, str(cause), line)
    if lines[-1]:
        cause = "ends lines in CR: each ends in LF alone" if b"\r" in lines[-1] else "has no LF at its end"
        return None, Fault(len(lines), cause, lines[-1])
    if kind == TEXT:
        return None, Fault(0, "passes= is missing after text=")
    return bench, None


# Question 2

def built(codes, width):
    """Codes in binary, as a list."""
    return " ".join(f"{code:0{width}b}" for code in sorted(codes))


def mode_fault(place, value, is_old):
    """What a mode or an address within its width has that isn't built, or nothing."""
    for start, count, names in ((0, layout.GENERATORS, layout.GENERATOR_NAMES), (layout.MODIFIERS_AT, layout.MODIFIERS, layout.MODIFIER_NAMES),
                                (layout.DELAY_UNITS_AT, layout.DELAY_UNITS, layout.DELAY_UNIT_NAMES)):
        if start <= place < start + count * len(names):
            name = names[(place - start) % len(names)]
            return old_fault(name, value) if is_old and name in ("GMODE", "MMODE") else register_fault(name, value)
    return None


def register_fault(name, value):
    """The same of a register by its name."""
    if name == "GMODE" and not run_mode_built(value):
        return f"run mode {layout.run_mode(value):04b}, built are {built(layout.RUN_MODES, 4)}"
    if name == "GMODE" and not oscillator_mode_built(value):
        return f"oscillator mode {layout.oscillator_mode(value):04b}, built are {built(layout.OSCILLATOR_MODES, 4)}"
    if name == "MMODE" and not function_built(value):
        return f"function {layout.function(value):05b}, which isn't built"
    if name in ("MIN", "MRM") and not source_built(value):
        return "top bits 11, which name no quadrant: 00, 01 or 10"
    if name == "P" and value not in layout.DELAY_MODES:
        return f"mode {value:04b}, built are {built(layout.DELAY_MODES, 4)}"
    return None


def old_fault(name, value):
    """The same of GMODE and MMODE by the older text."""
    if name == "MMODE":
        return None if old_function_built(value) else f"function {layout.function(value):05b}, which isn't built in the older text"
    run, oscillator = old_layout.run_mode(value), old_layout.oscillator_mode(value)
    if OLD_TEXT.gmode_built(value):
        return None
    return f"oscillator mode {oscillator:03b} in run mode {run:03b}: built are 001 to 101, and 000 in run mode 000 alone"


def word_fault(place, value, is_old=False):
    """What a word has and may have, where it may not have what it has."""
    least, most = RANGES[place]
    if is_old and place < layout.GENERATORS * len(layout.GENERATOR_NAMES) and place % len(layout.GENERATOR_NAMES) == layout.GMODE:
        most = OLD_GMODE_MOST
    if not least <= value <= most:
        return f"{value}, {f'{least} to {most}' if least else f'at most {most}'}"
    wrong = mode_fault(place, value, is_old)
    return f"{value}: {wrong}" if wrong else None


def machine_faults(bench):
    """The words with which a file's machine fails question 2, each with its line."""
    last = {place: (value, line) for place, value, line in bench.words}
    for place, (value, line) in sorted(last.items()):
        wrong = word_fault(place, value, bench.is_old)
        if wrong:
            yield Fault(line, f"{name_of(place)} (word {place}) has {wrong}")


# In words

def verdict(text):
    """9, 13, 2 or 0: what the reader here finds of a text and of the machine that it begins with."""
    bench, fault = read(text)
    return 9 if fault else 13 if bench.text not in (NEW, OLD) else 2 if any(machine_faults(bench)) else 0


def reasons(text, refused):
    """Why a text is refused with a number: a line for each cause, none where the number says it all."""
    bench, fault = read(text)
    if refused == 9:
        return [str(fault)] if fault else []
    if refused == 13 and bench:
        return [f"line 1 ({shown(TEXT + bench.text)}): a file follows text=1978 or text=old, without a blank or another letter"]
    if refused != 2 or fault:
        return []
    found = [str(wrong) for wrong in machine_faults(bench)]
    return found if len(found) <= SHOWN + 1 else found[:SHOWN] + [f"and {len(found) - SHOWN} words more"]


def refusal(whose, refused, text):
    """A refusal in words: the question that is answered no, and the causes."""
    head = f"{whose} doesn't pass question {refused}: {QUESTIONS[refused]}"
    return [head, *(f"  {reason}" for reason in reasons(text, refused))]
