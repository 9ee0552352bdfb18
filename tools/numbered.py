#!/usr/bin/env python3
"""Numbers for a chain of modifiers, and a bench file's modifiers moved to them.

    karvelorn number CHAIN
    karvelorn number CHAIN --into FILE -o NEW

CHAIN has a line for each modifier (tools/chain_text.py). The proved library numbers it (karvelorn_chain): the lowest numbers that rise
along the list, with a writer at least 4 below its early reader and 1 below its late one. With --into the modifiers of FILE, which CHAIN
names by their present numbers, get the new ones; the proved program ring rings both files.
"""

import os
from itertools import product

import bench_files
import hosts
import questions
from as_rung import rung_lines
from building import built
from chain_text import misnamed, read_chain, request
from command_line import Ending, Parser, Status, read_file, say, start
from command_words import course, names_modifier
from outputs import destination, same_file, write_whole
from partials import report_beside, unlike
from reference import layout
from registers import function_of
from rewriting import rewritten, set_older_aside
from suspects import seen, those
from wiring import EARLY, LAST, Wiring, modifier_reads

SHOWN = 6
HELP = """Numbers a chain of modifiers: a modifier that reads what others write into modifier-this sees only those with lower numbers, at least 4 lower
where it reads early, and misses the others without a word. Printed are the lowest numbers that rise along the chain and let each see whom it
must see. With --into the modifiers of a bench file get these numbers: words, commands and the use of delay units follow; what can't follow is
refused. Then both files are rung, and it is said whether they ring alike.

a chain is a text with a line for each modifier:
  NAME[=NUMBER] early or late NAME ..
its name (with --into also its present number in FILE), whether it reads modifier-this early or late, and those before it whose writes it must
see. B is always read early; A late in latch, invoke delay unit, one zero and the two-pole and two-zero functions, early in all others. A
modifier that reads both ways is early; a name alone reads nobody. What follows a # doesn't count."""


# Numbers

def refusal(path, number, causes):
    """A refusal of the chain in words."""
    shown = causes if len(causes) <= SHOWN + 1 else causes[:SHOWN] + [f"and {len(causes) - SHOWN} more"]
    return Ending("\n".join([f"{path} doesn't pass question {number}: {questions.QUESTIONS[number]}", *(f"  {cause}" for cause in shown)]))


def too_high(command, chain):
    """Why a chain is refused with 15: the first entry for which no number up to 127 is left."""
    low, high = 0, min(len(chain), layout.MODIFIERS + 1)  # so many entries have numbers, so many haven't
    while high - low > 1:
        middle = (low + high) // 2
        low, high = (low, middle) if hosts.chained(command, *request(chain[:middle]))[0] else (middle, high)
    _, numbers = hosts.chained(command, *request(chain[:low]))
    entry, before = chain[low], {one.name: number for one, number in zip(chain[:low], numbers)}
    waited = max(((before[name], name) for name in entry.sees), default=None)
    near = f"it comes after {chain[low - 1].name}, which has {numbers[low - 1]}"
    return f"line {entry.line}: for {entry.name} no number up to {layout.MODIFIERS - 1} is left: {near}" + (f", and must see {waited[1]}, which has {waited[0]}, {'4' if entry.early else '1'} above it" if waited else "")


def numbered(command, path, chain):
    """The numbers of a chain, by the library. Ends with its refusal in words."""
    refused, numbers = hosts.chained(command, *request(chain))
    causes = list(misnamed(chain))
    if refused == 14:
        raise refusal(path, refused, causes)
    if refused == 15:
        raise refusal(path, refused, [too_high(command, chain)])
    if refused or causes:
        raise Ending(f"the library answers {refused} to a chain of which {causes or 'nothing'} is known here", Status.FAULT)
    return numbers[:len(chain)]


def number_lines(chain, numbers):
    """Each name with its number, and the present one where that is another."""
    width = max(len(entry.name) for entry in chain)
    for entry, number in zip(chain, numbers):
        yield f"{entry.name:{width}} {number:3}" + (f"  (now {entry.present})" if entry.present not in (None, number) else "")


# What can't follow

def in_use(file, m):
    """Whether a bench file does anything with a modifier."""
    return any(file.modifier(m)) or any(names_modifier(command) == m for _, command in file.commands)


def occupied(file, chain, new_of):
    """Modifiers outside the chain that stand where one of it would go."""
    for entry in chain:
        number = new_of[entry.present]
        if number not in new_of and in_use(file, number):
            yield f"modifier {number} isn't in the chain and is in use, and {entry.name} (line {entry.line}) would go there: name it in the chain too"


def beyond_t(wiring, chain, new_of):
    """Modifiers that a T of the file would leave out, and did not."""
    for t in sorted(wiring.course.values.of(layout.T)):
        for entry in chain:
            number = new_of[entry.present]
            if entry.present < t // 2 <= number:
                yield f"{entry.name} (line {entry.line}) would be {number}, and T = {t} leaves time for modifiers below {t // 2} alone: it needs a T of {2 * number + 2}"


def reads(wiring, m):
    """The reads of modifier-this that a modifier may ever do."""
    registers = (layout.MMODE, layout.MIN, layout.MRM)
    words, found = wiring.file.modifier(m), {}
    for values in product(*(sorted(wiring.values(layout.modifier_at(m), register)) for register in registers)):
        for register, value in zip(registers, values):
            words[register] = value
        for read in modifier_reads(wiring.text, m, words):
            if read.when != LAST:
                found[read] = function_of(wiring.text, words[layout.MMODE]).name
    return found


def writers_of(wiring, word):
    """The modifiers that may ever write a sum word, those too that T leaves out."""
    at = {m: layout.modifier_at(m) for m in range(layout.MODIFIERS)}
    return [m for m in at if any(map(layout.function, wiring.values(at[m], layout.MMODE))) and any(msum & 63 == word[1] for msum in wiring.values(at[m], layout.MSUM))]


class Sight:
    """Which modifier reads what which other one writes, in a file, and whether it sees it by the old and by the new numbers."""

    def __init__(self, wiring, new_of):
        self.pairs = {}
        writing = {}
        for m in range(layout.MODIFIERS):
            for read, function in reads(wiring, m).items():
                for w in writing.setdefault(read.word, writers_of(wiring, read.word)):
                    now, then = bool(seen(m, read, [w])), bool(seen(new_of.get(m, m), read, [new_of.get(w, w)]))
                    self.pairs.setdefault((m, w), []).append((read, function, now, then))

    def missed(self, chain):
        """Reads that the chain asks for and that the new numbers miss: the file reads early where the chain says late."""
        present = {entry.name: entry.present for entry in chain}
        for entry in chain:
            for name in entry.sees:
                for read, function, _, then in self.pairs.get((entry.present, present[name]), ()):
                    if not then:
                        yield (f"line {entry.line}: {entry.name} must see {name}, and in the file it reads modifier-this sum word {read.word[1]} {'early' if read.when == EARLY else 'late'} "
                               f"(as {read.by}, {function}): the chain says {'early' if entry.early else 'late'}")

    def not_read(self, chain):
        """Those whom an entry must see and that don't write what it reads."""
        present = {entry.name: entry.present for entry in chain}
        for entry in chain:
            for name in entry.sees:
                if (entry.present, present[name]) not in self.pairs:
                    yield f"line {entry.line}: {entry.name} is to see {name}, and in the file it reads no modifier-this sum word that {name} writes"

    def changed(self, chain):
        """Reads that the chain doesn't name and that see a write by one numbering alone."""
        called = {entry.present: f"{entry.name} ({entry.present})" for entry in chain}
        named = {(entry.present, one.present) for entry in chain for one in chain if one.name in entry.sees}
        for (m, w), found in sorted(self.pairs.items()):
            for read, _, now, then in found:
                if (m, w) not in named and now != then:
                    yield f"modifier {called.get(m, m)} reads modifier-this sum word {read.word[1]} as {read.by}, which modifier {called.get(w, w)} writes: the chain doesn't name that, and it {'no longer sees it' if now else 'sees it now'}"

    def sees_more(self, chain):
        """Whether a read that the chain names is seen by the new numbers alone."""
        named = {(entry.present, one.present) for entry in chain for one in chain if one.name in entry.sees}
        return any(now != then for pair in named for _, _, now, then in self.pairs.get(pair, ()))


# The new file

def new_text(data, new_of):
    """The bench file with the modifiers' new numbers; lines of zero for a modifier that stands where another goes are left out."""
    taken = set(new_of.values()) - set(new_of)

    def place(old):
        m, register = divmod(old - layout.MODIFIERS_AT, layout.MODIFIER_WORDS)
        if not 0 <= m < layout.MODIFIERS:
            return old
        return None if m in taken else layout.modifier_at(new_of.get(m, m)) + register

    def command(old):
        m = names_modifier(old)
        return old if m is None else old & ~0x7F | new_of.get(m, m)
    return rewritten(data, place, command)


def check_moved(file, new, new_of):
    """NEW's machine is FILE's with its modifiers moved, and fresh words where they stood."""
    expected = list(file.machine)
    for m in new_of:
        expected[layout.modifier_at(m):layout.modifier_at(m + 1)] = [0] * layout.MODIFIER_WORDS
    for m, number in new_of.items():
        expected[layout.modifier_at(number):layout.modifier_at(number + 1)] = file.modifier(m)
    if new.machine != expected:
        raise Ending("the new file's machine isn't the old one's with its modifiers moved", Status.FAULT)


def rung_words(path, new, data, text, expected):
    """Whether NEW rings as FILE does, in words, with why it is expected to ring otherwise (None: it isn't); and whether that looks wrong."""
    program, = built("number", "ring")
    (ours, refused), (theirs, refused_too) = rung_lines(program, data), rung_lines(program, text)
    if refused_too and not refused:
        raise Ending(f"numbered so, {path} is refused with {refused_too} in pass {len(theirs) + 1}, and was not before: nothing is written")
    at = next((at for at, (one, other) in enumerate(zip(ours, theirs), 1) if one != other), None)
    if at is None and (len(ours), refused) == (len(theirs), refused_too):
        return f"{new} rings as {path}: the same lines in {len(ours)} passes" + (f", and both are refused with {refused} then" if refused else ""), False
    at = at or min(len(ours), len(theirs)) + 1
    one, other = ((lines[at - 1].decode().split(" ", 1)[1].strip() if at <= len(lines) else "the refusal") for lines in (ours, theirs))
    why = expected or "no reader that the chain names sees more than before: writes come in another sequence"
    return f"{new} rings otherwise than {path} from pass {at} on ({one} becomes {other}): {why}", not expected


# The command

def parser():
    """What may be asked."""
    asked = Parser("number", HELP, "karvelorn number chain.txt\nkarvelorn number chain.txt --into bell.txt -o new.txt")
    asked.add_argument("chain", metavar="CHAIN", help="the chain's text, - for standard input")
    asked.add_argument("--into", metavar="FILE", help="a bench file whose modifiers get the numbers")
    asked.add_argument("-o", dest="new", metavar="NEW", help="with --into: the new bench file; the report of FILE, if there is one, goes beside it (NAME.report)")
    return asked


def moved(chain, numbers):
    """The new number of each modifier of a chain by its present one."""
    for entry in chain:
        if entry.present is None:
            raise Ending(f"line {entry.line}: {entry.name} has no present number: with --into write {entry.name}=NUMBER")
    return {entry.present: number for entry, number in zip(chain, numbers)}


def into(asked, chain, numbers):
    """Rewrites the modifiers of a bench file; answers what is said of it and the status."""
    inputs = [asked.chain, asked.into, report_beside(asked.into)]
    data = read_file(asked.into, questions.FILE_MOST + 1)
    file = bench_files.read(asked.into, data)
    bench_files.name_partials(file)
    new_of = moved(chain, numbers)
    wiring = Wiring(file, course(file, file.passes))
    sight = Sight(wiring, new_of)
    causes = [*occupied(file, chain, new_of), *beyond_t(wiring, chain, new_of), *sight.missed(chain)]
    if causes:
        raise Ending("\n".join([f"the modifiers of {asked.into} can't be numbered so, and nothing is written:", *(f"  {cause}" for cause in causes)]))
    text = new_text(data, new_of)
    check_moved(file, bench_files.read(asked.new, text), new_of)
    woken = those_woken(file, chain, new_of)
    expected = "a reader sees what it missed before" if sight.sees_more(chain) else "more modifiers have a turn" if woken else None
    rings, wrong = rung_words(asked.into, asked.new, data, text, expected)
    contents, report = {asked.new: text}, report_beside(asked.into)
    if os.path.isfile(report):
        contents[report_beside(asked.new)] = read_file(report)
    other = unlike(asked.new, text)
    write_whole(contents, inputs)
    set_older_aside("number", asked.new, ([] if os.path.isfile(report) else [".report"]) + ([".wav", ".png"] if other else []))
    doubts = [*sight.not_read(chain), *sight.changed(chain), *([rings] if wrong else [])]
    return [*woken, *([] if wrong else [rings]), *(f"! {doubt}" for doubt in doubts)], Status.UNLIKE if doubts else Status.DONE


def those_woken(file, chain, new_of):
    """Modifiers that T left out before and leaves time for now."""
    found = [entry for entry in chain if new_of[entry.present] < file.t // 2 <= entry.present]
    return [f"{those('modifier', [entry.present for entry in found])} had no turn, since T = {file.t}; numbered so {'it has' if len(found) == 1 else 'they have'} one"] if found else []


def check_outputs(asked):
    """What may not be written is refused before anything is done."""
    if bool(asked.into) != bool(asked.new):
        raise Ending("--into FILE and -o NEW go together", Status.MISUSED)
    if not asked.into:
        return
    if "-" in (asked.into, asked.new):
        raise Ending("name FILE and NEW: standard input is for the chain alone", Status.MISUSED)
    if same_file(asked.new, report_beside(asked.new)):
        raise Ending(f"{asked.new} can't be the bench file: the report goes there", Status.MISUSED)
    for path in (asked.new, report_beside(asked.new)):
        destination(path, [asked.chain, asked.into, report_beside(asked.into)])


def main(arguments):
    asked = parser().parse_args(arguments)
    check_outputs(asked)
    chain = read_chain(asked.chain)
    numbers = numbered("number", asked.chain, chain)
    said, status = into(asked, chain, numbers) if asked.into else ([], Status.DONE)
    say("\n".join([*number_lines(chain, numbers), *said]))
    return status


if __name__ == "__main__":
    start("number", main)
