"""What `karvelorn show` says of a bench file, held against the reference: pitches, levels, decays, ends of envelopes, coefficients and
formulas, sum words, DACs, commands, marks, refusals and whether any order rings alike. Used by tests/week.py.

Nothing of tools/registers.py counts here: each number is worked out from the reference's turns. What is found wrong is a sentence.
"""

import math
import re
from collections import Counter
from functools import lru_cache

from calls import ROOT  # noqa: F401  (makes the reference known)
from reference import any_order, layout
from reference.generator import decay, wave as wave_1978
from reference.machine import modifier_turn as turn_1978, run_pass, update_ticks, zero_memory
from reference.modifier import delay_turn
from reference.old import OLD
from reference.old_generator import wave as wave_old
from reference.ring import bench_file, first_machine
from reference.update import run_update
from reference.words import low, signed

FULL = 4095 * 4093 / 64
HALVING = 20 * math.log10(2)
NUMBER = r"-?\d+(?:\.\d+)?(?:e[+-]?\d+)?"
GENERATOR = re.compile(r"generator (\d+)(?: \((.*?)\))?: (.*)")
# Places by the names that show prints.
PLACES = {}
for start, count, names, kind in ((0, 256, layout.GENERATOR_NAMES, "generator"), (layout.MODIFIERS_AT, 128, layout.MODIFIER_NAMES, "modifier"), (layout.DELAY_UNITS_AT, 32, ("X", "Y", "Z", "P"), "delay unit")):
    for unit in range(count):
        for register, name in enumerate(names):
            PLACES[f"{name} of {kind} {unit}"] = start + unit * (7 if kind == "delay unit" else len(names)) + register
PLACES.update({"DX": layout.DX, "T": layout.T, "N": layout.N, "the pass counter": layout.COUNTER})
SIGNED = {"GO": 20, "GJ": 28, "GK": 20, "GP": 20, "M0": 30, "M1": 30, "L0": 20, "L1": 20}


class Rung:
    """A bench file rung by the reference: refusal, marks, and after which pass each command was taken with the machine behind it."""

    def __init__(self, data, most):
        bench = bench_file(data)
        self.text, self.machine, self.passes = bench.text, first_machine(bench.words), bench.passes
        self.refused, self.whole, self.marks, self.taken, self.modes, self.words = 0, 0, {}, [], [], set()
        machine, memory, commands = self.machine, zero_memory(), bench.commands
        self.is_whole = self.passes <= most
        for number in range(1, (self.passes if self.is_whole else 0) + 1):
            done = run_pass(machine, range(machine[layout.T]), [], [], memory, self.text)
            if done.number:
                self.refused = done.number
                return
            machine, memory = done.machine, done.memory
            for word, mark in enumerate(done.clipped):
                if mark:
                    self.marks.setdefault(word, number)
            self.words |= {(quadrant, word) for quadrant, at in (("g", layout.GENERATOR_LAST), ("m", layout.MODIFIER_LAST)) for word in range(64) if machine[at + word]}
            self.modes.append([machine[layout.generator_at(g) + layout.GMODE] for g in range(256)])
            if self.text is not OLD:
                refused, taken, after = run_update(machine, commands)
                for j in range(1, taken + 1):
                    self.taken.append((number, run_update(machine, commands[:j])[2]))
                machine, commands = after, commands[taken:]
                if refused:
                    self.refused = refused
                    return
            self.whole = number
        self.left = len(commands)


def sections(out):
    """The lines of each part of what show printed."""
    parts, name = {"head": []}, "head"
    for line in out.splitlines():
        if line in ("generators", "modifiers", "delay units", "sum words", "DACs", "commands", "orders"):
            name = line
            parts[name] = []
        elif line == "":
            name = "end"
            parts[name] = []
        else:
            parts[name].append(line)
    return parts


def blocks(lines):
    """Lines with those that are indented after them."""
    found = []
    for line in lines:
        if line.startswith("    ") and found:
            found[-1] += "\n" + line.strip()
        else:
            found.append(line)
    return found


def numbered(text):
    """The numbers of a list in words: 0 to 4, 7 and 9."""
    numbers = []
    for first, last in re.findall(r"(\d+)(?: to (\d+))?", re.sub(r"\(.*?\)", "", text)):
        numbers += range(int(first), int(last or first) + 1)
    return numbers


# Generators

@lru_cache(maxsize=None)
def fundamental(is_old, mode, gn, gm):
    """The amplitude of a wave's fundamental, by the reference's wave at each K."""
    wave = (lambda k: wave_old(mode, low(k, 12) << 8, gn, gm, False)) if is_old else (lambda k: wave_1978(mode, k, gn, gm, False))
    size = 2048 if is_old else 4096
    shift = math.pi / 2 if is_old else 0.0
    middle = 0.0 if is_old else 0.5
    return sum(wave(k) * math.sin(math.pi * (k + middle) / size + shift) for k in range(-size, size)) / size


@lru_cache(maxsize=None)
def peak(is_old, mode, gn, gm):
    """The greatest magnitude of a wave."""
    if is_old:
        return max(abs(wave_old(mode, low(k, 12) << 8, gn, gm, left)) for k in range(-2048, 2048) for left in (False, True))
    return max(abs(wave_1978(mode, k, gn, gm, left)) for k in range(-4096, 4096) for left in (False, True))


def turned(rung, words):
    """The eleven words after a turn without modulation."""
    return rung.text.generator_turn(list(words), 0, False)[0]


def generator_faults(rung, g, block, met):
    """What is wrong in the words for a generator."""
    text, machine, is_old = rung.text, rung.machine, rung.text is OLD
    words = machine[layout.generator_at(g):layout.generator_at(g) + 11]
    rate = 1e9 / (195 * machine[layout.N])
    after = turned(rung, words)
    dac = text.dac_fed(words)
    if dac is not None or text.writes(words):
        met["sends"] += 1
        if f"feeds DAC {dac} with" not in block if dac is not None else "writes data:" not in block:
            yield f"generator {g} feeds {dac}"
        found = re.search(r"(modifier )?sum word (\d+)", block)
        if found and int(found[2]) + (64 if found[1] else 0) != words[layout.GFM] or not found and (not is_old or f"GK, {signed(words[layout.GK], 20)}," not in block):
            yield f"generator {g} sends {words[layout.GFM]}"
        return
    on = text.switches(words)
    if on.adding and f"adds into sum word {words[layout.GSUM]}" not in block or text.reads(words) and f"replaces sum word {words[layout.GSUM]} " not in block or text.waits(words) and f"add{'s' if 'adds into' in block else ''} into sum word {words[layout.GSUM]}" not in block:
        yield f"generator {g} goes into {words[layout.GSUM]}"
    hz = re.search(rf"({NUMBER}) Hz \(", block)
    step = signed(low(after[layout.GK] - words[layout.GK], 20), 20) if on.oscillator else signed(words[layout.GJ] >> 8, 20)
    if hz:
        met["pitch"] += 1
        if abs(float(hz[1]) - abs(step) / 2 ** 20 * rate) > 0.00051 or ("backwards" in block) != (step < 0):
            yield f"generator {g}: {hz[1]} Hz, and its step is {step}"
    elif step and "its angle is J" not in block:
        yield f"generator {g}: no pitch, and its step is {step}"
    glide = re.search(rf"(rising|falling) by ({NUMBER}) Hz a second", block)
    moved = signed(low(after[layout.GJ] - words[layout.GJ], 28), 28) if on.oscillator else 0
    if glide:
        met["glide"] += 1
        if abs(float(glide[2]) / (abs(moved) / 2 ** 28 * rate * rate) - 1) > 1e-5 or (glide[1] == "rising") != (moved > 0):
            yield f"generator {g} glides by {moved}"
    elif moved and hz:
        yield f"generator {g} glides by {moved}, and nothing says so"
    yield from level_faults(rung, g, words, block, met)
    yield from envelope_faults(rung, g, words, after, block, rate, met)


def level_faults(rung, g, words, block, met):
    """The level at first."""
    text, is_old = rung.text, rung.text is OLD
    gmode = words[layout.GMODE]
    mode, code = (gmode & 0b111, gmode) if is_old else (gmode & 0b1111, gmode & 0b1111)
    sines = (0b100, 0b101) if is_old else (0b0000, 0b1000)
    size = fundamental(is_old, mode, words[layout.GN] * 0, words[layout.GM]) if mode in sines else peak(is_old, mode, words[layout.GN] if mode == 0b0100 else 0, words[layout.GM] if mode == 0b0100 else 0)
    expected = size * text.envelope(gmode, words[layout.GL], words[layout.GQ]) / 64
    said = re.search(rf"({NUMBER}) dB at first", block)
    met["level"] += bool(said)
    if expected < 1e-9:
        if "silent at first" not in block:
            yield f"generator {g} is silent ({code})"
    elif not said or abs(float(said[1]) - 20 * math.log10(expected / FULL)) > 0.011:
        yield f"generator {g}: {said and said[1]} dB, and its peak is {expected}"


def envelope_faults(rung, g, words, after, block, rate, met):
    """T60, and the pass in which the envelope ends."""
    gp, gq = signed(words[layout.GP], 20), words[layout.GQ]
    falls = re.search(rf"(T60|rises by 60 dB in) ({NUMBER}) s", block)
    if falls:
        met["T60"] += 1
        expected = 60 / HALVING * 2 ** 20 / (rate * abs(gp))
        if abs(float(falls[2]) - expected) > max(0.00051, 0.0051 * expected if expected < 0.1 else 0) or (falls[1] == "T60") != (gp > 0):
            yield f"generator {g}: {falls[0]}, and GP is {gp}"
    end = re.search(r"its end comes (?:in pass )?(\d+)", block)
    if end:
        met["end"] += 1
        steps = int(end[1]) - 1
        if not decay(gq + steps * gp, words[layout.GP], True)[1] or steps and decay(gq + (steps - 1) * gp, words[layout.GP], True)[1]:
            yield f"generator {g}: its envelope doesn't end in pass {end[1]}"
    way = re.search(r", from (\d+) to (\d+) in ", block)
    if way:
        met["way"] += 1
        # The envelope by turns, as far as it goes: at most so many, else by its last step.
        last, steps = gq, 0
        while steps < 300 and not decay(last, words[layout.GP], True)[1]:
            last, steps = decay(last, words[layout.GP], True)[0], steps + 1
        first = rung.text.envelope(words[layout.GMODE], words[layout.GL], gq)
        if int(way[1]) != first or steps < 300 and int(way[2]) != rung.text.envelope(words[layout.GMODE], words[layout.GL], last):
            yield f"generator {g}: its envelope isn't {way[0]}"


# Modifiers

def evaluated(statement, values):
    """The value of an arithmetic statement's right side."""
    right = statement.replace("in whole numbers", "").replace("the lesser of", "min(").replace("the greater of", "max(")
    if "min(" in right or "max(" in right:
        right = right.replace(" and ", ", ") + ")"
    right = right.replace("(B+1)/2", "(B+ONE)/2")
    return eval(right, {"__builtins__": {}, "min": min, "max": max}, values)


FRACTION = ("A*B", "A*(B+1)/2", "B*L0")


def statement_value(statement, values):
    """The same; a product of two signals has 2^19 as its 1."""
    scaled = any(product in statement for product in FRACTION)
    if not scaled:
        return evaluated(statement, values)
    whole = []
    for term in statement.split(" + "):
        value = evaluated(term, values)
        whole.append(value / 2 ** 19 if any(product in term for product in FRACTION) else value)
    return sum(whole)


def formula_faults(rung, m, block, met):
    """The printed formula beside the reference's turn, from small registers and inputs."""
    words = rung.machine[layout.modifier_at(m):layout.modifier_at(m) + 8]
    text = block.split("\n")[0].split("): ", 1)[1]
    statements = [part.strip() for part in text.replace(", which goes into delay unit", "; unit").split(";")]
    arithmetic = {}
    for part in statements:
        name, assigned, right = part.partition(" := ")
        if assigned and re.fullmatch(r"(the (lesser|greater) of )?[-+*/()0-9.e ABLSD]+( and [-+*0-9.e AB]+)?( in whole numbers)?", right):
            arithmetic.setdefault(name, right)
    signs = (3001, -2003, 1501, -997)
    a, b, l0, l1 = (signs[(i + m) % 4] for i in range(4))
    small = [*words[:2], low(l0, 20), low(l1, 20), *words[4:]]
    if layout.function(words[layout.MMODE]) == layout.INVOKE_DELAY_UNIT and rung.text is not OLD:
        after, s, _ = delay_turn(small, low(a, 20), 0, low(b, 20))
    else:
        after, s = (turn_1978 if rung.text is not OLD else rung.text.modifier_turn)(small, low(a, 20), low(b, 20))
    values = {"A": a, "B": b, "D": b, "L0": l0, "L1": l1, "ONE": 2 ** 19, "S": signed(s, 20)}
    if "S" in arithmetic:
        met["formula"] += 1
        expected = statement_value(arithmetic["S"], values)
        if abs(expected) < 2 ** 18 and abs(expected - signed(s, 20)) > 4 + 1e-4 * abs(expected):
            yield f"modifier {m}: {arithmetic['S']} gives {expected}, the reference {signed(s, 20)}"
    for name, at in (("L0", 2), ("L1", 3)):
        if name in arithmetic and "if " not in text:
            expected = statement_value(arithmetic[name], values)
            if abs(expected) < 2 ** 18 and abs(expected - signed(after[at], 20)) > 4 + 1e-4 * abs(expected):
                yield f"modifier {m}: {name} := {arithmetic[name]} gives {expected}, the reference {signed(after[at], 20)}"


def modifier_faults(rung, m, block, met):
    """What is wrong in the words for a modifier."""
    words = rung.machine[layout.modifier_at(m):layout.modifier_at(m) + 8]
    met["modifier"] += 1
    target = re.search(r"(replaces|adds into) modifier sum word (\d+)$", block)
    if not target or int(target[2]) != words[layout.MSUM] & 63 or (target[1] == "replaces") != (words[layout.MSUM] >> 6 == 1):
        yield f"modifier {m} writes {words[layout.MSUM]}"
    for name, register in (("A", layout.MIN), ("B", layout.MRM)):
        read = re.search(rf"\b{name} = (generator-last|modifier-last|modifier-this) sum word (\d+)(, early|, late)?", block)
        if read:
            met[f"input {read[1]}"] += 1
            if (("generator-last", "modifier-last", "modifier-this").index(read[1]) << 6 | int(read[2])) != words[register]:
                yield f"modifier {m} reads {words[register]} as {name}"
            late = name == "A" and rung.text.late_a(words[layout.MMODE])
            if (read[3] or "") != ("" if read[1] != "modifier-this" else ", late" if late else ", early"):
                yield f"modifier {m} reads {name}{read[3]}"
    yield from formula_faults(rung, m, block, met)


# Commands, orders, what looks wrong

def command_faults(rung, lines, met):
    """After which pass each command is taken, and what it sets."""
    said = [line for line in lines if re.match(r"line \d+ \(", line)]
    taken = [line for line in said if ", after pass " in line]
    if [int(re.search(r"after pass (\d+)", line)[1]) for line in taken] != [number for number, _ in rung.taken]:
        yield f"commands are taken after {[number for number, _ in rung.taken]}: {taken}"
        return
    if len(said) != len(taken) + sum("never taken" in line for line in said):
        yield f"commands that are taken or not: {said}"
    for line, (_, machine) in zip(taken, rung.taken):
        for name, value in re.findall(rf"((?:the pass counter|DX|\bT|\bN|\w+ of [a-z ]+ \d+))(?: \(.*?\))? := ({NUMBER})", line):
            met["command sets"] += 1
            word = machine[PLACES[name]]
            register = name.split(" ")[0]
            if (signed(word, SIGNED[register]) if register in SIGNED else word) != int(value):
                yield f"{line}: {name} is {word}"
    met["commands"] += len(taken)


def looks_faults(rung, parts, met):
    """Marks, refusals and sentences that must hold while the file rings."""
    marks = {int(word): int(number) for line in parts["end"] for word, number in re.findall(r"^! sum word (\d+) clips: .* first in pass (\d+)", line)}
    possible = {word: number for word, number in rung.marks.items() if number <= rung.whole}
    if marks != possible:
        yield f"clipped words {marks}, and the reference has {possible}"
    met["clipped"] += len(marks)
    met["can't clip"] += any(line.startswith("no sum word of the generators can") for line in parts["end"])
    refused = [int(number) for line in parts["end"] for number in re.findall(r"^! the ringing is refused with (\d+)", line)]
    if refused != ([rung.refused] if rung.refused else []):
        yield f"refused with {refused}, and the reference with {rung.refused}"
    met["refused"] += len(refused)
    for line in parts["end"]:
        never = re.search(r"(?:sends|reads) (modifier )?sum word (\d+)(?: as [AB])?, and nothing ever writes that", line)
        if never:
            met["never written"] += 1
            if ("m" if never[1] else "g", int(never[2])) in rung.words:
                yield f"a word that is written: {line}"
        waits = re.match(r"! generator (\d+)(?: \(.*?\))? waits, and ", line)
        if waits:
            met["never set off"] += 1
            if len({modes[int(waits[1])] for modes in rung.modes}) > 1:
                yield f"it was set off: {line}"
    t_most = max([rung.machine[layout.T], *(machine[layout.T] for _, machine in rung.taken)])
    above = [line for line in parts["end"] if re.search(r": not below T = ", line)]
    beyond = [g for g in range(t_most, 256) if rung.machine[layout.generator_at(g) + layout.GMODE] >> (5 if rung.text is OLD else 6)]
    if [numbered(line.split(":")[0]) for line in above] != ([beyond] if beyond else []):
        yield f"generators above T are {beyond}: {above}"
    met["above T"] += bool(beyond)


def order_faults(rung, lines, met):
    """Whether any order rings alike, by every pair of orders where these are few."""
    if rung.text is OLD or rung.machine[layout.T] > 4:
        return
    met["orders"] += 1
    if lines[0].startswith("any order") != any_order.every_two_orders_agree(rung.machine):
        yield f"orders: {lines[0]}"


def faults(out, data, most=100):
    """What is wrong in what show printed, and what was met. A file of more than so many passes isn't rung by the reference."""
    rung, parts, met, found = Rung(data, most), sections(out), Counter(), []
    t = rung.machine[layout.T]
    told = set()
    for block in blocks(parts.get("generators", [])):
        name = GENERATOR.match(block)
        if name:
            told.add(int(name[1]))
            if ": inactive" not in block and ": pauses" not in block:
                found += generator_faults(rung, int(name[1]), block, met)
        else:
            told |= set(numbered(block.split(":")[0]))
    if told != set(range(t)):
        found.append(f"generators {sorted(set(range(t)) ^ told)} aren't told, or are above T")
    active = {m for m in range(t // 2) if rung.machine[layout.modifier_at(m) + layout.MMODE] >> 4}
    seen = [block for block in blocks(parts.get("modifiers", [])) if not block.endswith(": inactive")]
    if {int(block.split(":")[0].split()[1]) for block in seen} != active:
        found.append("modifiers are missing or too many")
    for block in seen:
        found += modifier_faults(rung, int(block.split(":")[0].split()[1]), block, met)
    if rung.is_whole and "not rung" not in out:
        found += command_faults(rung, parts.get("commands", []), met)
        found += looks_faults(rung, parts, met)
    found += order_faults(rung, parts["orders"], met)
    head = re.search(rf"{rung.passes} passes of N = (\d+) ticks: ({NUMBER}) passes a second", parts["head"][0])
    if not head or int(head[1]) != rung.machine[layout.N] or abs(float(head[2]) - 1e9 / (195 * int(head[1]))) > 0.0051:
        found.append(f"the head is {parts['head'][0]}")
    fit = re.search(r"; (\d+) commands fit", parts["head"][1])
    if fit and int(fit[1]) != update_ticks(t, rung.machine[layout.N]):
        found.append(parts["head"][1])
    return found, met
