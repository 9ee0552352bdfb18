"""Compares a program's tables, products, sums and turns with the reference.

    python3 tests/leaves.py PATH_TO_PROGRAM [COUNT] [SEED]
    python3 tests/leaves.py --self [--fault NAME] [COUNT] [SEED]

A request is 16 unsigned 32-bit little-endian words, the answer 16 more; requests
follow one another until the end of the input. Word 0 is the operation; answer
words that are not named in OPERATIONS are 0, and so is P where the run mode
neither adds nor replaces, since nothing hears it, and by the older text the angle
where anything is on, since nothing sends it. Fails too where the requests met
something too seldom. With --self the reference answers in a process of its own, with
one fault of reference/faults.py on if named.
"""

import os
import struct
import subprocess
import sys
import tempfile
from collections import Counter
from typing import NamedTuple

# First, since it makes the reference known.
from library import counts, met_seldom

from leaf_requests import (BUILT, EIGHT, ELEVEN, EXPONENTIAL, GENERATOR, MODIFIER, OLD_GENERATOR,
                           OLD_MODIFIER, PRODUCTS, SINE, SUMS, all_requests)
from reference import layout, old_generator, old_modifier
from reference import old_layout as old
from reference.faults import NAMES, switched_on
from reference.generator import generator_turn
from reference.layout import (L_MINUS_EXPONENTIAL, L_PLUS_EXPONENTIAL, RUN_MODES, SUM_OF_COSINES,
                              envelope_mode, oscillator_mode, run_mode)
from reference.machine import (function_built, oscillator_mode_built,
                               run_mode_built)
from reference.modifier import integer_product, modifier_turn, product
from reference.old import OLD
from reference.tables import exponential, sine
from reference.words import leaves_range, low, signed

WORDS = 16
FRAME = struct.Struct("<16I")
COUNT, SEED = 60000, 1978
SHOWN = 5

# How often each kind is met at least, in COUNT requests.
PROMISED = {
    "turns in 0100 that are heard": 32768, "values of GN in 0100": 2048, "values of GM in 0100": 16,
    "0100 with K at or close to the end of a quarter": 20000,
    "exponentials that 12 bits of GQ don't tell": 4000, "levels of linear modes": 25000,
    # By the older text: turns of generators in every mode, and what some of them come to.
    "old GMODEs": 164, **{f"old run mode {mode:03b}": 3000 for mode in old.RUN_MODES},
    **{f"old envelope mode {mode:02b}, heard": 8000 for mode in range(4)},
    **{f"old oscillator mode {mode:03b}, heard": 5000 for mode in old.OSCILLATOR_MODES
       if mode != old.SUM_OF_COSINES},
    "old values of K, cosine of GK": 4096, "old values of K, cosine of J": 4096, "old values of GM": 16,
    "old K at or close to the end of a quarter": 4500, "old sawtooth at -2,048": 100,
    "old values of H, exponential": 4096, "old exponentials that 14 bits of GQ would change": 3200,
    "old pulse trains at 1,024": 1300, "old pulse trains at 1,024 in 110": 150,
    "old 101 that stopped": 700, "old 100 that was told": 3200, "old 110 that overflowed": 1000,
    "old 111 that feeds": 3000, "old 111 that writes": 2500, "old 111 whose angle is neither F nor GK": 1000,
    # And of modifiers.
    "old MMODEs": 240, **{f"old function {code:05b}": 4000 for code in old_modifier.FORMULAS},
    **{f"old AA {scale:02b}": 15000 for scale in range(4)}, **{f"old BB {scale:02b}": 15000 for scale in range(4)},
    "old scales that 1978 would exchange": 40000, "old pulser, Temp0 0 and Temp1 not": 100,
    "old pulser, S not 0": 800,
}


class Operation(NamedTuple):
    """The names of an operation, of its request words from 1 and of its answer words from 0."""

    name: str
    asked: tuple
    given: tuple


OPERATIONS = {
    SINE: Operation("sine", ("k",), ("negative", "magnitude")),
    EXPONENTIAL: Operation("exponential", ("GQ",), ("exponential",)),
    PRODUCTS: Operation("products", ("s", "a", "b"), ("product", "integer product")),
    GENERATOR: Operation("generator's turn", ELEVEN + ("F", "told"), ELEVEN + ("P", "triggers")),
    MODIFIER: Operation("modifier's turn", EIGHT + ("A", "B"), EIGHT + ("S",)),
    BUILT: Operation("built", ("GMODE", "MMODE"), ("run mode", "oscillator mode", "function")),
    SUMS: Operation("sums", ("a", "b", "GQ"), ("sum", "leaves", "GQ sum", "GQ leaves")),
    OLD_MODIFIER: Operation("old modifier's turn", EIGHT + ("A", "B"), EIGHT + ("S", "late", "built")),
    OLD_GENERATOR: Operation("old generator's turn", ELEVEN + ("F", "told"),
                             ELEVEN + ("P", "triggers", "angle")),
}


# What the reference answers

def sums(a, b, gq):
    """The sum of two 20-bit words, and GQ plus the first, each with whether it leaves its range."""
    total = signed(a, 20) + signed(b, 20)
    decayed = gq + signed(a, 20)
    return (low(total, 20), leaves_range(total, 20),
            low(decayed, 24), not 0 <= decayed < 1 << 24)


def heard(x):
    """Whether P of a generator's turn goes to a sum word."""
    return RUN_MODES[run_mode(x[11])].envelope


def old_generator_words(x):
    """The named answer words to a generator's turn by the older text."""
    after, p, triggers, angle = OLD.generator_turn(x[1:12], x[12], x[13] == 1)
    on = OLD.switches(x[1:12])
    return *after, p if on.envelope else 0, triggers, 0 if on.envelope or on.oscillator else angle


def old_modifier_words(x):
    """The named answer words to a modifier's turn by the older text."""
    after, s = OLD.modifier_turn(x[1:9], x[9], x[10])
    return *after, s, OLD.late_a(x[8]), OLD.function_built(x[8])


def answer_words(x):
    """The named answer words to a request."""
    if x[0] == OLD_GENERATOR:
        return old_generator_words(x)
    if x[0] == OLD_MODIFIER:
        return old_modifier_words(x)
    if x[0] == SINE:
        return sine(x[1])
    if x[0] == EXPONENTIAL:
        return (exponential(x[1] >> 10),)
    if x[0] == PRODUCTS:
        return product(*x[1:4]), integer_product(*x[1:4])
    if x[0] == GENERATOR:
        after, p, triggers = generator_turn(x[1:12], x[12], x[13] == 1)
        return *after, p if heard(x) else 0, triggers
    if x[0] == MODIFIER:
        after, s = modifier_turn(x[1:9], x[9], x[10])
        return *after, s
    if x[0] == BUILT:
        return run_mode_built(x[1]), oscillator_mode_built(x[1]), function_built(x[2])
    return sums(*x[1:4])


def frame(words):
    """Words filled up to sixteen with 0, as bytes."""
    return FRAME.pack(*words, *(0,) * (WORDS - len(words)))


def answers(requests):
    """The reference's answers to packed requests, packed."""
    return b"".join(frame(answer_words(x)) for x in FRAME.iter_unpack(requests))


# What the requests met

QUARTER, CLOSE = 2048, 2
EXPONENTIAL_MODES = (L_MINUS_EXPONENTIAL, L_PLUS_EXPONENTIAL)


def met_by(requests):
    """What is counted of the generators' turns that are heard."""
    turns = [x for x in requests if x[0] == GENERATOR and heard(x)]
    cosines = [x for x in turns if oscillator_mode(x[11]) == SUM_OF_COSINES]
    places = [(x[3] >> 7) % QUARTER for x in cosines]
    exponentials = [x[7] >> 10 for x in turns if envelope_mode(x[11]) in EXPONENTIAL_MODES]
    return Counter({
        "turns in 0100 that are heard": len(cosines),
        "values of GN in 0100": len({x[4] for x in cosines}),
        "values of GM in 0100": len({x[5] for x in cosines}),
        "0100 with K at or close to the end of a quarter":
            sum(not CLOSE < place < QUARTER - CLOSE for place in places),
        "exponentials that 12 bits of GQ don't tell":
            sum(exponential(high) != exponential(high >> 2 << 2) for high in exponentials),
        "levels of linear modes": len(turns) - len(exponentials),
    })


OLD_QUARTER = 1024
OLD_EXPONENTIALS = (old.L_PLUS_EXPONENTIAL, old.L_MINUS_EXPONENTIAL)
COSINES = {old.COSINE_OF_K: "cosine of GK", old.COSINE_OF_J: "cosine of J"}


def old_heard_events(words, f, p):
    """What is counted of an old generator's turn that is heard; of a value once, by itself."""
    gm, gq, gmode = words[layout.GM], words[layout.GQ], words[layout.GMODE]
    run, env, osc = old.run_mode(gmode), old.envelope_mode(gmode), old.oscillator_mode(gmode)
    yield f"old envelope mode {env:02b}, heard"
    yield f"old oscillator mode {osc:03b}, heard"
    k = signed(OLD.generator_turn(words, f, False)[3] >> 8, 12)
    if osc in COSINES:
        yield "old values of K, " + COSINES[osc], k
        yield "old values of GM", gm
        if not CLOSE < k % OLD_QUARTER < OLD_QUARTER - CLOSE:
            yield "old K at or close to the end of a quarter"
    if osc == old.SAWTOOTH and k == -2048:
        yield "old sawtooth at -2,048"
    if env in OLD_EXPONENTIALS:
        yield "old values of H, exponential", gq >> 12
        if exponential(gq >> 10) != old_generator.exponential(gq >> 12):
            yield "old exponentials that 14 bits of GQ would change"
    if osc == old.PULSE_TRAIN and p:
        yield "old pulse trains at 1,024"
        if run == old.READ_DATA:
            yield "old pulse trains at 1,024 in 110"


def old_generator_events(x, given):
    """What is counted of an old generator's turn."""
    words, f, told, after, p = x[1:12], x[12], x[13], given[:11], given[11]
    gmode, gk, gn = words[layout.GMODE], words[layout.GK], words[layout.GN]
    run = old.run_mode(gmode)
    yield "old GMODEs", gmode
    yield f"old run mode {run:03b}"
    if OLD.switches(words).envelope:
        yield from old_heard_events(words, f, p)
    if run == old.RUNNING_C and after[layout.GMODE] != gmode:
        yield "old 101 that stopped"
    if run == old.WAIT and told:
        yield "old 100 that was told"
    if run == old.READ_DATA and not 0 <= words[layout.GQ] + signed(words[layout.GP], 20) < 1 << 24:
        yield "old 110 that overflowed"
    if run == old.SEND:
        yield "old 111 that writes" if old.gn_negative(gn) else "old 111 that feeds"
        if given[13] not in (f, gk):
            yield "old 111 whose angle is neither F nor GK"


def old_modifier_events(x, given):
    """What is counted of an old modifier's turn."""
    mmode, b = x[8], x[10]
    if not OLD.function_built(mmode):
        return
    aa, bb = layout.left_scale(mmode), layout.right_scale(mmode)
    yield "old MMODEs", mmode
    yield f"old function {layout.function(mmode):05b}"
    yield f"old AA {aa:02b}"
    yield f"old BB {bb:02b}"
    if aa != bb:
        yield "old scales that 1978 would exchange"
    if layout.function(mmode) == old.PULSER:
        temp0, temp1 = product(bb, b, x[1] >> 10), product(aa, x[4], x[2] >> 10)
        if temp1 and not temp0:
            yield "old pulser, Temp0 0 and Temp1 not"
        if given[8]:
            yield "old pulser, S not 0"


def old_met(requests, given):
    """What is counted of the turns by the older text: kinds, and of values how many."""
    events = {OLD_GENERATOR: old_generator_events, OLD_MODIFIER: old_modifier_events}
    met, values = Counter(), {}
    for x, answer in zip(requests, FRAME.iter_unpack(given)):
        for event in events[x[0]](x, answer) if x[0] in events else ():
            if isinstance(event, tuple):
                values.setdefault(event[0], set()).add(event[1])
            else:
                met[event] += 1
    met.update({kind: len(seen) for kind, seen in values.items()})
    return met


# Asking and comparing

def replies(command, requests):
    """What a program writes when it reads the packed requests, and its exit status."""
    with tempfile.TemporaryFile() as asked, tempfile.TemporaryFile() as given:
        asked.write(requests)
        asked.seek(0)
        status = subprocess.run(command, stdin=asked, stdout=given).returncode
        given.seek(0)
        return given.read(), status


def named(names, words):
    """Words beside their names."""
    return " ".join(f"{name}={word}" for name, word in zip(names, words))


def part(packed, n):
    """The n-th of packed requests or answers; short or empty where the run ended early."""
    return packed[n * FRAME.size:(n + 1) * FRAME.size]


def show(request, expected, got):
    """One difference in full."""
    operation = OPERATIONS[request[0]]
    print(f"{operation.name}: {named(operation.asked, request[1:])}")
    for title, packed in (("reference", expected), ("program", got)):
        if len(packed) < FRAME.size:
            print(f"  {title}: no answer")
            continue
        words = FRAME.unpack(packed)
        extra = words[len(operation.given):]
        beyond = f" then {extra}" if any(extra) else ""
        print(f"  {title}: {named(operation.given, words)}{beyond}")


def report(requests, expected, got, status):
    """Prints where the answers differ; gives the count, an ill end or extra bytes included."""
    differ = [n for n in range(len(requests)) if part(expected, n) != part(got, n)]
    for n in differ[:SHOWN]:
        show(requests[n], part(expected, n), part(got, n))
    for operation, names in OPERATIONS.items():
        number = sum(requests[n][0] == operation for n in differ)
        if number:
            print(f"{names.name}: {number} differ")
    if status:
        print(f"the program ended with status {status}")
    if len(got) != len(expected):
        print(f"the program gave {len(got)} bytes, the reference {len(expected)}")
    return len(differ) + bool(status) + (len(got) > len(expected))


def compared(command, count, seed):
    """Asks everything and compares; prints the outcome and gives the exit status."""
    requests = all_requests(count, seed)
    packed = b"".join(frame(request) for request in requests)
    expected = answers(packed)
    got, status = replies(command, packed)
    differ = report(requests, expected, got, status)
    print(f"leaves: {len(requests)} compared, {differ} differ")
    met = met_by(requests) + old_met(requests, expected)
    print(f"met: {counts(met)}")
    return met_seldom(met, PROMISED, min(count, COUNT), COUNT) or int(differ > 0)


def serve():
    """Answers the requests on standard input by the reference."""
    sys.stdout.buffer.write(answers(sys.stdin.buffer.read()))
    return 0


def main(arguments):
    """Reads the arguments; see the head of this file."""
    fault = []
    if "--fault" in arguments:
        at = arguments.index("--fault")
        fault, arguments = arguments[at:at + 2], arguments[:at] + arguments[at + 2:]
    if not arguments or (fault and fault[-1] not in NAMES):
        print(__doc__ + "\nFaults: " + ", ".join(NAMES))
        return 2
    if arguments[0] == "--serve":
        if not fault:
            return serve()
        with switched_on(fault[1]):
            return serve()
    if arguments[0] == "--self":
        command = [sys.executable, os.path.abspath(__file__), "--serve", *fault]
    else:
        command = [os.path.abspath(arguments[0])]
    count, seed = [int(text) for text in arguments[1:3]] + [COUNT, SEED][len(arguments[1:3]):]
    return compared(command, count, seed)


if __name__ == "__main__":
    sys.exit(main(sys.argv[1:]))
