"""Which generator-this words leave their 20 bits while a file rings, and in which pass first: the marks of request Q-6.

A word whose adding generators can't reach the range together, by the most that their waves and envelopes give, needs no ringing.
For the others the reference rings the file, turn by turn as its pass does; what it sends to DAC 0 and DAC 1 must be what the proved
program printed, else there is no answer.
"""

from reference import layout
from reference.machine import close, take_generators, take_modifiers, zero_memory
from reference.ring import pass_line, updated
from reference.update import still_lingering
from reference.words import signed
from bench_files import run_mode
from registers import envelope, envelope_of, quiet, wave_most

RANGE = 2 ** 19 - 1
LOUDEST = (4095 * 4095 + 32) // 64
V_MOST = 4095
# Registers by which a generator's loudness can change.
LOUDNESS = (layout.GN, layout.GM, layout.GP, layout.GQ, layout.GL, layout.GMODE)


def v_most(text, words):
    """The most that V can be, if nothing sets the registers."""
    gmode = words[layout.GMODE]
    if run_mode(text, gmode) != layout.RUNNING_A:
        return V_MOST
    plus, _ = envelope_of(text, gmode)
    way = envelope(text, words)
    sums = [words[layout.GL] + (1 if plus else -1) * quiet(text, gmode, q) for q in (words[layout.GQ], way.end)]
    return max(sums) if all(0 <= value <= V_MOST for value in sums) else V_MOST


def loudest(wiring, g):
    """The most that a generator's P can be while the file rings."""
    text, words, at = wiring.text, wiring.file.generator(g), layout.generator_at(g)
    if any(place in wiring.course.values.later for place in (at + register for register in LOUDNESS)):
        return LOUDEST
    return (wave_most(text, words[layout.GMODE], words[layout.GN], words[layout.GM]) * v_most(text, words) + 32) // 64


def may_clip(wiring):
    """The generator-this words that could leave their range, by the most that goes into each."""
    found = {word: abs(signed(wiring.file.machine[layout.GENERATOR_THIS + word], 20)) for word in range(layout.QUADRANT_WORDS)}  # the first pass adds to these
    for g in range(wiring.t_most):
        if wiring.modes(g) - {layout.INACTIVE, layout.PAUSE, layout.WRITE_DAC, layout.WRITE_DATA}:
            for gsum in wiring.values(layout.generator_at(g), layout.GSUM):
                found[gsum] += loudest(wiring, g)
    return {word for word, most in found.items() if most > RANGE}


class Differs(Exception):
    """The reference rings something else than the program."""


def first_marks(wiring, words, lines, told=lambda passes: None):
    """The first pass in which each word leaves its range, until some words have: the passes, and how many were rung for it.

    lines are those that the program printed, the refusal aside."""
    bench_file = wiring.file
    machine, memory, commands = list(bench_file.machine), zero_memory(), [command for _, command in bench_file.commands]
    doing = [g for g in range(wiring.t_most) if wiring.modes(g) - {layout.INACTIVE, layout.PAUSE}]  # the others' turns change nothing
    found = {}
    for number in range(1, len(lines) + 1):
        _, _, clipped = take_generators(machine, [g for g in doing if g < machine[layout.T]], [], bench_file.text)
        take_modifiers(machine, memory, bench_file.text)
        close(machine)
        for word, is_marked in enumerate(clipped):
            if is_marked and word not in found:
                found[word] = number
        if commands and (not still_lingering(machine)) and (machine[layout.UPDATE_TICKS] or machine[layout.LINGERING]):
            _, taken, machine = updated(machine, commands, bench_file.text)
            commands = commands[taken:]
        if pass_line(machine).encode() != lines[number - 1]:
            raise Differs(number)
        if words <= found.keys():
            return found, number
        told(number)
    return found, len(lines)

