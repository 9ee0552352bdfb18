"""Who writes and who reads which sum word, and who can set off whom.

Sum words are pairs: "g" or "m" for the generators' or the modifiers' quadrants, and a number. What commands may change counts as
possible from the beginning, so that what is said to be impossible is so in every pass.
"""

from typing import NamedTuple

from reference import layout
from reference import old_layout as old
from reference.words import signed
from bench_files import run_mode
from registers import OF_J, function_of, wave_of

LAST, EARLY, LATE = "last", "early", "late"
WRITERS = (layout.RUNNING_A, layout.RUNNING_B, layout.RUNNING_C, layout.WAIT, layout.READ_DATA)
SENDERS = (layout.WRITE_DAC, layout.WRITE_DATA)
TRIGGERING = (layout.RUNNING_B, layout.RUNNING_C)
MOVING = (layout.WAIT, layout.RUNNING_C)


class Read(NamedTuple):
    """A read of a sum word: the word, by which input, and of modifier-this whether early or late (LAST: of the pass before)."""
    word: tuple
    by: str
    when: str = LAST


def sum_word(word):
    """A sum word by name."""
    return f"sum word {word[1]}" if word[0] == "g" else f"modifier sum word {word[1]}"


def modulation_word(gfm):
    """The sum word at a GFM."""
    return ("m" if gfm >> 6 else "g", gfm & 63)


def takes_f(text, words):
    """Whether a generator of these words does anything with the word at its GFM."""
    gmode = words[layout.GMODE]
    mode, wave = run_mode(text, gmode), wave_of(text, gmode)
    if mode in SENDERS:
        return text.name != b"old" or wave in OF_J
    return text.switches(words).oscillator or mode == layout.READ_DATA and (wave in OF_J or wave == "pulse train")


def modifier_reads(text, m, words):
    """The reads of a modifier by its words."""
    mmode, late = words[layout.MMODE], text.late_a(words[layout.MMODE])
    for register, name in ((layout.MIN, "A"), (layout.MRM, "B")):
        if name in function_of(text, mmode).takes.split():
            quadrant, word = words[register] >> 6, words[register] & 63
            yield Read(("g" if quadrant == 0 else "m", word), name, LAST if quadrant < 2 else LATE if late and name == "A" else EARLY)


class Wiring:
    """The connections of a bench file's machine, as it begins or (possible) as its commands may ever make them."""

    def __init__(self, bench_file, course):
        self.file, self.text, self.course = bench_file, bench_file.text, course
        self.t, self.t_most = bench_file.t, course.t_most
        # As the file begins.
        self.writers, self.readers = {}, {}
        for g in range(self.t):
            words = bench_file.generator(g)
            if bench_file.run_mode(g) in WRITERS:
                self.writers.setdefault(("g", words[layout.GSUM]), []).append(("generator", g))
            if takes_f(self.text, words):
                self.readers.setdefault(modulation_word(words[layout.GFM]), []).append(("generator", g, Read(modulation_word(words[layout.GFM]), "GFM")))
        for m in self.active_modifiers():
            words = bench_file.modifier(m)
            self.writers.setdefault(("m", words[layout.MSUM] & 63), []).append(("modifier", m))
            for read in modifier_reads(self.text, m, words):
                self.readers.setdefault(read.word, []).append(("modifier", m, read))
        self.possible = self.possible_writers()

    def active_modifiers(self):
        """The modifiers below T div 2 with a function."""
        return [m for m in range(self.t // 2) if layout.function(self.file.modifier(m)[layout.MMODE])]

    # What may ever be

    def values(self, at, register):
        """All values that a register has by the file or its commands."""
        return self.course.values.of(at + register)

    def modes(self, g):
        """All run modes that a generator may ever have. One that waits may be set off, one that stops may wait."""
        modes = {run_mode(self.text, gmode) for gmode in self.values(layout.generator_at(g), layout.GMODE)}
        return modes | set(MOVING) if modes & set(MOVING) else modes

    def possible_writers(self):
        """The writers that each sum word may ever have."""
        found = {}
        for g in range(self.t_most):
            if self.modes(g) & set(WRITERS):
                for gsum in self.values(layout.generator_at(g), layout.GSUM):
                    found.setdefault(("g", gsum), set()).add(("generator", g))
        for m in range(self.t_most // 2):
            at = layout.modifier_at(m)
            if any(layout.function(mmode) for mmode in self.values(at, layout.MMODE)):
                for msum in self.values(at, layout.MSUM):
                    found.setdefault(("m", msum & 63), set()).add(("modifier", m))
        return found

    # Triggers

    def sets_off(self, g):
        """The generator whose trigger reaches g and may ever come, or None."""
        lower = self.text.neighbour(g)
        return lower if lower is not None and self.can_trigger(lower) else None

    def overflows(self, g):
        """Whether a generator's envelope moves at all, or may be made to."""
        return any(signed(gp, 20) for gp in self.values(layout.generator_at(g), layout.GP))

    def can_trigger(self, g, above=()):
        """Whether a generator may ever trigger: its envelope is free, or will be once it is set off itself."""
        modes = {run_mode(self.text, gmode) for gmode in self.values(layout.generator_at(g), layout.GMODE)}
        if not self.overflows(g):
            return False
        if modes & set(TRIGGERING):
            return True
        lower = self.text.neighbour(g)
        return layout.WAIT in modes and lower is not None and lower not in above and self.can_trigger(lower, (*above, g))

    def triggered_by(self, g):
        """The generator that g can set off as the file begins, or None."""
        upper = g + (old.TRIGGER_DISTANCE if self.file.is_old else 1)
        return upper if upper < self.t and self.file.run_mode(upper) in MOVING else None

    # DACs

    def feeders(self):
        """The feeders of each DAC as the file begins, in the order of their numbers."""
        found = {}
        for g in range(self.t):
            dac = self.text.dac_fed(self.file.generator(g))
            if dac is not None:
                found.setdefault(dac, []).append(g)
        return found

    def fed_by(self, dac):
        """The sum words that reach a DAC, through modifiers too, as the file begins."""
        feeders = self.feeders().get(dac, [])[-1:]  # the last one holds
        left = [modulation_word(self.file.generator(g)[layout.GFM]) for g in feeders if takes_f(self.text, self.file.generator(g))]
        found = set()
        while left:
            word = left.pop()
            if word in found:
                continue
            found.add(word)
            for kind, m in self.writers.get(word, ()):
                if kind == "modifier":
                    left += [read.word for read in modifier_reads(self.text, m, self.file.modifier(m))]
        return found
