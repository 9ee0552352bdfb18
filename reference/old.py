"""The older text of document 002, by request Q-10 of document 02, beside the text of 1978."""

from reference import layout
from reference import old_layout as old
from reference import old_generator, old_modifier
from reference.faults import faults
from reference.machine import run_pass
from reference.orders import compare
from reference.parts import parts
from reference.text import OF_1978, Text1978

__all__ = ["OLD", "TEXTS", "old_compare", "old_parts", "old_pass"]


class OldText(Text1978):
    """The older text."""

    name = b"old"
    generator_widths = old.GENERATOR_WIDTHS

    # Question 2, and those of delay units

    def gmode_built(self, gmode):
        """Whether a GMODE is built: the sum of cosines in run mode 000 alone."""
        mode = old.run_mode(gmode)
        if old.oscillator_mode(gmode) == old.SUM_OF_COSINES:
            return mode == old.INACTIVE or faults.old_cosines_in_pause and mode == old.PAUSE
        return mode in old.RUN_MODES and old.oscillator_mode(gmode) in old.OSCILLATOR_MODES

    def function_built(self, mmode):
        """Whether the function of an MMODE is built."""
        return old_modifier.function_built(mmode)

    def units_refusal(self, machine):
        """No modifier names a delay unit, so 11 and 12 never come."""
        return OF_1978.units_refusal(machine) if faults.old_00111_delays else 0

    # What a generator does in a pass

    def switches(self, words):
        """What is on."""
        return old.RUN_MODES[old.run_mode(words[layout.GMODE])]

    def in_mode(self, words, *modes):
        """Whether its run mode is one of these."""
        return old.run_mode(words[layout.GMODE]) in modes

    def reads(self, words):
        """Whether it reads data."""
        return self.in_mode(words, old.READ_DATA)

    def sends(self, words):
        """Whether it writes data or feeds a DAC."""
        return self.in_mode(words, old.SEND)

    def writes(self, words):
        """Whether it writes data: GN is negative."""
        negative = old.gn_negative(words[layout.GN])
        return self.sends(words) and negative != faults.old_writes_where_positive

    def needs_place(self, words):
        """Whether question 8 asks for a written place."""
        return self.sends(words) if faults.old_places_for_all_111 else self.writes(words)

    def dac_fed(self, words):
        """The DAC that it feeds, or None: GN is not negative."""
        if not self.sends(words) or self.writes(words):
            return None
        return old.dac_of(words[layout.GO if faults.old_dac_by_go else layout.GN])

    def waits(self, words):
        """Whether it waits to be triggered."""
        return self.in_mode(words, old.WAIT)

    def can_trigger(self, words):
        """Whether its overflow is a trigger."""
        return self.in_mode(words, old.RUNNING_B, old.RUNNING_C)

    def neighbour(self, g):
        """The generator whose trigger reaches g, two below, or None."""
        if faults.old_trigger_from_next:
            return OF_1978.neighbour(g)
        if faults.old_first_told and g == 1:
            return 0
        return g - old.TRIGGER_DISTANCE if g >= old.TRIGGER_DISTANCE else None

    def side_of(self, g):
        """The generator on whose side a waiting g stands by the first point, or None."""
        return OF_1978.neighbour(g) if faults.old_sides_by_next else self.neighbour(g)

    def source(self, g, words):
        """What is sent is the generator's own angle."""
        return words[layout.GFM] if faults.old_feeders_by_gfm else g

    def settings(self, words):
        """The settings of a generator, by register; of a GN in 111 the sign and the low 4 bits."""
        kept = {register: words[register] for register in (layout.GMODE, layout.GSUM, layout.GFM)}
        if self.sends(words):
            gn = words[layout.GN]
            kept[layout.GN] = gn & old.GN_SIGN | old.dac_of(gn)
        return kept

    # Turns

    def acting(self, words, told):
        """The words with the run mode that acts in this pass: the one that they hold."""
        return words

    def generator_turn(self, words, f, told):
        """The eleven words afterwards, P, whether it triggers, and the word that it sends."""
        return old_generator.generator_turn(words, f, told)

    def envelope(self, gmode, gl, gq):
        """V."""
        return old_generator.envelope(gmode, gl, gq)

    def modifier_turn(self, words, a, b):
        """A modifier's eight words after its turn with A and B, and S."""
        return old_modifier.modifier_turn(words, a, b)

    def late_a(self, mmode):
        """Whether a modifier's A, in modifier-this, sees the writes up to m-1."""
        function = layout.function(mmode)
        return function in old.LATE_A and not (faults.old_latch_early and function == old.LATCH)

    def invokes(self, mmode):
        """No modifier names a delay unit."""
        return faults.old_00111_delays and OF_1978.invokes(mmode)

    # Contents that part two orders

    # K is 512, where neither the sawtooth nor the cosine is 0.
    sounding_gk = 131072

    def takes_j(self, gmode):
        """Whether the oscillator goes by J."""
        return old_generator.STEPS.takes_j(gmode)

    def is_pulse_train(self, gmode):
        """Whether the oscillator is a pulse train."""
        return old.oscillator_mode(gmode) == old.PULSE_TRAIN

    def put_source(self, machine, source):
        """The angle of this generator alone is not 0, in place."""
        at = layout.generator_at(source)
        if self.takes_j(machine[at + layout.GMODE]):
            machine[at + layout.GJ] = 1 << 8
        else:
            machine[at + layout.GK] = 1


OLD = OldText()
TEXTS = {text.name: text for text in (OF_1978, OLD)}


# The calls

def old_pass(machine, order, items, places, memory):
    """A pass by the older text."""
    return run_pass(machine, order, items, places, memory, OLD)


def old_compare(machine, first, second):
    """A compare by the older text."""
    return compare(machine, first, second, OLD)


def old_parts(machine, first, second, contents, items):
    """What parts two orders by the older text."""
    return parts(machine, first, second, contents, items, OLD)
