"""What a text says of generators and modifiers: asked by questions, passes and comparisons.

The text of 1978 stands here, the older one in old.py. A generator is given as its eleven words.
"""

from reference import layout
from reference.delay import units_refusal
from reference.generator import STEPS, acting_mode, generator_turn
from reference.modifier import function_built, modifier_turn


class Text1978:
    """The text of 1978."""

    name = b"1978"
    generator_widths = layout.GENERATOR_WIDTHS

    # Question 2, and those of delay units

    def gmode_built(self, gmode):
        """Whether a GMODE is built."""
        return layout.run_mode_built(gmode) and layout.oscillator_mode_built(gmode)

    def function_built(self, mmode):
        """Whether the function of an MMODE is built."""
        return function_built(mmode)

    def units_refusal(self, machine):
        """Questions 11 and 12: 0, 11 or 12."""
        return units_refusal(machine)

    # What a generator does in a pass, by its run mode

    def switches(self, words):
        """What is on."""
        return layout.RUN_MODES[layout.run_mode(words[layout.GMODE])]

    def in_mode(self, words, *modes):
        """Whether its run mode is one of these."""
        return layout.run_mode(words[layout.GMODE]) in modes

    def adds(self, words):
        """Whether it adds into its sum word."""
        return self.switches(words).adding

    def reads(self, words):
        """Whether it reads data."""
        return self.in_mode(words, layout.READ_DATA)

    def writes(self, words):
        """Whether it writes data."""
        return self.in_mode(words, layout.WRITE_DATA)

    def needs_place(self, words):
        """Whether question 8 asks for a written place."""
        return self.writes(words)

    def dac_fed(self, words):
        """The DAC that it feeds, or None."""
        feeds = self.in_mode(words, layout.WRITE_DAC)
        return words[layout.GO] % layout.DACS if feeds else None

    def waits(self, words):
        """Whether it waits to be triggered."""
        return self.in_mode(words, layout.WAIT)

    def can_trigger(self, words):
        """Whether its overflow is a trigger."""
        return self.in_mode(words, layout.RUNNING_B, layout.RUNNING_C)

    def neighbour(self, g):
        """The generator whose trigger reaches g, or None."""
        return g - 1 if g > 0 else None

    def side_of(self, g):
        """The generator on whose side a waiting g stands by the first point, or None."""
        return self.neighbour(g)

    def source(self, g, words):
        """By what the second and third point tell apart what generators send."""
        return words[layout.GFM]

    def settings(self, words):
        """The settings of a generator, by register; of some only the bits that are settings."""
        kept = {register: words[register] for register in (layout.GMODE, layout.GSUM, layout.GFM)}
        dac = self.dac_fed(words)
        return kept if dac is None else {**kept, layout.GO: dac}

    # Turns

    def acting(self, words, told):
        """The words with the run mode that acts in this pass."""
        gmode = words[layout.GMODE]
        return [*words[:layout.GMODE], layout.with_run_mode(gmode, acting_mode(gmode, told))]

    def generator_turn(self, words, f, told):
        """The eleven words afterwards, P, whether it triggers, and the word that it sends."""
        return *generator_turn(words, f, told), f

    def envelope(self, gmode, gl, gq):
        """V."""
        return STEPS.envelope(gmode, gl, gq)

    def modifier_turn(self, words, a, b):
        """A modifier's eight words after its turn with A and B, and S."""
        return modifier_turn(words, a, b)

    def late_a(self, mmode):
        """Whether a modifier's A, in modifier-this, sees the writes up to m-1."""
        return layout.function(mmode) in layout.LATE_A

    def invokes(self, mmode):
        """Whether a modifier names a delay unit."""
        return layout.function(mmode) == layout.INVOKE_DELAY_UNIT

    # Contents that part two orders

    # A GK at which every wave that goes by it is not 0.
    sounding_gk = 262144

    def takes_j(self, gmode):
        """Whether the oscillator goes by J."""
        return STEPS.takes_j(gmode)

    def is_pulse_train(self, gmode):
        """Whether the oscillator is a pulse train."""
        return layout.oscillator_mode(gmode) == layout.PULSE_TRAIN

    def put_source(self, machine, source):
        """What is sent by this source alone is not 0, in place."""
        machine[layout.modulation_place(source)] = 1


OF_1978 = Text1978()
