"""What requests must know of a text, and a source of chance that carries it.

Run modes are named by those of 1978 here; the older text has one mode, 111, for two of them.
"""

import random
from itertools import product as pairs_of

from reference import layout
from reference import modifier as of_1978
from reference import old_layout as old
from reference import old_modifier
from reference.modifier import product
from reference.old import OLD
from reference.text import OF_1978


class Text:
    """The text of 1978, as requests need it."""

    name = "1978"
    reference = OF_1978
    gmodes = [run << 6 | env << 4 | osc for run, env, osc in
              pairs_of(layout.RUN_MODES, range(4), layout.OSCILLATOR_MODES)]
    functions = tuple(of_1978.FORMULAS)
    # A turn of 00111 needs its delay unit's word too: whole passes try it.
    mmodes = [code << 4 | scales for code, scales in pairs_of(
        [code for code in of_1978.FORMULAS if code != layout.INVOKE_DELAY_UNIT], range(16))]
    # So much of E is one step of K.
    angle_unit = 128
    # Oscillator modes that are loud by GK alone, each with a K above 0 and one below at which it is.
    loud = {layout.SINE_OF_K: (2048, -2048), layout.SAWTOOTH: (4094, -4094),
            layout.SQUARE: (2048, -2048), layout.SUM_OF_COSINES: (1, -1)}
    # Those that a generator in any run mode may have.
    oscillator_modes = layout.OSCILLATOR_MODES

    def modes(self, envelope, oscillator):
        """A GMODE of an inactive generator with these two modes."""
        return envelope << 4 | oscillator

    def oscillator_mode(self, gmode):
        """The oscillator mode of a GMODE."""
        return layout.oscillator_mode(gmode)

    def with_oscillator(self, gmode, mode):
        """The GMODE with another oscillator mode."""
        return gmode & 0b1111110000 | mode

    def put_mode(self, chance, words, at, mode):
        """The generator whose words stand from a place on gets a run mode, in place."""
        words[at + layout.GMODE] = layout.with_run_mode(words[at + layout.GMODE], mode)

    def put_dac(self, words, at, dac):
        """The low 4 bits of the word that names a DAC, in place."""
        words[at + layout.GO] = words[at + layout.GO] & ~15 | dac

    def put_heard(self, words, at):
        """A feeder sends the word at its GFM, in place: here it always does."""

    def filtered(self, x):
        """What the filters add to A, of a modifier's registers by name."""
        aa, bb = layout.left_scale(x["MMODE"]), layout.right_scale(x["MMODE"])
        return product(bb, x["L1"], x["M1"] >> 10) + product(aa, x["L0"], x["M0"] >> 10)

    def bad_gmodes(self):
        """GMODEs that are not built: a name, the bits that stay, and those that are set."""
        for mode in sorted(set(range(16)) - set(layout.RUN_MODES)):
            yield f"run mode {mode:04b}", 0b111111, mode << 6
        for mode in sorted(set(range(16)) - set(layout.OSCILLATOR_MODES)):
            yield f"oscillator mode {mode:04b}", 0b1111110000, mode
            yield f"oscillator mode {mode:04b}, idle", 0b110000, mode


class OldText(Text):
    """The older text, as requests need it."""

    name = "old"
    reference = OLD
    gmodes = [gmode for gmode in range(1 << old.GMODE_WIDTH) if OLD.gmode_built(gmode)]
    functions = tuple(old_modifier.FORMULAS)
    mmodes = [code << 4 | scales for code, scales in pairs_of(old_modifier.FORMULAS, range(16))]
    angle_unit = 256
    loud = {old.COSINE_OF_K: (0, -2046), old.SAWTOOTH: (2045, -2045), old.SQUARE: (1024, -1024)}
    oscillator_modes = tuple(mode for mode in old.OSCILLATOR_MODES if mode != old.SUM_OF_COSINES)
    run_modes = {new: mode for mode, new in old.SWITCHED_AS.items()}

    def modes(self, envelope, oscillator):
        """A GMODE of an inactive generator with these two modes."""
        return envelope << 3 | oscillator

    def oscillator_mode(self, gmode):
        """The oscillator mode of a GMODE."""
        return old.oscillator_mode(gmode)

    def with_oscillator(self, gmode, mode):
        """The GMODE with another oscillator mode."""
        return gmode & 0b11111000 | mode

    def put_mode(self, chance, words, at, mode):
        """The generator whose words stand from a place on gets a run mode, in place.

        A 111 writes or feeds by its GN's sign; a sum of cosines gives way to another wave."""
        run = self.run_modes[layout.WRITE_DAC if mode == layout.WRITE_DATA else mode]
        gmode, gn = words[at + layout.GMODE], words[at + layout.GN]
        if run != old.INACTIVE and old.oscillator_mode(gmode) == old.SUM_OF_COSINES:
            gmode |= chance.choice(self.oscillator_modes)
        words[at + layout.GMODE] = old.with_run_mode(gmode, run)
        if mode == layout.WRITE_DATA:
            words[at + layout.GN] = gn | old.GN_SIGN
        if mode == layout.WRITE_DAC:
            words[at + layout.GN] = gn & ~old.GN_SIGN

    def put_dac(self, words, at, dac):
        """The low 4 bits of the word that names a DAC, in place."""
        words[at + layout.GN] = words[at + layout.GN] & ~15 | dac

    def put_heard(self, words, at):
        """A feeder sends the word at its GFM, in place: its angle is J, and GJ is 0."""
        gmode = words[at + layout.GMODE]
        words[at + layout.GMODE] = self.with_oscillator(gmode, old.COSINE_OF_J)
        words[at + layout.GJ] = 0

    def filtered(self, x):
        """What the filters add to A, of a modifier's registers by name."""
        aa, bb = layout.left_scale(x["MMODE"]), layout.right_scale(x["MMODE"])
        return product(aa, x["L0"], x["M1"] >> 10) + product(bb, x["L1"], x["M0"] >> 10)

    def bad_gmodes(self):
        """GMODEs that are not built: a name, the bits that stay, and those that are set."""
        for mode in sorted(set(range(8)) - set(old.OSCILLATOR_MODES)):
            yield f"oscillator mode {mode:03b}", 0b11111000, mode
            yield f"oscillator mode {mode:03b}, idle", 0b11000, mode
        for mode in sorted(set(old.RUN_MODES) - {old.INACTIVE}):
            yield f"sum of cosines in {mode:03b}", 0b11000, mode << 5


NEW_TEXT, OLD_TEXT = Text(), OldText()
TEXTS = {text.name: text for text in (NEW_TEXT, OLD_TEXT)}


class Chance(random.Random):
    """A source of chance for requests of one text."""

    def __init__(self, seed, text=NEW_TEXT):
        super().__init__(seed)
        self.text = text
