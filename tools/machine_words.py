"""The words of the machine by name. Their places are those of reference/layout.py."""

import command_line  # noqa: F401  (makes the reference known)
from reference import layout

DELAY_UNIT = ("X", "Y", "Z", "P", "the first word", "the second word", "the third word")
QUADRANTS = ("generator-this", "generator-last", "modifier-this", "modifier-last")
OTHERS = {layout.DX: "DX", layout.T: "T", layout.N: "N", layout.COUNTER: "the pass counter", layout.LINGERING: "lingering",
          layout.LINGER_PASS: "the Linger pass", layout.OVERRUN: "overrun", layout.UPDATE_TICKS: "the update ticks"}
UNITS = ((0, layout.GENERATORS, layout.GENERATOR_NAMES, "generator"),
         (layout.MODIFIERS_AT, layout.MODIFIERS, layout.MODIFIER_NAMES, "modifier"),
         (layout.DELAY_UNITS_AT, layout.DELAY_UNITS, DELAY_UNIT, "delay unit"))


def name_of(place, partials=None):
    """The name of a word; a generator has its partial's name beside its number, where there is one."""
    for start, count, names, kind in UNITS:
        if start <= place < start + count * len(names):
            unit, register = divmod(place - start, len(names))
            partial = (partials or {}).get(unit) if kind == "generator" else None
            return f"{names[register]} of {kind} {unit}" + (f" ({partial})" if partial else "")
    if layout.GENERATOR_THIS <= place < layout.DACS_AT:
        quadrant, word = divmod(place - layout.GENERATOR_THIS, layout.QUADRANT_WORDS)
        return f"{QUADRANTS[quadrant]} sum word {word}"
    if layout.DACS_AT <= place < layout.DACS_AT + layout.DACS:
        return f"DAC word {place - layout.DACS_AT}"
    return OTHERS[place]
