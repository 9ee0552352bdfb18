"""The just and tempered ratios of a bell's partials to its prime, ratios of one's own, and the strike note. Needs no library."""

import math

from command_line import Ending, Status, read_file
from table_reader import decoded

RATIO_MOST = 100.0
RATIOS = {
    "just": {"hum": 1 / 2, "prime": 1.0, "tierce": 6 / 5, "quint": 3 / 2, "nominal": 2.0, "superquint": 3.0, "octave nominal": 4.0},
    "tempered": {"hum": 1 / 2, "prime": 1.0, "tierce": 2 ** (3 / 12), "quint": 2 ** (7 / 12), "nominal": 2.0, "superquint": 2 ** (19 / 12), "octave nominal": 4.0},
}
MULTIPLES = {"nominal": 2.0, "superquint": 3.0, "octave nominal": 4.0}  # the strike note is that of which these are nearly multiples
BEATING = 10.0  # two partials so many Hz apart beat


def cents(hz, other):
    return 1200 * math.log2(hz / other)


def own_ratios(path):
    """Ratios from a file of lines `name,ratio`."""
    ratios = {}
    try:
        lines = decoded(read_file(path)).splitlines()
    except Ending as ending:
        raise ending if ending.status == Status.UNREAD else Ending(f"{path}: {ending}") from None
    for number, line in enumerate(lines, 1):
        if not line.strip() or line.startswith("#"):
            continue
        name, _, text = (part.strip() for part in line.partition(","))
        try:
            ratio = float(text)
        except ValueError:
            ratio = 0.0
        if not name.isprintable() or not name or name in ratios or name[0] in "\"#" or not 0 < ratio < RATIO_MOST:
            raise Ending(f"{path}: line {number}: a line must be name,ratio, each name once and a ratio above 0 and below {RATIO_MOST:g}: {line!r}")
        ratios[name] = ratio
    if not ratios:
        raise Ending(f"{path} has no line name,ratio")
    return ratios


def ratios_of(asked):
    """The ratios that are asked for: just, tempered, or those of a file."""
    return RATIOS[asked] if asked in RATIOS else own_ratios(asked)


def strike_note(partials):
    """The strike note in Hz: of nominal, superquint and octave nominal half, a third and a fourth, the mean by their levels; partials have name, hz and db."""
    chosen = [(p.hz / MULTIPLES[p.name], 10 ** (p.db / 20)) for p in partials if p.name in MULTIPLES]
    return sum(hz * weight for hz, weight in chosen) / sum(weight for _, weight in chosen) if chosen else math.nan
