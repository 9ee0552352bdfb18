"""What looks wrong in a bench file: sentences that hold in every pass, whatever its commands do."""

from partials import TICK
from reference import layout
from reference.delay import acts_inactive, unit_words, units_in_time
from registers import function_of, is_taken
from wiring import EARLY, LAST, SENDERS, modifier_reads, modulation_word, sum_word, takes_f

NEAREST = layout.EARLY_DISTANCE


def span(numbers):
    """Numbers as ranges: 0 to 4, 7."""
    parts, numbers = [], sorted(numbers)
    while numbers:
        end = next((i for i in range(1, len(numbers)) if numbers[i] != numbers[i - 1] + 1), len(numbers))
        parts += [f"{numbers[0]} to {numbers[end - 1]}"] if end > 2 else [str(number) for number in numbers[:end]]
        numbers = numbers[end:]
    return ", ".join(parts[:-1]) + f" and {parts[-1]}" if len(parts) > 1 else parts[0]


def those(kind, numbers, names=None):
    """Generators or modifiers by number; a few have their names."""
    named = [f"{number} ({names[number]})" if names and number in names else str(number) for number in sorted(numbers)]
    if len(numbers) <= 3:
        text = ", ".join(named[:-1]) + f" and {named[-1]}" if len(named) > 1 else named[0]
    else:
        text = span(numbers)
    return f"{kind}{'' if len(numbers) == 1 else 's'} {text}"


def writers(units, names=None):
    """Writers of a sum word in words."""
    kinds = [(kind, [number for what, number in units if what == kind]) for kind in ("generator", "modifier")]
    return " and ".join(those(kind, numbers, names if kind == "generator" else None) for kind, numbers in kinds if numbers)


# Sum words that are read and never written

def set_by_file(wiring, word):
    """Whether the file itself sets a sum word, for the first pass."""
    this, last = (layout.GENERATOR_THIS, layout.GENERATOR_LAST) if word[0] == "g" else (layout.MODIFIER_THIS, layout.MODIFIER_LAST)
    return bool(wiring.file.machine[this + word[1]] or wiring.file.machine[last + word[1]])


def unwritten(wiring):
    """DACs, written data and modifiers that take a word that nothing ever writes."""
    file = wiring.file
    for g in range(wiring.t):
        words = file.generator(g)
        word = modulation_word(words[layout.GFM])
        if file.run_mode(g) in SENDERS and takes_f(wiring.text, words) and word not in wiring.possible and not set_by_file(wiring, word):
            yield f"{file.called(g)} sends {sum_word(word)}, and nothing ever writes that"
    for m in wiring.active_modifiers():
        for read in modifier_reads(wiring.text, m, file.modifier(m)):
            if read.word not in wiring.possible and not set_by_file(wiring, read.word) and is_taken(wiring.text, file.modifier(m), read.by):
                yield f"modifier {m} ({function_of(wiring.text, file.modifier(m)[layout.MMODE]).name}) reads {sum_word(read.word)} as {read.by}, and nothing ever writes that"


# Modifiers that read modifier-this

def seen(m, read, writing):
    """The modifiers among some whose writes a read of modifier-this sees."""
    return [w for w in writing if w <= m - (NEAREST if read.when == EARLY else 1)]


def unseen(wiring):
    """Reads of modifier-this that come before the write, or less than 4 above the writer where they are early."""
    for m in wiring.active_modifiers():
        for read in modifier_reads(wiring.text, m, wiring.file.modifier(m)):
            writing = sorted(number for _, number in wiring.possible.get(read.word, ())) if read.when != LAST else []
            found = seen(m, read, writing)
            near = [w for w in writing if w < m and w not in found]
            where = f"modifier {m} reads modifier-this sum word {read.word[1]} as {read.by}, {'early' if read.when == EARLY else 'late'}"
            if near:
                yield f"{where}, and doesn't see {those('modifier', near)}: an early read sees writers at least {NEAREST} below"
            elif writing and not found:
                yield f"{where}, and its {'writer is' if len(writing) == 1 else 'writers are'} not below it ({those('modifier', writing)}): it sees 0"


def cleared(wiring):
    """Inactive modifiers that replace what others wrote."""
    for m in range(wiring.t // 2):
        words = wiring.file.modifier(m)
        word = ("m", words[layout.MSUM] & 63)
        below = [w for kind, w in wiring.writers.get(word, ()) if kind == "modifier" and w < m]
        if not layout.function(words[layout.MMODE]) and layout.replaces(words[layout.MSUM]) and below:
            yield f"modifier {m} is inactive and replaces {sum_word(word)} by 0: what {those('modifier', below)} wrote is gone after it"


# Generators

def never_set_off(wiring):
    """Waiting generators that no trigger and no command can set off."""
    file = wiring.file
    for g in range(wiring.t):
        if file.run_mode(g) == layout.WAIT and wiring.sets_off(g) is None and layout.generator_at(g) + layout.GMODE not in wiring.course.values.later:
            lower = wiring.text.neighbour(g)
            if lower is None:
                yield f"{file.called(g)} waits, and there is no generator below it that could set it off"
            else:
                cause = "its envelope never moves (GP is 0)" if not wiring.overflows(lower) else "it isn't in a mode that triggers"
                yield f"{file.called(g)} waits, and {file.called(lower)}, which would set it off, can't trigger: {cause}"


def above(wiring):
    """What is set and stands beyond T."""
    file, t = wiring.file, wiring.t_most
    beyond = [g for g in range(t, layout.GENERATORS) if file.run_mode(g) != layout.INACTIVE]
    if beyond:
        yield f"{those('generator', beyond)}: not below T = {t}, never taken"
    beyond = [m for m in range(t // 2, layout.MODIFIERS) if layout.function(file.modifier(m)[layout.MMODE])]
    if beyond:
        yield f"{those('modifier', beyond)}: not below T div 2 = {t // 2}, never taken"


def dacs(wiring):
    """DACs that are fed twice from different words, and a file that feeds neither left nor right."""
    file, feeders = wiring.file, wiring.feeders()
    for dac, feeding in sorted(feeders.items()):
        sources = {wiring.text.source(g, file.generator(g)) for g in feeding}
        if len(sources) > 1:
            yield f"DAC {dac} is fed by {those('generator', feeding)}: only the last, {file.called(feeding[-1])}, is heard"
    commands_feed = any(layout.WRITE_DAC in wiring.modes(g) for g in range(wiring.t_most))
    if not {0, 1} & feeders.keys() and not commands_feed:
        yield "no generator feeds DAC 0 or DAC 1: nothing is heard"


# Ticks, delay units and commands

def ticks(wiring):
    """A pass that is too short for its generators."""
    t, n = wiring.t, wiring.file.n
    if n < t + layout.OVERHEAD_TICKS:
        yield f"N = {n} is less than T + 8 = {t + layout.OVERHEAD_TICKS}: the machine of 1978 needs so many ticks of {TICK * 1e9:.0f} ns for a pass, and no command is ever taken"


def named_units(wiring):
    """The delay unit that each modifier below T div 2 names."""
    return {} if wiring.file.is_old else {m: layout.delay_unit(wiring.file.modifier(m)[layout.MRM]) for m in wiring.active_modifiers() if wiring.text.invokes(wiring.file.modifier(m)[layout.MMODE])}


def delay_units(wiring):
    """Delay units that don't act, and lines that share words of delay memory."""
    file, named = wiring.file, named_units(wiring)
    lines = {}
    for m, u in named.items():
        x, _, z, p = unit_words(file.machine, u)[:4]
        if u >= units_in_time(file.t):
            yield f"modifier {m} names delay unit {u}, for which T = {file.t} leaves no time: it acts as inactive (units below (T-6) div 4 = {units_in_time(file.t)} act)"
        elif p == layout.DELAY_LINE and not acts_inactive(file.machine, u):
            lines[u] = (x, x + z)
        elif p != layout.DELAY_INACTIVE and not lines_possible(wiring):
            yield f"delay unit {u} is a table, and a bench file's delay memory is zero: its answers are 0"
    for u, (first, last) in sorted(lines.items()):
        for other, (begin, end) in sorted(lines.items()):
            if u < other and first <= end and begin <= last:
                yield f"delay units {u} and {other} are lines that share words {max(first, begin)} to {min(last, end)} of delay memory"


def lines_possible(wiring):
    """Whether any unit is or may become a delay line, which writes into delay memory."""
    return any(layout.DELAY_LINE in wiring.values(layout.delay_unit_at(u), layout.P) for u in range(layout.DELAY_UNITS))


def commands(wiring):
    """Commands that are never taken."""
    left = [taken.line for taken in wiring.course.taken if not taken.after]
    if left and not wiring.course.refused:
        yield f"{'the command in line' if len(left) == 1 else 'the commands in lines'} {span(left)} {'is' if len(left) == 1 else 'are'} never taken"


def silent_partials(wiring):
    """Generators with a partial's name that reach neither DAC 0 nor DAC 1 as the file begins."""
    heard = wiring.fed_by(0) | wiring.fed_by(1)
    for g in sorted(wiring.file.names):
        word = ("g", wiring.file.generator(g)[layout.GSUM])
        if wiring.text.adds(wiring.file.generator(g)) and word not in heard and not wiring.course.values.later:
            yield f"{wiring.file.called(g)} adds into {sum_word(word)}, which reaches neither DAC 0 nor DAC 1"


CHECKS = (unwritten, unseen, cleared, never_set_off, above, dacs, ticks, delay_units, commands, silent_partials)


def suspects(wiring):
    """All sentences."""
    return [sentence for check in CHECKS for sentence in check(wiring)]
