"""Whether every two orders of a machine's generators are equal: request Q-2 of document 02.

The rule is the request's own, clause by clause. Beside it, as a second way, every two orders
are compared by the four points.
"""

from itertools import combinations, permutations

from reference import layout
from reference.faults import faults
from reference.machine import refusal
from reference.orders import agree, in_mode, mode_of, register


def below_t(machine):
    """The generators that count."""
    return range(machine[layout.T])


# The clauses: each says whether it holds.

def can_trigger(mode):
    """Whether a generator in a run mode can trigger."""
    if faults.only_1110_triggers:
        return mode == layout.RUNNING_B
    return mode in (layout.RUNNING_B, layout.RUNNING_C)


def no_waiting_pair(machine):
    """No waiting generator has a neighbour below that can trigger; 0 has no neighbour below."""
    numbers = below_t(machine)
    if faults.pair_across_t:
        numbers = range(min(machine[layout.T] + 1, layout.GENERATORS))
    waiting = in_mode(machine, numbers, layout.WAIT)
    lower = [g - 1 for g in waiting if g > 0]
    if faults.neighbour_of_0 and 0 in waiting:
        lower.append(layout.GENERATORS - 1)
    return not any(can_trigger(mode_of(machine, g)) for g in lower)


def feeders_share(machine):
    """The feeders of each DAC share one GFM."""
    sources = {}
    for g in in_mode(machine, below_t(machine), layout.WRITE_DAC):
        dac = register(machine, g, layout.GO) % layout.DACS
        source = g if faults.feeders_by_generator else register(machine, g, layout.GFM)
        sources.setdefault(dac, set()).add(source)
    return all(len(used) == 1 for used in sources.values())


def writers_share(machine):
    """All writers share one GFM."""
    writers = in_mode(machine, below_t(machine), layout.WRITE_DATA)
    return len({register(machine, g, layout.GFM) for g in writers}) <= 1


def reader_words(machine):
    """The sum word of each reader."""
    readers = in_mode(machine, below_t(machine), layout.READ_DATA)
    return [register(machine, g, layout.GSUM) for g in readers]


def at_most_one_reader(machine):
    """There is at most one reader."""
    words = reader_words(machine)
    if faults.readers_by_word:
        return len(set(words)) == len(words)
    return len(words) <= 1


def none_adds_to_read_word(machine):
    """No adding generator is on a reader's sum word."""
    numbers = range(layout.GENERATORS) if faults.adders_above_t else below_t(machine)
    adding = [g for g in numbers if layout.RUN_MODES[mode_of(machine, g)].adding]
    return {register(machine, g, layout.GSUM) for g in adding}.isdisjoint(reader_words(machine))


CLAUSES = {
    "waiting pair": no_waiting_pair,
    "feeders": feeders_share,
    "writers": writers_share,
    "readers": at_most_one_reader,
    "adding": none_adds_to_read_word,
}


def failing(machine):
    """The names of the clauses that fail on a good machine."""
    return tuple(name for name, holds in CLAUSES.items() if not holds(machine))


# The call

def any_order(machine):
    """The call: its number and whether it says yes."""
    number = refusal(machine)
    if number:
        return number, faults.refused_says_yes
    return 0, not failing(machine)


# The second way

def every_two_orders_agree(machine):
    """Whether every two orders of a good machine agree, each pair tried: for few generators."""
    orders = permutations(below_t(machine))
    return all(agree(machine, first, second) for first, second in combinations(orders, 2))
