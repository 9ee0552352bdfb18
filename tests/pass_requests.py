"""The requests of tests/passes.py: chains of passes on one machine, with refused ones between.

Registers have a bias to extremes. Each request comes with the reference's answer;
the machine and the delay memory that it leaves go into the next request of its chain.
Every other chain is one of delay units: T is 10 or more, and it is so long that words
come back. Half of the chains have large partials, so that sum words clip over; some of
their passes are asked again by an order that is equal.
"""

import random
from functools import lru_cache
from itertools import chain, permutations
from typing import NamedTuple

from clip_requests import at_edges, between, put_loud
from count_requests import with_other_count
from delay_requests import (Memory, bad_memory, changed_words, drawn_memory, memory_words,
                            put_invoking, put_stray, put_units, unit_damages, with_bad_line,
                            with_unit_twice, with_words)
from leaf_requests import biased, generator_request, modifier_request
from reference import layout
from reference.machine import below_t, fresh, put_update_ticks, run_pass, word_ranges
from reference.orders import agree
from reference.sums import no_marks
from reference.words import low
from texts import NEW_TEXT, OLD_TEXT, Chance, Text

PASS, FRESH = range(2)
WORD = (1 << 32) - 1


class Request(NamedTuple):
    """What is asked: the operation, the runs of words, and a name for people."""

    operation: int
    machine: list
    order: list
    items: list
    places: list
    memory: Memory
    name: str
    text: Text = NEW_TEXT


class Answer(NamedTuple):
    """What is answered and left; of delay memory, the slots that changed and their words."""

    number: int
    read: int
    written: int
    clipped: list
    machine: list
    places: list
    changed: list


# Generators: each kind of machine has its run modes and how many words it shares

TRIGGERING = (layout.RUNNING_B, layout.RUNNING_C, layout.WAIT)
DATA = (layout.READ_DATA, layout.WRITE_DATA, layout.WRITE_DAC, layout.RUNNING_A, layout.RUNNING_B)
SOUNDING = (layout.RUNNING_A, layout.RUNNING_B, layout.RUNNING_C)
KINDS = (None, TRIGGERING, DATA, SOUNDING)


def near_overflow(chance, words):
    """A GP large and a GQ close to an end, so that the envelope overflows soon and often."""
    words[layout.GP] = low(chance.choice((1, -1)) * chance.randint(1 << 17, (1 << 19) - 1), 20)
    words[layout.GQ] = low(chance.randint(-1 << 20, 1 << 20), 24)


def generator(chance, run_modes, shared):
    """Eleven words and the word at GFM that they were shaped for; GSUM and GFM below shared."""
    request = generator_request(chance, chance.randrange(2 * len(chance.text.gmodes)))
    words, f = list(request[1:12]), request[12]
    words[layout.GSUM] %= shared
    words[layout.GFM] = words[layout.GFM] & 64 | words[layout.GFM] % shared
    if run_modes:
        chance.text.put_mode(chance, words, 0, chance.choice(run_modes))
        if run_modes is TRIGGERING and chance.randrange(4):
            near_overflow(chance, words)
    return words, f


def modifier(chance, shared):
    """Eight words, and the A and B that they were shaped for; few addresses if shared is not 0."""
    request = modifier_request(chance, chance.randrange(1 << 20))
    words, a, b = list(request[1:9]), request[9], request[10]
    if shared:
        words[layout.MIN] = chance.choice((64, 128, 128)) + chance.randrange(shared)
        words[layout.MRM] = chance.choice((0, 128, 128)) + chance.randrange(shared)
        words[layout.MSUM] = chance.choice((0, 0, 64)) + chance.randrange(shared)
    return words, a, b


# Machines

def put_generators(chance, machine, count):
    """New generators below a count, and the words at their GFM."""
    run_modes, shared = chance.choice(KINDS), chance.choice((2, 6, 64))
    for g in range(count):
        words, f = generator(chance, run_modes, shared)
        at = layout.generator_at(g)
        machine[at:at + layout.GENERATOR_WORDS] = words
        machine[layout.modulation_place(words[layout.GFM])] = f


def put_modifiers(chance, machine, count):
    """New modifiers below a count, and the words at their MIN and MRM."""
    shared = chance.choice((0, 1, 3, 8))
    for m in range(count):
        words, a, b = modifier(chance, shared)
        at = layout.modifier_at(m)
        machine[at:at + layout.MODIFIER_WORDS] = words
        for address, word in ((words[layout.MIN], a), (words[layout.MRM], b)):
            quadrant = layout.MODIFIER_SOURCES[layout.source_quadrant(address)]
            machine[quadrant + layout.sum_address(address)] = word


def drawn_counter(chance):
    """A counter: often about to leave 20 bits, or 32; also a stored one of 20 bits."""
    near = chance.choice((1 << 20, 1 << 32, chance.randint(1, 1 << 12) << 20))
    return chance.choice((0, near - chance.randint(1, 4), biased(chance, 20), biased(chance, 32)))


def put_controls(chance, machine, t):
    """T, the other words from DX on, within range, and the count; the counter often wraps soon."""
    machine[layout.DX] = biased(chance, 20)
    machine[layout.T] = t
    machine[layout.N] = chance.choice((2, 3, 265, 1024, 1025, chance.randint(2, 1025)))
    machine[layout.COUNTER] = drawn_counter(chance)
    machine[layout.LINGERING] = chance.randrange(2)
    machine[layout.LINGER_PASS] = biased(chance, 20)
    machine[layout.OVERRUN] = chance.randrange(2)
    put_update_ticks(machine)


def whole_machine(chance):
    """A machine in which every word is drawn."""
    machine = [biased(chance, 20) for _ in range(layout.MACHINE_WORDS)]
    put_generators(chance, machine, layout.GENERATORS)
    put_modifiers(chance, machine, layout.MODIFIERS)
    put_units(chance, machine)
    put_stray(chance, machine, 0)
    put_controls(chance, machine, 1)
    return machine


def machine_for(chance, pool, t):
    """A machine of the pool with new units below T and T div 2, and new sums now and then."""
    machine = list(chance.choice(pool))
    for place in chance.sample(range(layout.GENERATOR_THIS, layout.DX), 40):
        machine[place] = biased(chance, 20)
    put_generators(chance, machine, t)
    put_modifiers(chance, machine, t // 2)
    put_controls(chance, machine, t)
    put_units(chance, machine)
    put_invoking(chance, machine, t)
    return machine


def ticks(chance, number):
    """T: every third machine takes the next of 1..256, the others have few."""
    if number % 3 == 0:
        return number // 3 * 37 % 256 + 1
    return chance.choice((1, 2, 3, 4, chance.randint(4, 16), chance.randint(8, 32)))


def delay_ticks(chance):
    """T for a chain of delay units: mostly about where one unit more acts; now and then all act."""
    if not chance.randrange(24):
        return chance.choice((133, 134, 256, chance.randint(130, 256)))
    return chance.choice((10, 11, 13, 14, 17, 18, chance.randint(10, 40), chance.randint(18, 40)))


# Orders and lists that are good

def good_order(chance, t):
    """Each number below T once: by number, backwards, or shuffled."""
    order = list(range(t))
    kind = chance.randrange(6)
    if kind == 1:
        order.reverse()
    if kind > 1:
        chance.shuffle(order)
    return order


def swapped(chance, order):
    """The order with two neighbours exchanged, or any two."""
    other = list(order)
    if len(order) > 1:
        i = chance.randrange(len(order) - 1)
        j = chance.choice((i + 1, i + 1, chance.randrange(len(order))))
        other[i], other[j] = other[j], other[i]
    return other


def walked(chance, machine, order):
    """An order far from this one that agrees with it: exchanges that keep the agreement."""
    other = order
    for _ in range(2 * len(order) if len(order) < 16 else 8):
        tried = swapped(chance, other)
        if agree(machine, order, tried, chance.text.reference):
            other = tried
    return other


def drawn(chance, count):
    """So many words of 32 bits."""
    return [chance.choice((chance.getrandbits(32), biased(chance, 20))) for _ in range(count)]


def good_lists(chance, machine):
    """Read items and written places: just enough, one more, or many more."""
    needed = needed_lists(chance.text, machine)
    return [drawn(chance, count + chance.choice((0, 0, 1, 9))) for count in needed]


def needed_lists(text, machine):
    """How many read items and written places a machine needs."""
    return [below_t(machine, holds) for holds in (text.reference.reads, text.reference.writes)]


def good_request(chance, machine, memory, name="good"):
    """A pass that no question refuses, if the machine and the memory are good."""
    items, places = good_lists(chance, machine)
    order = good_order(chance, machine[layout.T])
    return Request(PASS, machine, order, items, places, memory, name, chance.text)


LOUD, EQUAL = "large partials", "large partials, by an equal order"


def loud_requests(chance, machine, memory):
    """A good pass with large partials; before it, now and then, the same by an equal order."""
    request = good_request(chance, machine, memory, LOUD)
    if not chance.randrange(6):
        other = walked(chance, machine, request.order)
        request = request._replace(machine=between(chance.text, machine, request.order, other))
        yield request._replace(order=other, name=EQUAL)
    elif chance.randrange(2):
        machine, items = at_edges(chance, machine, request.order, request.items)
        request = request._replace(machine=machine, items=items)
    yield request


# Damage to a machine: a place, the bits of the word that stay, and those that are set

def register_damages(text):
    """Each register of some generators and modifiers too wide: its next bit, or the highest."""
    for at, step, count, names, widths in (
            (0, layout.GENERATOR_WORDS, layout.GENERATORS,
             layout.GENERATOR_NAMES, text.reference.generator_widths),
            (layout.MODIFIERS_AT, layout.MODIFIER_WORDS, layout.MODIFIERS,
             layout.MODIFIER_NAMES, layout.MODIFIER_WIDTHS)):
        for unit in (0, 1, count // 2, count - 1):
            for register, (name, width) in enumerate(zip(names, widths)):
                place = at + step * unit + register
                for bit in (width, 31):
                    yield f"{name} of {unit}, bit {bit}", place, WORD, 1 << bit


def mode_damages(text):
    """Run modes, oscillator modes, functions and address bits that are not built."""
    for g in (0, 3, layout.GENERATORS - 1):
        for name, keep, put in text.bad_gmodes():
            yield f"{name} of {g}", layout.generator_at(g) + layout.GMODE, keep, put
    for m in (0, 2, layout.MODIFIERS - 1):
        at = layout.modifier_at(m)
        for function in sorted(set(range(32)) - set(text.functions)):
            yield f"function {function:05b} of {m}", at + layout.MMODE, 0b1111, function << 4
        for register in (layout.MIN, layout.MRM):
            name = layout.MODIFIER_NAMES[register]
            yield f"{name} top 11 of {m}", at + register, 0b111111, 0b11000000


def other_damages():
    """Sum memory, DACs, and the words from DX on."""
    ends = [quadrant + i for quadrant in layout.MODIFIER_SOURCES.values() for i in (0, 31, 63)]
    ends += [layout.GENERATOR_THIS, layout.GENERATOR_THIS + 63]
    ends += [layout.DACS_AT, layout.DACS_AT + 7, layout.DACS_AT + 15]
    for place in ends + [layout.DX, layout.LINGER_PASS]:
        for bit in (20, 31):
            yield f"word {place}, bit {bit}", place, WORD, 1 << bit
    for place, values in ((layout.T, (0, 257, 258, 512, 1 << 31, WORD)),
                          (layout.N, (0, 1, 1026, 1027, 2048, WORD)),
                          (layout.LINGERING, (2, 3, WORD)), (layout.OVERRUN, (2, 3, WORD))):
        for value in values:
            yield f"word {place} = {value}", place, 0, value


@lru_cache(maxsize=None)
def damages(text):
    """All of them, mixed, so that few requests meet all kinds."""
    made = list(chain(register_damages(text), mode_damages(text), other_damages(), unit_damages()))
    random.Random(1978).shuffle(made)
    return made


LENGTHS = (0, 1, 4112, 4113, 4114, 4118, 4119, 4120, 4342, 4343, 4345, 8688)


def with_damage(machine, number, text):
    """A copy of a machine with the next damage, and its name."""
    name, place, keep, put = damages(text)[number % len(damages(text))]
    other = list(machine)
    other[place] = other[place] & keep | put
    return other, name


def with_length(machine, number, text=NEW_TEXT):
    """A machine of another length, and its name."""
    length = LENGTHS[number % len(LENGTHS)]
    return (machine + machine)[:length], f"{length} words"


def damaged_machine(machine, number, text=NEW_TEXT):
    """A machine that question 1 or 2 refuses, and what was done to it."""
    change = {0: with_length, 3: with_other_count}.get(number % 6)
    return change(machine, number // 6) if change else with_damage(machine, number, text)


# Each kind of fault changes a good request, which it gets with a number, into one that a question
# refuses, or leaves it as it is where that cannot be.

def damaged(chance, request, number):
    """The next damage to a copy of the machine."""
    other, name = with_damage(request.machine, number, request.text)
    return request._replace(machine=other, name=name)


def other_count(chance, request, number):
    """A count of update ticks that is not that of T and N."""
    other, name = with_other_count(request.machine, number)
    return request._replace(machine=other, name=name)


def wrong_length(chance, request, number):
    """A run of another length."""
    other, name = with_length(request.machine, number)
    return request._replace(machine=other, name=name)


# Orders and lists that are not good

def short(chance, t, order):
    """One entry is missing."""
    return order[:-1]


def long(chance, t, order):
    """An entry too many: the next number, or one that is there."""
    return order + [chance.choice((t, 0))]


def empty(chance, t, order):
    """No entry."""
    return []


def doubled(chance, t, order):
    """One number stands twice and another is missing."""
    if t == 1:
        return [0, 0]
    i, j = chance.sample(range(t), 2)
    return [order[j] if k == i else number for k, number in enumerate(order)]


def too_high(chance, t, order):
    """One entry is not below T."""
    i = chance.randrange(t)
    high = chance.choice((t, 255, 256, 257, order[i] + 256, 1 << 31, WORD))
    return order[:i] + [high] + order[i + 1:]


def alike(chance, t, order):
    """All entries are the same."""
    return [order[0]] * t


BAD_ORDERS = (short, long, empty, doubled, too_high, alike)


def bad_order(chance, request, number):
    """The next kind of bad order."""
    change = BAD_ORDERS[number % len(BAD_ORDERS)]
    order = change(chance, len(request.order), request.order)
    return request._replace(order=order, name=f"order {change.__name__}")


def bad_lists(chance, request, number):
    """Read items or written places that may be too few: one less than needed, or none."""
    changes, (reading, writing) = {}, needed_lists(request.text, request.machine)
    if number % 3 != 1:
        changes["items"] = request.items[:max(chance.choice((reading - 1, reading - 1, 0)), 0)]
    if number % 3 != 0:
        changes["places"] = request.places[:max(chance.choice((writing - 1, writing - 1, 0)), 0)]
    return request._replace(name="short " + " and ".join(changes), **changes)


# Delay memories and delay units that are not good

def spoilt_memory(chance, request, number):
    """A delay memory of another length, or with a word too wide."""
    memory, name = bad_memory(chance, request.memory, number)
    return request._replace(memory=memory, name=name)


def spoilt_line(chance, request, number):
    """A line that is named and acts doesn't fit, if there is one."""
    other = with_bad_line(chance, request.machine)
    return request._replace(machine=other, name="a bad line") if other else request


def named_twice(chance, request, number):
    """One unit is named twice, if there are two modifiers."""
    other = with_unit_twice(chance, request.machine)
    return request._replace(machine=other, name="a unit twice") if other else request


# Several things at once, so that the sequence of the questions counts. A machine's words are
# damaged and its length changed after all else, which looks at its T and its units.
DELAY_FAULTS = (spoilt_memory, spoilt_line, named_twice)
ALL_FAULTS = DELAY_FAULTS + (bad_lists, bad_order, other_count, damaged, wrong_length)


def faulty(chance, request, faults):
    """A request with some faults at once, whichever of their kinds come."""
    names = []
    for fault in sorted(faults, key=ALL_FAULTS.index):
        request = fault(chance, request, chance.randrange(1 << 20))
        names.append(request.name)
    return request._replace(name="; ".join(names))


# The whole of the requests

def fresh_request(chance, machine):
    """A fresh machine on a run of any contents, now and then of another length."""
    length = chance.choice((layout.MACHINE_WORDS,) * 3 + LENGTHS)
    dirty = [word ^ chance.getrandbits(32) for word in (machine + machine)[:length]]
    return Request(FRESH, dirty, [], [], [], Memory(0, 0, {}), f"fresh, {length} words")


def answered(request):
    """The reference's answer to a request."""
    if request.operation == FRESH:
        number, machine = fresh(request.machine)
        return Answer(number, 0, 0, no_marks(), machine, [], [])
    words = memory_words(request.memory)
    done = run_pass(*request[1:5], words, request.text.reference)
    return Answer(*done[:-1], changed_words(words, done.memory))


def refused_requests(chance, machine, memory, number):
    """What a chain has beside its good passes."""
    def changed(fault, its_number):
        return fault(chance, good_request(chance, machine, memory), its_number)

    yield changed(damaged, number)
    yield changed(chance.choice((bad_order, bad_lists, bad_lists)), number)
    if number % 4 == 0:
        yield changed(other_count, number // 4)
    if number % 4 == 1:
        yield changed(wrong_length, number // 4)
    if number % 4 == 2:
        yield faulty(chance, good_request(chance, machine, memory), chance.sample(ALL_FAULTS, 3))
    if number % 8 == 3:
        yield fresh_request(chance, machine)


def delay_refusals(chance, machine, memory, number):
    """What a chain of delay units has beside these: questions 10, 11 and 12, alone and together."""
    for fault in DELAY_FAULTS:
        yield fault(chance, good_request(chance, machine, memory), number)
    several = chance.choice((ALL_FAULTS, DELAY_FAULTS, DELAY_FAULTS))
    several = chance.sample(several, chance.choice((2, 2, 3)))
    yield faulty(chance, good_request(chance, machine, memory), several)


def good_requests(chance, machine, memory, loud):
    """The passes of a chain that no question refuses; the last one is gone on from."""
    if loud:
        return loud_requests(chance, machine, memory)
    return iter((good_request(chance, machine, memory),))


def chained(chance, machine, passes, refusals, number):
    """The requests of one machine and one memory: good passes in a row, then refused ones."""
    memory, loud = drawn_memory(chance), number % 2 == 1
    if loud:
        put_loud(chance, machine, machine[layout.T])
    for _ in range(passes):
        for request in good_requests(chance, machine, memory, loud):
            answer = answered(request)
            yield request, answer
        machine, memory = answer.machine, with_words(memory, dict(answer.changed))
    for make in refusals:
        for request in make(chance, machine, memory, number):
            yield request, answered(request)


def chain_of(chance, pool, number):
    """The next chain: by turns one with any T, and one of delay units."""
    refusals = refused_requests, delay_refusals
    if number % 2:
        machine = machine_for(chance, pool, delay_ticks(chance))
        return chained(chance, machine, chance.choice((6, 10, 16, 24)), refusals, number // 2)
    machine = machine_for(chance, pool, ticks(chance, number // 2))
    refusals = refusals if number % 8 == 0 else refusals[:1]
    return chained(chance, machine, chance.choice((1, 3, 5, 8)), refusals, number // 2)


# Each word damaged once, and all orders of few generators: for the older text

def too_wide(place, text):
    """A value that no machine has at a place, whatever its other words hold."""
    return word_ranges(text.reference)[place][1] + 1 if place != layout.UPDATE_TICKS else WORD


def every_word(chance, pool):
    """A pass with each word in turn beyond its range, but for the counter, which has none."""
    memory = Memory(layout.MEMORY_WORDS, 0, {})
    for place in range(layout.MACHINE_WORDS):
        if place != layout.COUNTER:
            machine = list(pool[place % len(pool)])
            machine[place] = too_wide(place, chance.text)
            yield Request(PASS, machine, [0], [0], [0], memory, f"{EVERY} {place}", chance.text)


def every_mode(chance, pool):
    """A pass with each GMODE of its width and each function that is not built."""
    memory, reference = Memory(layout.MEMORY_WORDS, 0, {}), chance.text.reference
    width = reference.generator_widths[layout.GMODE]
    bad = [(layout.generator_at(gmode % 256) + layout.GMODE, gmode) for gmode in range(1 << width)
           if not reference.gmode_built(gmode)]
    bad += [(layout.modifier_at(code % 4) + layout.MMODE, code << 4 | code % 16) for code in range(32)
            if not reference.function_built(code << 4)]
    for number, (place, value) in enumerate(bad):
        machine = list(pool[number % len(pool)])
        machine[place] = value
        yield Request(PASS, machine, [0], [0], [0], memory, f"mode {value} at {place}", chance.text)


def put_struck(chance, machine, t):
    """All generators below T trigger or wait, and every envelope that can overflows."""
    for g in range(t):
        at = layout.generator_at(g)
        chance.text.put_mode(chance, machine, at, chance.choice(TRIGGERING))
        machine[at + layout.GQ], machine[at + layout.GP] = (1 << 24) - 1, 1


def every_order(chance, pool, machines=12):
    """All orders of up to four generators, on some machines each: any, loud ones, struck ones."""
    for number in range(machines):
        for t in (1, 2, 3, 4):
            machine = machine_for(chance, pool, t)
            if number % 3:
                (put_loud if number % 3 == 1 else put_struck)(chance, machine, t)
            request = good_request(chance, machine, drawn_memory(chance), f"all orders of {t}")
            for order in permutations(range(t)):
                yield request._replace(order=list(order))


EVERY = "damaged word"


def swept_requests(chance, pool):
    """What the older text's requests begin with."""
    for request in chain(every_word(chance, pool), every_mode(chance, pool), every_order(chance, pool)):
        yield request, answered(request)


def all_requests(count, seed, text=NEW_TEXT):
    """So many requests, each with the reference's answer, one machine after the other."""
    chance = Chance(seed, text)
    pool = [whole_machine(chance) for _ in range(12)]
    made, number = 0, 0
    if text is OLD_TEXT:
        for pair in swept_requests(chance, pool):
            yield pair
            made += 1
    while made < count:
        for pair in chain_of(chance, pool, number):
            if made < count:
                yield pair
                made += 1
        number += 1
