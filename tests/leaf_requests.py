"""The requests of tests/leaves.py: whole tables, and turns with a bias to extremes.

Each request is a tuple of an operation and its words, all within their widths.
"""

from itertools import product as pairs_of

from reference import layout
from reference import old_layout as old
from reference.generator import envelope, modulated
from reference.modifier import product
from reference.words import leaves_range, low, signed
from texts import NEW_TEXT, OLD_TEXT, Chance

(SINE, EXPONENTIAL, PRODUCTS, GENERATOR, MODIFIER, BUILT, SUMS, OLD_MODIFIER,
 OLD_GENERATOR) = range(9)
# A generator's and a modifier's turn by a text.
TURNS = {NEW_TEXT: (GENERATOR, MODIFIER), OLD_TEXT: (OLD_GENERATOR, OLD_MODIFIER)}

ELEVEN, EIGHT = layout.GENERATOR_NAMES, layout.MODIFIER_NAMES


# Values with a bias to extremes

def extremes(width):
    """0, 1, all ones, powers of two and their neighbours, within a width."""
    near = {0, 1, 2, 3, (1 << width) - 1, (1 << width) - 2}
    for power in range(max(width - 4, 0), width):
        near |= {(1 << power) - 1, 1 << power, (1 << power) + 1}
    return sorted(value for value in near if value < 1 << width)


EXTREMES = {width: extremes(width) for width in (4, 6, 7, 8, 11, 12, 16, 20, 24, 28, 30, 32)}


def biased(chance, width):
    """A word of a width: at random, extreme, near 0, or a power of two up to its sign."""
    kind = chance.randrange(8)
    if kind < 3:
        return chance.getrandbits(width)
    if kind < 6:
        return chance.choice(EXTREMES[width])
    if kind == 6:
        return low(chance.randint(-70, 70), width)
    return low(chance.choice((1, -1)) << chance.randrange(width), width)


def close(chance):
    """A small signed number."""
    return chance.randint(-2, 2)


def edge(chance, width):
    """A number close to an end of a signed width."""
    half = 1 << width - 1
    return chance.choice((-half, half)) + close(chance)


def fits(value, width):
    """Whether a signed number fits into a width."""
    return not leaves_range(value, width)


# Shapes of a generator: each moves one register so that a step is at an edge

def near_step_1(chance, x):
    """F puts the sum of step 1 at the edge of its range."""
    f = edge(chance, 20) - signed(x["GJ"] >> 8, 20)
    if fits(f, 20):
        x["F"] = low(f, 20)


def near_step_4(chance, x):
    """GK puts the sum of step 4 at the edge of its range."""
    j, _ = modulated(x["GJ"], x["F"])
    gk = edge(chance, 20) - signed(j, 20)
    if fits(gk, 20):
        x["GK"] = low(gk, 20)


def near_sweep(chance, x):
    """GJ puts its sum with GO at the edge of 28 bits, or of J's lowest bit."""
    target = chance.choice((edge(chance, 28), 256 * close(chance) + close(chance)))
    x["GJ"] = low(target - signed(x["GO"], 20), 28)


def near_decay(chance, x):
    """GQ puts its sum with GP at an end of 0..2^24-1."""
    gq = chance.choice((0, 1 << 24)) + close(chance) - signed(x["GP"], 20)
    if 0 <= gq < 1 << 24:
        x["GQ"] = gq


def near_asymptote(chance, x):
    """GL puts V close to 0."""
    v = chance.text.reference.envelope(x["GMODE"], 0, x["GQ"])
    x["GL"] = low(close(chance) - v, 12)


# A quarter of the angles of 20 bits.
QUARTER = 1 << 18


def near_quarter(chance, x):
    """GK puts K close to the end of a quarter."""
    unit = chance.text.angle_unit
    end = QUARTER * chance.randint(-2, 2) + unit * close(chance)
    x["GK"] = low(end + chance.choice((0, 1, unit // 2, unit - 1)), 20)


def near_quarter_by_j(chance, x):
    """F puts J, and so K in the mode that goes by J, close to the end of a quarter."""
    unit = chance.text.angle_unit
    end = QUARTER * chance.randint(-2, 2) + unit * close(chance)
    x["F"] = low(end + chance.choice((0, 1, unit - 1)) - (x["GJ"] >> 8), 20)


def near_rounding(chance, x):
    """K and V are small, so that W times V is close to the middle between two P."""
    v = chance.text.reference.envelope(x["GMODE"], 0, x["GQ"])
    k = chance.choice((1, 2, 3, 4, 8, 16, 32))
    x["GK"] = low(chance.text.angle_unit * chance.choice((k, -k)), 20)
    x["GL"] = low((32 + 64 * chance.randrange(3)) // k + close(chance) - v, 12)


GENERATOR_SHAPES = (near_step_1, near_step_4, near_sweep, near_decay, near_asymptote,
                    near_quarter, near_quarter_by_j, near_rounding)
# Run modes in which P goes to a sum word.
HEARD = [mode for mode, switches in layout.RUN_MODES.items() if switches.envelope]
GMODES = NEW_TEXT.gmodes


def drawn_registers(chance):
    """A generator's registers by name, all but GMODE."""
    return {name: biased(chance, width) for name, width in zip(ELEVEN, layout.GENERATOR_WIDTHS)
            if name != "GMODE"}


def generator_request(chance, number):
    """A generator's turn; the modes and told go round with the number."""
    x, gmodes = drawn_registers(chance), chance.text.gmodes
    x["GMODE"] = gmodes[number // 2 % len(gmodes)]
    x["F"] = biased(chance, 20)
    if chance.randrange(2):
        x["GM"] = 0
    for shape in chance.choices(GENERATOR_SHAPES, k=chance.randrange(4)):
        shape(chance, x)
    return (TURNS[chance.text][0], *(x[name] for name in ELEVEN), x["F"], number % 2)


# Sums of cosines

def any_k(chance, x):
    """GK puts K anywhere."""
    x["GK"] = chance.getrandbits(20)


def cosines_request(chance, gn, gm):
    """A turn in 0100 that is heard: K mostly close to the end of a quarter, V enough to tell W."""
    x = drawn_registers(chance)
    run, env = chance.choice(HEARD), chance.randrange(4)
    x.update(GN=gn, GM=gm, GMODE=run << 6 | env << 4 | layout.SUM_OF_COSINES)
    chance.choice((near_quarter, near_quarter, near_quarter, any_k))(chance, x)
    v = chance.choice((64, 2048, 4095, chance.randint(64, 4095)))
    x["GL"] = low(v - envelope(env, 0, x["GQ"]), 12)
    return (GENERATOR, *(x[name] for name in ELEVEN), biased(chance, 20), chance.randrange(2))


def cosines_requests(chance):
    """A turn for every GN with every GM."""
    for gn, gm in pairs_of(range(1 << 11), range(1 << 4)):
        yield cosines_request(chance, gn, gm)


# Shapes of a modifier

def alike(chance, x):
    """A*M0 and B*M1 are equal or close, where the scales are the same."""
    x["M1"] = x["M0"]
    x["B"] = low(x["A"] + chance.choice((0, 0, 1, -1)), 20)


def unit(chance, x):
    """Both coefficients are one half and the signals small, so that products are close."""
    x["M0"], x["M1"] = 1 << 28, 1 << 28
    for name in ("A", "B", "L0", "L1"):
        x[name] = low(chance.randint(-4, 4), 20)


def near_threshold(chance, x):
    """L0 puts A*M0 + L0 close to 0 or to the edge of its range."""
    by_m0 = product(layout.left_scale(x["MMODE"]), x["A"], x["M0"] >> 10)
    x["L0"] = low(chance.choice((0, 1 << 19)) + close(chance) - by_m0, 20)


def near_sum(chance, x):
    """A puts L1*M1 + L0*M0 + A, or what the text has there, at the edge of its range."""
    x["A"] = low(edge(chance, 20) - chance.text.filtered(x), 20)


def near_coefficient(chance, x):
    """M0 and M1 put their sums with B at the edge of 30 bits."""
    for name in ("M0", "M1"):
        x[name] = low(edge(chance, 30) - signed(x["B"], 20), 30)


def powers(chance, x):
    """Powers of two, so that products vanish, wrap to 0 or lie at a half."""
    for name in ("A", "B", "L0", "L1"):
        x[name] = low(chance.choice((1, -1, 3, -3)) << chance.randrange(20), 20)
    for name in ("M0", "M1"):
        x[name] = low(chance.choice((1, -1)) << chance.randrange(10, 30), 30)


MODIFIER_SHAPES = (alike, unit, near_threshold, near_sum, near_coefficient, powers)


def modifier_request(chance, number):
    """A modifier's turn; functions and scales go round with the number."""
    x = {name: biased(chance, width) for name, width in zip(EIGHT, layout.MODIFIER_WIDTHS)
         if name != "MMODE"}
    x["MMODE"] = chance.text.mmodes[number % len(chance.text.mmodes)]
    x["MIN"], x["MRM"] = chance.randrange(192), chance.randrange(192)
    x["A"], x["B"] = biased(chance, 20), biased(chance, 20)
    for shape in chance.choices(MODIFIER_SHAPES, k=chance.randrange(3)):
        shape(chance, x)
    return (TURNS[chance.text][1], *(x[name] for name in EIGHT), x["A"], x["B"])


# Whole tables of the older text, heard in turns

RUNNING, PLUS_Q = old.RUNNING_A << 5, old.L_PLUS_Q << 3
# At this V P is W.
EVEN_V = 64


def old_wave_request(chance, mode, k, gm):
    """A turn that adds W at K."""
    x = drawn_registers(chance)
    gmode = RUNNING | PLUS_Q | mode
    e = k << 8 | chance.getrandbits(8)
    x.update(GK=e, GM=gm, GL=low(EVEN_V - (x["GQ"] >> 12), 12), GMODE=gmode, F=biased(chance, 20))
    if mode == old.COSINE_OF_J:
        x.update(GK=biased(chance, 20), F=low(e - (x["GJ"] >> 8), 20))
    return (OLD_GENERATOR, *(x[name] for name in ELEVEN), x["F"], 0)


def old_level_request(chance, mode, high):
    """A turn of a square wave that adds 16 times V, for high 12 bits of GQ."""
    x = drawn_registers(chance)
    x.update(GQ=high << 12 | chance.getrandbits(12), GMODE=RUNNING | mode << 3 | old.SQUARE)
    return (OLD_GENERATOR, *(x[name] for name in ELEVEN), biased(chance, 20), 0)


def old_table_requests(chance):
    """Every K in every wave that goes by it, every high 12 bits of a GQ in every envelope mode, every MMODE.

    Of functions that are not built all registers are 0."""
    for mode, k in pairs_of((old.SQUARE, old.SAWTOOTH, old.COSINE_OF_K, old.COSINE_OF_J), range(1 << 12)):
        yield old_wave_request(chance, mode, k, 0)
        if mode in (old.COSINE_OF_K, old.COSINE_OF_J):
            yield old_wave_request(chance, mode, k, 1 + k % 15)
    for mode, high in pairs_of(range(4), range(1 << 12)):
        yield old_level_request(chance, mode, high)
    yield from ((OLD_MODIFIER, *[0] * 7, mmode, 0, 0) for mmode in range(1 << 9))


# The whole of the requests

def table_requests(chance):
    """Every k, every high 14 bits of a GQ, every GMODE and MMODE."""
    yield from ((SINE, k) for k in range(8192))
    yield from ((EXPONENTIAL, high << 10 | chance.getrandbits(10)) for high in range(1 << 14))
    yield from ((BUILT, gmode, gmode % 512) for gmode in range(1024))


def word_requests(chance, count):
    """Products and sums of all extremes, then biased ones."""
    for a, b in pairs_of(EXTREMES[20], repeat=2):
        yield from ((PRODUCTS, s, a, b) for s in range(4))
        yield SUMS, a, b, biased(chance, 24)
    for a, gq in pairs_of(EXTREMES[20], EXTREMES[24]):
        yield SUMS, a, biased(chance, 20), gq
    for number in range(count):
        yield PRODUCTS, number % 4, biased(chance, 20), biased(chance, 20)
        a, b, gq = biased(chance, 20), biased(chance, 20), biased(chance, 24)
        if number % 2:
            b = low(edge(chance, 20) - signed(a, 20), 20)
            gq = low(close(chance) - signed(a, 20), 24)
        yield SUMS, a, b, gq


def all_requests(count, seed):
    """All requests, as a list of words each."""
    chance = Chance(seed)
    requests = list(table_requests(chance))
    requests += word_requests(chance, count // 4)
    requests += cosines_requests(chance)
    requests += (generator_request(chance, number) for number in range(count))
    requests += (modifier_request(chance, number) for number in range(count))
    chance = Chance(seed, OLD_TEXT)
    requests += old_table_requests(chance)
    requests += (generator_request(chance, number) for number in range(count))
    requests += (modifier_request(chance, number) for number in range(count))
    return requests
