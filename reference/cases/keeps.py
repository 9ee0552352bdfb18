"""Changes of one partial at a time, by hand."""

from reference.cases.build import generator, machine, places_changed
from reference.keep import DAC, GFM, GMODE, GSUM, TICK_FEWER, TICK_MORE, change, keep

B, WAIT = generator("1110 00 0000"), generator("1001 00 0000")


def after(made, *changes):
    """The words that changes altered, by place, and the last number and answer."""
    done, first = None, made
    for one in changes:
        done = change(made, *one)
        made = done.machine
    return places_changed(first, made), done.number, done.alike


def changes():
    """Each kind, refused and not."""
    pair = machine([B, WAIT], words={4113: 2})
    yield "kept", keep(pair), (0, False)
    yield "GMODE", after(pair, (GMODE, 1, 960)), ({21: 960}, 0, True)
    yield "not built", after(pair, (GMODE, 1, 64 * 12)), ({}, 2, False)
    yield "GSUM", after(pair, (GSUM, 0, 63)), ({8: 63}, 0, False)
    yield "GSUM 64", after(pair, (GSUM, 0, 64)), ({}, 2, False)
    yield "GFM", after(pair, (GFM, 1, 127)), ({20: 127}, 0, False)
    yield "GFM 128", after(pair, (GFM, 1, 128)), ({}, 2, False)
    feeders = [generator("0010 00 0000", GO=0x12345, GFM=gfm) for gfm in (1, 2)]
    feeds = machine(feeders, words={4113: 2})
    yield "two feeders", keep(feeds), (0, False)
    yield "DAC", after(feeds, (DAC, 1, 6)), ({11: 0x12346}, 0, True)
    yield "DAC 16", after(feeds, (DAC, 1, 16)), ({}, 2, False)
    # N is 265: T 1 leaves 256 update ticks, T 3 leaves 254.
    yield "one tick fewer", after(pair, (TICK_FEWER, 999, 999)), ({4113: 1, 4343: 256}, 0, True)
    yield "one tick more", after(pair, (TICK_MORE, 999, 999)), ({4113: 3, 4343: 254}, 0, False)
    yield "back", after(pair, (TICK_FEWER, 0, 0), (TICK_MORE, 0, 0)), ({}, 0, False)
    yield "T 0", after(machine(), (TICK_FEWER, 0, 0)), ({}, 2, True)
    yield "T 257", after(machine(words={4113: 256}), (TICK_MORE, 0, 0)), ({}, 2, True)
    yield "generator 255", after(pair, (GSUM, 255, 5)), ({11 * 255 + 8: 5}, 0, False)
    yield "generator 256", after(pair, (GSUM, 256, 5)), ({}, 2, False)
    yield "generator 2^32-1", after(pair, (GSUM, 4294967295, 5)), ({}, 2, False)
    yield "a seventh kind", after(pair, (6, 0, 0)), ({}, 2, False)
    wide = list(pair)
    wide[10] = 1023
    yield "2", change(wide, GMODE, 0, 960)[::2], (2, False)
    yield "1", change(pair[1:], GMODE, 0, 960)[::2], (1, False)


GROUPS = (("changes of one partial", changes),)
