"""Numbers for chains of modifiers: by hand, and all small chains by every numbering."""

from itertools import combinations, product

from reference.chain import EARLY_DISTANCE, LATE_DISTANCE, chain_numbers

BEFORE = list(range(1000, 1128))


def runs_of(chain):
    """The two runs of a chain given as pairs of "early" or "late" and names."""
    entries, names = [], []
    for read, named in chain:
        names += named
        entries += [int(read == "early"), len(names)]
    return entries, names


def numbers(*chain):
    """The numbers of a chain, or the question that refuses it."""
    answer = chain_numbers(*runs_of(chain), BEFORE)
    if answer.number:
        assert answer.numbers == BEFORE
        return answer.number
    assert answer.numbers[len(chain):] == BEFORE[len(chain):]
    return answer.numbers[:len(chain)]


def given():
    """Chains by hand."""
    early, late = "early", "late"
    yield "none", numbers(), []
    yield "one", numbers((late, [])), [0]
    yield "plain", numbers(*[(late, [])] * 5), [0, 1, 2, 3, 4]
    yield "early, nothing named", numbers((early, []), (early, [])), [0, 1]
    yield "early by 4", numbers((late, []), (early, [0])), [0, 4]
    yield "late by 1", numbers((late, []), (late, [0])), [0, 1]
    yield "the one before too", numbers((late, []), (late, []), (late, []), (late, []), (late, []),
                                        (late, []), (early, [0])), [0, 1, 2, 3, 4, 5, 6]
    yield "the highest", numbers((late, []), (early, [0]), (early, [0, 1, 0])), [0, 4, 8]
    yield "late after early", numbers((late, []), (early, [0]), (late, [0])), [0, 4, 5]
    yield "its own names", numbers((late, []), (late, [0]), (early, [])), [0, 1, 2]
    yield "128", numbers(*[(late, [])] * 128), list(range(128))
    yield "129", numbers(*[(late, [])] * 129), 15
    steps = [(early, [i - 1] if i else []) for i in range(33)]
    yield "32 early", numbers(*steps[:32]), [4 * i for i in range(32)]
    yield "33 early", numbers(*steps), 15
    yield "names its own", numbers((late, []), (late, [1])), 14
    yield "names a later one", numbers((late, [1]), (late, [])), 14
    yield "outside", numbers((late, []), (late, [2])), 14
    yield "far outside", numbers((late, []), (late, [(1 << 32) - 1])), 14
    yield "the first names itself", numbers((late, [0])), 14
    yield "14 before 15", numbers(*[(late, [])] * 200, (late, [200])), 14


def forms():
    """Runs that don't fit."""
    for name, entries, names in (
            ("odd", [0], []), ("odd, three", [0, 0, 0], []), ("2 for early", [0, 0, 2, 0], []),
            ("ends fall", [0, 0, 0, 2, 0, 1], [0, 0]), ("past the names", [0, 0, 0, 1], []),
            ("left over", [0, 0, 0, 1], [0, 0]), ("names without entries", [], [0]),
            ("counts for ends", [0, 0, 0, 1, 0, 1], [0, 1])):
        yield name, chain_numbers(entries, names, BEFORE), (14, BEFORE)


# Every numbering

HIGHEST = 12


def chains(size):
    """All chains of a size, in which no entry names another twice."""
    subsets = [[list(names) for count in range(i + 1) for names in combinations(range(i), count)]
               for i in range(size)]
    for reads in product(("early", "late"), repeat=size):
        for names in product(*subsets):
            yield list(zip(reads, names))


def holds(chain, numbering):
    """Whether a rising numbering keeps every writer far enough below its readers."""
    return all(numbering[j] + (EARLY_DISTANCE if read == "early" else LATE_DISTANCE) <= numbering[i]
               for i, (read, names) in enumerate(chain) for j in names)


def every_numbering():
    """The numbers given hold, and none of all rising numberings that hold is lower anywhere."""
    tried, bad = 0, 0
    for size in range(1, 5):
        rising = list(combinations(range(HIGHEST + 1), size))
        for chain in chains(size):
            found, tried = numbers(*chain), tried + 1
            good = [numbering for numbering in rising if holds(chain, numbering)]
            lowest = [min(column) for column in zip(*good)]
            bad += found != lowest or not holds(chain, found)
    yield "chains", tried, 1098
    yield "not the earliest", bad, 0


GROUPS = (
    ("chains of modifiers", given),
    ("chains that do not fit", forms),
)
TRIALS = (("chains by every numbering", every_numbering),)
