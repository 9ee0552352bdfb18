"""Sum words that clipped over: the marks of a pass.

Generator-this words start at 3840, generator-last words at 3904. A sawtooth with V 4095 brings
262016 at K 4095 (GK 524287) and -262016 at K -4095; a square wave with V 4095 brings 131040 or,
at a negative K, -131040. The range of a sum word is -524288 to 524287.
"""

from reference.cases.build import generator, machine, memory, modifier, number
from reference.machine import run_pass
from reference.orders import compare


def tone(gk=0, word=9, mode="1111"):
    """A generator that adds 131040 into a word, or -131040 with GK -1."""
    return generator(mode + " 00 0010", GK=gk, GL=4095, GSUM=word, GFM=63)


def saw(gk, word=9):
    """A generator that adds 262016 into a word with GK 524287, -262016 with GK -524160."""
    return generator("1111 00 0001", GK=gk, GL=4095, GSUM=word, GFM=63)


def reader(gl=4095, word=9):
    """A 0111 whose P is 131040, or 0 with GL 0."""
    return generator("0111 00 0010", GL=gl, GSUM=word, GFM=63)


def passed(generators, begun=0, order=None, items=(), word=9, modifiers=()):
    """A pass of these generators that must be good; the word begins at a number."""
    made = machine(generators, modifiers, words={4113: max(len(generators), 1), 3840 + word: begun})
    order = range(made[4113]) if order is None else order
    done = run_pass(made, order, items, [0, 0], memory())
    assert done.number == 0, done.number
    return done


def marked(*arguments, **options):
    """The words that a pass marks."""
    marks = passed(*arguments, **options).clipped
    assert set(marks) <= {0, 1} and len(marks) == 64
    return [word for word in range(64) if marks[word]]


def additions():
    """An addition marks its word exactly if the signed sum left its range."""
    # 393247 + 131040 = 524287; one more leaves. -393248 - 131040 = -524288; one less leaves.
    yield "to 524287", marked([tone()], 393247), []
    yield "to 524288", marked([tone()], 393248), [9]
    yield "to -524288", marked([tone(-1)], -393248), []
    yield "to -524289", marked([tone(-1)], -393249), [9]
    # The word itself still wraps.
    left = passed([tone()], 393248).machine[3904 + 9]
    yield "wraps", number(left), -524288
    # From -1 the unsigned sum passes 2^20, the signed one does not leave: 131039.
    yield "from below 0", marked([tone()], -1), []
    yield "from above 0", marked([tone(-1)], 1), []
    # 4*131040 = 524160; the fifth leaves; the sixth, from -393376 on, does not.
    for count, words in ((4, []), (5, [9]), (6, [9])):
        yield f"{count} of them", marked([tone()] * count), words
    # 300000 + 262016 leaves, and -262016 leaves again, back to 300000.
    yield "out and back", marked([saw(524287), saw(-524160)], 300000), [9]
    yield "words 0 and 63", [marked([tone(word=w)], 393248, word=w) for w in (0, 63)], [[0], [63]]
    several = [tone(word=w) for w in (3, 5, 3, 5, 5, 3, 3, 5, 3)]
    yield "two words", marked(several), [3]
    for mode in ("1110", "1101"):
        yield mode, marked([tone(mode=mode)], 393248), [9]
    for mode in ("0000", "0001", "1001", "0010", "0011"):
        yield mode + " adds nothing", marked([tone(mode=mode)], 393248), []
    # A modifier that leaves its word's range, 524287 + 524287, marks nothing: a latch's S is L1.
    latches = [modifier("00100 00 00", L1=524287, MSUM=9)] * 2
    idle = [generator("0000 00 0000")] * 4
    done = passed(idle, modifiers=latches)
    yield "modifiers", (sum(done.clipped), number(done.machine[4032 + 9])), (0, -2)
    # Marks are of one pass: in the next one the word begins at 0.
    again = run_pass(passed([tone()], 393248).machine, [0], [], [], memory())
    yield "the next pass", sum(again.clipped), 0


def replacements():
    """A read replacement marks its word exactly if P plus the item left its range."""
    # P is 131040; the word itself, here at an end, doesn't count.
    yield "to 524287", marked([reader()], 524287, items=[393247]), []
    yield "to 524288", marked([reader()], items=[393248]), [9]
    down = generator("0111 00 0010", GK=-1, GL=4095, GSUM=9, GFM=63)
    yield "to -524288", marked([down], -524288, items=[1048576 - 393248]), []
    yield "to -524289", marked([down], items=[1048576 - 393249]), [9]
    # Of an item the low 20 bits count, signed: 393247, -1 and 0.
    yield "high bits", marked([reader()], items=[0xFFF00000 | 393247]), []
    yield "high bits of a small item", marked([reader()], items=[0x7FF00000]), []
    yield "20 bits set", marked([reader()], items=[0xFFFFF]), []
    yield "all bits set", marked([reader()], items=[0xFFFFFFFF]), []
    yield "P 0", marked([reader(0)], items=[524288]), []


def kept():
    """A mark stays, whatever is done to its word later in the pass."""
    # 393248 + 131040 leaves; then P 0 and item 5 replace.
    replaced = passed([tone(), reader(0)], 393248, items=[5])
    yield "a mark stays", (replaced.clipped[9], replaced.machine[3904 + 9]), (1, 5)
    yield "replaced before", marked([reader(0), tone()], 393248, items=[5]), []
    twice = [reader(), tone(), reader(0)]
    yield "a replacement's mark stays", marked(twice, items=[393248, 5]), [9]
    yield "by other words", marked([reader(), tone(word=8), reader(0, 8)], items=[393248, 5]), [9]


def of_orders():
    """Marks depend on the order of adding: equal orders may differ in them, and in nothing else."""
    # 300000 + 262016 leaves; 300000 - 262016 + 262016 never does.
    made = machine([saw(524287), saw(-524160)], words={4113: 2, 3840 + 9: 300000})
    one, other = (run_pass(made, order, [], [], memory()) for order in ([0, 1], [1, 0]))
    yield "equal", compare(made, [0, 1], [1, 0]), (0, True)
    yield "other marks", (one.clipped[9], other.clipped[9]), (1, 0)
    yield "nothing else", one._replace(clipped=[]) == other._replace(clipped=[]), True


GROUPS = (
    ("marks, additions", additions),
    ("marks, read replacements", replacements),
    ("marks that stay", kept),
    ("marks and orders", of_orders),
)
