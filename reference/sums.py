"""Sum memory words: adding, replacing, and the marks of words that clipped over (request Q-6).

Adding and replacing also tell whether the signed sum left its range.
"""

from reference.faults import faults
from reference.layout import QUADRANT_WORDS, SUM_WIDTH
from reference.words import leaves_range, low, signed


def clips(one, other):
    """Whether the signed sum of two 20-bit words leaves its range."""
    if faults.unsigned_carry_marks:
        return one + other >> SUM_WIDTH != 0
    return leaves_range(signed(one, SUM_WIDTH) + signed(other, SUM_WIDTH), SUM_WIDTH)


def add_to(machine, place, word):
    """Adds a 20-bit word into a sum word, in place."""
    clipped = clips(machine[place], word)
    machine[place] = low(machine[place] + word, SUM_WIDTH)
    return clipped


def replace_by(machine, place, word, item):
    """A 20-bit word plus a read item, of which the low 20 bits count, replaces, in place."""
    machine[place] = low(word + item, SUM_WIDTH)
    if faults.item_high_bits_mark:
        return leaves_range(signed(word, SUM_WIDTH) + signed(item, 32), SUM_WIDTH)
    return clips(word, low(item, SUM_WIDTH))


# Marks, one for each generator-this word

def no_marks():
    """Marks of which none is set."""
    return [0] * QUADRANT_WORDS


def all_marks():
    """Marks that are all set."""
    return [1] * QUADRANT_WORDS


def mark(marks, word, clipped, replaced):
    """Sets the mark of a word if a sum into it left its range, in place; it is never cleared."""
    if faults.mark_of_next_word:
        word = (word + 1) % QUADRANT_WORDS
    if faults.only_last_sum_marks or faults.replacement_clears_mark and replaced:
        marks[word] = 0
    if clipped and not (faults.replacement_never_marks and replaced):
        marks[word] = 1
