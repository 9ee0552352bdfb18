"""Compares the bench program with the reference.

    python3 tests/ring.py [--text old] [--dry] [--fault NAME] [COUNT] [SEED]

The program ring must be built. It rings, within a stack of 512 kB, the files of tests/files
(each .bench with its .lines, written by hand), those made by hand in tests/ring_files.py
and COUNT random and damaged ones. With --text old they are those of tests/text_files.py, with
text= lines. Fails too where these met something too seldom. With --dry the program is not run.
With --fault it is not run either: it is said for how many of the files a fault of
reference/faults.py shows.
"""

import sys
from itertools import chain

from library import program_of, read_arguments

import text_files
from reference.faults import switched_on
from reference.ring import ring
from ring_files import at_random, by_hand, written_out
from ringing import PROMISED, compared
from texts import OLD_TEXT

# Half as many again of the older text's, which are shorter.
COUNT, COUNT_OLD, SEED = 1000, 1500, 1978


def showing(files, fault):
    """Says for how many files a fault shows; gives the exit status."""
    tried = list(files)
    with switched_on(fault):
        shows = sum(ring(made.text) != made.printed for made in tried)
    print(f"fault {fault} shows for {shows} of {len(tried)} files")
    return 0 if shows else 1


def main(arguments):
    """Reads the arguments; see the head of this file."""
    options = read_arguments(arguments, None, SEED)
    old = options.text is OLD_TEXT
    count = options.count or (COUNT_OLD if old else COUNT)
    program = program_of("ring")
    if old:
        files = chain(text_files.by_hand(), text_files.at_random(count, options.seed))
    else:
        files = chain(written_out(), by_hand(), at_random(count, options.seed))
    if options.fault:
        return showing(files, options.fault)
    return compared("ring", program, files, options,
                    promised=text_files.PROMISED if old else PROMISED)


if __name__ == "__main__":
    sys.exit(main(sys.argv[1:]))
