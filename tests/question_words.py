"""Compares the tools' own reader of bench files (tools/questions.py), which says in words why a file is refused, with the programs:
it finds something wrong with a text exactly where they answer 9 or 13, and with a machine exactly where they answer 2.

    /usr/bin/python3 tests/question_words.py [COUNT] [SEED]

The programs ring and sorted must be built. The files are those of tests/files and examples, those by hand in
tests/ring_files.py, COUNT of its files at random, a third of them damaged, those of tests/sorted_requests.py, and those with text=
lines of tests/text_files.py. Each sentence names a line that the file has.
"""

import os
import re
import subprocess
import sys
from collections import Counter
from concurrent.futures import ThreadPoolExecutor
from itertools import chain

import ring_files
import sorted_requests
import text_files
from library import ROOT, program_of

sys.path.append(os.path.join(ROOT, "tools"))
import questions  # noqa: E402

COUNT, SEED = 500, 1978
RING, SORTED = map(program_of, ("ring", "sorted"))
REFUSED = re.compile(rb"refused=(\d+)\n")
LEAST = {0: 900, 2: 300, 9: 500, 13: 30}  # how often each verdict must have been met
# What must have been said at least once of a text that is no bench file.
CAUSES = ("CR LF", "ends lines in CR", "byte-order mark", "no LF at its end", "leading zero", "a value is below 2^32", "places go from 0 to 4342", "at most 65535", "passes= is missing",
          "passes= is there twice", "out of sequence", "is empty", "more than 65536 bytes", "neither word= nor command=", "no decimal number", "has a blank in it", "without its colon",
          "capitals A to F", "8 hexadecimal digits", "the file is empty", "is missing", "text= is there twice", "the very first line", "has no commands", "missing after text=",
          "follows text=1978 or text=old", "built in the older text", "000 in run mode 000 alone")


def texts(count, seed):
    """The files. What the reference prints for them isn't asked here."""
    ring_files.ring = lambda text, seen: b""
    ring_files.known = lambda name, text, printed: ring_files.File(name, text, printed, Counter())
    for folder, ending in (("tests/files", ".bench"), ("examples", ".txt")):
        for name in sorted(os.listdir(os.path.join(ROOT, folder))):
            if name.endswith(ending):
                with open(os.path.join(ROOT, folder, name), "rb") as file:
                    yield file.read()
    groups = (ring_files.ringing, ring_files.delay_files, ring_files.numbers, ring_files.sizes, ring_files.not_fitting)
    yield from (text for group in groups for _, text in group())
    yield from (made.text for made in chain(ring_files.echoes(), ring_files.long_ringing(), ring_files.at_random(count, seed)))
    yield from (made.text for made in sorted_requests.all_inputs(count // 5, seed))
    yield from every_place()
    yield from (text for _, text in text_files.made_by_hand())
    yield from (text for _, text in text_files.drawn_texts(count // 5, seed))
    yield from (b"text=old\n" + text for text in every_place())


def every_place():
    """Each word of a generator, a modifier, a delay unit and the rest at the most that it may have, and one more."""
    ends = (0, 1, 255), (0, 127), (0, 31)
    places = [11 * g + j for g in ends[0] for j in range(11)] + [2816 + 8 * m + j for m in ends[1] for j in range(8)] + [4119 + 7 * u + j for u in ends[2] for j in range(7)]
    for place in chain(places, range(3840, 4119, 9), range(4112, 4119)):
        for value in (0, 1, questions.RANGES[place][1], questions.RANGES[place][1] + 1):
            if value < 2 ** 32:
                yield ring_files.bench(1, ((place, value),))
    for place, values in ((10, range(0, 1024, 16)), (10, range(16)), (2823, range(0, 512, 16)), (2820, range(0, 256, 32)), (2821, range(0, 256, 32)), (4122, range(16))):
        yield from (ring_files.bench(1, ((place, value),)) for value in values)


def refused_by(program, text):
    """The number with which a program refuses a text at once, else 0. A text is rung once at most."""
    text = re.sub(rb"^((?:text=[^\n]*\n)?)passes=([1-9][0-9]{0,4})\n", lambda found: found[1] + b"passes=1\n" if int(found[2]) <= questions.PASSES_MOST else found[0], text) if program == RING and len(text) <= questions.FILE_MOST else text
    done = subprocess.run([program], input=text, stdout=subprocess.PIPE, stderr=subprocess.PIPE, timeout=60)
    assert done.returncode == 0 and not done.stderr, done
    found = REFUSED.fullmatch(done.stdout)
    return int(found[1]) if found else 0


def judged(text):
    """What both programs say of a text, and the reader here."""
    by_ring = refused_by(RING, text)
    return by_ring if by_ring in (9, 13) else 0, refused_by(SORTED, text), questions.verdict(text)


def faults(text, verdict):
    """What is wrong with the words for a refusal."""
    said = questions.reasons(text, verdict)
    if bool(said) != (verdict in (2, 9, 13)):
        yield f"{verdict} in {len(said)} sentences"
    for sentence in said:
        line = re.match(r"line (\d+)", sentence)
        if line and not 1 <= int(line[1]) <= text.count(b"\n") + 1 or not sentence.isprintable():
            yield sentence


def main(arguments):
    count, seed = (int(word) for word in (arguments + [COUNT, SEED][len(arguments):])[:2])
    met, differ, causes = Counter(), 0, set()
    with ThreadPoolExecutor(2) as pool:
        tried = list(dict.fromkeys(texts(count, seed)))
        for text, (by_ring, by_sorted, here) in zip(tried, pool.map(judged, tried)):
            wrong = list(faults(text, by_sorted))
            if by_sorted not in (9, 13, 2):
                by_sorted = 0
            if here != by_sorted or by_ring != (here if here in (9, 13) else 0) or wrong:
                differ += 1
                print(f"the programs say {by_ring} and {by_sorted}, the reader {here} {wrong}: {text[:200]!r}")
            met[here] += 1
            causes.update(cause for cause in CAUSES for said in questions.reasons(text, here) if cause in said)
    seldom = [str(verdict) for verdict, least in LEAST.items() if met[verdict] < least * min(1, count / COUNT)] + [cause for cause in CAUSES if cause not in causes]
    print(f"question words: {len(tried)} files ({met[0]} good, {met[2]} refused with 2, {met[9]} with 9, {met[13]} with 13): {differ} differ" + (f"; met too seldom: {', '.join(seldom)}" if seldom else ""))
    return 1 if differ or seldom else 0


if __name__ == "__main__":
    sys.exit(main(sys.argv[1:]))
