"""A bench file drawn by graphviz: generators, sum words, modifiers, delay units and DACs with arrows along the signal."""

import html
import shutil
import subprocess

from command_line import Ending, Status
from reference import layout
from reference.delay import unit_words
from registers import function_of, is_taken, seconds, wave_of
from suspects import named_units
from wiring import LAST, SENDERS, MOVING, TRIGGERING, modifier_reads, modulation_word, takes_f

TITLE = "karvelorn"
COLOURS = {"generator": "#dce9f7", "sender": "#e8e8e8", "word": "#ffffff", "modifier": "#fbe7cf", "unit": "#dff2df", "dac": "#f7dcdc"}

# A graph of more nodes is laid out with straight arrows and less search: 2 s rather than 98 s for 376 nodes and 570 arrows.
LARGE, QUICK = 150, ("-Gnslimit=1", "-Gnslimit1=1", "-Gmclimit=0.2", "-Gsplines=line")


def quoted(text):
    """A text as graphviz takes it."""
    return '"' + text.replace("\\", "\\\\").replace('"', '\\"').replace("\n", "\\n") + '"'


def node(name, text, kind, shape):
    """A node."""
    return f"  {name} [label={quoted(text)}, shape={shape}, style=filled, fillcolor={quoted(COLOURS[kind])}];"


def word_name(word):
    return f"word_{word[0]}{word[1]}"


def generator_text(file, g):
    """What stands in a generator's node."""
    words = file.generator(g)
    name = f"\n{file.names[g]}" if g in file.names else ""
    if file.run_mode(g) in SENDERS:
        return f"generator {g}"
    return f"generator {g}{name}\n{wave_of(file.text, words[layout.GMODE])}\n{file.hz(g):.2f} Hz" + ("\nwaits" if file.run_mode(g) == layout.WAIT else "")


def generator_parts(wiring, words_used):
    """Generators below T that do something, with what they write, read and set off."""
    file = wiring.file
    for g in range(wiring.t):
        mode, words = file.run_mode(g), file.generator(g)
        if mode in (layout.INACTIVE, layout.PAUSE):
            continue
        yield node(f"generator_{g}", generator_text(file, g), "sender" if mode in SENDERS else "generator", "box")
        source = modulation_word(words[layout.GFM])
        if takes_f(file.text, words) and (mode in SENDERS or source in wiring.possible):
            words_used.add(source)
            yield f"  {word_name(source)} -> generator_{g}" + (";" if mode in SENDERS else " [style=dotted, label=\"modulates\"];")
        dac = file.text.dac_fed(words)
        if dac is not None:
            yield f"  generator_{g} -> dac_{dac};"
        elif mode not in SENDERS:
            words_used.add(("g", words[layout.GSUM]))
            yield f"  generator_{g} -> {word_name(('g', words[layout.GSUM]))}" + (" [label=\"replaces\"];" if mode == layout.READ_DATA else ";")
        upper = wiring.triggered_by(g)
        if mode in (*TRIGGERING, *MOVING) and upper is not None:
            yield f"  generator_{g} -> generator_{upper} [style=dashed, label=\"sets off\", constraint=false];"


def modifier_parts(wiring, words_used):
    """Modifiers with their inputs, their delay units and the word that each writes."""
    file, units = wiring.file, named_units(wiring)
    for m in wiring.active_modifiers():
        words = file.modifier(m)
        yield node(f"modifier_{m}", f"modifier {m}\n{function_of(file.text, words[layout.MMODE]).name}", "modifier", "box")
        for read in (read for read in modifier_reads(file.text, m, words) if is_taken(file.text, words, read.by)):
            words_used.add(read.word)
            yield f"  {word_name(read.word)} -> modifier_{m} [label={quoted(read.by + ('' if read.when == LAST else f', {read.when}'))}];"
        target = ("m", words[layout.MSUM] & 63)
        words_used.add(target)
        yield f"  modifier_{m} -> {word_name(target)}" + (" [label=\"replaces\"];" if layout.replaces(words[layout.MSUM]) else ";")
        if m in units:
            yield f"  modifier_{m} -> unit_{units[m]} [dir=both];"
    for u in sorted(set(units.values())):
        _, _, z, p = unit_words(file.machine, u)[:4]
        what = {layout.DELAY_LINE: f"line, {seconds(z + 3, file.rate)}", layout.DELAY_INACTIVE: "inactive"}.get(p, "table")
        yield node(f"unit_{u}", f"delay unit {u}\n{what}", "unit", "box3d")


def dot_text(wiring):
    """The graph as graphviz reads it."""
    words_used = set()
    parts = [*generator_parts(wiring, words_used), *modifier_parts(wiring, words_used)]
    for word in sorted(words_used):
        parts.append(node(word_name(word), f"{'generator' if word[0] == 'g' else 'modifier'}\nsum word {word[1]}" + ("" if word in wiring.possible else "\n(never written)"), "word", "ellipse"))
    for dac in sorted(wiring.feeders()):
        parts.append(node(f"dac_{dac}", f"DAC {dac}" + ("\nleft", "\nright", "")[min(dac, 2)], "dac", "house"))
    head = [f"digraph {TITLE} {{", "  rankdir=LR;", f"  label={quoted(wiring.file.path + (', by the older text' if wiring.file.is_old else '') + (', as it begins, before its commands' if wiring.file.commands else ''))};", "  labelloc=t;",
            "  node [fontname=\"Helvetica\", fontsize=11];", "  edge [fontname=\"Helvetica\", fontsize=9];"]
    return "\n".join([*head, *parts, "}", ""])


def picture(wiring):
    """The graph as SVG."""
    program = shutil.which("dot")
    if not program:
        raise Ending("no graph was drawn: graphviz is needed for it: apt install graphviz", Status.MISSING)
    text = dot_text(wiring)
    done = subprocess.run([program, "-Tsvg", *(QUICK if text.count("shape=") > LARGE else ())], input=text.encode("utf-8", "backslashreplace"), stdout=subprocess.PIPE, stderr=subprocess.PIPE)
    if done.returncode or not done.stdout.rstrip().endswith(b"</svg>"):
        raise Ending(f"no graph was drawn: dot ended with {done.returncode}: {done.stderr.decode(errors='replace').strip()}", Status.FAULT)
    return done.stdout


def made_here(path):
    """Whether a file is a graph that show drew."""
    try:
        with open(path, "rb") as file:
            head = file.read(2000)
    except OSError:
        return False
    return b"Generated by graphviz" in head and f"<!-- Title: {html.escape(TITLE)} ".encode() in head
