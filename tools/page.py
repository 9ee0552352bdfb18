"""The drawer's page: one file that opens without a network and prints on one or two sheets."""

from html import escape

STYLE = """
body { font: 15px/1.4 sans-serif; max-width: 60em; margin: 1.5em auto; padding: 0 1em; color: #111; }
h1 { font-size: 1.5em; margin: 0; } h2 { font-size: 1.1em; margin: 1.1em 0 0.3em; }
table { border-collapse: collapse; } td, th { padding: 0.1em 0.8em 0.1em 0; text-align: right; vertical-align: top; }
th { border-bottom: 1px solid #888; font-weight: 600; } td:first-child, th:first-child { text-align: left; }
.words td { text-align: left; } pre { font-size: 0.8em; line-height: 1.25; overflow-x: auto; } img { max-width: 100%; }
.sums { font: 0.7em/1.35 monospace; overflow-wrap: anywhere; } audio { width: 24em; max-width: 100%; vertical-align: middle; }
@page { size: A4; margin: 12mm; }
@media print { body { font-size: 9.5px; line-height: 1.25; margin: 0; padding: 0; max-width: none; } .heard { display: none; } h2 { margin: 0.5em 0 0.15em; } p { margin: 0.2em 0; }
  pre { font-size: 7px; line-height: 1.15; white-space: pre-wrap; margin: 0.2em 0; } img { display: block; } img.bell { max-height: 112mm; } img.cut { max-height: 66mm; }
  .made { font-size: 7.5px; } .sums { font-size: 5.6px; column-count: 2; } }
"""


def table(heads, rows, kind=""):
    """A table of cells."""
    head = f"<tr>{''.join(f'<th>{escape(cell)}</th>' for cell in heads)}</tr>\n" if heads else ""
    body = "".join(f"<tr>{''.join(f'<td>{escape(cell)}</td>' for cell in row)}</tr>\n" for row in rows)
    return f"<table{f' class={kind}' if kind else ''}>\n{head}{body}</table>\n"


def sound(words, path):
    """A sound that can be played."""
    return f'<p>{escape(words)}<br><audio controls preload="metadata" src="{escape(path, quote=True)}"></audio> <a href="{escape(path, quote=True)}">{escape(path)}</a></p>\n'


def lines(text):
    """Lines as they were printed."""
    return f"<pre>{escape(text.rstrip())}</pre>\n"


def section(head, body, kind=""):
    return f'<section{f" class={kind}" if kind else ""}>\n<h2>{escape(head)}</h2>\n{body}</section>\n'


def page(title, decided, rows, measured, answers, heard, cut, versions, sums):
    """The page. decided and versions: pairs; rows: cells of the table of partials; measured and answers: lines; heard: sounds by words; cut: lines and picture, or nothing."""
    partials = table(("partial", "Hz", "dB", "T60 in s", "channel"), rows)
    parts = [
        section("What was decided", table((), decided, "words")),
        section("Heard", "".join(sound(words, path) for words, path in heard), "heard"),
        section("The table of partials", partials),
        section("May its generators be sorted by pitch?", "".join(f"<p>{escape(line)}</p>\n" for line in answers)),
        section("What was measured in its sound", lines(measured) + '<img class="bell" src="bell.png" alt="waveform, spectrum and decays of the bell">\n'),
        *([section("The cut", lines(cut[0]) + f'<img class="cut" src="{escape(cut[1], quote=True)}" alt="spectra before and after">\n')] if cut else []),
        section("Made with", table((), versions, "words"), "made"),
        section("Files (SHA-256)", "<p class=sums>" + "<br>\n".join(f"{digest} {escape(name)}" for name, digest in sums) + "</p>\n"),
    ]
    return f'<!DOCTYPE html>\n<html lang="en">\n<head>\n<meta charset="utf-8">\n<meta name="viewport" content="width=device-width">\n<link rel="icon" href="data:,">\n<title>{escape(title)}</title>\n<style>{STYLE}</style>\n</head>\n<body>\n<h1>{escape(title)}</h1>\n{"".join(parts)}</body>\n</html>\n'
