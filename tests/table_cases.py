"""Cases of tests/tools.py about tables of partials: those that are not understood, those of spreadsheets, and the example."""

import re
from pathlib import Path

from calls import ROOT, Status, call, names, refused, run
import partials

BELL, TABLE_OF_BELL = ROOT / "examples" / "bell.txt", ROOT / "examples" / "bell.csv"
PYTHON = "/usr/bin/python3"
HEADS = "name,hz,db,t60\n"
ONE = HEADS + "hum,100,0,1\n"
# A table, what is asked for beside it, and a part of the sentence.
BAD_TABLES = [
    ("", (), "the first line must have name, hz, db, t60"),
    ("name,hz\nhum,100\n", (), "line 1: the heads lack db, t60"),
    ("name,hz,dB,t60,pan\nhum,100,0,1,left\n", (), "line 1, column 5: not a head of a table: 'pan'"),
    ("name,hz,db,t60,Hz\nhum,100,0,1,1\n", (), "line 1, column 5: the head hz is there twice"),
    (HEADS, (), "no partial"),
    (HEADS + "hum,100,0\n", (), "line 2, column 3: 3 columns where the first line has 4"),
    (HEADS + "hum,100,0,1,9\n", (), "line 2, column 5: 5 columns where the first line has 4"),
    (HEADS + "hum,low,0,1\n", (), "line 2, column 2 (hz): the frequency is not a number: 'low'"),
    (HEADS + "# a comment\n\nhum,100,0,1\nprime,-100,0,1\n", (), "line 5, column 2 (hz): the frequency must be above 0"),
    (HEADS + "hum,nan,0,1\n", (), "line 2, column 2 (hz): the frequency is not a number"),
    (HEADS + "hum,1_000,0,1\n", (), "line 2, column 2 (hz): the frequency is not a number"),
    (HEADS + "hum,100,loud,1\n", (), "line 2, column 3 (db): the level is not a number"),
    (HEADS + "hum,100,-10000,1\n", (), "line 2, column 3 (db): the level must be above -200 and below 200"),
    (HEADS + "hum,100,-150,1\n", ("--gain", "0"), "every partial is too quiet"),
    (HEADS + "hum,100,0,inf\n", (), "line 2, column 4 (t60): the decay is not a number"),
    (HEADS + "hum,100,0,1e999\n", (), "line 2, column 4 (t60): the decay must be above 0"),
    (HEADS + "hum,100,0,0\n", (), "line 2, column 4 (t60): the decay must be above 0"),
    (HEADS + "hum,100,0,1\nhum,200,0,1\n", (), "line 3, column 1 (name): a name that is empty or was there before"),
    ("name,hz,db,t60,channel\nhum,100,0,1,middle\n", (), "line 2, column 5 (channel): the channel must be left, right or both"),
    ("name,hz,db,t60,channel\nhum,noise,0,1,left\n", (), "line 2, column 5 (channel): noise goes to both"),
    (HEADS + "a,noise,0,1\nb,noise,0,1\n", (), "line 3, column 2 (hz): the table has more than one row of noise"),
    ("name;hz;db;t60\nhum;100,5;0;1\nprime;1.234;0;1\n", (), "line 3, column 2 (hz): the frequency has a point in a table with decimal commas"),
    ("name;hz;db;t60\nhum;1.234,5;0;1\n", (), "line 2, column 2 (hz)"),
    ("name;hz;db;t60\nhum;1,234,5;0;1\n", (), "line 2, column 2 (hz): the frequency is not a number"),
    (HEADS + '"hum,100,0,1\n', (), "line 2"),
    (HEADS + '"hu\nm",100,0,1\n', (), "line 2, column 1 (name): a name with a character that can't be printed"),
    (HEADS + '"# a remark\nof two lines",,,\nhum,low,0,1\n', (), "line 4, column 2 (hz): the frequency is not a number"),
    (b"name;hz;db;t60\nhum;100;0;1\ngl\xf6ckchen;200;0;1\n", (), "line 3, column 1: the byte F6 is no UTF-8"),
    (b"\xff\xfen\x00a\x00", (), "line 1, column 1: not a head of a table: 'na'"),
    (b"\xff\xfen", (), "not UTF-16"),
    (HEADS + "hum,9700,0,1\n", (), "line 2: hum at 9700 Hz needs more than 19400 passes a second"),
    (HEADS + "".join(f"p{i},{100 + i},0,1\n" for i in range(255)), ("--rate", "5100"), "257 generators are needed"),
    (HEADS + "".join(f"p{i},{100 + i},0,1\n" for i in range(254)), ("--rate", "20000"), "too short for 256 generators"),
    (ONE, ("--rate", "4000"), "N goes from 2 to 1025"),
    (ONE, ("--seconds", "14"), "N goes from 2 to 1025"),
]
# Options with which nothing is tried.
BAD_OPTIONS = [
    (("--seconds", "3", "--rate", "20000"), "not for both"),
    (("--passes", "65536"), "1 to 65535 passes"), (("--passes", "0"), "1 to 65535 passes"), (("--passes", "-1"), "1 to 65535 passes"), (("--passes", "x"), "invalid int value"),
    (("--seconds", "inf"), "argument --seconds"), (("--seconds", "0"), "argument --seconds"), (("--rate", "nan"), "argument --rate"), (("--rate", "1e-300"), "argument --rate"),
    (("--gain", "1e8"), "argument --gain"), (("--gain", "loud"), "argument --gain"), (("--loud",), "unrecognized arguments"),
]
PLAIN = "name,hz,db,t60,channel\nhum,219.2,-8,14,both\nGroße Terz,440.5,-6.25,7.5,left\n"
COMMAS = PLAIN.replace(",", ";").replace(".", ",")
# The same table as spreadsheets and people write it.
GOOD_TABLES = [
    "\ufeff" + PLAIN, PLAIN.replace("\n", "\r\n"), PLAIN.replace("\n", "\r"), PLAIN.rstrip("\n"), COMMAS, "\ufeff" + COMMAS.replace("\n", "\r\n"), COMMAS.replace(";", "\t"), PLAIN.replace(",", "\t"), PLAIN.replace(",", ";"),
    ("\ufeff" + COMMAS.replace(";", "\t")).encode("utf-16-le"), ("\ufeff" + COMMAS).encode("utf-16-be"), PLAIN.replace("name,hz,db,t60,channel", "Name,HZ,dB,T60,Channel"), PLAIN.replace("left", "LEFT"),
    "sep=;\r\n" + COMMAS, re.sub(r"[^,\n]+", r'"\g<0>"', PLAIN), COMMAS.replace("\n", ";;\n") + ";;;;\n\n", "# hum, prime; a remark\n\n" + COMMAS, PLAIN.replace(",", " , "),
    "channel,t60,db,hz,name\nboth,14,-8,219.2,hum\nleft,7.5,-6.25,440.5,Große Terz\n", PLAIN.replace("14", "1.4e1").replace("-8", "-8.0"),
]


def made(folder, table, *more, file="table.txt"):
    """partials on a table's text, in this process."""
    path = Path(folder, "table.csv")
    path.write_bytes(table if isinstance(table, bytes) else table.encode())
    return call("partials", partials, path, "-o", Path(folder, file), *more)


def tables(folder):
    """Tables that are not understood, with line and column, and those of spreadsheets."""
    for text, asked, sentence in BAD_TABLES:
        refused(made(folder, text, *asked), Status.REFUSED, "table.csv: ", sentence)
    for asked, sentence in BAD_OPTIONS:
        refused(made(folder, ONE, *asked), Status.MISUSED, sentence)
    assert names(folder) == ["table.csv"], names(folder)
    assert made(folder, PLAIN).status == 0
    wanted = Path(folder, "table.txt").read_bytes(), Path(folder, "table.report").read_bytes()
    for text in GOOD_TABLES:
        Path(folder, "table.txt").unlink()
        done = made(folder, text)
        assert done.status == 0 and (Path(folder, "table.txt").read_bytes(), Path(folder, "table.report").read_bytes()) == wanted, (text, done)
    return len(BAD_TABLES) + len(BAD_OPTIONS) + len(GOOD_TABLES)


def channels_and_clipping(folder):
    """Both channels apart, and a table that is too loud: the report says so."""
    done = made(folder, "name,hz,db,t60,channel\na,300,0,1,left\nb,400,0,1,right\nc,500,0,1,both\n", "--gain", "0")
    assert done.status == 0 and "2,3" in done.out and "nothing clips" in done.out, done
    loud = HEADS + "".join(f"p{i},{100 * i},0,1\n" for i in range(1, 5))
    assert "clips: the sum of all peaks is 6.0" in made(folder, loud, "--gain", "0").out
    assert "nothing clips" in made(folder, loud).out
    return 3


def example(folder):
    """The example bell and its report are what its table makes, by the front and by the tool itself."""
    for front in (("./karvelorn", "partials"), (PYTHON, "tools/partials.py")):
        file = Path(folder, "bell.txt")
        done = run(*front, TABLE_OF_BELL, "-o", file, "--seconds", "6")
        assert done.status == 0 and file.read_bytes() == BELL.read_bytes(), "examples/bell.txt is not what its table makes"
        report = Path(folder, "bell.report").read_text()
        assert done.out == report == (ROOT / "examples" / "bell.report").read_text(), "examples/bell.report is not what its table makes"
        assert names(folder) == ["bell.report", "bell.txt"], names(folder)
    return 2
