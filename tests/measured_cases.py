"""Cases of tests/tools.py about what hear says of a sound: what doesn't agree with the table beside it, channels, doublets, and sounds too short."""

import re
import shutil
from pathlib import Path

from calls import ROOT, Status, call, ends, refused, run
import heard
import partials

TABLE = (ROOT / "examples" / "bell.csv").read_text()
# A table beside examples/bell.txt, and the sentences that are said of it.
WRONG_TABLES = [
    (TABLE.replace("526.4", "540"), ["no peak for the row tierce, 540 Hz; the nearest peak is 526.395 Hz, -44.2 cents", "no row for the peak at 526.395 Hz"]),
    (TABLE.replace("526.4", "527.5"), ["no peak for the row tierce, 527.5 Hz", "no row for the peak at 526.395 Hz"]),
    (TABLE.replace("quint,662.5,-18,2.4\n", ""), ["no row for the peak at 662.500 Hz"]),
    (TABLE + "octave,1760,-20,2\n", ["no peak for the row octave, 1760 Hz"]),
    (TABLE + "tierce-b,526.4,-20,2\n", ["tierce and tierce-b have the same frequency in the table, 526.4 Hz", "tierce and tierce-b can't be told apart"]),
    (TABLE + "tierce-b,526.45,-20,2\n", ["tierce and tierce-b can't be told apart in 5.9"]),
    (TABLE.replace("clapper,noise,-10,0.09\n", ""), ["no row for the noise of the stroke"]),
    ("name,hz,db,t60\na,300,0,3\nb,700,0,3\n", ["no peak for the row a, 300 Hz", "no peak for the row b, 700 Hz", *(f"no row for the peak at {hz} Hz" for hz in ("219.203", "439.998", "526.395", "662.500", "879.997")), "no row for the noise"]),
]
SIDED = "name,hz,db,t60,channel\nhum,219.2,0,9,left\nprime,440,-6,7,right\ntierce,526.4,-6,5,right\ntierce-b,527.3,-9,4,right\nnominal,880,-9,3,both\n"


def unlike_tables(folder):
    """hear says what doesn't agree with the table, and no more, with its own status and all files."""
    file, table, picture = (Path(folder, f"bell.{ending}") for ending in ("txt", "csv", "png"))
    shutil.copy(ROOT / "examples" / "bell.txt", file)
    for text, sentences in WRONG_TABLES:
        table.write_text(text)
        done = ends(call("hear", heard, file), Status.UNLIKE, f"wrote {picture}")
        said = [line[2:] for line in done.out.splitlines() if line.startswith("! ")]
        assert picture.exists() and len(said) == len(sentences) and all(any(sentence in line for line in said) for sentence in sentences), (sentences, said)
        picture.unlink()
    return len(WRONG_TABLES) + sides(folder, file, table)


def sides(folder, file, table):
    """Channels and beats; a sound that is too short; the tool of the picture by itself."""
    table.write_text(SIDED)
    assert call("partials", partials, table, "-o", file, "--gain", "-6", "--seconds", "6").status == 0
    done = ends(call("hear", heard, file), 0)
    rows = {line.split()[0]: line.split() for line in done.out.splitlines()[1:]}
    assert rows["hum"][-3:-1] == ["-12.0", "left"] and "right" in rows["tierce"] and "right" in rows["tierce-b"] and rows["nominal"][-2] == "both", done
    assert "beat of 0.91 Hz with tierce-b" in done.out and "limits: two partials less than 0.13 Hz apart may count as one" in done.out, done
    near = Path(folder, "near.csv")  # a doublet of a tenth of a beat, measured without its table
    near.write_text("name,hz,db,t60\nhum,150,-8,14\nd,968.875,-6,11.4\nd-b,968.912,-13.7,9.6\n")
    assert call("partials", partials, near, "-o", near.with_suffix(".txt"), "--passes", "57000").status == 0
    near.unlink()
    done = ends(call("hear", heard, near.with_suffix(".txt")), Status.UNLIKE)
    assert "more than one partial near 968.9 Hz" in done.out and re.search(r"^! (\S+|\S+ Hz): its peak is not that of one partial: two or more there can't be told apart in 2\.9\d s of sound$", done.out, re.M) and "968.9, " not in done.out, done
    shutil.copy(ROOT / "examples" / "belfry.txt", Path(folder, "belfry.txt"))
    done = ends(call("hear", heard, Path(folder, "belfry.txt")), Status.UNLIKE)
    assert done.out.startswith("! too short to measure") and "nominal" not in done.out and Path(folder, "belfry.png").exists(), done
    draw = ("/usr/bin/python3", ROOT / "tools" / "picture.py")
    sound, other = Path(folder, "bell.wav"), Path(folder, "other.png")
    refused(run(*draw, sound, "-o", sound), Status.MISUSED, "is an input")
    refused(run(*draw, Path(folder, "none.wav"), "-o", other), Status.UNREAD, "cannot read")
    refused(run(*draw, file, "-o", other), Status.REFUSED, "no sound that can be read")
    refused(run("/usr/bin/python3", "-S", *draw[1:], sound, "-o", other), Status.MISSING, "numpy, scipy, matplotlib are needed")
    assert not other.exists()
    return 7
