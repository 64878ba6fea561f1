#!/usr/bin/env python3
"""The sample head files and their listings: document 01's volume after example 5's close at 12, a volume with files of all four ages
(document 02, Req 02), one with bad areas (Req 03), one with protected files (Req 06), and one of version 2, labelled and unlabelled (Req 01).

    python3 model/sample.py

writes them into samples/ and crates/list/data, and crates/list/stdout, the listings of all that crates/list/args names. The words of the
first come from the requests of rt11.py.
"""
import pathlib

from home import write_label
from rt11 import CLOSE, EMPTY, ENTER, LENGTH, PERMANENT, PROTECTED, TENTATIVE
from rt11 import Request, first_data_block, fresh, head_file, listing, named, rendered, serve

HOUSE = pathlib.Path(__file__).resolve().parent.parent
SAMPLES, LIST = HOUSE / "samples", HOUSE / "crates" / "list"


def day():
    """Examples 3, 4 and 5: a fresh start, DAY.CHG entered with 30 blocks, and closed at 12."""
    v = 494
    _answer, words = fresh([0] * 512 * 4, v, 0)
    _answer, words = serve(words, v, Request(ENTER, named("DAY.CHG"), channel=3, size=30, date=3556))
    _answer, words = serve(words, v, Request(CLOSE, channel=3, final_length=12))
    return words, v


def one_segment(found):
    """The words of a directory with these entries, and V."""
    first = first_data_block(1)
    return rendered([1, 0, 1, 0, first], found), first + sum(entry[LENGTH] for entry in found)


# each file's date word, and the date that its row must show; an age above a rest of 0 is no date, but a bad word
AGES = [
    ("FIRST.TAB", 1_056, "01-01-1972"),
    ("LEAP.TAB", 3_004, "29-02-2000"),
    ("AGE0.TAB", 13_311, "31-12-2003"),
    ("AGE1.TAB", 17_440, "01-01-2004"),
    ("NOW.TAB", 28_150, "15-11-2026"),
    ("BAD1.TAB", 16_384, "----------"),
    ("AGE2.TAB", 33_824, "01-01-2036"),
    ("BAD2.TAB", 35_745, "----------"),
    ("AGE3.TAB", 50_208, "01-01-2068"),
    ("LAST.TAB", 62_463, "31-12-2099"),
    ("BAD3.TAB", 65_535, "----------"),
    ("NONE.TAB", 0, "----------"),
]


def ages():
    """A file for each row of the table, and one that is open; its area has the date of the last, and shows none."""
    found = [[PERMANENT, *named(name), 5, 0, word] for name, word, _shown in AGES]
    found += [[TENTATIVE, *named("OPEN.TAB"), 30, 3, 62_463], [EMPTY, 0, 0, 0, 396, 0, 62_463]]
    return one_segment(found)


def is_shown(text):
    dates = [row.split()[-1] for row in text.splitlines()[1:-1]]
    return dates == [shown for _name, _word, shown in AGES] + ["31-12-2099", "----------"]


def bad():
    """Three areas of bad blocks, each covered by a FILE.BAD, between charge tables."""
    found = [
        [PERMANENT, *named("DAY.CHG"), 12, 0, 3_556],
        [PERMANENT, *named("FILE.BAD"), 2, 0, 3_556],
        [PERMANENT, *named("NIGHT.CHG"), 9, 0, 3_556],
        [PERMANENT, *named("FILE.BAD"), 1, 0, 3_556],
        [EMPTY, 0, 0, 0, 100, 0, 0],
        [PERMANENT, *named("FILE.BAD"), 5, 0, 3_588],
        [EMPTY, 0, 0, 0, 363, 0, 0],
    ]
    return one_segment(found)


def protected():
    """The factory's charge table and a bad area are protected; the listing shows P for them as for other files."""
    found = [
        [PROTECTED, *named("FACTRY.CHG"), 12, 0, 3_556],
        [PERMANENT, *named("DAY.CHG"), 9, 0, 3_588],
        [PROTECTED, *named("FILE.BAD"), 2, 0, 3_556],
        [EMPTY, 0, 0, 0, 469, 0, 0],
    ]
    return one_segment(found)


def depot():
    """A depot's charge tables, one of them open."""
    found = [
        [PROTECTED, *named("FACTRY.CHG"), 12, 0, 3_556],
        [PERMANENT, *named("DAY.CHG"), 9, 0, 28_150],
        [TENTATIVE, *named("NIGHT.CHG"), 20, 3, 28_150],
        [EMPTY, 0, 0, 0, 451, 0, 0],
    ]
    return one_segment(found)


def homes():
    """Block 1 with a label, blanks at the ends of both texts; and with zeros for the four spaces of its mark, so that it has none."""
    number, home = write_label(bytes(512), b"TABLES 7    ", b"NORTH DEPOT ")
    assert number == 0
    return home, home[:504] + bytes(4) + home[508:]


def expect_refusals(words, v, home):
    """Of version 2, in their order: 17 of size, mark and version, 25 of the label, then the directory's fault."""
    file = head_file(words, v, home)
    bad = file[:479] + b"\x7f" + file[480:]  # the name's first byte
    for number, refused in (
        (17, bad[:517]),
        (17, bad[:518]),
        (17, bad[:-1]),
        (17, bad + bytes(32_265 - len(bad))),
        (17, b"RVh" + bad[3:]),
        (17, b"RVH\2\1" + bad[5:]),
        (17, b"RVH\3\0" + bad[5:]),
        (25, bad[:519]),
        (25, bad),
        (25, bad + bytes(32_263 - len(bad))),
        (1, file[:519]),
        (2, file + bytes(32_263 - len(file))),  # 31 segments, and the first says one
    ):
        assert listing(refused) == f"REFUSED {number}\n", number


def write(name, words, v, home=None):
    file = head_file(words, v, home)
    text = listing(file)
    (SAMPLES / f"{name}.rvh").write_bytes(file)
    (SAMPLES / f"{name}.txt").write_text(text)
    (LIST / "data" / f"{name}.rvh").write_bytes(file)
    return text


def main():
    write("day", *day())
    assert is_shown(write("ages", *ages()))
    assert write("bad", *bad()).count("FILE  .BAD") == 3
    assert write("protected", *protected()).count("\nP ") == 3
    labelled, unlabelled = homes()
    assert write("labelled", *depot(), labelled).startswith("LABEL TABLES 7     NORTH DEPOT \nVOLUME 500 SEGMENTS 1 OF 1 EXTRA 0\nP FACTRY.CHG")
    assert write("unlabelled", *depot(), unlabelled).startswith("UNLABELLED\nVOLUME 500 SEGMENTS 1 OF 1 EXTRA 0\nP FACTRY.CHG")
    expect_refusals(*depot(), labelled)
    names = (LIST / "args").read_text().split()
    (LIST / "stdout").write_text("".join(listing((LIST / "data" / name).read_bytes()) for name in names))


if __name__ == "__main__":
    main()
