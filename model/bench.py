"""Document 01's ten bench examples as records of a case file. What the document says of each is tested here against the model, so a slip
in the model shows when the file is made. There is nothing to run here: cases.py uses it.
"""
from names import word_of_day
from rt11 import CLOSE, EMPTY, ENTER, FIRST, HIGHEST, LENGTH, LINK, LOOKUP, PERMANENT, RENAME, SEGMENT_WORDS, STATUS, TENTATIVE
from rt11 import Request, entries, first_data_block, header, named, rendered, rows

DAY, LOG = named("DAY.CHG"), named("LOG.CHG")
_number, DATE = word_of_day(15, 3, 1976)


def expect(answer, number, first=0, length=0, date=0):
    assert (answer.number, answer.first, answer.length, answer.date) == (number, first, length, date), answer


def expect_entries(case, *expected):
    """Status and length of each entry of the present directory."""
    found = [(row.entry[STATUS], row.entry[LENGTH]) for row in rows(case.words)]
    assert found == list(expected), found


def enter(case, name, size, channel, date=DATE):
    return case.serve(Request(ENTER, name, channel=channel, size=size, date=date))


def close(case, channel, final_length):
    return case.serve(Request(CLOSE, channel=channel, final_length=final_length))


def start(case, segments, v):
    """A fresh start over words that are all 65,535."""
    case.load([65_535] * SEGMENT_WORDS * segments, v)
    return case.fresh(0)


def first_to_fifth(case):
    # 1: DAY CHG is 6465, 0, 5127
    assert DAY == (6465, 0, 5127)
    # 2: 15 March 1976 is 3556; 29 February 1973 refused, also by enter where a word is made for it all the same
    assert DATE == 3556
    assert word_of_day(29, 2, 1973) == (9, 0)
    # 3: fresh V=494, N=4, E=0: one area of 480 from 14
    expect(start(case, 4, 494), 0, 14, 480)
    expect_entries(case, (EMPTY, 480))
    expect(enter(case, DAY, 30, 3, date=2 * 1024 + 29 * 32 + 1), 9)
    # 4: then enter DAY.CHG, 30, job 0 channel 3, date 3556: first block 14, area 450
    expect(enter(case, DAY, 30, 3), 0, 14, 30, 3556)
    expect_entries(case, (TENTATIVE, 30), (EMPTY, 450))
    # 5: at 31 refusal 16, and nothing has changed; then close at 12: area 468
    expect(close(case, 3, 31), 16)
    expect_entries(case, (TENTATIVE, 30), (EMPTY, 450))
    expect(close(case, 3, 12), 0, 14, 12, 3556)
    expect_entries(case, (PERMANENT, 12), (EMPTY, 468))
    expect(case.serve(Request(LOOKUP, (6465, 0, 5127))), 0, 14, 12, 3556)


def tenth(case):
    """On what the fifth left: rename to its own name is 14."""
    expect(case.serve(Request(RENAME, DAY, DAY)), 14)


def sixth(case):
    """Instead of closing, enter 100 on channel 4: first block 44, entries 30, 0, 100, 350."""
    start(case, 4, 494)
    enter(case, DAY, 30, 3)
    expect(enter(case, LOG, 100, 4), 0, 44, 100, 3556)
    expect_entries(case, (TENTATIVE, 30), (EMPTY, 0), (TENTATIVE, 100), (EMPTY, 350))


def loaded(case, segments, found):
    """A directory with one segment in use, which holds these entries."""
    first = first_data_block(segments)
    words = rendered([segments, 0, 1, 0, first], found) + [0] * SEGMENT_WORDS * (segments - 1)
    assert case.load(words, first + sum(entry[LENGTH] for entry in found)) == 0


def seventh(case):
    """Size 0: in areas of 100 and 60, with a file of 5 between them, 60, which the first of them takes; in one area of 7, 4."""
    loaded(case, 4, [[EMPTY, *DAY, 100, 0, DATE], [PERMANENT, *DAY, 5, 0, DATE], [EMPTY, *DAY, 60, 0, DATE]])
    expect(enter(case, LOG, 0, 4, date=0), 0, 14, 60, 0)
    expect_entries(case, (TENTATIVE, 60), (EMPTY, 40), (PERMANENT, 5), (EMPTY, 60))
    expect(start(case, 4, 21), 0, 14, 7)
    expect(enter(case, LOG, 0, 4, date=0), 0, 14, 4, 0)
    expect_entries(case, (TENTATIVE, 4), (EMPTY, 3))


def eighth(case):
    """Fresh V=8, N=1: sound; enter -1 is refusal 11."""
    expect(start(case, 1, 8), 0, 8, 0)
    assert case.change() == 0
    expect(enter(case, DAY, -1, 3), 11)


def full_segment():
    """71 entries: 70 files of one block, and an area of 100."""
    names = [named(f"F{i:02}.CHG") for i in range(70)]
    return [[PERMANENT, *name, 1, 0, DATE] for name in names] + [[EMPTY, *DAY, 100, 0, DATE]]


def ninth(case):
    """71 entries, one empty and long: 12 with N=1. With N=2: 35 stay, 36 move, then the new entry is inserted."""
    loaded(case, 1, full_segment())
    expect(enter(case, LOG, 1, 3), 12)
    loaded(case, 2, full_segment())
    expect(enter(case, LOG, 1, 3), 0, 80, 1, 3556)
    one, two = entries(case.words, 1), entries(case.words, 2)
    assert (len(one), len(two)) == (35, 37)
    assert [entry[:5:4] for entry in two[-2:]] == [[TENTATIVE, 1], [EMPTY, 99]]
    assert header(case.words, 1)[LINK] == header(case.words, 1)[HIGHEST] == 2
    assert header(case.words, 2)[LINK] == 0 and header(case.words, 2)[FIRST] == 45
    assert case.change() == 0


def add(case):
    for examples in first_to_fifth, tenth, sixth, seventh, eighth, ninth:
        examples(case)
