"""Volumes with several files FILE.BAD as records of a case file (document 02, Req 03). What document 02 says is tested here against the
model. There is nothing to run here: cases.py uses it.
"""
from bench import DATE, DAY, LOG, close, enter, expect
from rt11 import ABANDON, CLOSE, DELETE, EMPTY, ENTER, FILE_BAD, LENGTH, LOOKUP, PERMANENT, RENAME, SEGMENT_WORDS, STATUS, TENTATIVE
from rt11 import Request, first_data_block, named, rendered, rows

# Names that differ from FILE.BAD in one of their three words.
NEAR = [named(name) for name in ("FILF.BAD", "FIL.BAD", "FILE1.BAD", "FILEBA.BAD", "FIME.BAD", "ABCE.BAD", "FILE", "FILE.BAK", "FILE.BA")]
ILLEGAL = named("A")[0], named("A")[0], 0  # a space inside


def file(name, length):
    return [PERMANENT, *name, length, 0, DATE]


def bad(length):
    return file(FILE_BAD, length)


def open_bad(length, channel):
    return [TENTATIVE, *FILE_BAD, length, channel, DATE]


def area(length):
    return [EMPTY, 0, 0, 0, length, 0, 0]


def load(case, order, parts):
    """Segments with these entries, in the chain's order; answers the fault."""
    n = len(order)
    words, block = [0] * SEGMENT_WORDS * n, first_data_block(n)
    for number, link, found in zip(order, order[1:] + [0], parts, strict=True):
        at = SEGMENT_WORDS * (number - 1)
        words[at : at + SEGMENT_WORDS] = rendered([n, link, n if number == 1 else 0, 0, block], found)
        block += sum(entry[LENGTH] for entry in found)
    return case.load(words, block)


def bads(case):
    """First block and length of each file FILE.BAD, in chain order."""
    found = [row for row in rows(case.words) if row.entry[STATUS] == PERMANENT and tuple(row.entry[1:4]) == FILE_BAD]
    return [(row.first, row.entry[LENGTH]) for row in found]


def once_or_more(case):
    """FILE.BAD may stand any number of times, in one segment or in several; each other name once."""
    for count in range(1, 6):
        assert load(case, [1], [[area(3)] + [bad(k) for k in range(count)]]) == 0
        expect(case.serve(Request(LOOKUP, FILE_BAD)), 0, 11, 0, DATE)
    for name in NEAR:
        assert load(case, [1], [[file(name, 4), bad(2), area(3), bad(2)]]) == 0
        expect(case.serve(Request(LOOKUP, name)), 0, 8, 4, DATE)
        assert load(case, [1], [[file(name, 4), area(3), file(name, 4)]]) == 6
        assert load(case, [1, 3, 2], [[file(name, 4), bad(2)], [bad(2)], [area(3), file(name, 4)]]) == 6
        expect(case.serve(Request(LOOKUP, name)), 6)


def open_ones(case):
    """Open files FILE.BAD need channels of their own, as others do; beside finished ones they may stand."""
    assert load(case, [1], [[open_bad(2, 3), area(1), open_bad(2, 4), area(1), bad(2), bad(2)]]) == 0
    assert load(case, [1], [[open_bad(2, 3), area(1), open_bad(2, 3), area(1), bad(2), bad(2)]]) == 6


def full(case):
    """31 segments of 71 files FILE.BAD; the last but one of them made another file, and then another name twice."""
    order = [1] + list(range(31, 1, -1))
    assert load(case, order, [[bad(1)] * 71] * 31) == 0
    expect(case.serve(Request(LOOKUP, FILE_BAD)), 0, 68, 1, DATE)
    at = SEGMENT_WORDS + 5 + 7 * 69 + 1
    assert case.change(*zip(range(at, at + 3), DAY)) == 0
    expect(case.serve(Request(LOOKUP, DAY)), 0, 68 + 31 * 71 - 2, 1, DATE)
    assert case.change(*zip(range(6, 9), DAY)) == 6


def begin(case):
    """Three segments, the chain's order not the slice's: files FILE.BAD in each, one of no length, and two open."""
    parts = [
        [file(DAY, 10), bad(5)],
        [bad(7), open_bad(20, 3), area(10)],
        [bad(0), open_bad(4, 4), area(8), file(LOG, 6), area(30)],
    ]
    assert load(case, [1, 3, 2], parts) == 0
    assert bads(case) == [(22, 5), (27, 7), (64, 0)]


def refusals(case):
    """19 straight after 7 of both names, and before 8, 9, 13 and 14."""
    begin(case)
    absent = named("ABSENT")
    for name in FILE_BAD, DAY, absent:
        expect(case.serve(Request(RENAME, FILE_BAD, name)), 19)
        expect(case.serve(Request(RENAME, name, FILE_BAD)), 19)
    for old, new in (FILE_BAD, ILLEGAL), (ILLEGAL, FILE_BAD):
        expect(case.serve(Request(RENAME, old, new)), 7)
    expect(case.serve(Request(DELETE, FILE_BAD)), 19)
    for job, channel, size, date in (0, 9, 1, DATE), (1, 9, 1, DATE), (0, 256, -2, 1), (0, 9, 65_535, 0), (0, 3, 1, DATE):
        expect(case.serve(Request(ENTER, FILE_BAD, job=job, channel=channel, size=size, date=date)), 19)
    expect(case.serve(Request(LOOKUP, FILE_BAD)), 0, 22, 5, DATE)
    assert load(case, [1], [[file(DAY, 10), area(20)]]) == 0
    expect(case.serve(Request(LOOKUP, FILE_BAD)), 13)
    for request in Request(DELETE, FILE_BAD), Request(RENAME, FILE_BAD, LOG), Request(RENAME, absent, FILE_BAD):
        expect(case.serve(request), 19)


def closes(case):
    """A close makes one more, and takes none away; then the others are edited around them."""
    begin(case)
    expect(close(case, 4, 5), 16)
    expect(close(case, 4, 4), 0, 64, 4, DATE)
    expect(close(case, 3, 15), 0, 34, 15, DATE)
    every = [(22, 5), (27, 7), (34, 15), (64, 0), (64, 4)]
    assert bads(case) == every
    expect(close(case, 3, 15), 15)
    expect(case.serve(Request(RENAME, DAY, named("FILE1.BAD"))), 0, 12, 10, DATE)
    expect(case.serve(Request(DELETE, LOG)), 0, 76, 6, DATE)
    for channel in range(5):
        assert enter(case, named(f"F{channel}"), 2, channel).number == 0
    for channel in range(5):
        assert close(case, channel, 1).number == 0
    assert bads(case) == every
    assert case.change() == 0


def begins_with_open(case):
    """The open one stands before the finished one: once closed it is the first, and lookup gives it."""
    assert load(case, [1], [[open_bad(20, 3), area(20), bad(10), area(42)]]) == 0
    expect(case.serve(Request(LOOKUP, FILE_BAD)), 0, 48, 10, DATE)
    expect(close(case, 3, 20), 0, 8, 20, DATE)
    expect(case.serve(Request(LOOKUP, FILE_BAD)), 0, 8, 20, DATE)
    assert bads(case) == [(8, 20), (48, 10)]


def batches(case):
    """No two name the same: the close names FILE.BAD, which the abandon does not. Both orders give the same answers and words."""
    requests = [Request(CLOSE, channel=3, final_length=1), Request(ABANDON, channel=4), Request(DELETE, DAY), Request(RENAME, LOG, named("X"))]
    ends = []
    for order in requests, requests[::-1]:
        begin(case)
        number, answers = case.batch(order, len(order))
        assert number == 0 and all(answer.number == 0 for answer in answers)
        ends.append((sorted(answers), case.words))
    assert ends[0] == ends[1]


def add(case):
    for part in once_or_more, open_ones, full, refusals, closes, begins_with_open, batches:
        part(case)
