"""Protected files as records of a case file (document 02, Req 06). What document 02 says is tested here against the model. There is nothing to
run here: cases.py uses it.
"""
from bads import ILLEGAL, area, bad, file, load, open_bad
from bench import DATE, DAY, LOG, close, enter, expect
from rt11 import ABANDON, CLOSE, DELETE, ENTER, FILE_BAD, LOOKUP, PERMANENT, PROTECT, PROTECTED, RENAME, STATUS, TENTATIVE, UNPROTECT
from rt11 import Request, named, rows

FACTORY, NEW = named("FACTRY.CHG"), named("NEW.CHG")

# Statuses that are none, though they are like one.
UNKNOWN = [0o100000, 0o100400, 0o101000, 0o104000, 0o102001, 0o112000, 0o106000, 0o142000, 0o2001, 0o3000, 0o42000, 0o177777]


def guarded(entry):
    return [PROTECTED] + entry[1:]


def open_file(name, length, channel):
    return [TENTATIVE, *name, length, channel, DATE]


def begin(case):
    """Three segments, the chain's order not the slice's: the factory table protected, made anew on channel 3; a protected FILE.BAD, and one
    open; and two more files."""
    parts = [
        [file(DAY, 10), guarded(bad(5))],
        [guarded(file(FACTORY, 7)), open_file(FACTORY, 20, 3), area(10)],
        [bad(2), open_bad(4, 4), area(8), file(LOG, 6), area(30)],
    ]
    assert load(case, [1, 3, 2], parts) == 0


def changed(before, after):
    return [(old, new) for old, new in zip(before, after, strict=True) if old != new]


def statuses(case):
    """33,792 is permanent, in whatever segment; every other number that is not one of the four is unknown."""
    for status in PERMANENT, PROTECTED:
        assert load(case, [1, 2], [[area(3)], [[status, *DAY, 4, 0, DATE]]]) == 0
        expect(case.serve(Request(LOOKUP, DAY)), 0, 13, 4, DATE)
    for status in UNKNOWN:
        assert load(case, [1], [[area(3), [status, *DAY, 4, 0, DATE]]]) == 4
        expect(case.serve(Request(PROTECT, DAY)), 4)
    for first, second in (PERMANENT, PROTECTED), (PROTECTED, PERMANENT), (PROTECTED, PROTECTED):
        assert load(case, [1, 2], [[[first, *DAY, 3, 0, DATE]], [[second, *DAY, 4, 0, DATE]]]) == 6
        assert load(case, [1, 2], [[[first, *FILE_BAD, 3, 0, DATE]], [[second, *FILE_BAD, 4, 0, DATE]]]) == 0
    assert load(case, [1], [[[PROTECTED, 64_000, 0, 0, 4, 0, DATE]]]) == 4


def words_alone(case):
    """Protect and unprotect change the status word, and where it is so already nothing."""
    begin(case)
    for op, before, after in (PROTECT, PERMANENT, PROTECTED), (UNPROTECT, PROTECTED, PERMANENT):
        words = case.words
        expect(case.serve(Request(op, DAY)), 0, 12, 10, DATE)
        assert changed(words, case.words) == [(before, after)]
        words = case.words
        expect(case.serve(Request(op, DAY)), 0, 12, 10, DATE)
        assert changed(words, case.words) == []


def refusals(case):
    """7, 19 and 13 of protect and unprotect; 20 after 13, 16 and 10, and before 14 and 11."""
    begin(case)
    absent = named("ABSENT")
    for op in PROTECT, UNPROTECT:
        for name, number in (ILLEGAL, 7), (FILE_BAD, 19), (absent, 13):
            expect(case.serve(Request(op, name, job=1, channel=256, size=-2, date=1)), number)
    for new in FACTORY, DAY, absent:
        expect(case.serve(Request(RENAME, FACTORY, new)), 20)
        expect(case.serve(Request(RENAME, absent, new)), 13)
    for new, number in (ILLEGAL, 7), (FILE_BAD, 19):
        expect(case.serve(Request(RENAME, FACTORY, new)), number)
    expect(case.serve(Request(RENAME, DAY, FACTORY)), 14)
    expect(case.serve(Request(DELETE, FACTORY)), 20)
    for final_length, number in (-1, 16), (21, 16), (0, 20), (20, 20):
        expect(close(case, 3, final_length), number)
    for channel, size, date, number in (3, 1, DATE, 10), (256, 1, DATE, 8), (9, 1, 1, 9), (9, 65_535, DATE, 20), (9, 0, DATE, 20):
        expect(case.serve(Request(ENTER, FACTORY, channel=channel, size=size, date=date)), number)
    expect(case.serve(Request(LOOKUP, FACTORY)), 0, 27, 7, DATE)


def unprotected(case):
    """An unprotected file can be replaced, renamed and deleted again."""
    begin(case)
    expect(case.serve(Request(UNPROTECT, FACTORY)), 0, 27, 7, DATE)
    expect(case.serve(Request(RENAME, FACTORY, NEW)), 0, 27, 7, DATE)
    expect(close(case, 3, 20), 0, 34, 20, DATE)
    expect(case.serve(Request(PROTECT, NEW)), 0, 27, 7, DATE)
    expect(case.serve(Request(RENAME, FACTORY, NEW)), 14)
    expect(enter(case, FACTORY, 5, 9), 0, 54, 5, DATE)
    expect(case.serve(Request(PROTECT, FACTORY)), 0, 34, 20, DATE)
    expect(close(case, 9, 5), 20)
    expect(case.serve(Request(UNPROTECT, FACTORY)), 0, 34, 20, DATE)
    expect(close(case, 9, 5), 0, 54, 5, DATE)
    expect(case.serve(Request(DELETE, FACTORY)), 0, 54, 5, DATE)


def bad_areas(case):
    """A protected FILE.BAD is a FILE.BAD: found first, never named, and closed beside."""
    begin(case)
    expect(case.serve(Request(LOOKUP, FILE_BAD)), 0, 22, 5, DATE)
    expect(case.serve(Request(DELETE, FILE_BAD)), 19)
    expect(case.serve(Request(RENAME, DAY, FILE_BAD)), 19)
    expect(case.serve(Request(ENTER, FILE_BAD, channel=9, size=1)), 19)
    expect(close(case, 4, 4), 0, 66, 4, DATE)


def standing(case):
    """The words of each protected file, with its first block."""
    return [(row.first, row.entry) for row in rows(case.words) if row.entry[STATUS] == PROTECTED]


def survivors(case):
    """Protected files in a full segment keep first block and words through enters, splits and closes around them."""
    names = [named(f"F{number}") for number in range(70)]
    files = [guarded(file(name, 3)) if number % 3 == 0 else file(name, 3) for number, name in enumerate(names)]
    assert load(case, [1], [files + [area(90)]]) == 0
    assert enter(case, NEW, 1, 1).number == 12
    assert load(case, [1, 2, 3], [files + [area(90)], [area(50)], [area(70)]]) == 0
    assert case.change((2, 1), (1, 0), (9 + 7 * 70, 210)) == 0  # segments 2 and 3 are free, and their blocks segment 1's
    before = standing(case)
    assert len(before) == 24
    for number, name in enumerate(names):
        expected = 20 if number % 3 == 0 else 0
        assert case.serve(Request(DELETE, name)).number == expected
        assert enter(case, name, 1, number).number == expected
    for number in range(70):
        assert close(case, number, 1).number == (15 if number % 3 == 0 else 0)
    assert standing(case) == before


def batches(case):
    """No two name the same file or channel: every order gives the same answers and words."""
    requests = [
        Request(PROTECT, DAY),
        Request(UNPROTECT, FACTORY),
        Request(CLOSE, channel=4, final_length=1),
        Request(DELETE, LOG),
        Request(ABANDON, channel=9),
        Request(RENAME, NEW, named("X")),
    ]
    ends = []
    for order in requests, requests[::-1], requests[3:] + requests[:3]:
        begin(case)
        number, answers = case.batch(order, len(order))
        assert number == 0
        ends.append((sorted(zip(order, answers)), case.words))
    assert ends[0] == ends[1] == ends[2]
    assert [answer.number for _request, answer in ends[0][0]] == [0, 15, 0, 13, 0, 0]


def add(case):
    for part in statuses, words_alone, refusals, unprotected, bad_areas, survivors, batches:
        part(case)
