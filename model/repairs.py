"""Repairs as records of a case file (document 02, Req 09): damaged directories and the tool, some of them with proposals for the test, of which
proposals.py has more. Which number each gets is worked out by hand and tested here against the model, and of what the model's tool gives that it
is within reach. There is nothing to run here: cases.py uses it.
"""
import squeezes
from bads import NEAR, area, bad, file, load, open_bad
from guards import UNKNOWN, guarded, open_file
from repairing import files, repair
from rt11 import CHANNEL, DATE, EMPTY, END, EXTRA, FILE_BAD, FIRST, HIGHEST, LENGTH, LINK, LOOKUP, PERMANENT
from rt11 import PROTECTED, SEGMENT_WORDS, STATUS, TENTATIVE, TOTAL
from rt11 import Request, chain, fault, first_data_block, kind, named, segment_place, slot_place, slots, written
from squeezes import A, B, C, D, ONE, TURNED, Shape, crowd, full_parts, laid_out, overlaid, put
from trials import ORDER

PAIR = Shape((1, 2))
ANY = range(65_536)
SEED, DIRECTORIES = 1979, 8  # of each shape


# -- What is asked, and what holds of each answer --


def sound(shape, *parts):
    """Words and V, where no damage is done."""
    words, v = laid_out(shape, parts, shape.junk)
    assert fault(words, v) == 0
    return words, v


def entry_at(shape, segment, slot):
    """The place of an entry's first word."""
    return segment_place(segment) + 5 + (7 + shape.extra) * (slot - 1)


def slot_at(slot):
    """The same in the one segment that there is."""
    return entry_at(ONE, 1, slot)


def start_at(segment):
    return segment_place(segment) + FIRST


def named_at(place, name):
    """The writes that give the entry there this name."""
    return [*zip(range(place + 1, place + 4), name)]


def writable(words):
    """The places that the tool may change, and what it may write there."""
    may = {}
    for number in chain(words):
        may[start_at(number)] = ANY
        found = slots(words, number)
        places = [slot_place(words, number, k) for k in range(1, len(found) + 1)]
        for at, slot in zip(places, found):
            if slot[STATUS] in (EMPTY, TENTATIVE):
                may[at + STATUS], may[at + LENGTH] = {EMPTY}, ANY
        unreadable = [at for at, slot in zip(places, found) if kind(slot) is None and slot[STATUS] != END]
        if unreadable or all(slot[STATUS] != END for slot in found):
            may.setdefault((unreadable + places[-1:])[0] + STATUS, set()).add(END)
    return may


def is_within_reach(before, after):
    may = writable(before)
    changed = [at for at, (old, new) in enumerate(zip(before, after, strict=True)) if old != new]
    return all(after[at] in may.get(at, ()) for at in changed)


def repaired(case):
    """What the model's tool gives is within reach; where it refuses, the words stay."""
    before = case.words
    number, after = case.repair()
    assert is_within_reach(before, after) if number == 0 else after == before
    return number


def tool(case, number):
    assert repaired(case) == number, case.lines[-1]


def test(case, number, *proposals):
    for proposal in proposals:
        assert case.accept(proposal) == number, case.lines[-1]


def damaged(case, number, words, v, *pairs):
    """These words with some changed, which gives this fault. Answers them."""
    now = written(words, pairs)
    assert put(case, now, v) == number, case.lines[-1]
    return now


def mended(case, words, v, *pairs):
    """From a sound directory: damaged by 4 or 5 the tool has a proposal, and the sound one itself is a good one too."""
    damaged(case, fault(written(words, pairs), v), words, v, *pairs)
    test(case, 0, words)
    tool(case, 0)


# -- A worked example: three segments whose chain is not in the slice's order; first block 12, V 35 --

WORKED = [file(A, 3), area(2)], [area(4), file(B, 5)], [area(1), file(C, 2), area(6)]
SECOND, LAST = 3, 2  # in chain order

# Start of the second segment of the chain, and whether there is a directory with B four blocks behind it. A ends at 15, and C begins at 27.
STARTS = (10, 22), (11, 0), (18, 0), (19, 22), (0, 22), (65_535, 22)


def worked(case):
    words, v = sound(TURNED, *WORKED)
    assert v == 35 and [file.first for file in files(words)] == [12, 21, 27]
    for start, number in STARTS:
        damaged(case, 5, words, v, (start_at(SECOND), start))
        tool(case, number)
    damaged(case, 5, words, v, (start_at(SECOND), 18))
    test(case, 22, words)
    # an area with no file behind it in its segment; one whose loss the start makes up for; the last one
    mended(case, words, v, (entry_at(TURNED, 1, 2) + LENGTH, 65_535))
    mended(case, words, v, (start_at(SECOND), 0), (entry_at(TURNED, SECOND, 1) + LENGTH, 21))
    mended(case, words, v, (entry_at(TURNED, LAST, 3) + LENGTH, 7), (start_at(SECOND), 21), (entry_at(TURNED, SECOND, 1) + LENGTH, 0))
    # with segment 1's start A moves, and nothing before or behind it can make up for that
    for start in 11, 13:
        damaged(case, 5, words, v, (FIRST, start))
        tool(case, 22)


def another_size(case):
    """V is not where the last segment ends: C ends at 29."""
    words, v = sound(TURNED, *WORKED)
    for size, number in (28, 22), (29, 0), (36, 0), (65_535, 0), (12, 22):
        assert case.load(words, size) == 5
        tool(case, number)
    assert case.load(words, v + 1) == 5
    test(case, 22, words)
    test(case, 0, sound(TURNED, *WORKED[:2], [area(1), file(C, 2), area(7)])[0])


# -- Gaps in one segment: entries, the stored start, V, and the tool's number; the first data block is 8 --

GAPS = [
    # behind a file, with an area there and without
    ([file(A, 3)], 8, 12, 22),
    ([file(A, 3), area(0)], 8, 12, 0),
    ([area(0), file(A, 3)], 8, 12, 22),
    ([file(A, 3), area(9)], 8, 11, 0),
    ([file(A, 3), area(9)], 8, 10, 22),
    # before a file
    ([area(0), file(A, 3)], 9, 12, 0),
    ([area(5), file(A, 3)], 4, 12, 0),
    ([area(5), file(A, 3)], 2, 12, 22),
    ([area(5), file(A, 3)], 3, 11, 0),
    ([file(A, 3), area(0)], 9, 12, 22),
    ([file(A, 3), area(0)], 7, 12, 22),
    # between two: files keep their distance, and so only a start or V can be wrong
    ([area(0), file(A, 1), area(2), area(3), file(B, 1), area(0)], 10, 17, 0),
    ([area(0), file(A, 1), file(B, 1), area(0)], 65_000, 65_002, 0),
    # several areas, any number of them of no length
    ([area(1), area(65_535), area(0)], 8, 65_535, 0),
    ([area(0), area(0), area(0), file(A, 1), area(0), area(0)], 20, 40, 0),
    # no file, and no entry
    ([area(3)], 8, 8, 0),
    ([area(3)], 65_535, 11, 0),
    ([], 8, 9, 22),
    ([], 9, 8, 0),
    ([area(0)], 0, 65_535, 0),
    # files of no length: first, last, at V, behind V
    ([file(A, 0), area(2), file(B, 0)], 9, 11, 22),
    ([file(A, 0), area(2), file(B, 0)], 8, 11, 22),
    ([area(1), file(A, 0), area(1)], 9, 10, 0),
    ([area(1), file(A, 0), area(1)], 7, 8, 0),
    ([area(1), file(A, 0), area(1)], 10, 10, 22),
    ([area(1), file(A, 0), area(1)], 6, 10, 22),
]

# The same, where a sum passes 65,535. Were it reduced by 65,536, the first four would stand at a good block.
SUMS = [
    ([area(32_768), area(32_768), file(A, 1), area(0)], 8, 9, 22),
    ([area(9), file(A, 1), area(0)], 65_535, 9, 22),
    ([area(65_535), file(A, 0), area(1)], 9, 9, 22),
    ([area(65_535), file(A, 1), area(0)], 10, 30, 22),
    ([area(65_527), file(A, 1)], 8, 65_535, 22),
    ([area(65_528), file(A, 0), area(0)], 7, 65_535, 0),
    ([area(65_528), file(A, 0), area(0)], 8, 65_535, 22),
    ([file(A, 65_535), file(B, 1)], 8, 65_535, 22),
    ([file(A, 1), area(65_535), area(65_535)], 8, 9, 0),
    ([file(A, 1), area(32_768), area(32_768), area(3)], 8, 12, 0),  # V + 65,536
    ([area(40_000), area(30_000)], 8, 65_535, 0),
]


def started(shape, parts, *starts):
    """Words with these entries, and these segment starts in the chain's order."""
    words, _end = laid_out(shape, parts, shape.junk)
    return written(words, [(start_at(number), start) for number, start in zip(shape.order, starts, strict=True)])


def gaps(case):
    for found, start, v, number in GAPS + SUMS:
        damaged(case, 5, started(ONE, [found], start), v)
        tool(case, number)


# -- Gaps over the ends of segments: parts in chain order, their starts, V, the tool's number; the first data block is 12 --

ENDS = [
    # the area behind A's, before B's, or in a segment without a file
    (([file(A, 1), area(0)], [file(B, 1)], [area(0)]), (12, 15, 0), 18, 0),
    (([file(A, 1)], [area(7), file(B, 1)], [area(0)]), (12, 8, 99), 18, 0),
    (([file(A, 1)], [area(9)], [file(B, 1)]), (12, 0, 20), 21, 0),
    (([area(0)], [], [file(A, 1)]), (99, 98, 20), 21, 0),
    (([file(A, 1)], [], [area(0), area(0)]), (12, 0, 0), 21, 0),
    # nowhere
    (([file(A, 1), area(0)], [file(B, 1)], [file(C, 1)]), (12, 15, 17), 18, 22),
    (([area(0), file(A, 1)], [file(B, 1), area(0)], []), (12, 15, 0), 18, 22),
    (([file(A, 1)], [], [file(B, 1)]), (12, 0, 14), 15, 22),
    (([file(A, 1)], [], [file(B, 1)]), (12, 0, 13), 14, 0),
    (([], [], []), (12, 12, 0), 12, 0),
    (([], [], []), (12, 12, 12), 13, 22),
    # one before the end of the other, though each segment is right by itself
    (([file(A, 3), area(4)], [area(2), file(B, 1)], [area(0)]), (12, 12, 0), 18, 22),
    (([file(A, 3), area(4)], [area(2), file(B, 1)], [area(0)]), (12, 13, 0), 18, 0),
    (([area(9), file(A, 1)], [area(0), file(B, 1)], [area(0)]), (12, 15, 0), 30, 22),
    # exact sums beyond 65,535 in a segment of their own
    (([area(0)], [area(65_535), file(A, 1)], [area(0)]), (12, 13, 0), 18, 22),
    (([area(0)], [area(65_535), area(65_535)], [file(A, 1)]), (12, 65_535, 17), 18, 0),
]


def ends(case):
    for parts, starts, v, number in ENDS:
        damaged(case, 5, started(TURNED, parts, *starts), v)
        tool(case, number)


# -- Damage that is answered by its number, by tool and test --

BOTH = [file(A, 3), open_file(D, 1, 3), area(2)], [file(B, 4), open_file(D, 1, 4), area(1), file(C, 2)]

NUMBERS = [
    (2, (TOTAL, 1)),
    (2, (HIGHEST, 0)),
    (2, (HIGHEST, 3)),
    (2, (EXTRA, 1)),
    (2, (EXTRA, 34)),
    (3, (LINK, 1)),
    (3, (LINK, 3)),
    (3, (HIGHEST, 1)),
    (3, (SEGMENT_WORDS + LINK, 2)),
    (3, (SEGMENT_WORDS + TOTAL, 1)),
    (3, (SEGMENT_WORDS + EXTRA, 2)),
    (6, (SEGMENT_WORDS + 5 + 7 + CHANNEL, 3)),
    (6, *named_at(SEGMENT_WORDS + 5, A)),
]


def numbers(case):
    """Whatever the proposal is. With another fault above it the smallest counts; and what is 6 by itself is 22 with 4 or 5."""
    words, v = sound(PAIR, *BOTH)
    for number, *pairs in NUMBERS:
        now = damaged(case, number, words, v, *pairs)
        tool(case, number)
        test(case, number, words[: SEGMENT_WORDS * (number % 3)], *[now] * (number == 6))
    damaged(case, 2, words, v, (TOTAL, 1), (LINK, 1), (5, 7))
    tool(case, 2)
    damaged(case, 3, words, v, (LINK, 1), (5, 7), (FIRST, 0))
    tool(case, 3)
    twice = named_at(SEGMENT_WORDS + 5, A)
    for number, pair in (5, (entry_at(PAIR, 1, 3) + LENGTH, 3)), (4, (entry_at(PAIR, 2, 3) + STATUS, 7)):
        damaged(case, number, words, v, *twice, pair)
        test(case, 22, words, written(words, twice))
        tool(case, 22)


def sizes(case):
    """1: a slice that is no directory, or a V that it can't have."""
    words, v = sound(ONE, [file(A, 3), area(2)])
    for size, blocks in (0, v), (SEGMENT_WORDS - 1, v), (SEGMENT_WORDS, 7), (SEGMENT_WORDS, v + 65_536):
        assert case.load(words[:size], blocks) == 1
        tool(case, 1)
        test(case, 1, words[:size], [])


# -- Sound directories --


def unchanged(case, words, v, name, *others):
    """The words stay, as a lookup's check shows. The test accepts the directory itself, and these others."""
    damaged(case, 0, words, v)
    tool(case, 0)
    assert case.serve(Request(LOOKUP, name)).number == 0
    test(case, 0, words, *others)


def sound_ones(case):
    """With open files and with words that mean anything but nothing here; full segments; files of no length."""
    words, v = sound(PAIR, *BOTH)
    unchanged(case, words, v, C)
    test(case, 22, written(words, [(5 + STATUS, PROTECTED)]), written(words, [(5 + STATUS, EMPTY)]))
    for junk in END, PERMANENT, 7:
        unchanged(case, *sound(Shape((1,), 1, 3, junk), [file(A, 3), open_file(B, 2, 3), area(2), bad(1), bad(1), area(0), area(1)]), A)
    for extra, most in (0, 71), (16, 21):
        unchanged(case, *sound(Shape(extra=extra, junk=PERMANENT), crowd(most)), named("F0"))
    unchanged(case, *sound(Shape((1,), 3, 0, 65_535), [file(A, 0), file(B, 0), open_bad(0, 0), area(0)]), B)
    unchanged(case, *sound(TURNED, *WORKED), B, sound(Shape((1,), 3), sum(WORKED, []))[0])


# -- FILE.BADs: the parts, their starts and V, in the chain 1, 3 and 2, and the tool's number. The first data block is 12 --


def dated(entry, date):
    return entry[:DATE] + [date] + entry[DATE + 1 :]


BADS = [
    # alike, and their starts exchanged: they get their blocks in rising order
    (([area(0)], [bad(1), area(1)], [bad(1), area(1)]), (12, 14, 12), 16, 0),
    (([bad(1), area(0)], [bad(1), area(0)], [bad(1), area(0)]), (18, 15, 12), 19, 0),
    (([bad(1), area(0)], [bad(1), area(0)], [bad(1), area(0)]), (18, 15, 12), 18, 22),
    (([bad(1), area(0)], [bad(1), area(0)], [bad(1), area(0)]), (15, 18, 11), 20, 22),
    (([guarded(bad(2)), area(0)], [guarded(bad(2)), area(0)], []), (20, 12, 0), 22, 0),
    (([bad(1)], [bad(1)], [bad(1)]), (14, 12, 13), 15, 0),
    # with another file between them, which stays
    (([bad(1)], [file(A, 1)], [bad(1)]), (14, 13, 12), 15, 0),
    (([bad(1)], [file(A, 1)], [bad(1)]), (14, 12, 13), 15, 22),
    # not alike: in length, date or protection; and with a third that is like one of them
    (([bad(1), area(0)], [bad(2), area(0)], []), (20, 12, 0), 22, 22),
    (([bad(1), area(0)], [dated(bad(1), 0), area(0)], []), (20, 12, 0), 22, 22),
    (([bad(1), area(0)], [guarded(bad(1)), area(0)], []), (20, 12, 0), 22, 22),
    (([bad(1), area(0)], [guarded(bad(1)), area(0)], [bad(1), area(0)]), (20, 15, 12), 22, 0),
    (([bad(1), area(0)], [guarded(bad(1)), area(0)], [bad(1), area(0)]), (15, 20, 12), 22, 22),
    # two kinds, each in falling order
    (([bad(1), bad(2), area(0)], [bad(1), bad(2), area(0)], []), (20, 12, 0), 24, 0),
    (([bad(1), bad(2), area(0)], [bad(2), bad(1), area(0)], []), (20, 12, 0), 24, 22),
    # at one block, with blocks and without
    (([area(0), bad(1)], [area(0), bad(1)], [area(0)]), (13, 13, 0), 20, 22),
    (([area(0), bad(0)], [area(0), bad(0)], [area(0)]), (13, 13, 0), 20, 0),
    (([area(0), bad(0)], [area(0), bad(1)], [area(0)]), (13, 13, 0), 20, 0),
    (([area(0), bad(1)], [area(0), bad(0)], [area(0)]), (13, 13, 0), 20, 22),
    # a length of no blocks in falling order; beyond 65,535 in exact sums
    (([bad(0), area(0)], [bad(0), area(0)], [file(A, 1)]), (13, 12, 15), 16, 0),
    (([area(1), bad(1)], [bad(1)], [area(0)]), (65_535, 12, 0), 13, 22),
    # names nearly like it are names
    (([file(NEAR[0], 1), area(1)], [file(NEAR[1], 1), area(1)], []), (14, 12, 0), 16, 22),
    (([file(NEAR[0], 1), area(1)], [file(NEAR[0], 1), area(1)], []), (14, 12, 0), 16, 22),
    (([bad(1), area(1)], [file(NEAR[6], 1), area(1)], []), (14, 12, 0), 16, 22),
]


def bad_areas(case):
    for parts, starts, v, number in BADS:
        damaged(case, 5, started(TURNED, parts, *starts), v)
        tool(case, number)


# -- Tentative entries: what stands in one segment, V, the fault, and the tool's number. The first data block is 8 --

BAD_NAME = 64_000, 0, 0
LAST_NAME = 63_999, 63_999, 63_999

OPEN = [
    # no area behind it: the marker, a file, another one
    ([open_file(A, 3, 1)], 11, 4, 0),
    ([open_file(A, 3, 1)], 30, 4, 0),
    ([file(A, 1), open_file(A, 3, 1), file(B, 1)], 13, 4, 0),
    ([file(A, 1), open_file(A, 3, 1), open_file(A, 3, 1), file(B, 1)], 16, 4, 0),
    ([file(A, 1), open_file(A, 3, 1), file(B, 1)], 14, 4, 22),
    ([open_file(A, 0, 1), file(B, 1)], 9, 4, 0),
    # with its area, but V is wrong: both can be filled
    ([open_file(A, 3, 1), area(2), file(B, 1), open_file(A, 0, 2), area(0)], 44, 5, 0),
    ([open_file(A, 65_535, 1), area(65_535)], 12, 5, 0),
    ([open_file(A, 65_535, 1), area(2), file(B, 1)], 65_535, 5, 22),
    # the same channel word, which is no fault of its own here
    ([open_file(A, 3, 1), area(2), open_file(B, 3, 1), area(2)], 17, 5, 0),
    ([open_file(A, 3, 1), area(2), open_file(B, 3, 1)], 16, 4, 0),
    # a bad name, in each word, open and finished
    ([open_file(BAD_NAME, 3, 1), area(2), file(A, 1)], 14, 4, 0),
    ([open_file((0, 65_535, 64_000), 3, 1), area(2)], 13, 4, 0),
    ([file(BAD_NAME, 3), area(2)], 13, 4, 22),
    ([file((1, 64_000, 1), 3), area(2)], 13, 4, 22),
    ([area(2), guarded(file((1, 1, 65_535), 0))], 10, 4, 22),
    ([file(LAST_NAME, 3), open_file(LAST_NAME, 3, 1)], 14, 4, 0),
    ([file((0, 0, 0), 3), area(2)], 20, 5, 0),
    # open under the name of a file, and FILE.BAD
    ([file(A, 1), open_file(A, 1, 1), open_bad(1, 2), bad(1)], 12, 4, 0),
]


def open_ones(case):
    for found, v, number, answer in OPEN:
        damaged(case, number, laid_out(ONE, [found], 0)[0], v)
        tool(case, answer)
    words, v = laid_out(ONE, [[file(A, 1), open_file(B, 3, 1), file(C, 1)]], 0)
    damaged(case, 4, words, v)
    kept = [file(A, 1), open_file(B, 2, 1), area(1), file(C, 1)]
    test(case, 0, *(sound(ONE, entries)[0] for entries in (kept, [kept[0], area(3), kept[3]], [kept[0], open_file(D, 3, 9), area(0), kept[3]])))
    test(case, 22, words, sound(ONE, [file(A, 1), file(B, 3), file(C, 1)])[0])
    tool(case, 0)
    # two on one channel, and nothing else wrong: 6
    words, v = laid_out(ONE, [[open_file(A, 3, 1), area(2), open_file(B, 3, 1), area(2)]], 0)
    damaged(case, 6, words, v)
    tool(case, 6)
    test(case, 6, words, sound(ONE, [area(10)])[0])


# -- Unreadable statuses --

READ = [file(A, 3), area(2), file(B, 4), area(1)]
# The slot whose status is unreadable, from 1; the tool's number; the kept entries as they may stand in a proposal. V is 18.
UNREADABLE = [
    (1, 22, [area(10)]),
    (2, 22, [file(A, 3), area(7)]),
    (3, 0, [file(A, 3), area(7)]),
    (4, 22, [file(A, 3), area(2), file(B, 4), area(1)]),
    (5, 0, READ),
]


def unreadable(case):
    """Only what stands before the first of them is kept, and the marker takes its place; behind the marker it means nothing."""
    words, v = sound(ONE, READ)
    for slot, number, entries in UNREADABLE:
        damaged(case, 4, words, v, (slot_at(slot) + STATUS, 7))
        test(case, 0, sound(ONE, entries)[0])
        if slot < 4:
            test(case, 22, words)
        tool(case, number)
    for status in UNKNOWN:
        damaged(case, 4, words, v, (slot_at(2) + STATUS, status))
        tool(case, 22)
    # two of them, and a marker or a file behind the first
    damaged(case, 4, words, v, (slot_at(3) + STATUS, 0), (slot_at(4) + STATUS, 65_535))
    tool(case, 0)
    damaged(case, 4, words, v, (slot_at(4) + STATUS, 2_047), (slot_at(5) + STATUS, END), (slot_at(6) + STATUS, PERMANENT))
    tool(case, 22)
    unchanged(case, written(words, [(slot_at(6) + STATUS, 7)]), v, B)
    # a file behind it, with a bad name or with that of another, is no fault
    damaged(case, 4, words, v, (slot_at(2) + STATUS, EMPTY + 1), (slot_at(3) + 1, 65_535))
    test(case, 0, sound(ONE, [file(A, 3), area(7)])[0])
    damaged(case, 4, words, v, (slot_at(4) + STATUS, 7), *named_at(slot_at(5), A), (slot_at(5) + STATUS, PERMANENT), (slot_at(6) + STATUS, END))
    test(case, 0, words)
    # no entry is left, and no block: 8 is V
    words, _v = sound(ONE, [file(A, 3)])
    damaged(case, 4, words, 8, (slot_at(1) + STATUS, 7))
    test(case, 22, words)
    tool(case, 0)


def unreadable_between(case):
    """In the middle of the chain: what its segment loses becomes free, if there is an area for it."""
    words, v = sound(TURNED, *WORKED)
    place = entry_at(TURNED, SECOND, 1)
    damaged(case, 4, words, v, (place + STATUS, 7))
    test(case, 0, sound(TURNED, WORKED[0], [area(9)], WORKED[2])[0])
    test(case, 22, words)
    tool(case, 0)
    damaged(case, 4, words, v, (place + STATUS, 7), (entry_at(TURNED, 1, 2) + STATUS, 7))
    tool(case, 0)
    damaged(case, 4, words, v, (place + STATUS, 7), (entry_at(TURNED, 1, 2) + STATUS, 7), (entry_at(TURNED, LAST, 1) + STATUS, 7))
    tool(case, 22)


# -- No marker in a segment's slots. Behind them is room for one status, which is none --


def no_marker(case):
    """The marker goes into the last slot, and so the entry there goes: an area or an open file can be spared, with no blocks or where another
    area has them; a file can't."""
    for extra, count in (0, 72), (1, 63), (16, 22):
        shape = Shape(extra=extra)
        many = crowd(count - 1)  # one block in all
        last = entry_at(shape, 1, count)
        for entry, v, number in (area(0), 9, 0), (open_file(A, 0, 1), 9, 0), (area(5), 9, 0), (area(5), 14, 22), (open_file(A, 5, 1), 14, 22):
            words, _v = laid_out(shape, [many + [entry]], 0)
            damaged(case, 4, words, v)
            tool(case, number)
        words, v = laid_out(shape, [many + [file(A, 0)]], 0)
        assert words[last : last + 4] == file(A, 0)[:4] and words[entry_at(shape, 1, count + 1)] == END
        damaged(case, 4, words, v)
        test(case, 22, sound(shape, many)[0])
        tool(case, 22)
        # where that file's status is unreadable, the others are all
        damaged(case, 4, words, v, (last + STATUS, 1))
        test(case, 0, sound(shape, many)[0])
        tool(case, 0)
        # an area in the midst of them has the blocks; FILE.BAD at the end is a file too
        words, v = laid_out(shape, [many[:2] + [area(0)] + many[2:-1] + [area(5)]], 0)
        damaged(case, 4, words, v)
        tool(case, 22)
        words, v = laid_out(shape, [many[:-2] + [area(0), area(5)]], 0)
        for entry, number in (area(5), 0), (bad(5), 22):
            damaged(case, 4, laid_out(shape, [many[:-1] + [area(0), entry]], 0)[0], v)
            tool(case, number)


def too_many(case):
    """A file in the last slot that the tool can't keep can stand elsewhere: with fewer extra words, or in another segment."""
    shape = Shape(extra=16)
    words, v = laid_out(shape, [crowd(22)], 0)
    damaged(case, 4, words, v)
    tool(case, 22)
    test(case, 0, sound(ONE, crowd(22))[0])
    pair = Shape((1, 2), extra=16)
    words, v = laid_out(pair, [crowd(22), []], 0)
    damaged(case, 4, words, v)
    tool(case, 22)
    test(case, 0, sound(pair, crowd(21), crowd(22)[21:])[0], sound(pair, crowd(1), crowd(22)[:0:-1])[0])
    # alike FILE.BADs of no length at one block: each of them counts
    words, v = laid_out(pair, [[bad(0)] * 22, [bad(0)]], 0)
    damaged(case, 4, words, v)
    tool(case, 22)
    test(case, 22, sound(pair, [bad(0)] * 21, [bad(0)])[0])
    test(case, 0, sound(pair, [bad(0)] * 21, [bad(0)] * 2)[0])


# -- Segments that are full, chains that leave some out, and 31 segments --


def full_segments(case):
    """A full segment whose marker is damaged keeps all its files; segments that are not in use are not read, nor changed."""
    for extra, most in (0, 71), (1, 62), (16, 21):
        shape = Shape((1, 2), 3, extra, PERMANENT)
        words, v = sound(shape, crowd(most), [area(5)])
        mended(case, words, v, (entry_at(shape, 1, most + 1) + STATUS, 7), (start_at(2), 0))
        damaged(case, 5, words, v, (FIRST, 11))
        tool(case, 22)


def greatest(case):
    """31 segments, 2,200 files and an area before them all, 65,535 blocks: a segment's start can't be another, nor can V; but what the area has
    can, as long as segment 1's start makes up for it. Then a marker."""
    shape = Shape(tuple(ORDER))
    words, v = sound(shape, *full_parts())
    length, marker = words[5 + LENGTH], entry_at(shape, 9, 72)
    for number in 2, 17, 31:
        damaged(case, 5, words, v, (start_at(number), words[start_at(number)] + 1))
        tool(case, 22)
    damaged(case, 5, words, v, *((start_at(number), words[start_at(33 - number)]) for number in range(2, 32)))
    tool(case, 22)
    damaged(case, 5, words, v, (FIRST, 60))
    tool(case, 22)
    damaged(case, 4, words, v, (FIRST, 60), (5 + LENGTH, length + 8), (marker + STATUS, 0))
    test(case, 0, words)
    tool(case, 0)


def all_bad(case):
    """2,201 alike FILE.BADs, one to a block, and the starts of their segments in falling order: they get their blocks in rising order."""
    order = list(range(1, 32))
    load(case, order, [[bad(1)] * 71] * 31)
    words, v = case.words, case.v
    starts = [words[start_at(number)] for number in order]
    damaged(case, 5, words, v, *((start_at(number), start) for number, start in zip(order, starts[::-1])), (start_at(31), 69))
    tool(case, 22)
    damaged(case, 5, words, v, *((start_at(number), start) for number, start in zip(order, starts[::-1])))
    test(case, 0, words)
    tool(case, 0)


# -- By chance --

SHAPES = [Shape(), Shape(extra=16, junk=END), Shape((1, 2)), Shape((1, 2), 2, 1, 5)]


class Chance(squeezes.Chance):
    """Damages, most of which leave all files where they are."""

    def slot(self, words):
        """Of an entry, or the marker's."""
        number = self.choice(chain(words))
        marker = next((k for k, slot in enumerate(slots(words, number), 1) if slot[STATUS] == END), 1)
        return slot_place(words, number, self.randint(1, marker))

    def starts(self, words):
        """One of them, or two exchanged."""
        one, other = (start_at(self.choice(chain(words))) for _ in range(2))
        near = words[one] + self.choice([-2, -1, 1, 2])
        return self.choice([[(one, near % 65_536)], [(one, self.word())], [(one, words[other]), (other, words[one])]])

    def lengths(self, words):
        """Of areas, and seldom of a file."""
        places = [place for place in (self.slot(words) for _ in range(5)) if words[place] == EMPTY or self.random() < 0.02]
        return [(place + LENGTH, self.choice([0, 1, 3, self.randrange(30), self.word()])) for place in places[:1]]

    def statuses(self, words):
        return [(self.slot(words) + STATUS, self.choice([TENTATIVE, TENTATIVE, 0, self.word(), EMPTY, END, PROTECTED]))]

    def names(self, words):
        return named_at(self.slot(words), self.choice([FILE_BAD, FILE_BAD, BAD_NAME, A]))

    def moved_start(self, words):
        """A segment's start, and its first area by as much, so that all files behind it stay."""
        number = self.choice(chain(words))
        place, shift = slot_place(words, number, 1) + LENGTH, self.randint(-3, 3)
        if words[place - LENGTH] != EMPTY or words[place] < shift:
            return self.lengths(words)
        return [(start_at(number), words[start_at(number)] + shift), (place, words[place] - shift)]

    def damage(self, words):
        ways = [self.starts, self.lengths, self.lengths, self.statuses, self.statuses, self.names, self.moved_start]
        return [pair for _ in range(self.choice([1, 1, 1, 2, 3])) for pair in self.choice(ways)(words)]

    def proposal(self, words, v, now):
        """The directory before the damage, or what the model's tool makes of it now; some with words changed."""
        found = self.choice([words, repair(now, v)[1]])
        return written(found, self.damage(found)) if self.random() < 0.4 else found


def tried(case, chance, words, v):
    now = written(words, chance.damage(words))
    put(case, now, v)
    if chance.random() < 0.5:
        case.accept(chance.proposal(words, v, now))
    repaired(case)


def by_chance(case):
    """Each directory is damaged until a repair of it succeeds, or four times."""
    chance = Chance(SEED)
    for shape in SHAPES * DIRECTORIES:
        v = first_data_block(shape.segments()) + 100
        words, end = overlaid([shape.junk] * SEGMENT_WORDS * shape.segments(), shape, chance.parts(shape, v))
        for _ in range(4):
            tried(case, chance, words, end)
            if case.words is None:
                break


def add(case):
    for part in worked, another_size, gaps, ends, numbers, sizes, sound_ones, bad_areas, open_ones:
        part(case)
    for part in unreadable, unreadable_between, no_marker, too_many, full_segments, greatest, all_bad, by_chance:
        part(case)
