"""Proposals for the repair of a damaged directory as records of a case file (document 02, Req 09): what the test accepts and what it rejects, worked
out by hand and tested here against the model. There is nothing to run here: cases.py uses it.
"""
import itertools

from bads import area, bad, file, open_bad
from bench import DATE
from guards import guarded, open_file
from repairs import LAST, PAIR, WORKED, damaged, dated, entry_at, named_at, slot_at, sound, start_at, started, test, tool
from rt11 import CHANNEL, DATE as DATE_WORD, EMPTY, END, EXTRA, FILE_BAD, FIRST, HIGHEST, LENGTH, LINK, PERMANENT, PROTECTED, SEGMENT_WORDS, STATUS
from rt11 import TENTATIVE, TOTAL, fault, written
from squeezes import A, B, C, D, ONE, TURNED, Shape, laid_out


# -- The test: what a proposal may be --

# The last area's length is damaged, so that the sound directory itself is a good proposal. First block 8, V 30.
KEPT = [file(A, 3), area(2), guarded(file(B, 4)), area(1), bad(2), area(3), file(C, 5), area(2)]

# Words of the sound one changed: the proposal is sound no more.
FAULTY = [
    [(TOTAL, 2)],
    [(HIGHEST, 2)],
    [(EXTRA, 3)],
    [(LINK, 1)],
    [(slot_at(2) + STATUS, 513)],
    [(slot_at(9) + STATUS, EMPTY), (slot_at(10) + STATUS, 1)],
    [(slot_at(1) + 3, 64_000)],
    [(slot_at(2) + STATUS, TENTATIVE)],
    [(FIRST, 7)],
    [(slot_at(8) + LENGTH, 3)],
    [(slot_at(8) + LENGTH, 1)],
    named_at(slot_at(1), C),
]

# It is sound, but a file isn't what it was.
CHANGED = [
    # lost: the first, the last, FILE.BAD
    [(slot_at(1) + STATUS, EMPTY)],
    [(slot_at(7) + STATUS, EMPTY)],
    [(slot_at(5) + STATUS, EMPTY)],
    # protected, and no more
    [(slot_at(1) + STATUS, PROTECTED)],
    [(slot_at(3) + STATUS, PERMANENT)],
    [(slot_at(5) + STATUS, PROTECTED)],
    # open, with an area behind it
    [(slot_at(7) + STATUS, TENTATIVE)],
    # added, with blocks and without
    [(slot_at(2) + STATUS, PERMANENT), *named_at(slot_at(2), D)],
    [(slot_at(8) + STATUS, PERMANENT), *named_at(slot_at(8), FILE_BAD)],
    [(slot_at(9) + STATUS, PROTECTED), *named_at(slot_at(9), D), (slot_at(9) + LENGTH, 0), (slot_at(10) + STATUS, END)],
    # renamed, by one word
    [(slot_at(1) + 1, A[0] + 1)],
    [(slot_at(1) + 2, 1)],
    [(slot_at(1) + 3, 1)],
    [(slot_at(5) + 3, FILE_BAD[2] + 1)],
    # names exchanged
    [*named_at(slot_at(1), C), *named_at(slot_at(7), A)],
    # moved, by one block
    [(slot_at(2) + LENGTH, 3), (slot_at(4) + LENGTH, 0)],
    [(slot_at(4) + LENGTH, 2), (slot_at(6) + LENGTH, 2)],
    [(slot_at(6) + LENGTH, 4), (slot_at(8) + LENGTH, 1)],
    # of another length
    [(slot_at(1) + LENGTH, 2), (slot_at(2) + LENGTH, 3)],
    [(slot_at(3) + LENGTH, 5), (slot_at(4) + LENGTH, 0)],
    [(slot_at(7) + LENGTH, 0), (slot_at(8) + LENGTH, 7)],
    # of another date
    [(slot_at(1) + DATE_WORD, DATE + 1)],
    [(slot_at(5) + DATE_WORD, 0)],
]

# All that counts is as it was.
FREE = [
    [],
    # channel words of files, all but status and length of an area, words after the marker
    [(slot_at(1) + CHANNEL, 9), (slot_at(5) + CHANNEL, 65_535)],
    [(slot_at(2) + k, 65_000) for k in (1, 2, 3, 5, 6)],
    [(slot_at(9) + k, PERMANENT) for k in range(1, 40)],
]

# Two files are open on one channel.
SHARED = [file(A, 3), open_file(B, 1, 7), area(1), guarded(file(B, 4)), area(1), bad(2), open_bad(3, 7), area(0), file(C, 5), area(2)]

# Other entries in the proposal.
OTHERS = [
    # areas divided, or of no length
    [file(A, 3), area(1), area(1), guarded(file(B, 4)), area(1), bad(2), area(0), area(3), file(C, 5), area(2), area(0)],
    [area(0), file(A, 3), area(2), guarded(file(B, 4)), area(1), bad(2), area(3), area(0), file(C, 5), area(2)],
    # files that are open
    [file(A, 3), open_file(B, 1, 7), area(1), guarded(file(B, 4)), area(1), bad(2), open_bad(3, 0), area(0), file(C, 5), area(2)],
]


def proposals(case):
    words, v = sound(ONE, KEPT)
    assert v == 30
    now = damaged(case, 5, words, v, (slot_at(8) + LENGTH, 9))
    test(case, 22, now, *(written(words, pairs) for pairs in FAULTY), laid_out(ONE, [SHARED], 0)[0])
    for pairs in CHANGED:
        proposal = written(words, pairs)
        assert fault(proposal, v) == 0, pairs
        test(case, 22, proposal)
    test(case, 0, *(written(words, pairs) for pairs in FREE), *(sound(ONE, entries)[0] for entries in OTHERS))
    test(case, 22, [], words[:-1], words + [0], words[: SEGMENT_WORDS // 2], words + words)
    tool(case, 0)


def other_counts(case):
    """A segment more or less is 22, though the proposal is sound by itself for the same V, and has the same file at the same block."""
    one, two = sound(ONE, [area(6), file(A, 3), area(4)]), sound(Shape((1,), 2), [area(4), file(A, 3), area(4)])
    for (words, v), (other, same_v) in (one, two), (two, one):
        assert v == same_v == 21
        damaged(case, 5, words, v, (slot_at(3) + LENGTH, 5))
        test(case, 22, other)
        test(case, 0, words)
        tool(case, 0)


def elsewhere(case):
    """The same files in other segments, with extra words of their own, in a chain of another order and length."""
    words, v = sound(TURNED, *WORKED)
    damaged(case, 5, words, v, (start_at(LAST), 99))
    tool(case, 22)
    damaged(case, 5, words, v, (entry_at(TURNED, LAST, 3) + LENGTH, 0))
    every = sum(WORKED, [])
    shapes = Shape((1,), 3), Shape((1, 2), 3, 1), Shape((1, 2, 3), 3, 16, PERMANENT), Shape((1, 3, 2), 3, 2, 7)
    for shape in shapes:
        cuts = [0, 3, 6][: len(shape.order)] + [len(every)]
        test(case, 0, sound(shape, *(every[a:b] for a, b in itertools.pairwise(cuts)))[0])
    test(case, 22, sound(TURNED, every[:2], every[2:4], [file(D, 1), *every[5:]])[0])
    tool(case, 0)


def no_blocks(case):
    """Files of no length at one block may change their order, in a proposal; the tool leaves them in theirs."""
    first, second, third = [file(A, 0), guarded(file(B, 0)), bad(0)], file(C, 1), [area(1), bad(0), file(D, 0)]
    words, v = sound(ONE, first + [second] + third)
    damaged(case, 5, words, v + 1)
    tool(case, 22)
    words, v = sound(ONE, first + [second] + third + [area(3)])
    damaged(case, 5, words, v, (entry_at(ONE, 1, 8) + LENGTH, 0))
    test(case, 0, words, sound(ONE, first[::-1] + [second, area(1), file(D, 0), bad(0), area(3)])[0])
    test(case, 22, sound(ONE, first[:2] + [second, area(1), bad(0), bad(0), file(D, 0), area(3)])[0])  # FILE.BAD passes C
    test(case, 22, sound(ONE, first + [second, area(1), file(D, 0), area(3)])[0])
    test(case, 22, sound(ONE, first + [second, area(1), bad(0), bad(0), file(D, 0), area(3)])[0])
    tool(case, 0)


def exchanged(case):
    """Two alike may exchange their words and places in a proposal; each still stands as often as it did."""
    one, other = [*bad(2)], [*bad(2)]
    one[CHANNEL], other[CHANNEL] = 1, 2
    words, v = sound(ONE, [one, area(1), other, area(1), dated(bad(2), 0)])
    damaged(case, 5, words, v + 4)
    tool(case, 22)
    damaged(case, 5, words, v, (slot_at(4) + LENGTH, 3), (FIRST, 6))
    test(case, 22, words)
    words, v = sound(ONE, [one, area(1), other, area(1), dated(bad(2), 0), area(1)])
    damaged(case, 5, words, v, (slot_at(6) + LENGTH, 3))
    test(case, 0, words, sound(ONE, [other, area(1), one, area(1), dated(bad(2), 0), area(1)])[0])
    test(case, 22, sound(ONE, [one, area(1), dated(bad(2), 0), area(1), other, area(1)])[0])
    test(case, 22, sound(ONE, [one, area(1), other, area(4)])[0], sound(ONE, [one, area(1), other, area(1), bad(2), area(1)])[0])
    tool(case, 0)
    # at one block: a directory with one of them isn't enough, and none with both is sound
    damaged(case, 5, started(PAIR, ([area(1), bad(1), area(1)], [bad(1), area(1)]), 10, 11), 15)
    test(case, 22, sound(Shape((1,), 2), [area(1), bad(1), area(3)])[0])
    tool(case, 22)


def add(case):
    for part in proposals, other_counts, elsewhere, no_blocks, exchanged:
        part(case)
