"""Squeezes as records of a case file (document 02, Req 05). What document 02 says is tested here against the model: moves and entries are
worked out by hand, and after each success the moves are done on a volume of blocks. There is nothing to run here: cases.py uses it.
"""
from typing import NamedTuple

import requests
import rt11
import squeezing
from bads import NEAR, area, bad, file, open_bad
from bench import DATE, close, enter, start
from guards import guarded, open_file
from places import serve
from rt11 import ABANDON, DELETE, EMPTY, END, ENTER, EXTRA, FILE_BAD, FIRST, HIGHEST, LENGTH, LINK, LOOKUP, PERMANENT, PROTECT, PROTECTED
from rt11 import SEGMENT_WORDS, STATUS, TENTATIVE, TOTAL
from rt11 import Request, blocks, fault, first_data_block, kind, named, rows, segment_place
from squeezing import is_bad_area, moved, moves_of
from trials import ORDER, name_of

A, B, C, D, ALL = map(named, ("A", "B", "C", "D", "ALL"))
MOST_MOVES = 2_300  # that a case file may ask room for
SEED, DIRECTORIES, DENSE = 1978, 180, 4


# -- Directories --


class Shape(NamedTuple):
    """The segments of the chain in order, and how many there are in all, where that is more; extra words to an entry; and what stands
    wherever a word means nothing."""

    order: tuple = (1,)
    total: int = 0
    extra: int = 0
    junk: int = 0

    def segments(self):
        return self.total or len(self.order)


ONE, TURNED = Shape(), Shape((1, 3, 2))


def entry_words(entry, extra, rest):
    """A file with its extra words; of an area all words but two mean nothing."""
    if kind(entry) == "E":
        return [EMPTY, rest, rest, rest, entry[LENGTH], rest, rest] + [rest] * extra
    return entry + list(range(1, extra + 1))


def overlaid(words, shape, parts):
    """The words with these entries, one part for each segment of the chain; and V."""
    after, order, n = list(words), shape.order, shape.segments()
    block = first_data_block(n)
    for number, link, found in zip(order, [*order[1:], 0], parts, strict=True):
        head = [n, link, len(order) if number == 1 else shape.junk, 2 * shape.extra, block]
        part, at = sum(found, head) + [END], segment_place(number)
        after[at : at + len(part)] = part
        block += blocks(found)
    return after, block


def laid_out(shape, parts, rest):
    """The same, all made anew: rest stands after markers and in areas; what means nothing elsewhere is the shape's junk."""
    numbers = range(1, shape.segments() + 1)
    words = [rest if number in shape.order else shape.junk for number in numbers for _ in range(SEGMENT_WORDS)]
    return overlaid(words, shape, [[entry_words(entry, shape.extra, rest) for entry in part] for part in parts])


def put(case, words, v):
    """These words are the present directory: by changing some, where that is shorter than all of them. Answers the fault."""
    if case.words is None or v != case.v or len(words) != len(case.words):
        return case.load(words, v)
    pairs = [(at, new) for at, (old, new) in enumerate(zip(case.words, words)) if old != new]
    return case.change(*pairs) if 2 * len(pairs) < len(words) else case.load(words, v)


def begin(case, shape, *parts):
    assert put(case, *laid_out(shape, parts, shape.junk)) == 0


# -- What holds after each squeeze --


def files(words):
    return [row for row in rows(words) if kind(row.entry) == "P"]


def free(words):
    return blocks(row.entry for row in rows(words) if kind(row.entry) == "E")


def held(volume, found):
    return [volume[row.first : row.first + row.entry[LENGTH]] for row in found]


def keeps_contents(before, after, v, moves):
    """Each file's content is at its new place. FILE.BAD stays where it is, and its blocks as they were, and so do those before the data."""
    old, new, volume = files(before), files(after), list(range(v))
    volume_after = moved(volume, moves)
    assert held(volume_after, new) == held(volume, old)
    assert [row.first for row in new if is_bad_area(row.entry)] == [row.first for row in old if is_bad_area(row.entry)]
    data = first_data_block(before[TOTAL])
    assert volume_after[:data] == volume[:data]


def keeps_directory(before, after, v):
    """It is sound; each file keeps its segment, order and words; as many blocks are free, in one area before each FILE.BAD and one behind."""
    assert fault(after, v) == 0
    assert [(row.segment, row.entry) for row in files(after)] == [(row.segment, row.entry) for row in files(before)]
    assert free(after) == free(before)
    kinds = "".join("B" if is_bad_area(row.entry) else kind(row.entry) for row in rows(after))
    assert "EE" not in kinds and "EP" not in kinds


def is_final(after, v):
    """A second squeeze has no moves and changes no word; with no FILE.BAD all that is free is one area."""
    assert squeezing.squeeze(after, v, 0) == (0, [], after)
    if free(after) and not any(is_bad_area(row.entry) for row in files(after)):
        answer, _words = rt11.serve(after, v, Request(ENTER, ALL, size=free(after)))
        assert answer.number in (0, 12), answer


def squeeze(case, room):
    before = case.words
    number, moves = case.squeeze(room)
    if number:
        assert case.words == before and not moves
    else:
        keeps_contents(before, case.words, case.v, moves)
        keeps_directory(before, case.words, case.v)
        is_final(case.words, case.v)
    return number, moves


def refused(case, number, *rooms):
    for room in rooms:
        assert squeeze(case, room) == (number, []), case.lines[-1]


def packs(case, shape, moves, *parts):
    """With room for just these moves the chain's segments get these entries. One room less is 24; and a second squeeze needs none."""
    if moves:
        refused(case, 24, len(moves) - 1)
    assert squeeze(case, len(moves)) == (0, moves), case.lines[-len(moves) - 1 :]
    assert (case.words, case.v) == laid_out(shape, parts, 0)
    stays(case)


def stays(case):
    """Nothing to move, and no word to change."""
    before = case.words
    assert squeeze(case, 0) == (0, []), case.lines[-1]
    assert case.words == before


def found(case, name, first, length, segment, slot):
    serve(case, 0, first, length, DATE, segment, slot, op=LOOKUP, name=name)


# -- One segment --


def worked(case):
    """The worked example, with room for fewer moves than its two, for these, and for more."""
    before = [file(A, 3), area(2), file(B, 4), area(1), bad(2), area(3), file(C, 5), area(2)]
    after = [file(A, 3), file(B, 4), area(3), bad(2), file(C, 5), area(5)]
    moves = [(13, 11, 4), (23, 20, 5)]
    begin(case, ONE, before)
    assert case.v == 30
    refused(case, 24, 0, 1)
    packs(case, ONE, moves, after)
    for room in 3, MOST_MOVES:
        begin(case, ONE, before)
        assert squeeze(case, room) == (0, moves)
        stays(case)
    for name, *place in (A, 8, 3, 1, 1), (B, 11, 4, 1, 2), (FILE_BAD, 18, 2, 1, 4), (C, 20, 5, 1, 5):
        found(case, name, *place)
    assert enter(case, ALL, 8, 1).number == 11
    assert enter(case, ALL, 5, 1)[:3] == (0, 25, 5)


# Entries, moves, and the entries afterwards; the first data block is 8.
BAD_AREAS = [
    # protected, among protected files
    (
        [area(2), file(A, 3), guarded(bad(2)), area(1), guarded(file(B, 4))],
        [(10, 8, 3), (16, 15, 4)],
        [file(A, 3), area(2), guarded(bad(2)), guarded(file(B, 4)), area(1)],
    ),
    # of no length, and protected too
    ([area(2), file(A, 3), bad(0), file(B, 1), area(1)], [(10, 8, 3)], [file(A, 3), area(2), bad(0), file(B, 1), area(1)]),
    ([area(2), guarded(bad(0)), area(1), file(B, 1)], [(11, 10, 1)], [area(2), guarded(bad(0)), file(B, 1), area(1)]),
    # several at one block
    ([area(1), bad(0), bad(0), file(A, 1), bad(0)], [], [area(1), bad(0), bad(0), file(A, 1), bad(0)]),
    # side by side, and with an area between
    ([area(1), bad(2), bad(3), area(4), bad(1), file(A, 2)], [], [area(1), bad(2), bad(3), area(4), bad(1), file(A, 2)]),
    # first, last, and last behind the last block
    ([bad(2), area(1), file(A, 2)], [(11, 10, 2)], [bad(2), file(A, 2), area(1)]),
    ([file(A, 2), area(1), file(B, 2), bad(3)], [(11, 10, 2)], [file(A, 2), file(B, 2), area(1), bad(3)]),
    ([area(1), file(A, 2), bad(0)], [(9, 8, 2)], [file(A, 2), area(1), bad(0)]),
    # nothing else; nothing left over before it
    ([bad(1), bad(0), guarded(bad(2))], [], [bad(1), bad(0), guarded(bad(2))]),
    ([file(A, 3), bad(2), area(0), file(B, 1), area(2)], [], [file(A, 3), bad(2), file(B, 1), area(2)]),
    # a file that would fit before it stays behind it
    ([area(9), bad(1), area(1), file(A, 2), area(1)], [(19, 18, 2)], [area(9), bad(1), file(A, 2), area(2)]),
]

# The same.
PLAIN = [
    # the blocks of a file overlap its new place, or touch it, or do neither
    ([area(1), file(A, 9)], [(9, 8, 9)], [file(A, 9), area(1)]),
    ([area(4), file(A, 4)], [(12, 8, 4)], [file(A, 4), area(4)]),
    ([area(9), file(A, 1), area(1), file(B, 7)], [(17, 8, 1), (19, 9, 7)], [file(A, 1), file(B, 7), area(10)]),
    # files of no length change their place without a move
    (
        [area(2), file(A, 0), file(B, 3), area(1), file(C, 0), file(D, 0), area(1)],
        [(10, 8, 3)],
        [file(A, 0), file(B, 3), file(C, 0), file(D, 0), area(4)],
    ),
    ([area(2), file(A, 0), bad(0), area(3), file(B, 0)], [], [file(A, 0), area(2), bad(0), file(B, 0), area(3)]),
    # areas in a row, and of no length
    ([area(0), file(A, 1), area(1), area(0), area(2), file(B, 1), area(0)], [(12, 9, 1)], [file(A, 1), file(B, 1), area(3)]),
    ([area(1), area(2)], [], [area(3)]),
    # nothing left over: there is no area, and maybe no entry
    ([area(0), file(A, 1), area(0), area(0)], [], [file(A, 1)]),
    ([area(0), bad(1), area(0)], [], [bad(1)]),
    ([area(0)], [], []),
    ([], [], []),
    # other words of a file: any channel word and date, a blank name, the last words of Radix-50
    (
        [area(1), [PROTECTED, *A, 3, 65_535, 65_535], area(1), [PERMANENT, 0, 0, 0, 2, 7, 1], [PERMANENT, 63_999, 63_999, 63_999, 1, 0, 0]],
        [(9, 8, 3), (13, 11, 2), (15, 13, 1)],
        [[PROTECTED, *A, 3, 65_535, 65_535], [PERMANENT, 0, 0, 0, 2, 7, 1], [PERMANENT, 63_999, 63_999, 63_999, 1, 0, 0], area(2)],
    ),
    # names like FILE.BAD are names
    (
        [area(1), *(file(name, 1) for name in NEAR), bad(1)],
        [(9 + k, 8 + k, 1) for k in range(9)],
        [*(file(name, 1) for name in NEAR), area(1), bad(1)],
    ),
]


def one_segment(case):
    for before, moves, after in BAD_AREAS + PLAIN:
        begin(case, ONE, before)
        packs(case, ONE, moves, after)


def named_area(case):
    """An empty entry that has the name FILE.BAD is none."""
    begin(case, ONE, [file(A, 1), area(2), file(B, 1)])
    assert case.change(*zip(range(13, 16), FILE_BAD)) == 0
    packs(case, ONE, [(11, 9, 1)], [file(A, 1), file(B, 1), area(2)])


# The same, up to block 65,534.
FAR = [
    ([area(1), file(A, 65_526)], [(9, 8, 65_526)], [file(A, 65_526), area(1)]),
    ([area(65_526), file(A, 1)], [(65_534, 8, 1)], [file(A, 1), area(65_526)]),
    ([area(32_768), file(A, 32_759)], [(32_776, 8, 32_759)], [file(A, 32_759), area(32_768)]),
    (
        [area(1), file(A, 32_767), area(32_758), bad(1), file(B, 0)],
        [(9, 8, 32_767)],
        [file(A, 32_767), area(32_759), bad(1), file(B, 0)],
    ),
    ([area(65_527), file(A, 0)], [], [file(A, 0), area(65_527)]),
    ([area(40_000), area(25_527), bad(0)], [], [area(65_527), bad(0)]),
]


def far(case):
    for before, moves, after in FAR:
        begin(case, ONE, before)
        assert case.v == 65_535
        packs(case, ONE, moves, after)
    begin(case, Shape((1, 2)), [area(40_000)], [area(20_000), file(A, 5_000), area(525)])
    packs(case, Shape((1, 2)), [(60_010, 10, 5_000)], [], [file(A, 5_000), area(60_525)])


# -- Several segments: the chain is 1, 3 and 2, so its last segment is not H --

# The parts in chain order, moves, and the parts afterwards; the first data block is 12.
SEGMENTS = [
    (
        ([file(A, 3), area(2)], [area(4), file(B, 5)], [area(1), file(C, 2), area(6)]),
        [(21, 15, 5), (27, 20, 2)],
        ([file(A, 3)], [file(B, 5)], [file(C, 2), area(13)]),
    ),
    # what is left over crosses into FILE.BAD's segment, which then begins with it
    (
        ([file(A, 3), area(2)], [area(4), file(B, 5), area(1)], [bad(2), area(1), file(C, 2)]),
        [(21, 15, 5), (30, 29, 2)],
        ([file(A, 3)], [file(B, 5)], [area(7), bad(2), file(C, 2), area(1)]),
    ),
    (
        ([area(1), file(A, 1), bad(1), area(2)], [bad(1), area(3)], [file(B, 1)]),
        [(13, 12, 1), (21, 18, 1)],
        ([file(A, 1), area(1), bad(1)], [area(2), bad(1)], [file(B, 1), area(3)]),
    ),
    # from the first segment to a FILE.BAD in the last, past files that do not pass it
    (
        ([area(5)], [file(A, 1)], [file(B, 1), guarded(bad(0)), file(C, 1), bad(1)]),
        [(17, 12, 1), (18, 13, 1)],
        ([], [file(A, 1)], [file(B, 1), area(5), guarded(bad(0)), file(C, 1), bad(1)]),
    ),
    # segments without an entry: the first ones, those behind, all; FILE.BAD between such
    (([area(2)], [area(1), area(0)], [file(A, 4), area(1)]), [(15, 12, 4)], ([], [], [file(A, 4), area(4)])),
    (([file(A, 1), area(1)], [area(2)], [area(3)]), [], ([file(A, 1)], [], [area(6)])),
    (([file(A, 1)], [area(0)], [area(0), area(0)]), [], ([file(A, 1)], [], [])),
    (([area(0)], [], [area(0)]), [], ([], [], [])),
    (([area(2)], [area(1), bad(1)], [area(1)]), [], ([], [area(3), bad(1)], [area(1)])),
    (([area(2)], [], [bad(3)]), [], ([], [], [area(2), bad(3)])),
    # files of no length at the borders of segments
    (
        ([area(1), file(A, 0)], [file(B, 0), bad(0), area(1)], [file(C, 0), file(D, 2)]),
        [(14, 13, 2)],
        ([file(A, 0)], [file(B, 0), area(1), bad(0)], [file(C, 0), file(D, 2), area(1)]),
    ),
]


def several(case):
    """In the chain's order, and in the slice's."""
    for before, moves, after in SEGMENTS:
        for shape in TURNED, Shape((1, 2, 3)):
            begin(case, shape, *before)
            packs(case, shape, moves, *after)


def looked_up(case):
    before, moves, after = SEGMENTS[0]
    begin(case, TURNED, *before)
    packs(case, TURNED, moves, *after)
    for name, *place in (A, 12, 3, 1, 1), (B, 15, 5, 3, 1), (C, 20, 2, 2, 1):
        found(case, name, *place)
    assert enter(case, ALL, 13, 1) == (0, 22, 13, DATE, 2, 2)


def meaningless(case):
    """Whatever stands in areas, after markers, in segments that are not in use, and as H where it is not read: words after markers become 0,
    the left over's other words too, and the rest stays. Extra words go with their file."""
    before, moves, after = SEGMENTS[1]
    shift = 4  # two more segments
    moves = [(old + shift, new + shift, length) for old, new, length in moves]
    for junk, extra in (65_535, 0), (END, 1), (PERMANENT, 3), (EMPTY, 16), (TENTATIVE, 2):
        shape = Shape(TURNED.order, 5, extra, junk)
        begin(case, shape, *before)
        packs(case, shape, moves, *after)
    still = [file(A, 1)], [bad(1)], [], [file(B, 2)]  # nothing to squeeze
    shape = Shape((1, 3, 2, 4), junk=PERMANENT)
    begin(case, shape, *still)
    packs(case, shape, [], *still)
    for extra in 1, 3, 15, 16:
        shape = Shape(extra=extra, junk=PROTECTED)
        begin(case, shape, [area(2), file(A, 1), area(1), guarded(file(B, 2)), bad(1), area(1)])
        packs(case, shape, [(10, 8, 1), (12, 9, 2)], [file(A, 1), guarded(file(B, 2)), area(3), bad(1), area(1)])


# -- Refusals --


def crowd(count):
    """So many files, of which the first alone has a block."""
    return [file(named(f"F{k}"), int(k == 0)) for k in range(count)]


def slots_enough(case):
    """26 where a segment gets one entry more than C, success where it gets C: by what is left over last, before a FILE.BAD, and both. 24 comes
    first. The first data block is 10."""
    for extra, most in (0, 71), (1, 62), (16, 21):
        shape, many = Shape((1, 2), extra=extra), crowd(most)
        # last in the chain's last segment, where an area of its own makes room
        begin(case, shape, [area(2)], many)
        refused(case, 24, 0)
        refused(case, 26, 1, MOST_MOVES)
        begin(case, shape, [area(2)], many[:-1])
        packs(case, shape, [(12, 10, 1)], [], many[:-1] + [area(2)])
        begin(case, shape, [area(2)], many[:-1] + [area(3)])
        packs(case, shape, [(12, 10, 1)], [], many[:-1] + [area(5)])
        # before a FILE.BAD, last and first in its segment
        begin(case, shape, [area(2)], many[:-1] + [bad(1)])
        refused(case, 24, 0)
        refused(case, 26, 1)
        begin(case, shape, [area(2)], many[:-2] + [bad(1)])
        packs(case, shape, [(12, 10, 1)], [], many[:-2] + [area(2), bad(1)])
        begin(case, shape, [area(2)], [bad(1)] + many[:-1])
        refused(case, 26, 0, 1)
        # and both
        begin(case, shape, [area(2)], [bad(1)] + many[:-2] + [area(3)])
        refused(case, 26, 0)
        begin(case, shape, [area(2)], [bad(1)] + many[:-3] + [area(3)])
        packs(case, shape, [], [], [area(2), bad(1)] + many[:-3] + [area(3)])


def slots_elsewhere(case):
    """Room in other segments is of no use: in H where the chain's last segment is full, and in the last where FILE.BAD's is. A full segment can
    be squeezed where what is left over was in it before, or where nothing is left over."""
    many = crowd(71)
    begin(case, TURNED, [area(2)], [file(A, 1)], many)
    refused(case, 26, 2)
    begin(case, TURNED, [area(2)], many[:-1] + [bad(1)], [])
    refused(case, 26, 1)
    begin(case, TURNED, [area(0)], many, [area(2)])
    packs(case, TURNED, [], [], many, [area(2)])
    begin(case, TURNED, [area(2)], many, [])
    packs(case, TURNED, [(14, 12, 1)], [], many, [area(2)])
    begin(case, ONE, [area(1)] + many[:-1])
    packs(case, ONE, [(9, 8, 1)], many[:-1] + [area(1)])
    gaps = [bad(1), area(1)] * 35 + [bad(1)]
    begin(case, Shape((1, 2)), [], gaps)
    packs(case, Shape((1, 2)), [], [], gaps)
    begin(case, Shape((1, 2)), [area(1)], gaps)
    refused(case, 26, 0)


def everything_wrong(case):
    """A tentative entry; with it gone, a move and an entry too many: 21, 24 and 26."""
    begin(case, Shape((1, 2)), [open_file(A, 1, 3), area(2)], crowd(71))
    refused(case, 21, 0, 1, MOST_MOVES)


def numbered(case):
    """In number order; what is refused can be mended, and is done then."""
    everything_wrong(case)
    serve(case, 0, 10, 1, DATE, 1, 1, op=ABANDON, channel=3)
    refused(case, 24, 0)
    refused(case, 26, 1, MOST_MOVES)
    serve(case, 0, 14, 0, DATE, 2, 71, op=DELETE, name=named("F70"))
    packs(case, Shape((1, 2)), [(13, 10, 1)], [], crowd(70) + [area(3)])


# Places and words that break the rules 2 to 5, in the directory with everything wrong.
FAULTS = [
    (2, (EXTRA, 1)),
    (2, (HIGHEST, 3)),
    (2, (TOTAL, 1)),
    (3, (LINK, 1)),
    (3, (HIGHEST, 1)),
    (3, (SEGMENT_WORDS + EXTRA, 2)),
    (4, (5, TENTATIVE + 1)),
    (4, (12, PERMANENT)),
    (4, (SEGMENT_WORDS + 5 + 7 * 71, PERMANENT)),
    (4, (SEGMENT_WORDS + 6, 64_000)),
    (5, (FIRST, 9)),
    (5, (SEGMENT_WORDS + FIRST, 12)),
    (5, (12 + LENGTH, 3)),
]


def damaged(case, number, *pairs):
    """The words are put back then."""
    back = [(at, case.words[at]) for at, _word in pairs]
    assert case.change(*pairs) == number
    refused(case, number, 0, MOST_MOVES)
    assert case.change(*back) == 0


def faults(case):
    """1 to 6 come before the others."""
    everything_wrong(case)
    for number, pair in FAULTS:
        damaged(case, number, pair)
    last = SEGMENT_WORDS + 5 + 7 * 70
    damaged(case, 5, *((last - 7 * k + LENGTH, 32_768) for k in range(2)))  # V + 65,536
    damaged(case, 6, *zip(range(last + 1, last + 4), named("F0")))
    words = case.words
    for size, v in (0, case.v), (SEGMENT_WORDS - 1, case.v), (2 * SEGMENT_WORDS, 9), (2 * SEGMENT_WORDS, case.v + 65_536):
        assert case.load(words[:size], v) == 1
        refused(case, 1, 0, MOST_MOVES)


def open_anywhere(case):
    """A tentative entry at each place, the least one too: of length 0, with an area of length 0, where there is nothing to move."""
    parts = [[file(A, 1)], [file(B, 1), bad(1)], [file(C, 1), area(2)]]
    begin(case, TURNED, *parts)
    stays(case)
    for rank, part in enumerate(parts):
        for index in range(len(part) + 1):
            for new in open_file(D, 0, 3), open_bad(0, 0):
                now = part[:index] + [new, area(0)] + part[index:]
                begin(case, TURNED, *parts[:rank], now, *parts[rank + 1 :])
                refused(case, 21, 0, MOST_MOVES)
    serve(case, 0, 18, 0, DATE, 2, 3, op=ABANDON, channel=0)
    packs(case, TURNED, [], *parts)


# -- In use --


def day(case):
    """Squeezes between the requests of a day."""
    start(case, 1, 60)
    stays(case)
    assert enter(case, A, 10, 1)[:3] == (0, 8, 10)
    refused(case, 21, 0)
    assert enter(case, B, 10, 2)[:3] == (0, 18, 10)
    assert close(case, 1, 4).number == 0
    refused(case, 21, MOST_MOVES)
    assert close(case, 2, 10).number == 0
    packs(case, ONE, [(18, 12, 10)], [file(A, 4), file(B, 10), area(38)])
    assert enter(case, C, 38, 1)[:3] == (0, 22, 38)
    refused(case, 21, MOST_MOVES)
    serve(case, 0, 22, 38, DATE, 1, 3, op=ABANDON, channel=1)
    packs(case, ONE, [], [file(A, 4), file(B, 10), area(38)])
    serve(case, 0, 12, 10, DATE, 1, 2, op=PROTECT, name=B)
    serve(case, 0, 8, 4, DATE, 1, 1, op=DELETE, name=A)
    packs(case, ONE, [(12, 8, 10)], [guarded(file(B, 10)), area(42)])
    found(case, B, 8, 10, 1, 1)


def depot(case):
    """900 blocks are free, and a file of 40 is refused; afterwards one of 900 is not."""
    names = [named(f"F{k}") for k in range(30)]
    begin(case, ONE, [entry for name in names for entry in (file(name, 2), area(30))])
    assert enter(case, ALL, 40, 1).number == 11
    packs(case, ONE, [(8 + 32 * k, 8 + 2 * k, 2) for k in range(1, 30)], [file(name, 2) for name in names] + [area(900)])
    assert enter(case, ALL, 901, 1).number == 11
    assert enter(case, ALL, 900, 1)[:3] == (0, 68, 900)
    assert case.serve(Request(ABANDON, channel=1)).number == 0
    assert enter(case, ALL, 40, 1)[:3] == (0, 68, 40)


# -- A full volume of the greatest size: 31 segments, 2,201 entries, 65,535 blocks --


def full_parts():
    """An area, 2,200 files of 20 to 37 blocks, all in the chain's order."""
    many = [file(name_of(k), 20 + k % 18) for k in range(2_200)]
    entries = [area(65_535 - 68 - blocks(many))] + many
    return [entries[71 * rank : 71 * rank + 71] for rank in range(31)]


def place_of(k):
    """Of file k's entry."""
    rank, index = divmod(k + 1, 71)
    return segment_place(ORDER[rank]) + 5 + 7 * index


def start_of(k):
    """Of file k, where nothing is free before it: each 18 files have 513 blocks."""
    return 68 + k // 18 * 513 + sum(range(20, 20 + k % 18))


def full(case):
    """All 2,200 files would move, and what is left over needs a slot in the chain's last segment. With the last file gone it has one."""
    shape, parts = Shape(tuple(ORDER)), full_parts()
    gap = parts[0][0][LENGTH]
    assert gap == 65_535 - start_of(2_200)
    begin(case, shape, *parts)
    refused(case, 24, 0, 2_199)
    refused(case, 26, 2_200, MOST_MOVES)
    last = parts[-1].pop()
    assert case.serve(Request(DELETE, name_of(2_199))) == (0, 65_535 - last[LENGTH], last[LENGTH], DATE, 2, 71)
    moves = [(start_of(k) + gap, start_of(k), 20 + k % 18) for k in range(2_199)]
    packs(case, shape, moves, parts[0][1:], *parts[1:-1], parts[-1] + [area(gap + last[LENGTH])])
    full_with_bads(case)


def full_with_bads(case):
    """Then file 1,000 becomes a FILE.BAD, eighth in a full segment. Where the last file of the segment before goes, what it leaves needs a slot
    there; where the third of the same segment goes, there is one."""
    assert case.change(*enumerate(FILE_BAD, place_of(1_000) + 1)) == 0
    stays(case)
    begun = case.words
    assert case.change((place_of(992) + STATUS, EMPTY)) == 0
    refused(case, 24, 6)
    refused(case, 26, 7, MOST_MOVES)
    assert case.change((place_of(992) + STATUS, PERMANENT), (place_of(995) + STATUS, EMPTY)) == 0
    length = 20 + 995 % 18
    moves = [(start_of(k), start_of(k) - length, 20 + k % 18) for k in range(996, 1_000)]
    assert squeeze(case, 4) == (0, moves)
    at, end = place_of(995), place_of(1_000)
    assert case.words == begun[:at] + begun[at + 7 : end] + [EMPTY, 0, 0, 0, length, 0, 0] + begun[end:]
    stays(case)
    for k, segment, slot in (0, 1, 1), (994, 18, 2), (1_001, 18, 9), (2_198, 2, 70):
        found(case, name_of(k), start_of(k), 20 + k % 18, segment, slot)
    found(case, name_of(999), start_of(999) - length, 20 + 999 % 18, 18, 6)
    found(case, FILE_BAD, start_of(1_000), 20 + 1_000 % 18, 18, 8)


# -- By chance --


class Chance(requests.Chance):
    """Few files are open, more are FILE.BAD, and fewer have no blocks."""

    def open_file(self, extra, taken):
        return super().open_file(extra, taken) if self.random() < 0.03 else [self.area(extra)]

    def length(self):
        return self.choice([0, 1, 2, 3, self.randint(0, 20)])

    def file(self, extra, taken):
        entry = super().file(extra, taken)
        return entry[:1] + [*FILE_BAD] + entry[LENGTH:] if self.random() < 0.1 else entry

    def parts(self, shape, v):
        """Up to five entries to a segment, or up to ten in a single one, and an area somewhere that has what is left of V, if anything."""
        taken, files_in_five, most = set(), self.choice([2, 3, 3, 4]), 5 if len(shape.order) > 1 else 10
        parts = [self.entries(self.randint(0, most), shape.extra, taken, files_in_five, False) for _ in shape.order]
        rest = self.area(shape.extra)
        rest[LENGTH] = max(0, v - overlaid([], shape, parts)[1])
        part = self.choice(parts)
        part.insert(self.randint(0, len(part)), rest)
        return parts

    def littered(self, words):
        return [self.word() if self.random() < 0.01 else word for word in words]


SHAPES = [Shape(), Shape((1, 3, 2)), Shape((1, 2), 3), Shape((1, 2), 2, 16), Shape((1, 4, 2, 3), 4, 1, 7)]


def needed(case):
    return 0 if fault(case.words, case.v) else len(moves_of(case.words))


def tried(case, chance):
    """Now and then with a word changed before, or with too little room at first; then maybe a lookup, and an enter, mostly of all that is
    free."""
    if chance.random() < 0.2:
        case.change((chance.randrange(40), chance.choice([0, 1, EMPTY, PERMANENT, chance.word()])))
    if needed(case) and chance.random() < 0.3:
        squeeze(case, chance.randrange(needed(case)))
    number, _moves = squeeze(case, chance.choice([needed(case), MOST_MOVES]))
    if chance.random() < 0.5:
        case.serve(Request(LOOKUP, chance.name(case.words)))
    if number == 0:
        size = chance.choice([free(case.words), free(case.words), -1])
        case.serve(Request(ENTER, ALL, channel=chance.randrange(9), size=size, date=DATE))


def small_ones(case, chance):
    """What was there before is left behind the markers, until a squeeze."""
    for shape in SHAPES:
        v = first_data_block(shape.segments()) + 100
        case.load([shape.junk] * SEGMENT_WORDS * shape.segments(), v)
        for _ in range(DIRECTORIES // len(SHAPES)):
            words, _end = overlaid(chance.littered(case.words), shape, chance.parts(shape, v))
            put(case, words, v)
            tried(case, chance)


def by_chance(case):
    chance = Chance(SEED)
    small_ones(case, chance)
    for _ in range(DENSE):
        case.load(*chance.sound_directory())
        tried(case, chance)


def add(case):
    for part in worked, one_segment, named_area, far, several, looked_up, meaningless, slots_enough, slots_elsewhere, numbered, faults:
        part(case)
    for part in open_anywhere, day, depot, full, by_chance:
        part(case)
