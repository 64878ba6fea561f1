"""Where the entry is, as records of a case file (document 02, Req 08): the segment and slot of each answer. What document 02 says is tested here
against the model, with places worked out by hand. There is nothing to run here: cases.py uses it.
"""
from bads import ILLEGAL, area, bad, file, load
from bench import DATE, DAY, LOG, start
from guards import open_file
from rt11 import ABANDON, CLOSE, DATE as DATE_WORD, DELETE, ENTER, FILE_BAD, FIRST, LENGTH, LOOKUP, PROTECT, RENAME, UNPROTECT
from rt11 import Answer, Request, header, named, slots

NEW, OTHER = named("NEW.CHG"), named("OTHER.CHG")


def expect(case, answer, *wanted):
    """The whole answer; and the words after have such an entry there."""
    assert answer == Answer(*wanted), answer
    if answer.number == 0:
        found = slots(case.words, answer.segment)
        before, entry = found[: answer.slot - 1], found[answer.slot - 1]
        first = header(case.words, answer.segment)[FIRST] + sum(slot[LENGTH] for slot in before)
        assert (first, entry[LENGTH], entry[DATE_WORD]) == answer[1:4], entry


def serve(case, *wanted, **fields):
    expect(case, case.serve(Request(**fields)), *wanted)


def begin(case):
    """The chain is segments 1, 3 and 2. LOG is open on channel 3, after FILE.BAD in segment 3; an old LOG stands in segment 2."""
    parts = [[file(DAY, 10), area(5)], [bad(7), open_file(LOG, 20, 3), area(0)], [area(1), area(2), file(LOG, 6), area(30)]]
    assert load(case, [1, 3, 2], parts) == 0


def starts(case):
    """A fresh start answers the one entry of segment 1."""
    for segments, first in (1, 8), (4, 14), (31, 68):
        expect(case, start(case, segments, 500), 0, first, 500 - first, 0, 1, 1)
    assert case.fresh(17) == Answer(2)


def found(case):
    """In whatever segment: its number, and not its place in the chain; of several FILE.BAD the first."""
    begin(case)
    serve(case, 0, 12, 10, DATE, 1, 1, op=LOOKUP, name=DAY)
    serve(case, 0, 27, 7, DATE, 3, 1, op=LOOKUP, name=FILE_BAD)
    serve(case, 0, 57, 6, DATE, 2, 3, op=LOOKUP, name=LOG)


def refused(case):
    """Zeros beside the number, though an entry was found."""
    begin(case)
    for number, fields in (
        (7, {"op": LOOKUP, "name": ILLEGAL}),
        (13, {"op": LOOKUP, "name": NEW}),
        (14, {"op": RENAME, "name": DAY, "new_name": LOG}),
        (16, {"op": CLOSE, "channel": 3, "final_length": 21}),
        (15, {"op": ABANDON, "channel": 4}),
        (10, {"op": ENTER, "name": NEW, "channel": 3, "size": 1}),
        (11, {"op": ENTER, "name": NEW, "channel": 4, "size": 31}),
        (19, {"op": DELETE, "name": FILE_BAD}),
    ):
        serve(case, number, **fields)
    serve(case, 0, 12, 10, DATE, 1, 1, op=PROTECT, name=DAY)
    serve(case, 20, op=DELETE, name=DAY)


def in_place(case):
    """Each of these leaves its entry where it was, and the other entries too; a close answers the new file, and not the old one."""
    begin(case)
    serve(case, 0, 12, 10, DATE, 1, 1, op=RENAME, name=DAY, new_name=NEW)
    serve(case, 0, 12, 10, DATE, 1, 1, op=PROTECT, name=NEW)
    serve(case, 0, 12, 10, DATE, 1, 1, op=UNPROTECT, name=NEW)
    serve(case, 0, 34, 15, DATE, 3, 2, op=CLOSE, channel=3, final_length=15)
    serve(case, 0, 34, 15, DATE, 3, 2, op=LOOKUP, name=LOG)
    serve(case, 0, 34, 15, DATE, 3, 2, op=DELETE, name=LOG)
    serve(case, 13, op=LOOKUP, name=LOG)
    begin(case)
    serve(case, 0, 34, 20, DATE, 3, 2, op=ABANDON, channel=3)
    serve(case, 0, 57, 6, DATE, 2, 3, op=DELETE, name=LOG)


def entered(case):
    """The slot is counted after the tidy: at cost 1 it is the area's, at cost 2 the next; what the tidy joins stands no more before it."""
    begin(case)
    serve(case, 0, 22, 5, DATE, 1, 2, op=ENTER, name=NEW, channel=4, size=5, date=DATE)
    serve(case, 0, 63, 30, DATE, 2, 3, op=ENTER, name=OTHER, channel=5, size=-1, date=DATE)
    serve(case, 0, 57, 6, DATE, 2, 2, op=LOOKUP, name=LOG)
    serve(case, 0, 22, 0, DATE, 1, 2, op=CLOSE, channel=4, final_length=0)
    serve(case, 0, 22, 1, DATE, 1, 3, op=ENTER, name=NEW, channel=4, size=1, date=DATE)
    serve(case, 0, 23, 2, DATE, 1, 5, op=ENTER, name=NEW, channel=6, size=2, date=DATE)
    serve(case, 0, 23, 2, DATE, 1, 5, op=ABANDON, channel=6)
    serve(case, 0, 22, 1, DATE, 1, 3, op=ABANDON, channel=4)


def fill(case, index):
    """Segment 1 of two is full: 70 files of 2 blocks, and at this index an area of 60. Segment 2 is not in use."""
    names = [named(f"F{number}") for number in range(70)]
    entries = [file(name, 2) for name in names]
    entries.insert(index, area(10))
    assert load(case, [1, 2], [entries, [area(50)]]) == 0
    assert case.change((2, 1), (1, 0), (9 + 7 * index, 60)) == 0
    return names[0], names[69]


# The area's index; where NEW and then OTHER are, at cost 2, once they have been entered into it; and the first file and the last, each with its
# first block. 35 of the 71 entries stay in segment 1.
SPLITS = [
    (0, (1, 1), (1, 3), (70, 1, 5), (208, 2, 36)),
    (34, (1, 35), (1, 37), (10, 1, 1), (208, 2, 36)),
    (35, (2, 1), (2, 3), (10, 1, 1), (208, 2, 39)),
    (70, (2, 36), (2, 38), (10, 1, 1), (148, 2, 35)),
]


def split(case):
    """After a split the new entry is where its area went, and so are the files."""
    for index, new, other, (block, *first), (far, *last) in SPLITS:
        first_name, last_name = fill(case, index)
        start = 10 + 2 * index
        serve(case, 0, start, 5, DATE, *new, op=ENTER, name=NEW, channel=4, size=5, date=DATE)
        serve(case, 0, start + 5, 1, DATE, *other, op=ENTER, name=OTHER, channel=5, size=1, date=DATE)
        serve(case, 0, block, 2, DATE, *first, op=LOOKUP, name=first_name)
        serve(case, 0, far, 2, DATE, *last, op=LOOKUP, name=last_name)
        serve(case, 0, start, 3, DATE, *new, op=CLOSE, channel=4, final_length=3)
        serve(case, 0, start + 5, 1, DATE, *other, op=ABANDON, channel=5)


def split_inside(case):
    """The chain is segments 1, 3 and 2, and 4 is free: a split of segment 3 makes it 1, 3, 4 and 2, and the new segment is 4."""
    parts = [[file(DAY, 10)], [file(named(f"F{number}"), 2) for number in range(70)] + [area(10)], [file(LOG, 6)], [area(50)]]
    assert load(case, [1, 3, 2, 4], parts) == 0
    assert case.change((2, 3), (512 + 1, 0), (512 + 9, 56)) == 0
    serve(case, 0, 164, 5, DATE, 4, 36, op=ENTER, name=NEW, channel=4, size=5, date=DATE)
    serve(case, 0, 162, 2, DATE, 4, 35, op=LOOKUP, name=named("F69"))
    serve(case, 0, 24, 2, DATE, 3, 1, op=LOOKUP, name=named("F0"))
    serve(case, 0, 174, 56, DATE, 2, 1, op=LOOKUP, name=LOG)


def batches(case):
    """No two name the same file or channel: each answer is the same in every order, segment and slot too."""
    requests = {
        Request(RENAME, DAY, NEW): Answer(0, 12, 10, DATE, 1, 1),
        Request(CLOSE, channel=3, final_length=15): Answer(0, 34, 15, DATE, 3, 2),
        Request(DELETE, OTHER): Answer(13),
        Request(ABANDON, channel=9): Answer(15),
    }
    order = list(requests)
    for turned in order, order[::-1], order[2:] + order[:2]:
        begin(case)
        assert case.batch(turned, len(turned)) == (0, [requests[request] for request in turned])


def add(case):
    for part in starts, found, refused, in_place, entered, split, split_inside, batches:
        part(case)
