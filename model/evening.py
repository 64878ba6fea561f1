"""An evening's batch as records of a case file: in one order, in the other, and with room for too few answers. What was worked out by hand
from document 01 is tested here against the model. There is nothing to run here: cases.py uses it.

The volume has 494 blocks and four segments; its data begin at block 14. A and B are files of 10 blocks, C is open with 20 blocks on
channel 1 and D with 5 on channel 2. D was entered into the area after C, so an empty entry of no length stands between the two.
"""
from bench import DATE, close, enter, expect, start
from rt11 import ABANDON, CLOSE, DELETE, EMPTY, LENGTH, PERMANENT, RENAME, STATUS, TENTATIVE
from rt11 import Answer, Request, named, rows

A, B, C, D, E, F = map(named, "ABCDEF")
NONE = 0, 0, 0

# A is deleted, B becomes E, the file on channel 1 is closed at 7 blocks, that on channel 2 abandoned, and F is not there
FORWARDS = [
    Request(DELETE, A),
    Request(RENAME, B, E),
    Request(CLOSE, channel=1, final_length=7),
    Request(ABANDON, channel=2),
    Request(DELETE, F),
]
ANSWERS = [Answer(0, 14, 10, DATE), Answer(0, 24, 10, DATE), Answer(0, 34, 7, DATE), Answer(0, 54, 5, DATE), Answer(13)]

BEFORE = [
    (PERMANENT, A, 10),
    (PERMANENT, B, 10),
    (TENTATIVE, C, 20),
    (EMPTY, NONE, 0),
    (TENTATIVE, D, 5),
    (EMPTY, NONE, 435),
]
# A's status; B's name; C permanent with 7 blocks, and 13 more for the empty entry behind it; D's status
AFTER = [
    (EMPTY, A, 10),
    (PERMANENT, E, 10),
    (PERMANENT, C, 7),
    (EMPTY, NONE, 13),
    (EMPTY, D, 5),
    (EMPTY, NONE, 435),
]


def expect_entries(case, expected):
    found = [(row.entry[STATUS], tuple(row.entry[1:4]), row.entry[LENGTH]) for row in rows(case.words)]
    assert found == expected, found


def begin(case):
    start(case, 4, 494)
    for name in A, B:
        enter(case, name, 10, 0)
        close(case, 0, 10)
    enter(case, C, 20, 1)
    enter(case, D, 5, 2)
    expect_entries(case, BEFORE)


def evening(case, requests, expected):
    begin(case)
    number, answers = case.batch(requests, room=len(requests))
    assert number == 0
    for answer, wanted in zip(answers, expected, strict=True):
        expect(answer, *wanted[:4])
    expect_entries(case, AFTER)


def without_room(case):
    """18, and no request is served."""
    begin(case)
    for room in 4, 6, 0:
        assert case.batch(FORWARDS, room) == (18, [])
    expect_entries(case, BEFORE)


def smallest(case):
    """No request at all, with room for none and for one."""
    assert case.batch([], 0) == (0, [])
    assert case.batch([], 1) == (18, [])


def damaged(case):
    """Each request of a batch on an unsound directory is answered by the fault's number; the room is tested before that."""
    case.change((3, 1))
    number, answers = case.batch(FORWARDS, room=5)
    assert number == 0 and answers == [Answer(2)] * 5
    assert case.batch(FORWARDS, room=4) == (18, [])


def add(case):
    evening(case, FORWARDS, ANSWERS)
    evening(case, FORWARDS[::-1], ANSWERS[::-1])
    without_room(case)
    smallest(case)
    damaged(case)
