"""Dates of all four ages as records of a case file (document 02, Req 02). What document 02 says is tested here against the model. There is
nothing to run here: cases.py uses it.
"""
from bench import LOG, close, enter, expect, start
from names import day_of_word
from rt11 import DELETE, LOOKUP, Request

AGES = 0, 16_384, 32_768, 49_152

# The low fourteen bits, month * 1024 + day * 32 + the low five bits of the year; 2000 is leap, as is every fourth year of each age.
DAYS = {
    1024 + 32: "1 January of the first year",
    12 * 1024 + 31 * 32 + 31: "31 December of the last",
    2 * 1024 + 29 * 32: "29 February of the first year",
    2 * 1024 + 29 * 32 + 28: "29 February of the last leap year",
    2 * 1024 + 28 * 32 + 31: "28 February of the last year",
}
NO_DAYS = {
    1: "no day and no month",
    31 * 32 + 31: "month 0",
    1024: "day 0",
    2 * 1024 + 29 * 32 + 1: "29 February of the second year",
    2 * 1024 + 29 * 32 + 31: "29 February of the last year",
    2 * 1024 + 30 * 32: "30 February",
    4 * 1024 + 31 * 32: "31 April",
    13 * 1024 + 32: "month 13",
    15 * 1024 + 31 * 32 + 31: "all bits set",
}


def right(case, word):
    """Entered, closed, looked up and deleted, with its date each time."""
    for answer in (
        enter(case, LOG, 1, 3, date=word),
        close(case, 3, 1),
        case.serve(Request(LOOKUP, LOG)),
        case.serve(Request(DELETE, LOG)),
    ):
        expect(answer, 0, 8, 1, word)


def wrong(case, word):
    expect(enter(case, LOG, 1, 3, date=word), 9)


def years():
    """The first and the last day of each age; the year that a table's day is dated with."""
    for k, age in enumerate(AGES):
        assert day_of_word(age + 1024 + 32) == (0, 1, 1, 1972 + 32 * k)
        assert day_of_word(age + 12 * 1024 + 31 * 32 + 31) == (0, 31, 12, 2003 + 32 * k)
    assert day_of_word(2 * 1024 + 29 * 32 + 28) == (0, 29, 2, 2000)


def add(case):
    """Word 0 alone is no date: an age above a rest of 0 is a bad word."""
    years()
    start(case, 1, 494)
    for age in AGES:
        (wrong if age else right)(case, age)
        for rest in DAYS:
            right(case, age + rest)
        for rest in NO_DAYS:
            wrong(case, age + rest)
