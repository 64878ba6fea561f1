"""Channels as records of a case file: which jobs and channels are one (document 02, Req 07), and a job that opens all of its own. What
document 02 says is tested here against the model. There is nothing to run here: cases.py uses it.
"""
from bench import DATE, DAY, LOG, expect, start
from rt11 import ABANDON, CLOSE, ENTER, LOOKUP, Request, named

FOREGROUND = 2
JOBS = 0, 1, 2, 3, 255, 256, 65_535
CHANNELS = 0, 15, 16, 254, 255, 256, 257, 511, 512, 65_535


def is_one(job, channel):
    return (job == 0 or job == 2) and channel <= 255


def enter(case, name, job, channel):
    return case.serve(Request(ENTER, name, job=job, channel=channel, size=1, date=DATE))


def close(case, job, channel):
    return case.serve(Request(CLOSE, job=job, channel=channel, final_length=1))


def abandon(case, job, channel):
    return case.serve(Request(ABANDON, job=job, channel=channel))


def right(case, job, channel):
    """Closed while nothing is open, entered, entered again, closed, closed again; and a second open file abandoned twice."""
    expect(close(case, job, channel), 15)
    first = enter(case, LOG, job, channel).first
    expect(enter(case, DAY, job, channel), 10)
    expect(close(case, job, channel), 0, first, 1, DATE)
    expect(close(case, job, channel), 15)
    assert enter(case, LOG, job, channel).number == 0
    assert abandon(case, job, channel).number == 0
    expect(abandon(case, job, channel), 15)


def wrong(case, job, channel):
    for request in enter(case, LOG, job, channel), close(case, job, channel), abandon(case, job, channel):
        expect(request, 8)


def each(case):
    start(case, 1, 494)
    for job in JOBS:
        for channel in CHANNELS:
            (right if is_one(job, channel) else wrong)(case, job, channel)


def file_name(channel):
    return named(f"F{channel}.CHG")


def all_open(case):
    """The foreground job opens 256 files of one block, one behind the other; the background's channels are free beside them. Then the files
    are closed, the last first."""
    segments, v = 16, 1000
    first = start(case, segments, v).first
    for channel in range(256):
        expect(enter(case, file_name(channel), FOREGROUND, channel), 0, first + channel, 1, DATE)
    expect(enter(case, LOG, FOREGROUND, 256), 8)
    expect(enter(case, LOG, FOREGROUND, 255), 10)
    expect(enter(case, LOG, 0, 255), 0, first + 256, 1, DATE)
    for channel in reversed(range(256)):
        expect(close(case, FOREGROUND, channel), 0, first + channel, 1, DATE)
        expect(case.serve(Request(LOOKUP, file_name(channel))), 0, first + channel, 1, DATE)
    expect(abandon(case, 0, 255), 0, first + 256, 1, DATE)
    assert case.change() == 0


def add(case):
    each(case)
    all_open(case)
