"""Repair (document 02, Req 09) in plain Python, written from its text alone, with the directory's rules from rt11.py: the test of a proposal, and
the tool that makes one. There is nothing to run here: casefile.py uses it, and reaching.py holds the tool to what can be reached at all.
"""
import itertools
from collections import Counter
from typing import NamedTuple

from names import LAST_WORD
from rt11 import DATE, EMPTY, END, FILE_BAD, FIRST, LENGTH, NAME, STATUS
from rt11 import blocks, capacity, chain, fault, first_data_block, header, kind, segment_count, segment_place, slot_place, slots, written

BEYOND = 1, 2, 3, 6  # the faults that tool and test answer by their numbers
REJECTED = 22


class File(NamedTuple):
    """What a permanent entry keeps."""

    status: int
    name: tuple
    length: int
    date: int
    first: int


# -- What a damaged directory has: rules 1 to 3 hold, so there is a chain --


def readable(words, number):
    """The slots before a segment's marker or first unreadable status; all of them, where there is neither."""
    return list(itertools.takewhile(kind, slots(words, number)))


def files(words):
    """The permanent entries in chain order, their first blocks from the stored segment starts, in exact sums. A sound directory has no others."""
    found = []
    for number in chain(words):
        first = header(words, number)[FIRST]
        for entry in readable(words, number):
            if kind(entry) == "P":
                found.append(File(entry[STATUS], tuple(entry[NAME]), entry[LENGTH], entry[DATE], first))
            first += entry[LENGTH]
    return found


# -- The test --


def accept(words, v, proposal):
    """Every file is kept, as often as it stands, and there is no other."""
    number = fault(words, v)
    if number in BEYOND:
        return number
    if len(proposal) != len(words) or fault(proposal, v):
        return REJECTED
    return 0 if Counter(files(proposal)) == Counter(files(words)) else REJECTED


# -- The tool: files stay in their slots, and so in their order; all that is free is how long each empty entry is --


class Slot(NamedTuple):
    """A slot before the marker that is there or is put: its segment, the place of its first word, and the entry."""

    segment: int
    place: int
    entry: list


def standing(words, number):
    """The slots that can stay before the marker: where it must be put in the last slot, all but the last."""
    found = readable(words, number)[: capacity(words)]
    return [Slot(number, slot_place(words, number, k), entry) for k, entry in enumerate(found, 1)]


def chain_slots(words):
    return [slot for number in chain(words) for slot in standing(words, number)]


def alike(file):
    return file[: File._fields.index("first")]


def new_firsts(words):
    """The first block that each file must get, in chain order. Along the chain blocks never fall, and so files that are alike in all but the
    first block, which are FILE.BADs if the names are good, share out theirs in rising order."""
    found = files(words)
    waiting = {}
    for file in sorted(found, key=lambda file: file.first):
        waiting.setdefault(alike(file), []).append(file.first)
    return [waiting[alike(file)].pop(0) for file in found]


class Gap(NamedTuple):
    """From the end of one file to the start of the next in chain order, over segment ends too; before the first file, and behind the last: the
    blocks that lie there, and the places of the entries there that are empty or become so."""

    blocks: int
    places: list


def gaps(words, v):
    firsts = iter(new_firsts(words))
    block, places = first_data_block(segment_count(words)), []
    for slot in chain_slots(words):
        if kind(slot.entry) != "P":
            places.append(slot.place)
            continue
        first = next(firsts)
        yield Gap(first - block, places)
        block, places = first + slot.entry[LENGTH], []
    yield Gap(v - block, places)


def can_be_filled(gap):
    """By one entry alone, as no gap is above V."""
    return gap.blocks == 0 or gap.blocks > 0 and gap.places != []


def loses_file(words):
    """A segment with no marker and nothing unreadable has a file in its last slot, where the marker must go."""
    return any(kind(entry) == "P" for number in chain(words) for entry in readable(words, number)[capacity(words) :])


def has_bad_names(words):
    """Above Radix-50, or twice, FILE.BAD aside: every directory with these files has the fault."""
    names = [file.name for file in files(words)]
    once = [name for name in names if name != FILE_BAD]
    return any(max(name) > LAST_WORD for name in names) or len(set(once)) != len(once)


def is_hopeless(words, v):
    return loses_file(words) or has_bad_names(words) or not all(map(can_be_filled, gaps(words, v)))


def marked(words):
    """Each segment with its marker, which may have been there."""
    return written(words, [(slot_place(words, number, len(standing(words, number)) + 1), END) for number in chain(words)])


def filled(words, gap):
    """The gap's first entry has all of its blocks."""
    lengths = [gap.blocks] + [0] * len(gap.places)
    return written(words, [pair for at, length in zip(gap.places, lengths) for pair in ((at + STATUS, EMPTY), (at + LENGTH, length))])


def joined(words):
    """Each segment begins where the one before it ends."""
    block = first_data_block(segment_count(words))
    for number in chain(words):
        words = written(words, [(segment_place(number) + FIRST, block)])
        block += blocks(slot.entry for slot in standing(words, number))
    return words


def proposed(words, v):
    after = marked(words)
    for gap in gaps(words, v):
        after = filled(after, gap)
    return joined(after)


def repair(words, v):
    """The number, and the words afterwards."""
    number = fault(words, v)
    if number == 0 or number in BEYOND:
        return number, words
    if is_hopeless(words, v):
        return REJECTED, words
    after = proposed(words, v)
    assert accept(words, v, after) == 0, "the test rejects what the tool gave"
    return 0, after
