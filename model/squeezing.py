"""Squeeze (document 02, Req 05) in plain Python, written from its text alone, with the directory's rules from rt11.py. There is nothing to run
here: casefile.py uses it.
"""
from typing import NamedTuple

from rt11 import EMPTY, FILE_BAD, FIRST, LENGTH, SEGMENT_WORDS
from rt11 import blocks, capacity, chain, fault, first_data_block, header, key, kind, rendered, rows, segment_count, segment_place, slot_words


class Move(NamedTuple):
    """So many blocks, from one first block to another."""

    old: int
    new: int
    length: int


# -- Where each entry is afterwards --


def is_bad_area(entry):
    """A FILE.BAD, protected or not, and of whatever length. A name means nothing on an empty entry."""
    return key(entry) == ("P", FILE_BAD)


def packed(words):
    """The permanent entries in their old order, each with its new first block: a file directly behind the one before it; but FILE.BAD never
    moves, and so no file passes one."""
    block = first_data_block(segment_count(words))
    for row in rows(words):
        if kind(row.entry) == "P":
            first = row.first if is_bad_area(row.entry) else block
            yield row, first
            block = first + row.entry[LENGTH]


def moves_of(words):
    """One in chain order for each file with blocks that changes place."""
    moves = [Move(row.first, first, row.entry[LENGTH]) for row, first in packed(words)]
    return [move for move in moves if move.length != 0 and move.old != move.new]


# -- The new directory --


def left_over(words, length):
    """If not 0, one empty entry, other words 0."""
    return [[EMPTY, 0, 0, 0, length] + [0] * (slot_words(words) - LENGTH - 1)] if length != 0 else []


def parts_of(words, v):
    """The entries of each segment: a permanent one keeps its segment, order and words; what is left over comes directly before the next
    FILE.BAD, in its segment, or last in the chain's last segment."""
    numbers, block = chain(words), first_data_block(segment_count(words))
    parts = {number: [] for number in numbers}
    for row, first in packed(words):
        parts[row.segment] += left_over(words, first - block) + [row.entry]
        block = first + row.entry[LENGTH]
    parts[numbers[-1]] += left_over(words, v - block)
    return parts


def squeezed(words, parts):
    """Words after markers become 0, and each segment begins where the one before it ends. Segments that are not in use stay."""
    after, block = list(words), first_data_block(segment_count(words))
    for number, found in parts.items():
        at = segment_place(number)
        after[at : at + SEGMENT_WORDS] = rendered(header(words, number)[:FIRST] + [block], found)
        block += blocks(found)
    return after


def squeeze(words, v, room):
    """The number, the moves and the words afterwards; room is how many moves the lent list holds."""
    number = fault(words, v)
    if number:
        return number, [], words
    if any(kind(row.entry) == "T" for row in rows(words)):
        return 21, [], words
    moves = moves_of(words)
    if len(moves) > room:
        return 24, [], words
    parts = parts_of(words, v)
    if any(len(found) > capacity(words) for found in parts.values()):
        return 26, [], words
    return 0, moves, squeezed(words, parts)


# -- The volume as a list of blocks --


def moved(volume, moves):
    """The moves done in list order, lowest block first."""
    after = list(volume)
    for old, new, length in moves:
        for k in range(length):
            after[new + k] = after[old + k]
    return after
