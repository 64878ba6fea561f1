#!/usr/bin/env python3
"""Holds the tool of repairing.py to everything that its changes can reach, on tiny directories by chance.

    python3 model/reaching.py SEED COUNT

makes COUNT damaged directories of a few entries and blocks. Each directory that the named changes make of one is put to the test, with every
length and start up to V, as none above V is sound. The tool must refuse exactly where none passes, and give one of them where some do.
"""
import collections
import itertools
import random
import sys

from repairing import accept, repair
from rt11 import EMPTY, END, FILE_BAD, FIRST, KINDS, LENGTH, NAME, PERMANENT, PROTECTED, SEGMENT_WORDS, STATUS, TENTATIVE, TOTAL
from rt11 import chain, fault, first_data_block, named, segment_count, segment_place, slot_count, slot_place, written

MOST_REACHED = 20_000  # directories that reach more are left out
NAMES = [named(f"F{k}") for k in range(22)]


# -- All that the changes reach. A choice is a list of what may be done at one place, each a list of writes --


def marker_choice(words, number):
    """In place of the first unreadable status, or in the last slot if all are readable and none is a marker."""
    places = [slot_place(words, number, k) for k in range(1, slot_count(words) + 1)]
    statuses = [words[at + STATUS] for at in places]
    unreadable = [at for at, status in zip(places, statuses) if status not in KINDS and status != END]
    if unreadable:
        return [[], [(unreadable[0], END)]]
    return [[]] if END in statuses else [[], [(places[-1], END)]]


def entry_choices(words, number, most):
    """Of the slots before the marker or the first unreadable status; the others mean nothing, and do so afterwards too."""
    for k in range(1, slot_count(words) + 1):
        at = slot_place(words, number, k)
        emptied = [[(at + STATUS, EMPTY), (at + LENGTH, length)] for length in range(most + 1)]
        if words[at] not in KINDS:
            return
        if words[at] in (EMPTY, TENTATIVE):
            yield [[], *emptied]


def choices(words, v):
    """The marker's last, as it may take the place of an entry."""
    data = first_data_block(segment_count(words))
    for number in chain(words):
        yield [[(segment_place(number) + FIRST, block)] for block in range(data, v + 1)]
        yield from entry_choices(words, number, v - data)
        yield marker_choice(words, number)


def how_many(found):
    count = 1
    for choice in found:
        count *= len(choice)
    return count


def reached(words, v):
    for writes in itertools.product(*choices(words, v)):
        yield written(words, itertools.chain(*writes))


# -- Tiny directories --


class Chance(random.Random):
    def entry(self, kinds, extra, name):
        """A file, a FILE.BAD, of which most are alike, an empty or a tentative entry."""
        kind = self.choice(kinds)
        length, date = self.choice([0, 1, 1, 1]), self.choice([0] * 7 + [1])
        status = {"E": EMPTY, "T": TENTATIVE}.get(kind) or self.choice([PERMANENT] * 7 + [PROTECTED])
        return [status, *(FILE_BAD if kind == "B" else name), length, self.randrange(3), date] + [0] * extra

    def entries(self, kinds, extra, names):
        """Up to three; or, of no length but for these, one for each slot, so that there is no marker."""
        found = [self.entry(kinds, extra, name) for name in names[: self.randrange(4)]]
        if self.random() < 0.15:
            count = (SEGMENT_WORDS - 5) // (7 + extra) - len(found)
            found += [[PERMANENT, *name, 0, 0, 0] + [0] * extra for name in names[3 : 3 + count]]
            self.shuffle(found)
        return found

    def directory(self):
        """Words whose segments follow each other, and V."""
        n, extra, kinds = self.choice([1, 1, 2, 2, 3]), 16, self.choice(["PPBEET", "BBE"])
        order = [1] + self.sample(range(2, n + 1), n - 1)
        words, block = [self.choice([0, 5, END])] * SEGMENT_WORDS * n, first_data_block(n)
        for rank, (number, link) in enumerate(zip(order, order[1:] + [0])):
            found = self.entries(kinds, extra, [(a, b, rank) for a, b, _c in NAMES])
            part = sum(found, [n, link, n if number == 1 else 0, 2 * extra, block]) + [END]
            at = segment_place(number)
            words[at : at + SEGMENT_WORDS] = (part + words)[:SEGMENT_WORDS]
            block += sum(entry[LENGTH] for entry in found)
        return words, block

    def damage(self, words):
        n = words[TOTAL]
        at = slot_place(words, self.randint(1, n), self.choice([1, 1, 2, 2, 3, 3, 4, 22]))
        kind = self.randrange(7)
        if kind == 0:
            return written(words, [(at + STATUS, self.choice([0, 1025, EMPTY, TENTATIVE, PERMANENT, END]))])
        if kind == 1:
            return written(words, [(at + LENGTH, self.choice([0, 1, 2, 65_535]))])
        if kind == 2:
            return written(words, zip(range(at + 1, at + 4), self.choice([FILE_BAD, (64_000, 0, 0), words[NAME]])))
        if kind == 3 and words[at] == END:
            return written(words, [(at + STATUS, self.choice([7, EMPTY, TENTATIVE]))])
        starts = [segment_place(self.randint(1, n)) + FIRST for _ in range(2)]
        if kind == 4:
            return written(words, [(starts[0], words[starts[0]] + self.choice([-1, 1, 2]))])
        return written(words, [(starts[0], words[starts[1]]), (starts[1], words[starts[0]])])

    def damaged(self):
        """With a fault that the tool is for, and not too much to reach."""
        while True:
            words, v = self.directory()
            v += self.choice([0, 0, 0, 1])
            for _ in range(self.randint(0, 3)):
                words = self.damage(words)
            if fault(words, v) in (4, 5) and how_many(choices(words, v)) <= MOST_REACHED:
                return words, v


def tried(words, v):
    """The tool's number; and whether others than the one it gave pass too."""
    number, after = repair(words, v)
    passing = [other for other in reached(words, v) if accept(words, v, other) == 0]
    assert number == (0 if passing else 22), (number, len(passing))
    assert after in passing if passing else after == words
    return number, any(other != after for other in passing)


def main():
    seed, count = map(int, sys.argv[1:])
    chance, seen = Chance(seed), collections.Counter()
    for _ in range(count):
        seen[tried(*chance.damaged())] += 1
    print(f"{seen[0, False]} repaired in the one way there is, {seen[0, True]} in one of several, {seen[22, False]} refused, where none passes")


if __name__ == "__main__":
    main()
