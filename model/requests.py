#!/usr/bin/env python3
"""Random case files (docs/CASES.md), with the lines that a right program writes for them.

    python3 model/requests.py SEED COUNT CASES EXPECTED

writes a case file of COUNT directories, most of them sound and dense, each with up to forty records of requests, batches and damages, and
its lines. Then `tools/cases < CASES | cmp - EXPECTED`, once rt run in crates/conformance has built the program.
"""
import random
import sys

from casefile import CaseFile
from rt11 import ABANDON, CHANNEL, CHANNEL_LIMIT, CLOSE, DELETE, EMPTY, END, ENTER, EXTRA, JOBS, LENGTH, LOOKUP, NAME
from rt11 import FILE_BAD, KINDS, PERMANENT, PROTECT, PROTECTED, RENAME, STATUS, TENTATIVE, UNPROTECT
from rt11 import Request, entries, first_data_block, named

FIRST_PARTS = "A", "B", "AB", "ABCD", "FILE", "F1", "LONGER"
NAMES = [named(f"{first}.{extension}") for first in FIRST_PARTS for extension in ("", "X", "CHG", "BAD")]
# blank, above 63,999, a space first or inside, a dollar sign, code 29
BAD_NAMES = [(0, 0, 0), (64_000, 0, 0), (1600, 64_000, 0), (40, 0, 0), (1600, 1600, 0), (43_200, 0, 0), (1600, 0, 29)]
OPS = [ENTER] * 8 + [CLOSE] * 6 + [DELETE] * 4 + [LOOKUP, ABANDON, RENAME] * 2 + [PROTECT, UNPROTECT]


def entries_of(words):
    """The entries of segment 1, where the words make any."""
    return entries(words, 1) if len(words) >= 512 and words[EXTRA] <= 32 else []


class Chance(random.Random):
    """What comes by chance."""

    def word(self):
        return self.randrange(65_536)

    def name(self, words):
        """Often that of a file."""
        kind = self.random()
        if kind < 0.05:
            return self.choice(BAD_NAMES)
        files = [tuple(entry[NAME]) for entry in entries_of(words) if KINDS.get(entry[STATUS]) == "P"]
        return self.choice(files if files and kind < 0.5 else NAMES)

    def channel(self, words, op):
        """Job and channel; those of an open file are seldom what an enter asks for, but often a close or an abandon."""
        if self.random() < 0.05:
            return self.choice([(1, 0), (3, 3), (0, CHANNEL_LIMIT + 1), (2, CHANNEL_LIMIT + 1), (65_535, 0), (0, 65_535)])
        taken = [divmod(entry[CHANNEL], 256) for entry in entries_of(words) if entry[STATUS] == TENTATIVE]
        if taken and self.random() < (0.1 if op == ENTER else 0.8):
            return self.choice(taken)
        return self.choice(JOBS), self.randrange(CHANNEL_LIMIT + 1)

    def request(self, words):
        op = self.choice(OPS)
        job, channel = self.channel(words, op)
        return Request(
            op,
            self.name(words),
            self.name(words),
            job=job,
            channel=channel,
            size=self.choice([-1, 0, 0, 1, 1, 2, 2, 3, 3, self.randint(1, 60), self.choice([-2, 65_535, 65_536])]),
            final_length=self.choice([0, 1, 2, self.randint(0, 50), -1, 65_536]),
            date=self.choice([0, 3556, 3556, 3556, self.word()]),
        )

    def rest(self, extra):
        return [self.word() for _ in range(extra)]

    def length(self):
        return self.choice([0, 0, 1, 2, self.randint(0, 40)])

    def area(self, extra):
        return [EMPTY, self.word(), self.word(), 0, self.length(), self.randrange(9), self.word()] + self.rest(extra)

    def file(self, extra, taken):
        """A permanent entry of a name that is not taken yet, or now and then one more FILE.BAD; some are protected."""
        name = FILE_BAD if self.random() < 0.1 else self.choice(NAMES)
        while name in taken and name != FILE_BAD:
            name = tuple(self.randrange(64_000) for _ in range(3))
        taken.add(name)
        status = PROTECTED if self.random() < 0.1 else PERMANENT
        return [status, *name, self.length(), self.randrange(9), self.choice([0, 3556, self.word()])] + self.rest(extra)

    def open_file(self, extra, taken):
        """A tentative entry, of any name, on a channel that is not taken yet, with its area; or an area alone."""
        name, channel = self.choice(NAMES), self.choice(JOBS) * 256 + self.randrange(CHANNEL_LIMIT + 1)
        if channel in taken:
            return [self.area(extra)]
        taken.add(channel)
        return [[TENTATIVE, *name, self.length(), channel, self.word()] + self.rest(extra), self.area(extra)]

    def some_entry(self, extra, taken, has_file):
        """A file; or an area, or an open file with its area."""
        if has_file:
            return [self.file(extra, taken)]
        return [self.area(extra)] if self.random() < 0.6 else self.open_file(extra, taken)

    def entries(self, count, extra, taken, files, is_tidy):
        """With a chance of so many in five of a file. In a tidy segment no two areas are neighbours, and no length is 0."""
        found = []
        while len(found) < count:
            is_behind_area = found and found[-1][STATUS] == EMPTY
            more = self.some_entry(extra, taken, self.randrange(5) < files or is_tidy and is_behind_area)
            found += more if len(found) + len(more) <= count else [self.file(extra, taken)]
        for entry in found:
            entry[LENGTH] = max(entry[LENGTH], int(is_tidy))
        return found

    def sound_directory(self):
        """Words that are sound, often with full segments, and their V."""
        n = self.choice([1, 2, 2, 3, 5])
        highest, extra = self.randint(1, n), self.choice([0, 0, 1, 16, self.randint(0, 16)])
        most = 507 // (7 + extra) - 1
        order = [1] + self.sample(range(2, highest + 1), highest - 1)
        words = [self.choice([0, 0, self.word()]) for _ in range(512 * n)]
        block, taken = first_data_block(n), set()
        files, is_tidy = self.choice([1, 2, 3, 4]), self.random() < 0.6
        for number, link in zip(order, order[1:] + [0]):
            count = self.choice([most, most, most, most - 1, self.randint(0, most)])
            found = self.entries(count, extra, taken, files, is_tidy)
            head = [n, link, highest if number == 1 else self.randrange(9), 2 * extra, block]
            part = sum(found, head) + [END]
            at = 512 * (number - 1)
            words[at : at + len(part)] = part
            block += sum(entry[LENGTH] for entry in found)
        return words, block

    def absurd_directory(self):
        n = self.choice([1, 2, 4])
        return [self.word() for _ in range(512 * n)], self.choice([first_data_block(n), self.randrange(70_000)])

    def directory(self):
        return self.absurd_directory() if self.random() < 0.08 else self.sound_directory()


def add_batch(case, chance):
    requests = [chance.request(case.words) for _ in range(chance.randrange(9))]
    case.batch(requests, chance.choice([len(requests)] * 5 + [chance.randrange(9)]))


def add_damage(case, chance):
    """One word changed, a request, and the word put back."""
    at = chance.randrange(len(case.words))
    old = case.words[at]
    case.change((at, chance.choice([old ^ 1, old ^ 0o100000, 512, 1024, 2048, chance.word()])))
    case.serve(chance.request(case.words))
    if chance.random() < 0.8:
        case.change((at, old))


def add_record(case, chance):
    kind = chance.random()
    if kind < 0.02:
        case.fresh(chance.randrange(19))
    elif kind < 0.06:
        add_batch(case, chance)
    elif kind < 0.09:
        add_damage(case, chance)
    else:
        case.serve(chance.request(case.words))


def add(case, seed, count):
    chance = Chance(seed)
    for _ in range(count):
        case.load(*chance.directory())
        for _ in range(chance.randint(1, 40)):
            add_record(case, chance)


def main():
    seed, count, cases_path, expected_path = sys.argv[1:]
    case = CaseFile()
    add(case, int(seed), int(count))
    case.end()
    with open(cases_path, "wb") as file:
        file.write(case.record_bytes())
    with open(expected_path, "wb") as file:
        file.write(case.line_bytes())


if __name__ == "__main__":
    main()
