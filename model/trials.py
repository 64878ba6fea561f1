"""Faults and lookups on full, damaged and absurd directories, as records of a case file. There is nothing to run here: cases.py uses it."""
from rt11 import CHANNEL, EMPTY, END, EXTRA, FIRST, HIGHEST, LENGTH, LINK, LOOKUP, PERMANENT, STATUS, TENTATIVE, TOTAL
from rt11 import Request, named, rendered

# -- The directories --

# 31 segments of 71 files of one block: segment 1, then from 31 down to 2, so that the chain's order isn't the slice's
ORDER = [1] + list(range(31, 1, -1))
FULL = 6 + 2 * 31 + 31 * 71


def name_of(i):
    return named(f"F{i:04}.DAT")


def file_place(i):
    return 512 * (i // 71) + 5 + 7 * (i % 71)


def full_segment(number):
    """The highest segment in use is wrong in all headers but the first, where alone it is read. The channel word, which means nothing
    here, and the date, which needn't be good, differ from 0 so that a mixed up word shows."""
    rank = ORDER.index(number)
    head = [31, (ORDER + [0])[rank + 1], 32 - number, 0, 68 + 71 * rank]
    return rendered(head, [[PERMANENT, *name_of(i), 1, 7, i] for i in range(71 * (number - 1), 71 * number)])


def full():
    return [word for number in range(1, 32) for word in full_segment(number)]


DAY = named("DAY.CHG")
SMALL = 20


def small():
    """DAY.CHG twice tentative, each with its area, the second of no length; and then once permanent. Each entry has an extra word."""
    found = [
        [TENTATIVE, *DAY, 3, 3],
        [EMPTY, 65_535, *DAY[1:], 4, 3],
        [TENTATIVE, *DAY, 0, 4],
        [EMPTY, 0, *DAY[1:], 0, 0],
        [PERMANENT, *DAY, 5, 3],
    ]
    return rendered([1, 0, 1, 2, 8], [entry + [3556, 9] for entry in found])


def entry_place(k):
    """Of the small directory's entries, from 0."""
    return 5 + 8 * k


class Damages:
    """A directory is loaded; then it is damaged in one way after another, each time from its first state."""

    def __init__(self, case, words, v):
        self.case, self.words, self.back = case, words, []
        case.load(words, v)

    def damage(self, *changes):
        self.case.change(*self.back, *changes)
        self.back = [(at, self.words[at]) for at, _word in changes]

    def each(self, *changes):
        for change in changes:
            self.damage(change)


# -- Damages of the full directory --


def rules(damages):
    """Odd extra bytes, a looped chain, an unknown status, two lengths in the chain's last segment that bring the end to V + 65,536, and
    the last file under the name of the first: rules 2 to 6."""
    second, last = 512, file_place(2200)
    damages.each((EXTRA, 1), (second + LINK, 31), (file_place(0) + STATUS, 1025))
    damages.damage(*((second + 5 + 7 * k + LENGTH, 32_769) for k in range(2)))
    damages.damage(*((last + 1 + k, name_of(0)[k]) for k in range(2)))


def heads(damages):
    """Total, H below and above 1 to N, extra bytes above 32, H short of the chain, first block."""
    damages.each((TOTAL, 30), (HIGHEST, 0), (HIGHEST, 32), (EXTRA, 34), (HIGHEST, 30), (FIRST, 67))


def inside(damages):
    """In segment 5: total, extra bytes, first block, a chain that ends early, a link beyond the slice. Then an empty entry for the marker,
    a word above the last of Radix-50, that last word, a tentative entry before a file, an empty entry for a file."""
    fifth, marker = 4 * 512, 5 + 7 * 71
    damages.each((fifth + TOTAL, 30), (fifth + EXTRA, 2), (fifth + FIRST, 0), (fifth + LINK, 0), (fifth + LINK, 32))
    damages.each((marker, EMPTY), (6, 64_000), (6, 63_999), (5, TENTATIVE), (5, EMPTY))


# places spread over the whole slice, by a step that is prime to its length
PLACES = [i * 7919 % 15_872 for i in range(1024)]
# words that mean something at one place or another
TELLING = [0, 1, 2, 3, 4, 31, 32, 256, 512, 1024, 2048, 32_769, 63_999, 64_000, 65_535]


def shifts(damages):
    """A word changed by some odd amount, so that it does change."""
    damages.each(*((at, (damages.words[at] + i * 258 + 1) % 65_536) for i, at in enumerate(PLACES)))


def telling(damages):
    damages.each(*((at, TELLING[i % len(TELLING)]) for i, at in enumerate(PLACES)))


def twins(damages):
    """Every second file, one at a time, under the name of another file of the same hundred, which often stands in another segment. The
    last file's hundred has no other, so that its new name is free."""
    damages.each(*((file_place(2 * i) + 2, name_of(2 * i + 1 + i % 99)[1]) for i in range(1101)))


def lookups(case):
    """A file of each segment, one that is not there, the last file, a blank name, and a word above the last of Radix-50."""
    names = [name_of(71 * k) for k in range(32)] + [name_of(2200), (0, 0, name_of(0)[2]), (64_000, 0, 0)]
    for name in names:
        case.serve(Request(LOOKUP, name))


def full_and_damaged(case):
    damages = Damages(case, full(), FULL)
    lookups(case)
    for trial in rules, heads, inside, shifts, telling, twins:
        trial(damages)
    damages.damage()


# -- Other sizes, and absurd words --


def sizes(case):
    """Slices too short or with a part of a segment, and a V of any size; a lookup for each."""
    d = full()
    for count, v in [(n, FULL) for n in (0, 1, 511, 512, 15_871)] + [(len(d), v) for v in (0, 67, FULL - 1, FULL + 1, 65_535)]:
        case.load(d[:count], v)
        case.serve(Request(LOOKUP, name_of(2200)))
    for v in 65_536, FULL + 65_536, 2**31, 2**32 - 1:
        case.load(d, v)


def alike(case):
    """All words alike."""
    for word, count, v in (0, 15_872, FULL), (0, 512, 8), (65_535, 15_872, FULL), (65_535, 512, 65_535):
        case.load([word] * count, v)


# -- The small directory --


def open_entries(case):
    """Equal channel words; a file, and the marker, where an area must stand; other extra bytes; other channel words of the file and of an
    area, which may have any; an extension above the last of Radix-50 on a tentative entry; a first block and a V that are both one more.
    The lookup must pass over the tentative entries of the name."""
    damages = Damages(case, small(), SMALL)
    case.serve(Request(LOOKUP, DAY))
    damages.each((entry_place(2) + CHANNEL, 3), (entry_place(1), PERMANENT), (entry_place(3), END), (EXTRA, 4))
    damages.each((entry_place(4) + CHANNEL, 4), (entry_place(1) + CHANNEL, 4), (entry_place(2) + 3, 65_535))
    singles(damages)
    Damages(case, small(), SMALL + 1).damage((FIRST, 9))


def singles(damages):
    """Each word up to the marker replaced by each of the telling ones."""
    damages.each(*((at, word) for at in range(entry_place(5) + 1) for word in TELLING))


def add(case):
    for trial in full_and_damaged, sizes, alike, open_entries:
        trial(case)
