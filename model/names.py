#!/usr/bin/env python3
"""A model of document 01's "Names and dates", with document 02's years, written from their text alone, for the program crates/spell to be
held to, and for rt11.py.

    python3 model/names.py

writes crates/spell/stdin, the Radix-50 texts that document 000 prints with their octal words (model/rad50.tsv), and
crates/spell/stdout, what the program must write: a line for each text, then a check sum over each whole range.

rad50.tsv has a row for each text with a word in the scan: the lines of document 000, the text (in brackets where it is
inferred, since the place has no directive) and the words as scanned, in which the slashed O stands for a zero.
"""
import datetime
import pathlib

HERE = pathlib.Path(__file__).resolve().parent
SPELL = HERE.parent / "crates" / "spell"

# Radix-50: space 0, A to Z 1 to 26, $ 27, . 28, 29 unused and shown as ?, digits 30 to 39
ALPHABET = b" ABCDEFGHIJKLMNOPQRSTUVWXYZ$.?0123456789"
IN_NAMES = set(b"ABCDEFGHIJKLMNOPQRSTUVWXYZ0123456789")
LAST_WORD = 63_999


def packed(three):
    first, second, third = (ALPHABET.index(b) for b in three)
    return first * 1600 + second * 40 + third


# the three characters of each word that has any
SPELLED = [bytes((a, b, c)) for a in ALPHABET for b in ALPHABET for c in ALPHABET]


def is_legal_text(text):
    name, extension = text[:6].rstrip(b" "), text[6:].rstrip(b" ")
    return len(text) == 9 and name != b"" and IN_NAMES.issuperset(name) and IN_NAMES.issuperset(extension)


def words_of_text(text):
    """The number and the three words."""
    if not is_legal_text(text):
        return 7, 0, 0, 0
    return 0, packed(text[:3]), packed(text[3:6]), packed(text[6:])


def text_of_words(*words):
    """The number and the nine bytes."""
    if max(words) > LAST_WORD:
        return 7, b" " * 9
    return 0, b"".join(SPELLED[w] for w in words)


def is_legal_name(*words):
    return max(words) <= LAST_WORD and is_legal_text(b"".join(SPELLED[w] for w in words))


# Date words: the top two bits are the age, then month and day, and year = 1972 + 32 * age + the low five bits (document 02, Req 02). The
# calendar is Python's own; the tables hold every day that has a word, by word and by day.

def date_of(day, month, year):
    try:
        return datetime.date(year, month, day)
    except ValueError:
        return None


def date_in(word):
    age, month, day, low = word >> 14, word >> 10 & 15, word >> 5 & 31, word & 31
    return date_of(day, month, 1972 + 32 * age + low)


DATES = {word: date for word in range(65536) if (date := date_in(word))}
DATE_WORDS = {date: word for word, date in DATES.items()}

# years run 1972 to 2099, each day has one word, and with word 0 there are so many good words
assert (min(DATE_WORDS), max(DATE_WORDS)) == (datetime.date(1972, 1, 1), datetime.date(2099, 12, 31))
assert len(DATE_WORDS) == len(DATES) == 46_753 - 1


def word_of_day(day, month, year):
    """The number and the word."""
    date = date_of(day, month, year)
    return (0, DATE_WORDS[date]) if date in DATE_WORDS else (9, 0)


def day_of_word(word):
    """The number, the day, the month and the year."""
    if word == 0:
        return 0, 0, 0, 0
    if word not in DATES:
        return 9, 0, 0, 0
    date = DATES[word]
    return 0, date.day, date.month, date.year


def is_good_date(word):
    return word == 0 or word in DATES


# -- The texts of document 000 --


def printed_texts():
    """The nine bytes and the scanned words, as numbers, of each row of the table."""
    for row in (HERE / "rad50.tsv").read_text(encoding="utf-8").splitlines()[1:]:
        _lines, text, scan = row.split("\t")
        words = [int(word.replace("Ø", "0"), 8) for word in scan.split()]
        yield text.strip("[]").encode().ljust(9), words


def octal(words):
    return b"".join(b" %06o" % word for word in words)


def record(text, words):
    return text + octal(words).ljust(21) + b"\n"


def verdict(text, words):
    """The formula's words for as many groups as the scan has words, and whether they are the scan's and spell the text."""
    groups = [text[3 * k : 3 * k + 3] for k in range(len(words))]
    formula = [packed(group) for group in groups]
    agrees = formula == words and [SPELLED[word] for word in formula] == groups
    return text + octal(formula) + (b" same\n" if agrees else b" differs\n")


# -- The whole ranges --


def check_sum(numbers):
    low, high = 1, 0
    for number in numbers:
        low = (low + number) % 65521
        high = (high + low) % 65521
    return high * 65536 + low


# document 01's first example, DAY CHG; and DA with a space after it
DAY, CHG, DA = 6465, 5127, 6440
ALL_WORDS = range(65536)


def words():
    for w in ALL_WORDS:
        for three in (w, DAY, CHG), (DAY, w, CHG), (DAY, CHG, w):
            number, text = text_of_words(*three)
            yield number
            yield from text


def legal():
    """The name goes on after its third character, or ends there, or ended before it."""
    for w in ALL_WORDS:
        for three in (w, 0, CHG), (w, DAY, CHG), (DAY, w, CHG), (DA, w, CHG), (DAY, 0, w):
            yield int(is_legal_name(*three))


def texts():
    """Every pair of bytes at every two neighbouring places of a full name and of the shortest."""
    for base in b"AB3CD5XY7", b"A        ":
        for at in range(8):
            before, after = base[:at], base[at + 2 :]
            for pair in ALL_WORDS:
                yield from words_of_text(before + pair.to_bytes(2, "big") + after)


def days():
    for w in ALL_WORDS:
        yield from day_of_word(w)
        yield int(is_good_date(w))


def dates():
    for day in range(34):
        for month in range(15):
            for year in range(1970, 2107):
                yield from word_of_day(day, month, year)


def main():
    rows = list(printed_texts())
    (SPELL / "stdin").write_bytes(b"".join(record(*row) for row in rows))
    lines = [verdict(*row) for row in rows]
    for numbers in words, legal, texts, days, dates:
        lines.append(b"%s %d\n" % (numbers.__name__.encode(), check_sum(numbers())))
    (SPELL / "stdout").write_bytes(b"".join(lines))


if __name__ == "__main__":
    main()
