"""The rules of document 01, and of document 02 where a comment says so, in plain Python, written from their text alone. One function is one
sentence of a document, as far as that goes.

A directory is a list of words, and V a number. A request answers a pair: its answer, and the words afterwards. The rules of names and dates
are in names.py, those of block 1 in home.py. There is nothing to run here: cases.py and requests.py make case files by these rules, sample.py
head files.
"""
import itertools
import struct
from typing import NamedTuple

from home import read_label, shown_label
from names import LAST_WORD, day_of_word, is_good_date, is_legal_name, text_of_words, words_of_text

# The statuses, and the kind of entry that each is; the letter is the listing's.
TENTATIVE, EMPTY, PERMANENT, END = 256, 512, 1024, 2048
PROTECTED = PERMANENT + 0o100000  # document 02, Req 06
KINDS = {TENTATIVE: "T", EMPTY: "E", PERMANENT: "P", PROTECTED: "P"}

# Places in an entry and in a segment's header.
STATUS, NAME, LENGTH, CHANNEL, DATE = 0, slice(1, 4), 4, 5, 6
TOTAL, LINK, HIGHEST, EXTRA, FIRST = range(5)

SEGMENT_WORDS, HEADER_WORDS, ENTRY_WORDS = 512, 5, 7
MOST_SEGMENTS, MOST_EXTRA_WORDS = 31, 16
MOST_BLOCKS = 65_535
CHANNEL_LIMIT = 255  # document 02, Req 07
JOBS = 0, 2

LOOKUP, ENTER, CLOSE, ABANDON, DELETE, RENAME, PROTECT, UNPROTECT = range(1, 9)


class Request(NamedTuple):
    """A request ignores the fields that it has no use for."""

    op: int
    name: tuple = (0, 0, 0)
    new_name: tuple = (0, 0, 0)
    job: int = 0
    channel: int = 0
    size: int = 0
    final_length: int = 0
    date: int = 0


class Answer(NamedTuple):
    number: int
    first: int = 0
    length: int = 0
    date: int = 0
    segment: int = 0  # from here on document 02, Req 08
    slot: int = 0


class Row(NamedTuple):
    """An entry and where it is: its segment and its slot, both counted from 1, the place of its first word, and its first block."""

    segment: int
    slot: int
    place: int
    first: int
    entry: list


def numbers_of(answer):
    """An answer as it stands in a line."""
    return " ".join(map(str, answer))


def named(text):
    """The three words of a name such as DAY.CHG."""
    name, _dot, extension = text.encode().partition(b".")
    number, *words = words_of_text(name.ljust(6) + extension.ljust(3))
    assert number == 0, text
    return tuple(words)


FILE_BAD = named("FILE.BAD")  # the name that may stand more than once (document 02, Req 03)


# -- The volume, and one segment --


def segment_count(words):
    return len(words) // SEGMENT_WORDS


def first_data_block(segments):
    return 6 + 2 * segments


def slot_words(words):
    return ENTRY_WORDS + words[EXTRA] // 2


def slot_count(words):
    return (SEGMENT_WORDS - HEADER_WORDS) // slot_words(words)


def capacity(words):
    """The end marker takes one slot."""
    return slot_count(words) - 1


def segment_place(number):
    return SEGMENT_WORDS * (number - 1)


def header(words, number):
    at = segment_place(number)
    return words[at : at + HEADER_WORDS]


def slot_place(words, number, slot):
    return segment_place(number) + HEADER_WORDS + slot_words(words) * (slot - 1)


def slots(words, number):
    width, start = slot_words(words), slot_place(words, number, 1)
    return [words[at : at + width] for at in range(start, start + slot_count(words) * width, width)]


def entries(words, number):
    """The slots before the marker."""
    return list(itertools.takewhile(lambda slot: slot[STATUS] != END, slots(words, number)))


def kind(entry):
    return KINDS.get(entry[STATUS])


def blocks(found):
    return sum(entry[LENGTH] for entry in found)


def chain(words):
    """The numbers of the segments from segment 1 on; None where a link is to no segment, or to one that was visited."""
    numbers, at = [], 1
    while at != 0:
        if at in numbers or at > segment_count(words):
            return None
        numbers.append(at)
        at = header(words, at)[LINK]
    return numbers


def rows(words):
    """Each entry in chain order."""
    for number in chain(words):
        first = header(words, number)[FIRST]
        for slot, entry in enumerate(entries(words, number), 1):
            yield Row(number, slot, slot_place(words, number, slot), first, entry)
            first += entry[LENGTH]


# -- Sound directories: a test for each rule, which presumes those above it --


def has_bad_size(words, v):
    n = segment_count(words)
    return len(words) % SEGMENT_WORDS != 0 or not 1 <= n <= MOST_SEGMENTS or not first_data_block(n) <= v <= MOST_BLOCKS


def has_bad_first_header(words, _v):
    n = segment_count(words)
    extra = words[EXTRA]
    return words[TOTAL] != n or not 1 <= words[HIGHEST] <= n or extra % 2 == 1 or extra > 2 * MOST_EXTRA_WORDS


def has_bad_chain(words, _v):
    numbers = chain(words)
    if numbers is None or sorted(numbers) != list(range(1, words[HIGHEST] + 1)):
        return True
    heads = [header(words, number) for number in numbers]
    return any(head[TOTAL] != words[TOTAL] or head[EXTRA] != words[EXTRA] for head in heads)


def is_bad_slot(slot, following):
    """A slot before the marker, and the one after it."""
    if kind(slot) is None:
        return True
    if kind(slot) != "E" and max(slot[NAME]) > LAST_WORD:
        return True
    return kind(slot) == "T" and kind(following) != "E"


def has_bad_slots(words, _v):
    for number in chain(words):
        found = slots(words, number)
        before = list(itertools.takewhile(lambda slot: slot[STATUS] != END, found))
        if len(before) == len(found) or any(map(is_bad_slot, before, found[1:])):
            return True
    return False


def has_bad_blocks(words, v):
    block = first_data_block(segment_count(words))
    for number in chain(words):
        if header(words, number)[FIRST] != block:
            return True
        block += blocks(entries(words, number))
    return block != v


def key(entry):
    """What may stand once: the name of a permanent entry, the channel word of a tentative one."""
    if kind(entry) == "P":
        return "P", tuple(entry[NAME])
    if kind(entry) == "T":
        return "T", entry[CHANNEL]
    return None


def has_key_twice(words, _v):
    """Of the files named FILE.BAD there may be any number."""
    keys = [key(row.entry) for row in rows(words) if kind(row.entry) != "E"]
    keys = [found for found in keys if found != ("P", FILE_BAD)]
    return len(set(keys)) != len(keys)


RULES = has_bad_size, has_bad_first_header, has_bad_chain, has_bad_slots, has_bad_blocks, has_key_twice


def fault(words, v):
    """The smallest number of a rule that is broken, or 0."""
    return next((number for number, is_broken in enumerate(RULES, 1) if is_broken(words, v)), 0)


# -- Requests on a sound directory: refusals in number order (but for 19 and 20 of document 02), then what is done --


def row_of(words, wanted):
    """The first entry with a key, in chain order, or None."""
    return next((row for row in rows(words) if key(row.entry) == wanted), None)


def file_of(words, name):
    return row_of(words, ("P", tuple(name)))


def open_on(words, channel):
    return row_of(words, ("T", channel))


def is_name(name):
    return is_legal_name(*name)


def is_channel(request):
    return request.job in JOBS and request.channel <= CHANNEL_LIMIT


def channel_word(request):
    return request.job * 256 + request.channel


def refused(number, words):
    return Answer(number), words


def answered(row, words):
    """A success: the entry concerned, as it stands in the words afterwards."""
    return Answer(0, row.first, row.entry[LENGTH], row.entry[DATE], row.segment, row.slot), words


def written(words, writes):
    after = list(words)
    for place, word in writes:
        after[place] = word
    return after


def done(words, place, writes):
    """Some words written; the entry that begins at this place is answered."""
    after = written(words, writes)
    return answered(next(row for row in rows(after) if row.place == place), after)


def is_protected(row):
    return row is not None and row.entry[STATUS] == PROTECTED


def given_way(words, name):
    """The permanent file that a new one of this name replaces, or None: a FILE.BAD replaces none (document 02, Req 03)."""
    return None if tuple(name) == FILE_BAD else file_of(words, name)


def emptied(row):
    return [(row.place + STATUS, EMPTY)]


def lookup(words, request):
    if not is_name(request.name):
        return refused(7, words)
    row = file_of(words, request.name)
    if row is None:
        return refused(13, words)
    return answered(row, words)


def delete(words, request):
    if not is_name(request.name):
        return refused(7, words)
    if request.name == FILE_BAD:
        return refused(19, words)
    row = file_of(words, request.name)
    if row is None:
        return refused(13, words)
    if is_protected(row):
        return refused(20, words)
    return done(words, row.place, emptied(row))


def with_status(words, request, status):
    """Protect and unprotect change the status word alone (document 02, Req 06)."""
    if not is_name(request.name):
        return refused(7, words)
    if request.name == FILE_BAD:
        return refused(19, words)
    row = file_of(words, request.name)
    if row is None:
        return refused(13, words)
    return done(words, row.place, [(row.place + STATUS, status)])


def protect(words, request):
    return with_status(words, request, PROTECTED)


def unprotect(words, request):
    return with_status(words, request, PERMANENT)


def rename(words, request):
    if not (is_name(request.name) and is_name(request.new_name)):
        return refused(7, words)
    if FILE_BAD in (request.name, request.new_name):
        return refused(19, words)
    row = file_of(words, request.name)
    if row is None:
        return refused(13, words)
    if is_protected(row):
        return refused(20, words)
    if file_of(words, request.new_name):
        return refused(14, words)
    return done(words, row.place, zip(range(row.place + 1, row.place + 4), request.new_name))


def abandon(words, request):
    if not is_channel(request):
        return refused(8, words)
    row = open_on(words, channel_word(request))
    if row is None:
        return refused(15, words)
    return done(words, row.place, emptied(row))


def close(words, request):
    if not is_channel(request):
        return refused(8, words)
    row = open_on(words, channel_word(request))
    if row is None:
        return refused(15, words)
    if not 0 <= request.final_length <= row.entry[LENGTH]:
        return refused(16, words)
    if is_protected(given_way(words, row.entry[NAME])):
        return refused(20, words)
    return done(words, row.place, closing(words, row, request.final_length))


def closing(words, row, final_length):
    """The file is permanent, the next entry grows by the difference, and a permanent entry of the same name becomes empty, but no FILE.BAD."""
    following = row.place + slot_words(words) + LENGTH
    old = given_way(words, row.entry[NAME])
    return [
        (row.place + STATUS, PERMANENT),
        (row.place + LENGTH, final_length),
        (row.place + CHANNEL, 0),
        (following, words[following] + row.entry[LENGTH] - final_length),
        *(emptied(old) if old else []),
    ]


# -- Enter: tidy, choose, split if needed, insert --


class Area(NamedTuple):
    segment: int
    index: int
    length: int
    cost: int
    is_eligible: bool


def joined(run, is_behind_open):
    """Step 1: neighbouring empty entries become the first with the summed length; a zero sum is dropped unless behind a tentative one."""
    total = blocks(run)
    first = written(run[0], [(LENGTH, total)])
    return [first] if total > 0 or is_behind_open else []


def tidied(found):
    kept = []
    for is_area, run in itertools.groupby(found, key=lambda entry: kind(entry) == "E"):
        is_behind_open = bool(kept) and kind(kept[-1]) == "T"
        kept += joined(list(run), is_behind_open) if is_area else run
    return kept


def areas_in(words, number, found):
    """Step 2: what each area of a tidied segment costs, and whether it is eligible."""
    for index, entry in enumerate(found):
        if kind(entry) == "E":
            cost = 2 if index > 0 and kind(found[index - 1]) == "T" else 1
            has_room = len(found) + cost <= capacity(words) or words[HIGHEST] < words[TOTAL]
            yield Area(number, index, entry[LENGTH], cost, entry[LENGTH] >= 1 and has_room)


def length_wanted(size, areas):
    """Step 3: the length that a size stands for, where some area is eligible."""
    longest, second = sorted([area.length for area in areas if area.is_eligible] + [0], reverse=True)[:2]
    if size == -1:
        return longest
    if size == 0:
        return max((longest + 1) // 2, second)
    return size


def split(heads, parts, number, index):
    """Step 4: half of a segment's entries go to a new segment. Answers where the entry at this index then stands."""
    found, new = parts[number], heads[1][HIGHEST] + 1
    kept = len(found) // 2
    if kind(found[kept - 1]) == "T":
        kept += 1
    total, link, _highest, extra, first = heads[number]
    heads[new] = [total, link, 0, extra, first + blocks(found[:kept])]
    heads[number][LINK] = new
    heads[1][HIGHEST] = new
    parts[number], parts[new] = found[:kept], found[kept:]
    return (number, index) if index < kept else (new, index - kept)


def inserted(found, index, cost, new):
    """Step 5: the new entry before its area, which loses the new one's blocks; at cost 2 an empty entry comes first."""
    area = written(found[index], [(LENGTH, found[index][LENGTH] - new[LENGTH])])
    gap = [[EMPTY] + [0] * (len(new) - 1)] if cost == 2 else []
    return found[:index] + gap + [new, area] + found[index + 1 :]


def rendered(head, found):
    """A segment written anew: all words after the marker's status are 0."""
    part = sum(found, list(head)) + [END]
    return part + [0] * (SEGMENT_WORDS - len(part))


def rewritten(words, heads, parts):
    """Segments whose entries have changed are written anew; of the others only the header can have changed."""
    after, before = list(words), chain(words)
    for number, found in parts.items():
        at = segment_place(number)
        if number in before and found == entries(words, number):
            after[at : at + HEADER_WORDS] = heads[number]
        else:
            after[at : at + SEGMENT_WORDS] = rendered(heads[number], found)
    return after


def placed(words, parts, area, new):
    """Steps 4 and 5: the words with the new entry before its area."""
    heads = {number: header(words, number) for number in parts}
    number, index = area.segment, area.index
    if len(parts[number]) + area.cost > capacity(words):
        number, index = split(heads, parts, number, index)
    parts[number] = inserted(parts[number], index, area.cost, new)
    return rewritten(words, heads, parts)


def enter(words, request):
    if not is_name(request.name):
        return refused(7, words)
    if request.name == FILE_BAD:
        return refused(19, words)
    if not is_channel(request):
        return refused(8, words)
    if not -1 <= request.size <= MOST_BLOCKS or not is_good_date(request.date):
        return refused(9, words)
    if open_on(words, channel_word(request)):
        return refused(10, words)
    if is_protected(given_way(words, request.name)):
        return refused(20, words)
    parts = {number: tidied(entries(words, number)) for number in chain(words)}
    areas = [area for number, found in parts.items() for area in areas_in(words, number, found)]
    long_enough = [area for area in areas if area.length >= max(request.size, 1)]
    if not long_enough:
        return refused(11, words)
    if not any(area.is_eligible for area in long_enough):
        return refused(12, words)
    return entered(words, parts, areas, request)


def entered(words, parts, areas, request):
    """The first eligible area in chain order that is long enough gets the new entry."""
    length = length_wanted(request.size, areas)
    area = next(area for area in areas if area.is_eligible and area.length >= length)
    extras = [0] * (slot_words(words) - ENTRY_WORDS)
    new = [TENTATIVE, *request.name, length, channel_word(request), request.date] + extras
    after = placed(words, parts, area, new)
    return answered(open_on(after, channel_word(request)), after)


# -- What is asked from outside: any words, any V --

SERVED = {
    LOOKUP: lookup,
    ENTER: enter,
    CLOSE: close,
    ABANDON: abandon,
    DELETE: delete,
    RENAME: rename,
    PROTECT: protect,
    UNPROTECT: unprotect,
}


def serve(words, v, request):
    number = fault(words, v)
    return refused(number, words) if number else SERVED[request.op](words, request)


def fresh(words, v, extra_words):
    if has_bad_size(words, v):
        return refused(1, words)
    if extra_words > MOST_EXTRA_WORDS:
        return refused(2, words)
    n = segment_count(words)
    first = first_data_block(n)
    area = [EMPTY, 0, 0, 0, v - first, 0, 0] + [0] * extra_words
    after = rendered([n, 0, 1, 2 * extra_words, first], [area]) + [0] * (SEGMENT_WORDS * (n - 1))
    return answered(next(rows(after)), after)


def batch(words, v, requests, room):
    """The batch's number, its answers, and the words: each request meets the words that the one before it left."""
    if room != len(requests):
        return 18, [], words
    answers = []
    for request in requests:
        answer, words = serve(words, v, request)
        answers.append(answer)
    return 0, answers, words


def check(words):
    """The check of a case file's lines, over all words in order, or over bytes in their place."""
    a, b = 1, 0
    for word in words:
        a = (a + word) % 65_521
        b = (b + a) % 65_521
    return b * 65_536 + a


# -- The listing --

MARK = b"RVH"
PLAIN, WITH_HOME = 1, 2  # the versions; the second is document 02's, Req 01
SIZES = {PLAIN: (7, 31_751), WITH_HOME: (519, 32_263)}  # from the smallest to the largest; the directory has an even count of bytes


def head_file(words, v, home=None):
    """The mark, the version and V, in version 2 the 512 bytes of block 1, then the directory; all low byte first."""
    version = PLAIN if home is None else WITH_HOME
    return MARK + struct.pack("<2H", version, v) + (home or b"") + struct.pack(f"<{len(words)}H", *words)


def is_head_file(file, version):
    smallest, largest = SIZES[version]
    good_length = smallest <= len(file) <= largest and len(file) % 2 == smallest % 2
    return good_length and file[:5] == MARK + struct.pack("<H", version)


def version_of(file):
    """None where it is no head file."""
    return next((version for version in SIZES if is_head_file(file, version)), None)


def unpacked(file, version):
    """Block 1, which version 1 does not have, the directory, and V."""
    v, *words = struct.unpack(f"<{(len(file) - 5) // 2}H", file[5:])
    return (None, words, v) if version == PLAIN else (file[7:519], words[256:], v)


def shown_date(entry):
    number, day, month, year = day_of_word(entry[DATE])
    return f"{day:02}-{month:02}-{year}" if kind(entry) != "E" and number == 0 and day else "-" * 10


def shown_name(entry):
    text = text_of_words(*entry[NAME])[1].decode()
    return "." * 10 if kind(entry) == "E" else f"{text[:6]}.{text[6:]}"


def shown(row):
    entry = row.entry
    return f"{kind(entry)} {shown_name(entry)}{row.first:6}{entry[LENGTH]:6} {shown_date(entry)}"


def listed(words, v):
    """The lines of a sound directory."""
    files, open_files, free = (blocks(row.entry for row in rows(words) if kind(row.entry) == letter) for letter in "PTE")
    head = f"VOLUME {v} SEGMENTS {words[HIGHEST]} OF {words[TOTAL]} EXTRA {words[EXTRA]}"
    return [head, *map(shown, rows(words)), f"FILES {files} OPEN {open_files} FREE {free}"]


def label_lines(home):
    """The line that version 2 begins with; version 1 has none."""
    return [] if home is None else [shown_label(read_label(home))]


def refusal(home, words, v):
    """25 of the label, then the directory's fault, or 0."""
    number = 0 if home is None else read_label(home).number
    return number or fault(words, v)


def listing(file):
    """The listing of a head file's bytes."""
    version = version_of(file)
    if version is None:
        return "REFUSED 17\n"
    home, words, v = unpacked(file, version)
    number = refusal(home, words, v)
    lines = [f"REFUSED {number}"] if number else label_lines(home) + listed(words, v)
    return "".join(line + "\n" for line in lines)
