"""Load files that come in pieces, as records of a case file (document 02, Req 11). What document 02 says is tested here against the model:
which data bytes are stored before a fault, and which byte shows it, is worked out by hand, and how a stream is cut must make no difference.
There is nothing to run here: cases.py uses it.
"""
import random

from rt11 import check
from tapes import ABC, ABC_STREAM, EMPTY, END, FULL, LARGE, SMALL, TAPE, TAPE_STORES
from tapes import block, changed, counting, put, range_of, words_of, written

SEED, CHANCES = 1977, 6
MOST_PIECES, DISK_PIECE = 2_000, 512


def answered(case, memory, stream, lengths, ended, answer, stores):
    after = words_of(memory)
    for at, data in stores:
        put(after, at, data)
    assert case.read_pieces(memory, stream, lengths, ended) == (*answer, after), case.lines[-1]
    assert case.lines[-1] == f"pieces {' '.join(map(str, answer))} {check(after)}", case.lines[-1]


def accepted(case, memory, stream, lengths, ended, address, *stores):
    """That the input has ended comes too late to matter."""
    answered(case, memory, stream, lengths, ended, (1, 0, address, 0, 0), stores)


def refused(case, memory, stream, lengths, ended, number, offset, *stores):
    answered(case, memory, stream, lengths, ended, (2, number, 0, sum(len(data) for _, data in stores), offset), stores)


def unfinished(case, memory, stream, lengths, ended, *stores):
    """The end block is not whole: that is a refusal only where the caller says that nothing follows. The stores are the same."""
    if ended:
        refused(case, memory, stream, lengths, 1, 30, len(stream), *stores)
    else:
        answered(case, memory, stream, lengths, 0, (0, 0, 0, 0, 0), stores)


# -- Ways of cutting: the lengths of the pieces --


def cut(count, *places):
    """So many bytes, cut at these offsets. The same offset twice, or one of the ends, gives an empty piece."""
    edges = 0, *places, count
    return [end - start for start, end in zip(edges, edges[1:])]


def singly(count):
    return [1] * count


def with_empties(lengths):
    return [0] + [length for piece in lengths for length in (piece, 0)]


def in_steps(count, step):
    return cut(count, *range(step, count, step))


# -- Streams that are right --


def nothing(case):
    """An input of length 0: no piece, and empty pieces. Zeros alone are no block either."""
    for memory in SMALL, EMPTY:
        for lengths in [], [0], [0, 0, 0]:
            for ended in 0, 1:
                unfinished(case, memory, b"", lengths, ended)
    for lengths in [5], singly(5), [0, 2, 0, 3, 0]:
        for ended in 0, 1:
            unfinished(case, SMALL, bytes(5), lengths, ended)
    for ended in 0, 1:
        unfinished(case, SMALL, b"", [0] * MOST_PIECES, ended)
        unfinished(case, SMALL, bytes(MOST_PIECES), singly(MOST_PIECES), ended)


def two_blocks(case):
    """Document 02's file of 17 bytes, cut at each byte; and what a memory of two words holds when two of its three bytes have come."""
    for place in range(18):
        accepted(case, (2, 0, 0), ABC_STREAM, cut(17, place), place % 2, 1, (0, ABC))
    for lengths in [17], singly(17), with_empties([17]), with_empties(singly(17)):
        for ended in 0, 1:
            accepted(case, (2, 65_535, 0), ABC_STREAM, lengths, ended, 1, (0, ABC))
    assert case.read_pieces((2, 65_535, 0), ABC_STREAM[:8], [7, 1], 0) == (0, 0, 0, 0, 0, [0x4241, 0xFFFF])
    assert case.read_pieces((2, 65_535, 0), ABC_STREAM[:8], [7, 1], 1) == (2, 30, 0, 2, 8, [0x4241, 0xFFFF])


# Where the data bytes of TAPE stand, and what each of them stores
TAPE_DATA = {8: (5, b"A"), 9: (6, b"B"), 10: (7, b"C"), 19: (12, b"\0"), 20: (13, b"\xff"), 28: (0, b"\1")}


def unfinished_tape(case):
    """TAPE up to every byte: each data byte is stored as soon as it is there. Then all of TAPE, cut at every byte."""
    for count in range(len(TAPE)):
        stores = [store for at, store in TAPE_DATA.items() if at < count]
        unfinished(case, SMALL, TAPE[:count], cut(count, count * 2 // 3), 0, *stores)
        unfinished(case, SMALL, TAPE[:count], singly(count), 1, *stores)
    for place in range(len(TAPE) + 1):
        accepted(case, SMALL, TAPE, cut(len(TAPE), place), place % 2, 0o1001, *TAPE_STORES)


def halves(case):
    """Data cut at each of its bytes, from even and odd addresses and of even and odd length: no half of a word harms the other."""
    for address in 6, 7:
        for data in b"wxyz", b"vwxyz":
            stream = block(address, data) + END
            for place in range(len(data) + 1):
                accepted(case, SMALL, stream, cut(len(stream), 6 + place), place % 2, 512, (address, data))
                unfinished(case, SMALL, stream[: 6 + place], cut(6 + place, 6), place % 2, (address, data[:place]))


def headers(case):
    """Counts with a low byte that alone would be refused or be the end's, and addresses of two bytes, cut between the two."""
    memory = 800, 9, 9
    for count in 256, 261, 262, 518:
        stream = block(3, counting(count - 6)) + END
        unfinished(case, memory, stream[:3], [2, 1], 0)
        accepted(case, memory, stream, [3, 1, len(stream) - 4], 1, 512, (3, counting(count - 6)))
    for address in 255, 256, 1_023:
        stream = block(address, ABC) + block(65_281)
        for places in [5], [4, 5, 6], [10, 15]:
            accepted(case, memory, stream, cut(len(stream), *places), 0, 65_281, (address, ABC))


def zero_checksums(case):
    """A checksum of 0 is no gap: without it the block is not whole. Behind it a zero is one."""
    stream = block(0, b"\xf8") + b"\0" + block(249)
    assert stream == b"\1\0\7\0\0\0\xf8\0" + b"\0" + b"\1\0\6\0\xf9\0\0"
    for count in 7, 8, 9, 15:
        for ended in 0, 1:
            unfinished(case, SMALL, stream[:count], cut(count, count - 1), ended, (0, b"\xf8"))
    for place in 7, 8, 9, 15:
        accepted(case, SMALL, stream, cut(16, place), 1, 249, (0, b"\xf8"))


def data_like_blocks(case):
    """Where a piece begins says nothing of where a block does."""
    for data in END, b"\1\0\5\0", b"\2\2", bytes(3), block(0, ABC):
        stream = block(2, data) + END
        accepted(case, SMALL, stream, cut(len(stream), 6), 0, 512, (2, data))
        unfinished(case, SMALL, stream[:-7], cut(len(stream) - 7, 6, 6 + len(data)), 1, (2, data))


# -- Faults --

# A front, and what it stores: the second block overwrites a byte of the first
FRONTS = (b"", ()), (b"\0\0" + block(3, ABC) + b"\0" + block(5, b"xy"), ((3, ABC), (5, b"xy")))
# The number, the fault, which of its bytes shows it, and what was stored of it before
FAULTS = (
    (27, b"\2", 0, ()),
    (27, b"\1\1", 1, ()),
    (28, b"\1\0\5\0", 3, ()),
    (29, block(38, ABC), 5, ()),
    (31, block(20, b"bad", 1), 9, ((20, b"bad"),)),
    (31, block(512, slip=255), 6, ()),
)


def fault_at_each_cut(case):
    """The input ends before the byte that shows the fault, with it, and behind it; the cut is before that byte, behind it, or both."""
    for front, earlier in FRONTS:
        for number, fault, place, own in FAULTS:
            at, stores = len(front) + place, earlier + own
            stream = front + fault + block(0, b"never") + END
            count = len(stream)
            for ended in 0, 1:
                unfinished(case, SMALL, stream[:at], cut(at, at // 2), ended, *stores)
                refused(case, SMALL, stream[: at + 1], [at, 1], ended, number, at, *stores)
            for lengths in [count], cut(count, at), with_empties(cut(count, at + 1)):
                refused(case, SMALL, stream, lengths, 0, number, at, *stores)
            for lengths in cut(count, at, at + 1), cut(count, at + 1, at + 1, at + 2), singly(count):
                refused(case, SMALL, stream, lengths, 1, number, at, *stores)


def later_pieces(case):
    """What comes behind the end block, and behind a refusal, is not looked at: junk, blocks, the end block, each fault."""
    rests = [END, block(0, ABC), bytes(4), b"\1"] + [fault for _, fault, _, _ in FAULTS]
    whole = block(3, ABC) + END
    for rest in rests:
        stream = whole + rest
        accepted(case, SMALL, stream, cut(len(stream), len(whole)), 1, 512, (3, ABC))
        accepted(case, SMALL, stream, cut(len(stream), len(whole) - 1), 0, 512, (3, ABC))
    for number, fault, place, own in FAULTS:
        for k, rest in enumerate(rests):
            stream = block(1, b"!") + fault + rest
            refused(case, SMALL, stream, cut(len(stream), 8 + len(fault)), k % 2, number, 8 + place, (1, b"!"), *own)


def wrong_bytes(case):
    """First and second bytes of a block, counts under 6, data bytes that the checksum does not fit, each cut before the wrong byte."""
    for byte in 2, 255:
        refused(case, SMALL, changed(END, 0, byte), cut(7, 0), 1, 27, 0)
    for byte in 1, 2, 255:
        refused(case, SMALL, changed(END, 1, byte), cut(7, 1), 1, 27, 1)
    for count in range(6):
        unfinished(case, SMALL, changed(END, 2, count)[:3], [3], count % 2)
        refused(case, SMALL, changed(END, 2, count), cut(7, 3), count % 2, 28, 3)
    for at in 6, 7, 8:
        wrong = changed(block(9, ABC), at, 63)
        refused(case, SMALL, wrong + END, cut(17, at, at + 1), 1, 31, 9, (9, wrong[6:9]))


def overlaps(case):
    """A byte that is stored again counts again, also where it is the same. The memory is what the last store left."""
    for pairs in (
        [(4, b"aaaa"), (4, b"bbbb")],
        [(4, b"aaaa"), (5, b"bb")],
        [(7, b"aaaa"), (4, b"bbbb")],
        [(9, b"a"), (9, b"a"), (9, b"a")],
        [(0, counting(40)), (0, counting(40)), (39, b"!")],
    ):
        stream = b"".join(block(*pair) for pair in pairs)
        count = len(stream)
        for lengths in [count], in_steps(count, 7):
            unfinished(case, SMALL, stream, lengths, 0, *pairs)
            unfinished(case, SMALL, stream, lengths, 1, *pairs)
            refused(case, SMALL, stream + b"\7", [*lengths, 1], 0, 27, count, *pairs)
        refused(case, SMALL, stream + block(1, slip=1), singly(count + 7), 1, 31, count + 6, *pairs)
        accepted(case, SMALL, stream + block(1), singly(count + 7), 1, 1, *pairs)


def reaches(case):
    """The last byte of a memory, and the one behind it, which the header shows: of 0, 2, 65,534, 65,536 and 80,000 bytes (as of 65,536)."""
    accepted(case, EMPTY, END, cut(7, 3), 0, 512)
    for address in 32_768, 65_500, 65_535:
        refused(case, SMALL, block(address, counting(39)) + END, cut(53, 5, 6), 1, 29, 5)  # in 15 bits, and 16, it would end within 40
    for memory, size in (EMPTY, 0), ((1, 513, 0), 2), ((32_767, 5, 3), 65_534), (FULL, 65_536), (LARGE, 65_536):
        if size < 65_536:
            refused(case, memory, block(size, b"!") + END, cut(15, 5), 0, 29, 5)
        if size:
            beyond = block(size - 1, b"!!") + END
            unfinished(case, memory, beyond[:5], [4, 1], 0)
            refused(case, memory, beyond, cut(16, 5), 0, 29, 5)
            last = block(size - 2, b"!?") + END
            unfinished(case, memory, last[:7], [6, 1], 0, (size - 2, b"!"))
            unfinished(case, memory, last[:8], [7, 1], 1, (size - 2, b"!?"))
            accepted(case, memory, last, cut(16, 7, 8), 1, 512, (size - 2, b"!?"))


# -- Large inputs --


def full_memory(case):
    """65,536 bytes in 512 blocks, as a disk hands them over; and the end block's checksum wrong, which leaves them all stored."""
    memory, data = (32_768, 3, 9), range_of(FULL, 0, 65_536)
    stream = written(FULL, 0, [128] * 512, 65_534)
    assert len(stream) == 69_127
    accepted(case, memory, stream, in_steps(69_127, DISK_PIECE), 1, 65_534, (0, data))
    wrong = changed(stream, 69_126, stream[-1] ^ 1)
    refused(case, memory, wrong, cut(69_127, 65_536), 0, 31, 69_126, (0, data))


def largest(case):
    """100,000 bytes: a block of 65,529 bytes of data, and 34,458 of the 40,000 of another. More is stored than the memory has bytes."""
    first, second = (7, counting(65_529)), (3, counting(40_000)[::-1])
    stream = (block(*first) + block(*second))[:100_000]
    come = first, (3, second[1][:34_458])
    unfinished(case, LARGE, stream, [100_000], 0, *come)
    unfinished(case, LARGE, stream, in_steps(100_000, DISK_PIECE), 1, *come)
    refused(case, SMALL, bytes(70_000) + b"\2", cut(70_001, 65_536, 70_000), 1, 27, 70_000)


# -- Random tapes --


def random_parts(chance, size):
    """Each is some zeros, a load address and data that fit a memory of so many bytes."""
    for _ in range(chance.randint(1, 4)):
        count = chance.randint(1, chance.choice([3, 20, min(size, 150)]))
        yield chance.randint(0, 2), chance.randint(0, size - count), chance.randbytes(count)


def stream_of(parts):
    return b"".join(bytes(zeros) + block(address, data) for zeros, address, data in parts)


def stores_within(parts, count):
    """What the first so many bytes of the stream store, byte by byte."""
    at = 0
    for zeros, address, data in parts:
        at += zeros + 6
        yield from ((address + k, data[k : k + 1]) for k in range(len(data)) if at + k < count)
        at += len(data) + 1


def random_cut(chance, count):
    """Few places or many, some of them twice."""
    return cut(count, *sorted(chance.choices(range(count + 1), k=chance.choice([0, 1, 2, 5, 30]))))


def random_faults(chance, size):
    """As FAULTS has them, at any place, with any bytes behind them."""
    address, data = chance.randint(0, size - 9), chance.randbytes(9)
    yield 27, bytes([chance.randint(2, 255)]), 0, ()
    yield 27, bytes([1, chance.randint(1, 255)]), 1, ()
    yield 28, bytes([1, 0, chance.randint(0, 5), 0]), 3, ()
    yield 29, block(chance.randint(size - 8, 65_535), data), 5, ()
    yield 31, block(address, data, chance.randint(1, 255)), 15, ((address, data),)


def by_chance(case):
    """A good tape with junk behind it, its beginning, and each fault behind its blocks."""
    chance = random.Random(SEED)
    for _ in range(CHANCES):
        memory = chance.randint(20, 120), chance.randrange(65_536), chance.randrange(65_536)
        size, address = 2 * memory[0], chance.randrange(65_536)
        parts = list(random_parts(chance, size))
        blocks, stores = stream_of(parts), [(start, data) for _, start, data in parts]
        stream = blocks + block(address) + chance.randbytes(chance.randint(0, 30))
        accepted(case, memory, stream, random_cut(chance, len(stream)), chance.randrange(2), address, *stores)
        for ended in 0, 1:
            count = chance.randrange(len(blocks) + 7)
            unfinished(case, memory, stream[:count], random_cut(chance, count), ended, *stores_within(parts, count))
        for number, fault, place, own in random_faults(chance, size):
            stream = blocks + fault + chance.randbytes(chance.randint(0, 30))
            lengths, at = random_cut(chance, len(stream)), len(blocks) + place
            refused(case, memory, stream, lengths, chance.randrange(2), number, at, *stores, *own)


RIGHT = nothing, two_blocks, unfinished_tape, halves, headers, zero_checksums, data_like_blocks
WRONG = fault_at_each_cut, later_pieces, wrong_bytes, overlaps, reaches


def add(case):
    for part in RIGHT + WRONG + (full_memory, largest, by_chance):
        part(case)
