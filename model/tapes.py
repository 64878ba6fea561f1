"""Absolute load files as records of a case file (document 02, Req 10). What document 02 says is tested here against the model, with lines,
memories and streams worked out by hand. There is nothing to run here: cases.py uses it.
"""
import random
import struct

from rt11 import check

SMALL = 20, 4_660, 771  # n, fill and step: 40 bytes, the first 52 and 18
FULL, LARGE, EMPTY = (32_768, 17, 40_503), (40_000, 17, 40_503), (0, 7, 7)  # LARGE has more than its first 65,536 bytes
ABC, ABC_STREAM = b"\x41\x42\x43", bytes.fromhex("01 00 09 00 00 00 41 42 43 30 01 00 06 00 01 00 f8")
NOTHING_STREAM = bytes.fromhex("01 00 06 00 00 02 f7")
BEYOND = 2**31 - 1
SEED, CHANCES = 1976, 12


def block(address, data=b"", slip=0):
    """Its checksum is wrong by the slip. 1 as a word is the bytes 1 and 0."""
    summed = struct.pack("<HHH", 1, 6 + len(data), address) + data
    return summed + bytes([(slip - sum(summed)) % 256])


END = block(512)
assert block(0, ABC) + block(1) == ABC_STREAM and END == NOTHING_STREAM


def changed(text, at, byte):
    return text[:at] + bytes([byte]) + text[at + 1 :]


def counting(count):
    """Bytes that differ from their neighbours, and from those 256 behind them."""
    return bytes(k % 251 for k in range(1, count + 1))


def words_of(memory):
    n, fill, step = memory
    return [(fill + i * step) % 65_536 for i in range(n)]


def byte_of(words, at):
    return words[at // 2] // 256 if at % 2 else words[at // 2] % 256


def range_of(memory, first, count):
    words = words_of(memory)
    return bytes(byte_of(words, at) for at in range(first, first + count))


def put(words, address, data):
    """Even addresses are low bytes, odd ones high."""
    for at, byte in enumerate(data, address):
        low, high = words[at // 2] % 256, words[at // 2] // 256
        words[at // 2] = low + 256 * byte if at % 2 else byte + 256 * high


def answered(case, memory, stream, number, address, stores):
    after = words_of(memory)
    for at, data in stores:
        put(after, at, data)
    assert case.read_load(memory, stream) == (number, address, after), case.lines[-1]
    assert case.lines[-1] == f"load {number} {address} {check(after)}", case.lines[-1]


def read(case, memory, stream, address, *stores):
    """A success: each store is a load address and its data."""
    answered(case, memory, stream, 0, address, stores)


def refuse(case, memory, stream, number):
    """No transfer address, and no word changes, whatever came before the fault."""
    answered(case, memory, stream, number, 0, ())


def saved(case, memory, first, count, address, stream, spare=0):
    """A success, with this stream and some room behind it, which stays 170 each."""
    after = stream + b"\xaa" * spare
    assert case.write_load(memory, first, count, address, len(after)) == (0, len(stream), after), case.lines[-1]
    assert case.lines[-1] == f"save 0 {len(stream)} {check(after)}", case.lines[-1]


def unsaved(case, memory, first, count, room, number):
    after = b"\xaa" * room
    assert case.write_load(memory, first, count, 512, room) == (number, 0, after), case.lines[-1]
    assert case.lines[-1] == f"save {number} 0 {check(after)}", case.lines[-1]


# -- The reader --


def vectors(case):
    """Both ways. Of two words the first three bytes are new, and the fourth stays."""
    read(case, (2, 0, 0), ABC_STREAM, 1, (0, ABC))
    assert case.read_load((2, 0, 0), ABC_STREAM) == (0, 1, [0x4241, 0x0043])
    assert case.read_load((2, 65_535, 0), ABC_STREAM) == (0, 1, [0x4241, 0xFF43])
    read(case, SMALL, NOTHING_STREAM, 512)
    saved(case, (2, 0x4241, 2), 0, 3, 1, ABC_STREAM)
    saved(case, SMALL, 0, 0, 512, NOTHING_STREAM)


# Zeros before and between blocks, an odd load address, and a byte at 0 after others
TAPE_STORES = (5, ABC), (12, b"\0\xff"), (0, b"\1")
TAPE = b"\0\0" + block(5, ABC) + b"\0" + block(12, b"\0\xff") + block(0, b"\1") + b"\0\0\0" + block(0o1001)


def cuts(case):
    """Whatever is missing, the end block is not whole."""
    for count in range(len(TAPE)):
        refuse(case, SMALL, TAPE[:count], 30)
    read(case, SMALL, TAPE, 0o1001, *TAPE_STORES)
    for stream in bytes(1), bytes(600), block(0, ABC) + bytes(9), block(0, counting(40)), block(0, ABC) * 9:
        refuse(case, SMALL, stream, 30)
    long = block(0, counting(300))
    for count in 5, 6, 7, 128, 262, 300, 306:
        refuse(case, FULL, long[:count], 30)


def firsts(case):
    """The first two bytes of a block: at the stream's beginning, behind zeros, and behind a block and zeros."""
    for before in b"", bytes(3), block(3, ABC) + bytes(2):
        for byte in 2, 3, 128, 129, 255:
            refuse(case, SMALL, before + changed(block(0, ABC), 0, byte) + END, 27)
        for byte in 1, 2, 128, 255:
            refuse(case, SMALL, before + changed(block(0, ABC), 1, byte) + END, 27)
        for fault in b"\2", b"\1\1", b"\1\6", changed(END, 1, 1), changed(END, 0, 0):  # of the last the count is where a block should start
            refuse(case, SMALL, before + fault, 27)
        refuse(case, SMALL, before + b"\1", 30)
    refuse(case, SMALL, b"\1" + END, 27)
    refuse(case, SMALL, b"\1" + bytes(1) + END, 28)  # its count is 1
    refuse(case, SMALL, b"\0\1" * 3, 28)  # so is this one's


def zeros(case):
    """How many they are makes no difference."""
    for count in 0, 1, 2, 128, 512, 513:
        read(case, SMALL, bytes(count) + block(1, ABC) + bytes(count) + END, 512, (1, ABC))
    read(case, SMALL, bytes(40_000) + END, 512)
    read(case, SMALL, END + bytes(3), 512)


def behind(case):
    """What stands behind the end block is not looked at: junk, parts of blocks, other blocks, each refusal."""
    for rest in b"\2", b"\xff" * 9, b"\1", b"\1\0\5", block(0, ABC), block(0, ABC, 1), block(39, ABC), block(7), block(7, slip=1):
        read(case, SMALL, block(3, ABC) + END + rest, 512, (3, ABC))


def counts(case):
    """From 0 to 5 is 28, as soon as both bytes of it are there. The low byte alone says nothing: 256 to 262 are good, and no end."""
    for count in range(6):
        begun = b"\1\0" + bytes([count])
        refuse(case, SMALL, begun, 30)
        refuse(case, SMALL, begun + b"\0", 28)
        refuse(case, SMALL, block(0, ABC) + begun + b"\0\0\0" + bytes(9) + END, 28)
    for count in 7, 8, 255, 256, 257, 261, 262, 263, 512, 518, 1_536, 1_537:
        data = counting(count - 6)
        read(case, (800, 9, 9), block(3, data) + END, 512, (3, data))
    refuse(case, (800, 9, 9), block(3, counting(1_530))[:7], 30)


def headers(case):
    """A data block's count and address each wrong, its checksum as it was; the tape goes on."""
    right = block(4, ABC)
    refuse(case, SMALL, changed(right, 2, 6) + END, 31)  # the end, with 65 as its checksum
    for count in 7, 8, 10, 11, 15:
        refuse(case, SMALL, changed(right, 2, count) + END, 31)
    refuse(case, SMALL, changed(right, 2, 42) + END, 30)  # 36 bytes from 4
    refuse(case, SMALL, changed(right, 2, 43) + END, 29)
    refuse(case, SMALL, changed(right, 3, 1) + END, 29)
    refuse(case, FULL, changed(right, 3, 1) + END, 30)
    for at in 0, 3, 5, 36, 37:
        refuse(case, SMALL, changed(right, 4, at) + END, 31)
    for at in 38, 39, 40, 255:
        refuse(case, SMALL, changed(right, 4, at) + END, 29)
    for high in 1, 128, 255:
        refuse(case, SMALL, changed(right, 5, high) + END, 29)
        refuse(case, FULL, changed(right, 5, high) + END, 31)
    for at in 4, 5:
        refuse(case, SMALL, block(4, ABC) + changed(END, at, 77), 31)
    refuse(case, SMALL, changed(END, 2, 7), 29)  # a byte at 512
    refuse(case, FULL, changed(END, 2, 7), 30)
    refuse(case, FULL, changed(END, 2, 7) + END, 31)


def sums(case):
    """Each byte of a block counts. Where the others' sum is 0 already, so is the checksum."""
    for slip in 1, 2, 128, 255:
        refuse(case, SMALL, block(3, ABC, slip) + END, 31)
        refuse(case, SMALL, block(3, ABC) + block(512, slip=slip), 31)
    for at in range(6, 10):
        refuse(case, SMALL, changed(block(3, ABC), at, 68) + END, 31)
    none = block(0, b"\xf8")
    assert none == b"\1\0\7\0\0\0\xf8\0"
    assert block(249) == b"\1\0\6\0\xf9\0\0"
    read(case, SMALL, none + block(249) + b"\2", 249, (0, b"\xf8"))
    for data in bytes(1), bytes(30), b"\xff" * 31, b"\x80" * 2, END, block(0, ABC), b"\1\0", b"\2" * 7:
        read(case, SMALL, block(2, data) + END, 512, (2, data))
    refuse(case, SMALL, changed(changed(block(3, ABC), 6, 66), 7, 67) + END, 31)
    read(case, SMALL, changed(changed(block(3, ABC), 6, 66), 7, 65) + END, 512, (3, b"\x42\x41\x43"))  # two slips that the sum can't show


FAULTS = {27: b"\2", 28: b"\1\0\5\0", 29: block(38, ABC), 31: block(0, b"???", 1)}


def orders(case):
    """The first of two faults decides, in whichever order; an input that ends comes last of all."""
    for number, fault in FAULTS.items():
        for other in FAULTS.values():
            refuse(case, SMALL, block(1, ABC) + fault + other + END, number)
        refuse(case, SMALL, fault, number)
        refuse(case, SMALL, block(1, b"!") * 3 + fault, number)
    outside = block(38, ABC, 1)
    for count in range(2, 6):
        refuse(case, SMALL, outside[:count], 30)
    for count in 6, 7, 9, 10:
        refuse(case, SMALL, outside[:count], 29)
    refuse(case, SMALL, block(0, ABC, 1), 31)
    refuse(case, SMALL, block(0, ABC, 1)[:-1], 30)
    refuse(case, SMALL, b"\1\0\5\0\xff\xff", 28)
    refuse(case, SMALL, b"\1\1\5\0", 27)


def one(case, memory, address, count):
    """A block that fits the memory, and the same one byte later, of which the header is enough."""
    data = counting(count)
    read(case, memory, block(address, data) + END, 512, (address, data))
    refuse(case, memory, block(address + 1, data)[:9] + END, 29)


def reaches(case):
    """The last byte of a memory and one more: of no word, one, some, 65,534 bytes, 65,536, and more, of which no address is."""
    read(case, EMPTY, END, 512)
    refuse(case, EMPTY, block(0, b"!") + END, 29)
    refuse(case, EMPTY, block(65_535, b"!") + END, 29)
    for address, count in (0, 2), (1, 1):
        one(case, (1, 513, 0), address, count)
    read(case, (1, 513, 0), block(0, b"!") + END, 512, (0, b"!"))
    refuse(case, (1, 513, 0), block(0, ABC) + END, 29)
    for address, count in (39, 1), (38, 2), (37, 3), (0, 40), (1, 39):
        one(case, SMALL, address, count)
    for address, count in (65_533, 1), (65_532, 2), (65_406, 128):
        one(case, (32_767, 5, 3), address, count)
    for memory in FULL, LARGE:
        for address, count in (65_535, 1), (65_534, 2), (65_407, 129):
            data = counting(count)
            read(case, memory, block(address, data) + END, 512, (address, data))
            refuse(case, memory, block(address, data + b"!") + END, 29)
        for header in b"\xff\xff\xff\xff", b"\xff\xff\x08\x00", b"\x08\x80\xff\x7f", b"\x08\x00\xff\xff":
            refuse(case, memory, b"\1\0" + header + END, 29)
        refuse(case, memory, b"\1\0\x07\x80\xff\x7f" + END, 30)  # 32,769 bytes from 32,767 on
    for address in 65_500, 65_535, 32_768:
        refuse(case, SMALL, block(address, counting(39)) + END, 29)  # in 16 bits, and 15, it would end at 3, 38 and 39
    refuse(case, (16_384, 5, 3), b"\1\0\7\0\0\x80" + END, 29)
    read(case, (16_384, 5, 3), block(32_767, b"!") + END, 512, (32_767, b"!"))


def largest(case):
    """65,529 bytes, whose count is 65,535: up to the last byte of memory, and one byte further; and a stream of 100,000 bytes."""
    data = counting(65_529)
    whole = block(7, data)
    assert whole[2:6] == b"\xff\xff\7\0" and len(whole) == 65_536
    read(case, FULL, whole + END, 512, (7, data))
    refuse(case, FULL, whole[:4] + b"\x08\0" + b"?", 29)
    refuse(case, LARGE, whole[:4] + b"\x08\0" + b"?", 29)
    refuse(case, (32_767, 1, 1), whole[:6], 29)
    refuse(case, FULL, whole[:6], 30)
    first, second = (0, counting(49_986)), (15_550, counting(49_986)[::-1])
    stream = block(*first) + b"\0" + block(*second) + block(3) + bytes(6)
    assert len(stream) == 100_000
    read(case, LARGE, stream, 3, first, second)


def overlaps(case):
    """A later block wins, byte by byte, at odd places too."""
    for pairs in (
        [(4, b"aaaa"), (4, b"bbbb")],
        [(4, b"aaaa"), (5, b"bb")],
        [(5, b"aa"), (4, b"bbbb")],
        [(4, b"aaaa"), (7, b"bbbb")],
        [(7, b"aaaa"), (4, b"bbbb")],
        [(9, b"a"), (9, b"b"), (9, b"c")],
        [(8, b"a"), (9, b"b"), (10, b"c"), (9, b"d")],
        [(30, b"back"), (20, b"wards"), (10, b"!")],
    ):
        read(case, SMALL, b"".join(block(*pair) for pair in pairs) + END, 512, *pairs)
    assert case.read_load((3, 0, 0), block(1, b"ab") + block(2, b"cd") + END) == (0, 512, [0x6100, 0x6463, 0])


def transfers(case):
    """Any word is a transfer address, also where the memory has no such byte."""
    for address in 0, 1, 2, 39, 40, 41, 255, 256, 32_767, 32_768, 65_535:
        read(case, SMALL, block(3, ABC) + block(address), address, (3, ABC))
    for memory in EMPTY, (1, 1, 1), FULL:
        read(case, memory, block(65_535), 65_535)


# -- The writer --

# what each count of bytes is cut into
PARTS = {0: [], 1: [1], 2: [2], 127: [127], 128: [128], 129: [128, 1], 255: [128, 127], 256: [128, 128], 300: [128, 128, 44]}


def written(memory, first, parts, address):
    data, stream = range_of(memory, first, sum(parts)), b""
    for count in parts:
        stream += block(first, data[:count])
        first, data = first + count, data[count:]
    return stream + block(address)


def parts(case):
    """From an even and an odd byte; what was written is read back, into another memory."""
    memory, other = (200, 4_660, 771), (200, 9, 1)
    for count, cut in PARTS.items():
        for first in 0, 77:
            stream = written(memory, first, cut, 513)
            assert len(stream) == count + 7 * len(cut) + 7
            saved(case, memory, first, count, 513, stream, spare=first // 10)
            read(case, other, stream, 513, (first, range_of(memory, first, count)))


def rooms(case):
    """Exactly enough, and one byte less, which leaves all that is there."""
    memory = 600, 65_000, 259
    for count, cut in (0, []), (1, [1]), (128, [128]), (129, [128, 1]):
        stream = written(memory, 1_001, cut, 65_535)
        saved(case, memory, 1_001, count, 65_535, stream)
        saved(case, memory, 1_001, count, 65_535, stream, spare=1)
        for room in sorted({0, len(stream) - 7, len(stream) - 1}):
            unsaved(case, memory, 1_001, count, room, 24)
    saved(case, FULL, 65_535, 1, 0, written(FULL, 65_535, [1], 0), spare=65_525)  # 65,540 bytes of room


def ends(case):
    """Ranges up to the memory's end; beyond it 29, also where there is no room. More than 65,536 bytes are out of reach."""
    for memory, size in (EMPTY, 0), ((1, 513, 0), 2), (SMALL, 40), ((32_767, 5, 3), 65_534), (FULL, 65_536), (LARGE, 65_536):
        saved(case, memory, size, 0, 512, NOTHING_STREAM)
        for room in 0, 200:
            unsaved(case, memory, size + 1, 0, room, 29)
            unsaved(case, memory, size, 1, room, 29)
            unsaved(case, memory, 0, size + 1, room, 29)
        if size:
            saved(case, memory, size - 1, 1, 512, written(memory, size - 1, [1], 512))
            unsaved(case, memory, size - 1, 1, 14, 24)
            unsaved(case, memory, size - 1, 2, 200, 29)


def beyond(case):
    """Sums that leave 16 bits, and 31."""
    for first in BEYOND, BEYOND - 65_535, 1, 0:
        unsaved(case, FULL, first, BEYOND, 300, 29)
    for first, count in (BEYOND, 0), (BEYOND, 1), (BEYOND - 65_535, 65_536), (65_536, 65_536), (65_540, 3), (3, 65_540):
        unsaved(case, FULL, first, count, 300, 29)
    for first, count in (10, 65_535), (65_535, 10), (65_530, 7), (65_537, 0), (80_000, 0), (70_000, 2):
        unsaved(case, LARGE, first, count, 300, 29)
    saved(case, LARGE, 65_500, 36, 65_535, written(LARGE, 65_500, [36], 65_535), spare=3)


def all_of_memory(case):
    """512 blocks of 128 + 7 bytes, and the end block. 3,591 is 69,127 less 65,536."""
    stream = written(FULL, 0, [128] * 512, 65_534)
    assert len(stream) == 69_127
    saved(case, FULL, 0, 65_536, 65_534, stream)
    saved(case, LARGE, 0, 65_536, 65_534, stream, spare=873)
    for room in 3_590, 3_591, 65_535, 69_126:
        unsaved(case, FULL, 0, 65_536, room, 24)
    unsaved(case, FULL, 0, 65_537, 70_000, 29)
    unsaved(case, FULL, 1, 65_536, 70_000, 29)
    saved(case, FULL, 1, 65_535, 1, written(FULL, 1, [128] * 511 + [127], 1), spare=1)
    read(case, (32_768, 3, 9), stream, 65_534, (0, range_of(FULL, 0, 65_536)))


# -- Random tapes --


def second_reading(stream, size):
    """The rules once more, byte by byte, for streams that nobody has worked out: the number, the transfer address and the stores."""
    begun, stores, address = [], [], 0
    for byte in stream:
        if not begun and byte == 0:
            continue
        begun.append(byte)
        if len(begun) == 1 and byte != 1 or len(begun) == 2 and byte != 0:
            return 27, 0, []
        count = begun[2] + 256 * begun[3] if len(begun) > 3 else 65_535
        if count < 6:
            return 28, 0, []
        if len(begun) == 6:
            address = begun[4] + 256 * begun[5]
            if count > 6 and address + count - 6 > size:
                return 29, 0, []
        if len(begun) == count + 1:
            if sum(begun) % 256 > 0:
                return 31, 0, []
            if count == 6:
                return 0, address, stores
            stores.append((address, bytes(begun[6:-1])))
            begun = []
    return 30, 0, []


def random_stores(chance, size):
    """Some blocks in a memory of so many bytes, some of them long."""
    for _ in range(chance.randint(1, 4)):
        count = chance.randint(1, chance.choice([3, 20, min(size, 150)]))
        yield chance.randint(0, size - count), chance.randbytes(count)


def wild(chance, stream):
    """A byte changed, lost, doubled, or a part of the stream moved to its front."""
    at = chance.randrange(len(stream))
    return chance.choice(
        [
            changed(stream, at, chance.choice([0, 1, 2, 6, 7, chance.randrange(256)])),
            stream[:at] + stream[at + 1 :],
            stream[: at + 1] + stream[at:],
            stream[at:] + stream[:at],
        ]
    )


def by_chance(case):
    """A good tape, and its slips: a wrong data byte, a byte between two blocks, an early end, and some at any place."""
    chance = random.Random(SEED)
    for _ in range(CHANCES):
        memory = chance.randint(20, 120), chance.randrange(65_536), chance.randrange(65_536)
        size, address = 2 * memory[0], chance.randrange(65_536)
        stores = list(random_stores(chance, size))
        blocks = [bytes(chance.randint(0, 2)) + block(*store) for store in stores]
        stream = b"".join(blocks) + block(address)
        read(case, memory, stream + chance.randbytes(chance.randint(0, 3)), address, *stores)
        k = chance.randrange(len(blocks))
        before, rest = b"".join(blocks[:k]), b"".join(blocks[k + 1 :]) + block(address)
        slip = chance.randint(2, len(stores[k][1]) + 1)
        wrong = changed(blocks[k], -slip % len(blocks[k]), blocks[k][-slip] ^ chance.randint(1, 255))
        refuse(case, memory, before + wrong + rest, 31)
        refuse(case, memory, before + bytes([chance.randint(2, 255)]) + blocks[k] + rest, 27)
        refuse(case, memory, stream[: chance.randrange(len(stream))], 30)
        for _ in range(2):
            found = wild(chance, stream)
            answered(case, memory, found, *second_reading(found, size))


READER = vectors, cuts, firsts, zeros, behind, counts, headers, sums, orders, reaches, largest, overlaps, transfers
WRITER = parts, rooms, ends, beyond, all_of_memory


def add(case):
    for part in READER + WRITER + (by_chance,):
        part(case)
