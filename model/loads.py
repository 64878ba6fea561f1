"""Absolute load files (.LDA), read at once and in pieces, written, and shown as a map, in plain Python, from the text of document 02's
Reqs 10 and 11 alone. A stream is bytes, any number of them; a memory is 16-bit words, any number of them, low byte first. There is nothing
to run here: casefile.py makes records by these rules, maps.py the sample files and their maps.
"""
import struct
from typing import NamedTuple

COUNT, ADDRESS = 2, 4  # where they stand in a block's header
HEADER_BYTES, CHECKSUM_BYTES = 6, 1
END_COUNT = HEADER_BYTES  # a header without data
WRITTEN_BYTES = 128  # of data in a block that the writer makes
ADDRESSED_BYTES = 65_536  # no address reaches further
PROVISIONAL, ACCEPTED, REFUSED = 0, 1, 2  # where a reader stands that takes pieces


class Block(NamedTuple):
    """A right block, or the refusal of what stands in its place: then the data is what came of it before the fault, and the offset that of
    the byte that showed the fault. The end block has no data, and its address is the transfer address."""

    number: int
    address: int = 0
    data: bytes = b""
    offset: int = 0


def word_at(text, at):
    return text[at] + 256 * text[at + 1]


def low_high(word):
    return bytes([word % 256, word // 256])


# -- Memory --


def size_of(words):
    """In bytes, as far as a load file can reach."""
    return min(2 * len(words), ADDRESSED_BYTES)


def bytes_of(words):
    return struct.pack(f"<{len(words)}H", *words)


def words_of(text):
    return list(struct.unpack(f"<{len(text) // 2}H", text))


def filled(words, blocks):
    """In the stream's order, so a later block overwrites an earlier one."""
    text = bytearray(bytes_of(words))
    for block in blocks:
        text[block.address : block.address + len(block.data)] = block.data
    return words_of(bytes(text))


# -- Reading --


def after_zeros(stream, at):
    """Zero bytes may lead, and stand between blocks."""
    while at < len(stream) and stream[at] == 0:
        at += 1
    return at


def is_outside(count, address, size):
    """Data that the memory has no place for. Sums are exact: nothing comes in again at 0. A transfer address may be any word."""
    return count != END_COUNT and address + count - HEADER_BYTES > size


def header_refusal(header, size):
    """Of the next six bytes of the stream, or as many as there are. Each refusal needs the bytes up to its own, and none behind them."""
    if header[:1] not in (b"", b"\1") or header[1:2] not in (b"", b"\0"):
        return 27
    if len(header) >= ADDRESS and word_at(header, COUNT) < HEADER_BYTES:
        return 28
    if len(header) < HEADER_BYTES:
        return 30
    return 29 if is_outside(word_at(header, COUNT), word_at(header, ADDRESS), size) else 0


def rest_refusal(stream, at, behind):
    """Of a block with a good header: the checksum makes the sum of all its bytes 0."""
    if len(stream) < behind:
        return 30
    return 31 if sum(stream[at:behind]) % 256 else 0


def shown_at(number, stream, at):
    """The offset of the byte that shows this refusal of the block that begins here. What is missing shows at the stream's end."""
    if number == 27:
        return at if stream[at] != 1 else at + 1
    if number == 28:
        return at + ADDRESS - 1
    if number == 29:
        return at + HEADER_BYTES - 1
    if number == 31:
        return at + word_at(stream, at + COUNT)
    return len(stream)


def next_block(stream, at, size):
    """The block that begins here, or its refusal, and the place behind it. The count covers header and data, not the checksum. A slice ends
    where the stream does, so the data of a block that is cut off is what there is of it."""
    header = stream[at : at + HEADER_BYTES]
    number = header_refusal(header, size)
    if number:
        return Block(number, offset=shown_at(number, stream, at)), at
    count = word_at(header, COUNT)
    address, data, behind = word_at(header, ADDRESS), stream[at + HEADER_BYTES : at + count], at + count + CHECKSUM_BYTES
    number = rest_refusal(stream, at, behind)
    if number:
        return Block(number, address, data, shown_at(number, stream, at)), at
    return Block(0, address, data), behind


def blocks_of(stream, size):
    """All blocks up to the end block, or to the first refusal, which is the last of them then."""
    at, found = 0, []
    while True:
        block, at = next_block(stream, after_zeros(stream, at), size)
        found.append(block)
        if block.number or not block.data:
            return found


def read_load(words, stream):
    """The number, the transfer address, and the memory afterwards, which a refusal leaves as it was."""
    *blocks, last = blocks_of(stream, size_of(words))
    if last.number:
        return last.number, 0, list(words)
    return 0, last.address, filled(words, blocks)


# -- Reading in pieces --


def read_pieces(words, stream, ended):
    """The state, the number, the transfer address, how many data bytes were stored, the offset, and the memory, which holds all stores so
    far. The stream is all pieces together: how it was cut makes no difference. Where it stops too early, more may come until the caller
    says that it has ended. Every other answer stays whatever follows: it comes from the bytes up to the end block or the fault alone."""
    blocks = blocks_of(stream, size_of(words))
    last, after = blocks[-1], filled(words, blocks)
    if last.number == 0:
        return ACCEPTED, 0, last.address, 0, 0, after
    if last.number == 30 and not ended:
        return PROVISIONAL, 0, 0, 0, 0, after
    return REFUSED, last.number, 0, stored_bytes(blocks), last.offset, after


def stored_bytes(blocks):
    """Each store counts, also one that overwrites another."""
    return sum(len(block.data) for block in blocks)


# -- Writing --


def written_block(address, data):
    summed = b"\1\0" + low_high(HEADER_BYTES + len(data)) + low_high(address) + data
    return summed + bytes([-sum(summed) % 256])


def written_stream(first, data, address):
    """Nothing stands between the blocks, and none but the last is empty."""
    starts = range(0, len(data), WRITTEN_BYTES)
    blocks = [written_block(first + at, data[at : at + WRITTEN_BYTES]) for at in starts]
    return b"".join(blocks) + written_block(address, b"")


def write_load(words, first, count, address, output):
    """The number, the count of bytes made, and the output afterwards: its bytes behind them stay, after a refusal all of them."""
    if first + count > size_of(words):
        return 29, 0, output
    stream = written_stream(first, bytes_of(words)[first : first + count], address)
    if len(stream) > len(output):
        return 24, 0, output
    return 0, len(stream), stream + output[len(stream) :]


# -- The map --


def shown_data(block):
    """The addresses of its first and last byte in octal, and the count of its bytes."""
    return f"{block.address:06o}-{block.address + len(block.data) - 1:06o}{len(block.data):6}"


def shown_last(block):
    return f"REFUSED {block.number}" if block.number else f"TRANSFER {block.address:06o}"


def map_text(stream):
    """What a load file fills of a full memory, block by block, up to its end or its first fault."""
    *blocks, last = blocks_of(stream, ADDRESSED_BYTES)
    return "".join(line + "\n" for line in [*map(shown_data, blocks), shown_last(last)])
