"""Labels in block 1 as records of a case file (document 02, Req 01). What document 02 says is tested here against the model, with lines and
blocks worked out by hand. There is nothing to run here: cases.py uses it.
"""
import random

from home import Label

NAME, OWNER, MARK = b"VOLUME-00017", b"North depot.", b"DECRT11A    "
OTHER_NAME, OTHER_OWNER, BLANKS = b"Tables 7    ", b"  NIGHT CREW", b" " * 12
REST = bytes(k % 251 for k in range(512))  # what stands around a label
SEED, CHANCES = 1976, 18


def block(name=NAME, owner=OWNER, mark=MARK, rest=REST):
    """Octal 730, 744, 760 and 774 are 472, 484, 496 and 508."""
    made = rest[:472] + name + owner + mark + rest[508:]
    assert len(made) == 512
    return made


def changed(text, at, byte):
    return text[:at] + bytes([byte]) + text[at + 1 :]


def read(case, found, line):
    """What the reader says, as in the record's line; without a label it gives blanks."""
    label = case.read_label(found)
    assert case.lines[-1] == f"label {line}", case.lines[-1]
    assert label.is_labelled or label == Label(label.number, False, BLANKS, BLANKS)


def read_as(case, found, name, owner):
    read(case, found, f"0 LABEL {name.decode()} {owner.decode()}")


def write(case, found, name, owner):
    """A success: 36 bytes are new. Answers the block afterwards."""
    number, after = case.write_label(found, name, owner)
    assert (number, after) == (0, block(name, owner, rest=found))
    return after


def refuse(case, found, name, owner):
    """25, and no byte changes."""
    assert case.write_label(found, name, owner) == (25, found)


def sizes(case):
    """512 bytes alone are a block: with a label and with none. 66,048 is 65,536 + 512, and has a label at each 512."""
    for count in 0, 1, 511, 513, 1_024, 66_048:
        found = (block() * 129)[:count]
        assert len(found) == count
        read(case, found, "25")
        refuse(case, found, OTHER_NAME, OTHER_OWNER)
    for count in 511, 513:
        read(case, bytes(count), "25")
        refuse(case, bytes(count), NAME, OWNER)
    read(case, block(), "0 LABEL VOLUME-00017 North depot.")
    read(case, bytes(512), "0 UNLABELLED")


# Other twelve bytes, each nearly the mark or another system's.
NO_MARKS = [BLANKS, bytes(12), b"DECRT11A\0\0\0\0", b"decrt11a    ", b" DECRT11A   ", b"DECRT11B    ", b"DECVMSEXCHNG"]


def marks(case):
    """Each byte of the mark wrong by itself: by bit 32, which makes a small letter, and a NUL of a space, and by bit 128. A write makes it
    right."""
    for at in range(12):
        for bit in 32, 128:
            read(case, block(mark=changed(MARK, at, MARK[at] ^ bit)), "0 UNLABELLED")
        assert write(case, block(mark=changed(MARK, at, MARK[at] ^ 32)), NAME, OWNER) == block()
    for mark in NO_MARKS:
        read(case, block(mark=mark), "0 UNLABELLED")
    for moved in block()[1:] + b" ", b" " + block()[:-1]:
        read(case, moved, "0 UNLABELLED")


# Bytes at the ends of the range, and whether a label may have them.
ENDS = {0: False, 31: False, 32: True, 126: True, 127: False, 128: False, 255: False}


def end_places(byte):
    """Name and owner with this byte at the first or the last place of one of them."""
    for at in 0, 11:
        yield changed(NAME, at, byte), OWNER
        yield NAME, changed(OWNER, at, byte)


def range_ends(case):
    """A byte that no label has is refused, to be written and to be read under the mark; without the mark it does not matter."""
    for byte, is_good in ENDS.items():
        for name, owner in end_places(byte):
            unmarked = block(name, owner, BLANKS)
            read(case, unmarked, "0 UNLABELLED")
            if is_good:
                read_as(case, block(name, owner), name, owner)
                write(case, unmarked, name, owner)
            else:
                read(case, block(name, owner), "25")
                refuse(case, unmarked, name, owner)


def every_place(case):
    """A bad byte at each of the 24 places."""
    for at in range(12):
        read(case, block(name=changed(NAME, at, 127)), "25")
        read(case, block(owner=changed(OWNER, at, 31)), "25")


def around(case):
    """The bytes before and after the 36 may have any value, and keep it."""
    for at in 471, 508, 509, 510, 511:
        for byte in 0, 255:
            found = changed(block(), at, byte)
            read_as(case, found, NAME, OWNER)
            assert write(case, found, OTHER_NAME, OTHER_OWNER)[at] == byte
    for byte in 0, 127:
        found = block(rest=bytes([byte]) * 512)
        read_as(case, found, NAME, OWNER)
        write(case, found, OTHER_NAME, OTHER_OWNER)


def again(case):
    """What was written is read; the same again changes nothing; another label replaces it, blanks too; a refused one leaves it."""
    first = write(case, bytes(512), NAME, OWNER)
    read(case, first, "0 LABEL VOLUME-00017 North depot.")
    assert write(case, first, NAME, OWNER) == first
    second = write(case, first, OTHER_NAME, OTHER_OWNER)
    read(case, second, "0 LABEL Tables 7       NIGHT CREW")
    refuse(case, second, NAME, bytes(12))
    refuse(case, second, b"\xff" * 12, OWNER)
    blank = write(case, second, BLANKS, BLANKS)
    read(case, blank, "0 LABEL                          ")
    assert write(case, blank, NAME, OWNER) == first
    damaged = block(name=b"\x7f" * 12)
    refuse(case, damaged, NAME, changed(OWNER, 5, 10))
    assert write(case, damaged, NAME, OWNER) == block()


def by_chance(case):
    """Random blocks, which have no mark, and random labels; then a bad byte somewhere in the name or the owner."""
    chance = random.Random(SEED)
    for _ in range(CHANCES):
        found = chance.randbytes(512)
        name, owner = (bytes(chance.randint(32, 126) for _ in range(12)) for _ in range(2))
        read(case, found, "0 UNLABELLED")
        after = write(case, found, name, owner)
        read_as(case, after, name, owner)
        at, bad = chance.randrange(24), chance.choice([*range(32), *range(127, 256)])
        texts = changed(name + owner, at, bad)
        read(case, changed(after, 472 + at, bad), "25")
        refuse(case, after, texts[:12], texts[12:])


def add(case):
    for part in sizes, marks, range_ends, every_place, around, again, by_chance:
        part(case)
