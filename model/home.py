"""Block 1 of a volume, the home block: its label read and written, in plain Python, from the text of document 02's Req 01 alone. A block is
bytes, any number of them. There is nothing to run here: rt11.py lists head files by these rules, casefile.py makes records.
"""
from typing import NamedTuple

BLOCK_BYTES = 512
NAME, OWNER, MARK = (slice(at, at + 12) for at in (0o730, 0o744, 0o760))
SYSTEM_MARK = b"DECRT11A" + b" " * 4
BLANKS = b" " * 12


class Label(NamedTuple):
    """What the reader answers. Name and owner are blanks where it is a refusal, or the block is unlabelled."""

    number: int
    is_labelled: bool = False
    name: bytes = BLANKS
    owner: bytes = BLANKS


def are_label_bytes(text):
    return all(32 <= byte <= 126 for byte in text)


def read_label(block):
    """Without the mark no byte of the block matters."""
    if len(block) != BLOCK_BYTES:
        return Label(25)
    if block[MARK] != SYSTEM_MARK:
        return Label(0)
    if not are_label_bytes(block[NAME] + block[OWNER]):
        return Label(25)
    return Label(0, True, block[NAME], block[OWNER])


def write_label(block, name, owner):
    """The number, and the block afterwards: 36 of its bytes are new, or none."""
    assert len(name) == len(owner) == 12
    if len(block) != BLOCK_BYTES or not are_label_bytes(name + owner):
        return 25, block
    after = bytearray(block)
    after[NAME], after[OWNER], after[MARK] = name, owner, SYSTEM_MARK
    return 0, bytes(after)


def shown_label(label):
    """As a line of a listing; name and owner keep their padding."""
    return f"LABEL {label.name.decode()} {label.owner.decode()}" if label.is_labelled else "UNLABELLED"
