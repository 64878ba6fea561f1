#!/usr/bin/env python3
"""The sample load files of crates/loadmap and their maps (document 02, Req 10): a charge program as a technician has it, one written by
hand from the words of document 000's section 3.4.2, one with all that a right file may have, one with a bad checksum, one cut short, and
one empty.

    python3 model/maps.py

writes them into crates/loadmap/data, their names into crates/loadmap/args, and their maps, in this order, into crates/loadmap/stdout; the
first one and its map also into samples/.
"""
import pathlib
import struct

from loads import map_text, written_block, written_stream

ROOT = pathlib.Path(__file__).resolve().parent.parent
LOADMAP, TO_SHOW = ROOT / "crates" / "loadmap", ROOT / "samples"
LEADER = bytes(64)  # of blank tape


def charge():
    """From 512 on 24 words for a program that adds up the charges behind them, and 126 charges: 300 bytes, in blocks of 128."""
    program = [
        *(0o012706, 0o001000),  # MOV #1000,SP
        *(0o012701, 0o001060),  # MOV #CHARGE,R1
        *(0o012702, 0o000176),  # MOV #126.,R2
        0o005003,  # CLR R3
        0o005004,  # CLR R4
        0o062103,  # ADD (R1)+,R3
        0o005504,  # ADC R4
        0o005302,  # DEC R2
        0o001374,  # BNE .-6
        0o000000,  # HALT
        0o000764,  # BR .-26
    ]
    program += [0] * (24 - len(program))
    charges = [(1_250 + 175 * k) % 10_000 for k in range(126)]
    data = struct.pack("<150H", *program, *charges)
    return LEADER + written_stream(512, data, 512) + LEADER


def hand():
    """Each byte by hand: HALT from 512 on; an odd start address, so the loader halts upon completion."""
    return bytes.fromhex("01 00 0a 00 00 02 48 41 4c 54 ca  01 00 06 00 01 00 f8")


def gaps():
    """Odd starts and lengths, gaps, overlaps, more than 128 bytes, the first and the last byte of memory; zeros between, junk behind."""
    blocks = [
        written_block(0o1000, bytes(range(200))),
        written_block(0o1001, b"later bytes win"),
        written_block(0o60003, b"?"),
        written_block(0o57776, b"zeros"),
        written_block(0, b"\1\0\6\0\0\0\xf9"),  # data that looks like an end block
        written_block(0o177600, bytes(128)),
        written_block(0o177777, b"!"),
    ]
    apart = b"".join(block + bytes(k) for k, block in enumerate(blocks))
    return bytes(3) + apart + written_block(0o1002, b"") + b"JUNK\1\0\5\0" + blocks[0]


def wrong_sum():
    """The last byte of the third block's data is one more than it was."""
    right = charge()
    at = len(LEADER) + 2 * 135 + 6 + 43
    return right[:at] + bytes([(right[at] + 1) % 256]) + right[at + 1 :]


def cut():
    """The tape tore in the midst of the second block."""
    return charge()[: len(LEADER) + 135 + 70]


CHARGE_MAP = ["001000-001177   128", "001200-001377   128", "001400-001453    44"]
# each file's name, its bytes, and the lines that its map must have
SAMPLES = [
    ("charge.lda", charge(), [*CHARGE_MAP, "TRANSFER 001000"]),
    ("hand.lda", hand(), ["001000-001003     4", "TRANSFER 000001"]),
    (
        "gaps.lda",
        gaps(),
        [
            "001000-001307   200",
            "001001-001017    15",
            "060003-060003     1",
            "057776-060002     5",
            "000000-000006     7",
            "177600-177777   128",
            "177777-177777     1",
            "TRANSFER 001002",
        ],
    ),
    ("sum.lda", wrong_sum(), [*CHARGE_MAP[:2], "REFUSED 31"]),
    ("cut.lda", cut(), [*CHARGE_MAP[:1], "REFUSED 30"]),
    ("empty.lda", b"", ["REFUSED 30"]),
]


def expect_refusals():
    """The others, behind a block that is right; the memory ends at 65,536, and a transfer address may be any word."""
    right = written_block(0o177777, b"!")
    for rest, line in (
        (b"\2", "REFUSED 27"),
        (b"\1\1", "REFUSED 27"),
        (b"\1\0\5\0", "REFUSED 28"),
        (written_block(0o177777, b"!!"), "REFUSED 29"),
        (b"\1", "REFUSED 30"),
        (right[:-1] + b"\0", "REFUSED 31"),
        (written_block(0o177777, b""), "TRANSFER 177777"),
    ):
        assert map_text(bytes(2) + right + rest) == f"177777-177777     1\n{line}\n", line


def main():
    expect_refusals()
    (LOADMAP / "data").mkdir(parents=True, exist_ok=True)
    for name, file, lines in SAMPLES:
        assert len(file) < 2_048 and map_text(file).splitlines() == lines, name
        (LOADMAP / "data" / name).write_bytes(file)
    (TO_SHOW / "charge.lda").write_bytes(charge())
    (TO_SHOW / "charge.txt").write_text(map_text(charge()))
    (LOADMAP / "args").write_text("".join(name + "\n" for name, _file, _lines in SAMPLES))
    (LOADMAP / "stdout").write_text("".join(map_text(file) for _name, file, _lines in SAMPLES))


if __name__ == "__main__":
    main()
