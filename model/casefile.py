"""Writes case files (docs/CASES.md) and the lines that a right program writes for them, by the rules of rt11.py, squeezing.py, repairing.py,
home.py and loads.py. There is nothing to run here: cases.py and what it uses do.
"""
import struct

import home
import loads
import repairing
import rt11
import squeezing

END, LOAD, FRESH, REQUEST, SQUEEZE, ACCEPT, REPAIR, READ_LABEL, WRITE_LABEL, READ_LOAD, READ_PIECES, WRITE_LOAD = range(12)
BATCH, CHANGE = 100, 101  # our own
ROOM_BYTE = 170  # in all of the output's room before a load file is written into it


def two_words(number):
    """A number of 32 bits, low word first, in two's complement."""
    return number & 65_535, number >> 16 & 65_535


def byte_words(text):
    """Bytes two to a word, the first in the low byte; an odd last one is followed by a byte 0."""
    even = text + b"\0" * (len(text) % 2)
    return struct.unpack(f"<{len(even) // 2}H", even)


def counted(text):
    return [*two_words(len(text)), *byte_words(text)]


def memory_words(n, fill, step):
    """A memory as a case file gives it."""
    return [(fill + i * step) % 65_536 for i in range(n)]


def request_words(request):
    r = request
    return [r.op, *r.name, *r.new_name, r.job, r.channel, *two_words(r.size), *two_words(r.final_length), r.date]


class CaseFile:
    """The records so far, their lines, and the present directory. Each method adds a record, and answers what the model does. After a repair of
    an unsound directory the words are None until the next load, as what a program has made of them is free."""

    def __init__(self):
        self.records, self.lines = [], []
        self.words, self.v = [], 0

    def load(self, words, v):
        self.records += [LOAD, *two_words(v), len(words), *words]
        self.words, self.v = list(words), v
        return self.fault()

    def change(self, *pairs):
        """Some words changed, each pair a place and a word."""
        self.records += [CHANGE, len(pairs), *(number for pair in pairs for number in pair)]
        self.words = rt11.written(self.words, pairs)
        return self.fault()

    def fault(self):
        number = rt11.fault(self.words, self.v)
        self.lines.append(f"fault {number}")
        return number

    def fresh(self, extra_words):
        self.records += [FRESH, extra_words]
        answer, self.words = rt11.fresh(self.words, self.v, extra_words)
        return self.answered(answer)

    def serve(self, request):
        self.records += [REQUEST, *request_words(request)]
        answer, self.words = rt11.serve(self.words, self.v, request)
        return self.answered(answer)

    def answered(self, answer):
        self.lines.append(f"{rt11.numbers_of(answer)} {rt11.check(self.words)}")
        return answer

    def batch(self, requests, room):
        self.records += [BATCH, room, len(requests), *(word for request in requests for word in request_words(request))]
        number, answers, self.words = rt11.batch(self.words, self.v, requests, room)
        self.lines += [f"batch {number} {rt11.check(self.words)}", *map(rt11.numbers_of, answers)]
        return number, answers

    def squeeze(self, room):
        """Answers the number and the moves."""
        self.records += [SQUEEZE, room]
        number, moves, self.words = squeezing.squeeze(self.words, self.v, room)
        self.lines.append(f"squeeze {number} {len(moves)} {rt11.check(self.words)}")
        self.lines += [f"move {rt11.numbers_of(move)}" for move in moves]
        return number, moves

    def accept(self, proposal):
        self.records += [ACCEPT, len(proposal), *proposal]
        number = repairing.accept(self.words, self.v, proposal)
        self.lines.append(f"accept {number}")
        return number

    def repair(self):
        """Answers the number, and the words that the model's tool gives."""
        self.records.append(REPAIR)
        before = self.words
        number, self.words = repairing.repair(before, self.v)
        after = self.words
        self.lines.append(f"repair {number}")
        if number == 0:
            self.lines.append(f"accept {repairing.accept(before, self.v, after)}")
            self.fault()
        if after != before:
            self.words = None
        return number, after

    def read_label(self, block):
        self.records += [READ_LABEL, *counted(block)]
        label = home.read_label(block)
        self.lines.append(f"label {label.number}" if label.number else f"label 0 {home.shown_label(label)}")
        return label

    def write_label(self, block, name, owner):
        """Answers the number, and the block afterwards."""
        self.records += [WRITE_LABEL, *counted(block), *byte_words(name), *byte_words(owner)]
        number, after = home.write_label(block, name, owner)
        self.lines.append(f"mark {number} {rt11.check(after)}")
        return number, after

    def read_load(self, memory, stream):
        """The memory is n, fill and step. Answers the number, the transfer address, and the memory's words afterwards."""
        self.records += [READ_LOAD, *memory, *counted(stream)]
        number, address, after = loads.read_load(memory_words(*memory), stream)
        self.lines.append(f"load {number} {address} {rt11.check(after)}")
        return number, address, after

    def read_pieces(self, memory, stream, lengths, ended):
        """The lengths are those of the pieces, in order. Answers as loads.read_pieces does: five numbers, and the memory's words."""
        assert sum(lengths) == len(stream), "the pieces are not the stream"
        pieces = [word for length in lengths for word in two_words(length)]
        self.records += [READ_PIECES, *memory, *counted(stream), len(lengths), *pieces, ended]
        *numbers, after = loads.read_pieces(memory_words(*memory), stream, ended)
        self.lines.append(" ".join(["pieces", *map(str, numbers), str(rt11.check(after))]))
        return *numbers, after

    def write_load(self, memory, first, count, address, room):
        """Answers the number, the count of bytes made, and all bytes of the output's room afterwards."""
        self.records += [WRITE_LOAD, *memory, *two_words(first), *two_words(count), address, *two_words(room)]
        number, made, after = loads.write_load(memory_words(*memory), first, count, address, bytes([ROOM_BYTE]) * room)
        self.lines.append(f"save {number} {made} {rt11.check(after)}")
        return number, made, after

    def end(self):
        self.records.append(END)

    def record_bytes(self):
        return struct.pack(f"<{len(self.records)}H", *self.records)

    def line_bytes(self):
        return "".join(line + "\n" for line in self.lines).encode()


# -- A case file that is there already --


class UnknownType(Exception):
    """A record that the model has no rule for."""


class Reader:
    """The words of a case file, taken from the front."""

    def __init__(self, file):
        self.words, self.at = struct.unpack(f"<{len(file) // 2}H", file), 0

    def word(self):
        return self.take(1)[0]

    def take(self, count):
        self.at += count
        assert self.at <= len(self.words), "the file ends in the midst of a record"
        return self.words[self.at - count : self.at]

    def long(self):
        low, high = self.take(2)
        return low + 65_536 * high

    def signed(self):
        number = self.long()
        return number - 2**32 if number >= 2**31 else number

    def bytes(self, count):
        words = self.take((count + 1) // 2)
        return struct.pack(f"<{len(words)}H", *words)[:count]

    def block(self):
        return self.bytes(self.long())

    def request(self):
        op, name, new_name = self.word(), self.take(3), self.take(3)
        job, channel = self.take(2)
        size, final_length = self.signed(), self.signed()
        return rt11.Request(op, name, new_name, job, channel, size, final_length, self.word())


def run_record(case, kind, reader):
    if kind == LOAD:
        v, count = reader.long(), reader.word()
        case.load(reader.take(count), v)
    elif kind == FRESH:
        case.fresh(reader.word())
    elif kind == REQUEST:
        case.serve(reader.request())
    elif kind == SQUEEZE:
        case.squeeze(reader.word())
    elif kind == ACCEPT:
        case.accept(reader.take(reader.word()))
    elif kind == REPAIR:
        case.repair()
    elif kind == READ_LABEL:
        case.read_label(reader.block())
    elif kind == WRITE_LABEL:
        case.write_label(reader.block(), reader.bytes(12), reader.bytes(12))
    elif kind == READ_LOAD:
        case.read_load(reader.take(3), reader.block())
    elif kind == READ_PIECES:
        case.read_pieces(reader.take(3), reader.block(), [reader.long() for _ in range(reader.word())], reader.word())
    elif kind == WRITE_LOAD:
        case.write_load(reader.take(3), reader.long(), reader.long(), reader.word(), reader.long())
    elif kind == BATCH:
        room, count = reader.take(2)
        case.batch([reader.request() for _ in range(count)], room)
    elif kind == CHANGE:
        case.change(*(reader.take(2) for _ in range(reader.word())))
    else:
        raise UnknownType(f"the model knows no record type {kind}")


def run(file):
    """The same case file, made by the model from its bytes, with the lines that the model gives."""
    case, reader = CaseFile(), Reader(file)
    while (kind := reader.word()) != END:
        run_record(case, kind, reader)
    case.end()
    return case
