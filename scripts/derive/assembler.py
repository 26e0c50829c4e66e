"""Lines of assembler text, read and printed."""

from .faults import Fault
from .numbers import number_or_none
from .table import BRANCHES, LOADS, ROWS, STORES, Instr

SETS = {"".join(c for c, v in zip("iorw", (8, 4, 2, 1)) if n & v) or "0": n for n in range(16)}
WORD12 = (-2048, 2047, False)


def pieces(op):
    """The operands and marks of an op, in order: a register's field, a range of numbers, a set, or a mark."""
    if op in ("lui", "auipc"):
        return ["rd", ",", (0, 1048575, False)]
    if op == "jal":
        return ["rd", ",", (-1048576, 1048574, True)]
    if op == "jalr" or op in LOADS:
        return ["rd", ",", WORD12, "(", "rs1", ")"]
    if op in STORES:
        return ["rs2", ",", WORD12, "(", "rs1", ")"]
    if op in BRANCHES:
        return ["rs1", ",", "rs2", ",", (-4096, 4094, True)]
    if op == "fence":
        return ["before", ",", "after"]
    if op in ("ecall", "ebreak"):
        return []
    form = ROWS[op][0]
    last = {"R": "rs2", "H": (0, 63, False), "W": (0, 31, False), "I": WORD12}[form]
    return ["rd", ",", "rs1", ",", last]


REGISTERS = {f"x{n}".encode(): n for n in range(32)}


def signed_of(text):
    if text[:1] in (b"-", b"+"):
        value = number_or_none(text[1:])
        return value if value is None or text[:1] == b"+" else -value
    return number_or_none(text)


class Reader:
    """A line and a place in it."""

    def __init__(self, text):
        self.text = text
        self.at = 0
        self.fields = {"rd": 0, "rs1": 0, "rs2": 0, "imm": 0}

    def skip_blanks(self):
        while self.at < len(self.text) and self.text[self.at] in b" \t":
            self.at += 1

    def upto(self, ends):
        start = self.at
        while self.at < len(self.text) and self.text[self.at] not in ends:
            self.at += 1
        return start, self.text[start : self.at]

    def missing(self, at):
        return Fault("BadShape", place=at if at < len(self.text) else len(self.text.rstrip(b" \t")))

    def take(self, piece):
        self.skip_blanks()
        if isinstance(piece, str) and len(piece) == 1:
            if self.text[self.at : self.at + 1] != piece.encode():
                raise self.missing(self.at)
            self.at += 1
            return
        at, word = self.upto(b" \t,()")
        if not word:
            raise self.missing(at)
        self.put(piece, at, word)

    def put(self, piece, at, word):
        if piece in ("rd", "rs1", "rs2"):
            value = REGISTERS.get(word)
            if value is None:
                raise Fault("BadRegister", place=at)
            self.fields[piece] = value
        elif piece in ("before", "after"):
            value = SETS.get(word.decode("latin1"))
            if value is None:
                raise Fault("BadNumber", place=at)
            self.fields["imm"] += value * (16 if piece == "before" else 1)
        else:
            value = signed_of(word)
            if value is None:
                raise Fault("BadNumber", place=at)
            first, last, even = piece
            if not first <= value <= last or (even and value % 2):
                raise Fault("OutOfRange", value=value)
            self.fields["imm"] = value


def parse_line(text):
    """The instruction that a line spells, or its first fault."""
    reader = Reader(text)
    reader.skip_blanks()
    name = reader.upto(b" \t")[1].decode("latin1")
    if name not in ROWS:
        raise Fault("UnknownName")
    for piece in pieces(name):
        reader.take(piece)
    reader.skip_blanks()
    if reader.at < len(text):
        raise reader.missing(reader.at)
    return Instr(name, **reader.fields)


def print_line(i):
    """The printed form of an instruction."""
    names = {n: s for s, n in SETS.items()}
    text = ""
    for piece in pieces(i.op):
        if piece in ("rd", "rs1", "rs2"):
            text += f"x{getattr(i, piece)}"
        elif piece in ("before", "after"):
            text += names[i.imm // 16 if piece == "before" else i.imm % 16]
        elif isinstance(piece, tuple):
            text += str(i.imm)
        else:
            text += ", " if piece == "," else piece
    return f"{i.op} {text}" if text else i.op
