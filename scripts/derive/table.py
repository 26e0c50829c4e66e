"""The instruction table of RV64I and of M: words, fields, steps."""

from collections import namedtuple

Instr = namedtuple("Instr", "op rd rs1 rs2 imm")
M64 = 2**64 - 1

# Format, opcode, funct3, funct7 of each op.
ROWS = {"lui": ("U", 0x37), "auipc": ("U", 0x17), "jal": ("J", 0x6F), "jalr": ("I", 0x67, 0)}
ROWS |= {n: ("B", 0x63, f) for n, f in zip("beq bne blt bge bltu bgeu".split(), (0, 1, 4, 5, 6, 7))}
ROWS |= {n: ("I", 0x03, f) for f, n in enumerate("lb lh lw ld lbu lhu lwu".split())}
ROWS |= {n: ("S", 0x23, f) for f, n in enumerate("sb sh sw sd".split())}
ROWS |= {n: ("I", 0x13, f) for n, f in zip("addi slti sltiu xori ori andi".split(), (0, 2, 3, 4, 6, 7))}
ROWS |= {"slli": ("H", 0x13, 1, 0), "srli": ("H", 0x13, 5, 0), "srai": ("H", 0x13, 5, 0x20)}
ROWS |= {n: ("R", 0x33, f, 0) for f, n in enumerate("add sll slt sltu xor srl or and".split())}
ROWS |= {"sub": ("R", 0x33, 0, 0x20), "sra": ("R", 0x33, 5, 0x20), "addiw": ("I", 0x1B, 0)}
ROWS |= {"slliw": ("W", 0x1B, 1, 0), "srliw": ("W", 0x1B, 5, 0), "sraiw": ("W", 0x1B, 5, 0x20)}
ROWS |= {"addw": ("R", 0x3B, 0, 0), "sllw": ("R", 0x3B, 1, 0), "srlw": ("R", 0x3B, 5, 0)}
ROWS |= {"subw": ("R", 0x3B, 0, 0x20), "sraw": ("R", 0x3B, 5, 0x20)}
ROWS |= {"fence": ("F", 0x0F, 0), "ecall": ("E", 0x73), "ebreak": ("E", 0x73)}

ROWS |= {n: ("R", 0x33, f, 1) for f, n in enumerate("mul mulh mulhsu mulhu div divu rem remu".split())}
PRODUCTS_32 = {"mulw": 0, "divw": 4, "divuw": 5, "remw": 6, "remuw": 7}
ROWS |= {n: ("R", 0x3B, f, 1) for n, f in PRODUCTS_32.items()}
PRODUCTS = tuple(n for n, row in ROWS.items() if row[3:] == (1,))

BRANCHES = ("beq", "bne", "blt", "bge", "bltu", "bgeu")
LOADS = {"lb": 1, "lh": 2, "lw": 4, "ld": 8, "lbu": 1, "lhu": 2, "lwu": 4}
STORES = {"sb": 1, "sh": 2, "sw": 4, "sd": 8}


def sign(value, bits):
    """A value of so many bits, read in two's complement."""
    value &= 2**bits - 1
    return value - 2**bits if value >> (bits - 1) else value


def encode(i):
    """The word of an instruction."""
    row = ROWS[i.op]
    form, code = row[0], row[1]
    base = code | i.rd << 7 | i.rs1 << 15 | i.rs2 << 20 | (row[2] if len(row) > 2 else 0) << 12
    m = i.imm & 0xFFFFFFFF
    if form == "U":
        return base | (i.imm << 12)
    if form == "I":
        return base | (m & 0xFFF) << 20
    if form in ("H", "W"):
        return base | i.imm << 20 | row[3] << 25
    if form == "R":
        return base | row[3] << 25
    if form == "S":
        return base | (m & 31) << 7 | (m >> 5 & 127) << 25
    if form == "B":
        return base | (m >> 11 & 1) << 7 | (m >> 1 & 15) << 8 | (m >> 5 & 63) << 25 | (m >> 12 & 1) << 31
    if form == "J":
        return base | (m & 0xFF000) | (m >> 11 & 1) << 20 | (m >> 1 & 1023) << 21 | (m >> 20 & 1) << 31
    if form == "F":
        return base | i.imm << 20
    return base | (0x00100000 if i.op == "ebreak" else 0)


def immediate(form, w):
    """The immediate of a word of a format."""
    if form == "U":
        return w >> 12
    if form == "I":
        return sign(w >> 20, 12)
    if form == "H":
        return w >> 20 & 63
    if form == "W":
        return w >> 20 & 31
    if form == "S":
        return sign(w >> 25 << 5 | w >> 7 & 31, 12)
    if form == "B":
        return sign(w >> 31 << 12 | (w >> 7 & 1) << 11 | (w >> 25 & 63) << 5 | (w >> 8 & 15) << 1, 13)
    if form == "J":
        return sign(w >> 31 << 20 | w & 0xFF000 | (w >> 20 & 1) << 11 | (w >> 21 & 1023) << 1, 21)
    return w >> 20 & 255 if form == "F" else 0


# Which of rd, rs1 and rs2 a format has.
FIELDS = {"U": "d", "J": "d", "I": "d1", "H": "d1", "W": "d1", "R": "d12", "S": "12", "B": "12", "F": "", "E": ""}


def decode(word):
    """The instruction of a word, None where no row has it."""
    for op, row in ROWS.items():
        if row[1] != word & 127:
            continue
        form = row[0]
        has = FIELDS[form]
        i = Instr(
            op,
            word >> 7 & 31 if "d" in has else 0,
            word >> 15 & 31 if "1" in has else 0,
            word >> 20 & 31 if "2" in has else 0,
            immediate(form, word),
        )
        if encode(i) == word:
            return i
    return None


def sources(i):
    """The source registers of an instruction."""
    has = FIELDS[ROWS[i.op][0]]
    return ([i.rs1] if "1" in has else []) + ([i.rs2] if "2" in has else [])


def has_rd(i):
    """Whether an instruction has a register for its result."""
    return "d" in FIELDS[ROWS[i.op][0]]


def word32(value):
    """A result on 32 bits, sign-extended."""
    return sign(value, 32) & M64


def shift_right(value, bits, amount):
    """A value of so many bits with a sign, shifted right."""
    return sign(value, bits) >> amount


def quotient(a, b):
    """Rounded towards 0; -1 where b is 0."""
    if b == 0:
        return -1
    return -(-a // b) if (a < 0) != (b < 0) else a // b


def remainder(a, b):
    """What is left, with the sign of a; a where b is 0."""
    return a if b == 0 else a - b * quotient(a, b)


def by_sign(function, bits, with_sign):
    """A function of two values of so many bits, with or without a sign; its result is sign-extended from them."""

    def value(a, b):
        read = [sign(v, bits) if with_sign else v % 2**bits for v in (a, b)]
        return sign(function(*read), bits)

    return value


VALUES = {
    "add": lambda a, b: a + b,
    "sub": lambda a, b: a - b,
    "sll": lambda a, b: a << (b & 63),
    "slt": lambda a, b: int(sign(a, 64) < sign(b, 64)),
    "sltu": lambda a, b: int(a < b & M64),
    "xor": lambda a, b: a ^ b,
    "srl": lambda a, b: a >> (b & 63),
    "sra": lambda a, b: shift_right(a, 64, b & 63),
    "or": lambda a, b: a | b,
    "and": lambda a, b: a & b,
    "addw": lambda a, b: word32(a + b),
    "subw": lambda a, b: word32(a - b),
    "sllw": lambda a, b: word32(a << (b & 31)),
    "srlw": lambda a, b: word32((a & 0xFFFFFFFF) >> (b & 31)),
    "sraw": lambda a, b: shift_right(a, 32, b & 31),
}
VALUES |= {
    "mul": lambda a, b: a * b,
    "mulh": lambda a, b: sign(a, 64) * sign(b, 64) >> 64,
    "mulhsu": lambda a, b: sign(a, 64) * b >> 64,
    "mulhu": lambda a, b: a * b >> 64,
    "mulw": lambda a, b: word32(a * b),
}
for suffix, size in (("", 64), ("w", 32)):
    VALUES["div" + suffix] = by_sign(quotient, size, True)
    VALUES["divu" + suffix] = by_sign(quotient, size, False)
    VALUES["rem" + suffix] = by_sign(remainder, size, True)
    VALUES["remu" + suffix] = by_sign(remainder, size, False)
# The op over registers that does the same with the immediate in place of b.
BY_NUMBER = {"addi": "add", "slti": "slt", "sltiu": "sltu", "xori": "xor", "ori": "or", "andi": "and"}
BY_NUMBER |= {"slli": "sll", "srli": "srl", "srai": "sra"}
BY_NUMBER |= {"addiw": "addw", "slliw": "sllw", "srliw": "srlw", "sraiw": "sraw"}

DECISIONS = {
    "beq": lambda a, b: a == b,
    "bne": lambda a, b: a != b,
    "blt": lambda a, b: sign(a, 64) < sign(b, 64),
    "bge": lambda a, b: sign(a, 64) >= sign(b, 64),
    "bltu": lambda a, b: a < b,
    "bgeu": lambda a, b: a >= b,
}


def step(i, pc, x, read):
    """One step: the program counter behind it and its access; x, the registers, is changed.

    An access is None, or ("reads" or "writes", width, address, value). `read` gives what a load finds."""
    op, a, b = i.op, x[i.rs1], x[i.rs2]
    to, value, access = pc + 4, None, None
    if op in VALUES:
        value = VALUES[op](a, b)
    elif op in BY_NUMBER:
        value = VALUES[BY_NUMBER[op]](a, i.imm & M64)
    elif op in LOADS:
        width, addr = LOADS[op], (a + i.imm) & M64
        got = read(addr, width)
        access = ("reads", width, addr, got)
        value = got if op.endswith("u") else sign(got, 8 * width)
    elif op in STORES:
        width = STORES[op]
        access = ("writes", width, (a + i.imm) & M64, b % 256**width)
    elif op in DECISIONS:
        if DECISIONS[op](a, b):
            to = pc + i.imm
    elif op in ("lui", "auipc"):
        value = sign(i.imm << 12, 32) + (pc if op == "auipc" else 0)
    elif op in ("jal", "jalr"):
        value = pc + 4
        to = pc + i.imm if op == "jal" else (a + i.imm) & ~1
    if value is not None and i.rd:
        x[i.rd] = value & M64
    return to & M64, access
