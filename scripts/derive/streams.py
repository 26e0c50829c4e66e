"""The streams that a seed draws for a test."""

from collections import namedtuple

from . import memory_map as places
from .placement import choice, draw, hot_line, part_size
from .table import LOADS, STORES, BRANCHES, Instr, encode

# For each case its name, the words and the first registers of each hart, and the 768 first dwords.
Cases = namedtuple("Cases", "name harts line passes shape cases")
Case = namedtuple("Case", "name words registers dwords")

ALU = [("lui", "upper"), ("auipc", "upper")]
ALU += [(op, "number") for op in "addi slti sltiu xori ori andi".split()]
ALU += [(op, "long") for op in "slli srli srai".split()]
ALU += [(op, "registers") for op in "add sub sll slt sltu xor srl sra or and".split()]
ALU += [("addiw", "number")] + [(op, "short") for op in "slliw srliw sraiw".split()]
ALU += [(op, "registers") for op in "addw subw sllw srlw sraw".split()]
LOAD_OPS = list(LOADS)
STORE_OPS = list(STORES)


class Draws:
    """The 16 words that a seed draws for a slot."""

    def __init__(self, seed, c, h, i):
        self.words = [draw(seed, c, h, i, d) for d in range(16)]

    def pick(self, d, n):
        return choice(self.words[d], n)


class Seat:
    """What the slots of a hart in a case are drawn over."""

    def __init__(self, test, seed, c, h):
        self.shape = test.shape
        self.bias = test.bias
        self.hart = h
        self.part = part_size(test.shape.line, test.shape.harts)
        self.declared = [w for w in test.shape.windows if w]
        self.hot = {w.number: hot_line(seed, c, w.number, w.lines) for w in self.declared}

    def one_of(self, hot, n, draws):
        return hot if draws.pick(4, 100) < self.bias else draws.pick(5, n)

    def line_of(self, window, draws):
        hot = self.hot[window.number]
        if window.kind != "own":
            return self.one_of(hot, window.lines, draws)
        harts = self.shape.harts
        m = len(range(self.hart, window.lines, harts))
        return self.hart + harts * self.one_of(hot % m, m, draws)

    def window_of(self, draws):
        return self.declared[draws.pick(1, len(self.declared))]

    def load(self, draws):
        window = self.window_of(draws)
        op = LOAD_OPS[draws.pick(2, 7)]
        width = LOADS[op]
        line = self.shape.line
        imm = self.line_of(window, draws) * line + width * draws.pick(6, line // width)
        return Instr(op, 1 + draws.pick(3, 27), 28 + window.number, 0, imm)

    def store(self, draws):
        window = self.window_of(draws)
        op = STORE_OPS[draws.pick(2, 4)]
        line = self.shape.line
        if window.kind == "false":
            width = min(STORES[op], self.part)
            byte = self.hart * self.part + width * draws.pick(6, self.part // width)
        else:
            width = STORES[op]
            byte = width * draws.pick(6, line // width)
        op = next(name for name, w in STORES.items() if w == width)
        imm = self.line_of(window, draws) * line + byte
        return Instr(op, 0, 28 + window.number, draws.pick(3, 28), imm)


def alu(draws):
    op, form = ALU[draws.pick(1, 30)]
    rd = 1 + draws.pick(2, 27)
    if form == "upper":
        return Instr(op, rd, 0, 0, draws.pick(4, 1048576))
    rs1 = draws.pick(3, 28)
    if form == "registers":
        return Instr(op, rd, rs1, draws.pick(4, 28), 0)
    if form == "number":
        return Instr(op, rd, rs1, 0, draws.pick(4, 4096) - 2048)
    return Instr(op, rd, rs1, 0, draws.pick(4, 64 if form == "long" else 32))


def branch(left, draws):
    op = BRANCHES[draws.pick(1, 6)]
    return Instr(op, 0, draws.pick(2, 28), draws.pick(3, 28), 4 * (1 + draws.pick(4, min(8, left))))


def drawn_slot(seat, n, i, weights, draws):
    t = draws.pick(0, sum(weights))
    if t < weights[0]:
        return alu(draws)
    if t < weights[0] + weights[1]:
        return seat.load(draws)
    if t < weights[0] + weights[1] + weights[2]:
        return seat.store(draws)
    return branch(n - i, draws)


def first_value(seed, c, h, r):
    """The first value of register r."""
    if r == 0:
        return 0
    if r > 27:
        return places.window(r - 28) if r < 31 else places.private(h)
    draws = Draws(seed, c, h, 256 + r)
    v = draws.words[0] + (draws.words[1] << 32)
    return {0: 0, 1: 2**64 - 1, 2: 2**63, 3: v % 256}.get(draws.pick(2, 8), v)


def stream(test, seed, c, h, slots):
    seat = Seat(test, seed, c, h)
    words = []
    for i, slot in enumerate(slots):
        if not isinstance(slot, Instr):
            slot = drawn_slot(seat, len(slots), i, slot, Draws(seed, c, h, i))
        words.append(encode(slot))
    return words


def streams(test, seed):
    """The cases that a seed draws for a test."""
    cases = []
    harts = range(test.shape.harts)
    for c, (name, bodies) in enumerate(test.cases):
        words = [stream(test, seed, c, h, bodies[h]) for h in harts]
        registers = [[first_value(seed, c, h, r) for r in range(32)] for h in harts]
        dwords = [draw(seed, c, 63, q, 0) + (draw(seed, c, 63, q, 1) << 32) for q in range(768)]
        cases.append(Case(name, words, registers, dwords))
    return Cases(test.name, test.shape.harts, test.shape.line, test.passes, test.shape, cases)
