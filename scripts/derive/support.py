"""The words of the support code: docs/formats.md, "Support code: its words"."""

from . import memory_map as places
from .bounds import first_line, own_lines
from .table import Instr, encode


def number(op, rd, rs1, imm):
    return Instr(op, rd, rs1, 0, imm)


def addi(rd, rs1, imm):
    return number("addi", rd, rs1, imm)


def slli(rd, rs1, imm):
    return number("slli", rd, rs1, imm)


def over(op, rd, rs1, rs2):
    return Instr(op, rd, rs1, rs2, 0)


def ld(rd, imm, base):
    return Instr("ld", rd, base, 0, imm)


def sd(source, imm, base):
    return Instr("sd", 0, base, source, imm)


def branch(op, rs1, rs2, words):
    """A branch by so many words."""
    return Instr(op, 0, rs1, rs2, 4 * words)


def jump(words, rd=0):
    return Instr("jal", rd, 0, 0, 4 * words)


FENCE = Instr("fence", 0, 0, 0, 51)


def constant(rd, value):
    """11 words: rd becomes a value, its highest 9 bits and then 11 at a time."""
    words = [addi(rd, 0, value >> 55)]
    for k in (4, 3, 2, 1, 0):
        words += [slli(rd, rd, 11), addi(rd, rd, value >> 11 * k & 2047)]
    return words


def load_registers(table):
    return constant(31, table) + [ld(r, 8 * (r - 1), 31) for r in range(1, 32)]


def save_registers():
    return [sd(r, 8 * (r - 1), 31) for r in range(1, 31)]


def copy(source, to, count):
    words = []
    for j in range(count):
        words += [ld(3, 8 * j, source), sd(3, 8 * j, to)]
    return words


def barrier(h, harts):
    words = [ld(2, 256, 31), addi(2, 2, 1), sd(2, 256, 31), addi(3, 0, 515), slli(3, 3, 22), FENCE]
    words += [sd(2, 128 * h, 3)]
    for g in range(harts):
        if g != h:
            words += [ld(4, 128 * g, 3), branch("bltu", 4, 2, -1)]
    return words + [FENCE, Instr("jalr", 0, 1, 0, 0)]


def line_place(cases, h, w):
    return places.WINDOW_SIZE * w + cases.line * first_line(cases, h, w)


def move_lines(source, lines, dwords, a, b):
    """So many lines of so many dwords; behind each, x1 goes on by 2a bytes and x2 by 2b."""
    if not lines:
        return []
    turn = [addi(1, 1, a), addi(1, 1, a), addi(2, 2, b), addi(2, 2, b), addi(4, 4, -1)]
    turn += [branch("bne", 4, 0, -(2 * dwords + 5))]
    return constant(1, source) + [addi(4, 0, lines)] + copy(1, 2, dwords) + turn


def first_bytes(cases, h, source):
    words = []
    half = cases.line * cases.harts // 2
    for w in range(3):
        at = line_place(cases, h, w)
        count = len(own_lines(cases, h, w))
        words += constant(2, places.WINDOWS + at)
        words += move_lines(source + at, count, cases.line // 8, half, half)
    return words


def collect(cases, h):
    words = copy(31, 9, 30) + [addi(2, 9, 240)]
    half = cases.line * cases.harts // 2
    for w in range(3):
        at = places.WINDOWS + line_place(cases, h, w)
        count = len(own_lines(cases, h, w))
        words += move_lines(at, count, cases.line // 8, half, cases.line // 2)
    return words


def register_loop(far):
    """The 30 registers; a difference leads `far` words past the loop's last."""
    words = [addi(10, 0, 2), addi(4, 0, 30)]
    words += [addi(8, 8, 1), over("and", 6, 10, 5), branch("beq", 6, 0, 4), ld(6, 0, 1), ld(7, 0, 2)]
    words += [branch("bne", 6, 7, 6 + far)]
    words += [addi(1, 1, 8), addi(2, 2, 8), over("add", 10, 10, 10), addi(4, 4, -1)]
    return words + [branch("bne", 4, 0, -10)]


def window_check(cases, h, w, masks, far):
    """The dwords of hart h's lines of window w; a difference leads `far` words past the loop's last."""
    lines = len(own_lines(cases, h, w))
    if not lines:
        return []
    words = constant(3, masks + line_place(cases, h, w)) + [addi(4, 0, lines), addi(10, 0, cases.line // 8)]
    words += [addi(8, 8, 1), ld(6, 0, 1), ld(7, 0, 2), over("xor", 6, 6, 7), ld(7, 0, 3)]
    words += [over("and", 6, 6, 7), branch("bne", 6, 0, 9 + far)]
    words += [addi(1, 1, 8), addi(2, 2, 8), addi(3, 3, 8), addi(10, 10, -1), branch("bne", 10, 0, -11)]
    words += [addi(3, 3, cases.line * cases.harts - cases.line), addi(4, 4, -1), branch("bne", 4, 0, -15)]
    return words


def one_pass(cases, h, first, masks):
    words = constant(1, first) + [slli(2, 9, 13), over("add", 2, 2, 1), addi(8, 0, 0)]
    checks = []
    for w in (2, 1, 0):
        checks = window_check(cases, h, w, masks, 5 + len(checks)) + checks
    return words + register_loop(5 + len(checks)) + checks


def compare(cases, c, h):
    table = places.table(cases.harts, c)
    words = constant(4, table + 256 * h + 248) + [ld(5, 0, 4), addi(9, 0, 1)]
    one = one_pass(cases, h, places.save(h, 0), table + 256 * cases.harts + 6144)
    words += one + [addi(9, 9, 1), addi(10, 0, cases.passes), branch("bne", 9, 10, -(len(one) + 2))]
    words += [addi(8, 0, 0), jump(3), slli(9, 9, 32), over("add", 8, 8, 9)]
    return words + constant(7, places.verdict(c, h)) + [sd(8, 0, 7)]


AIM = [ld(9, 264, 31), slli(9, 9, 13), over("add", 9, 9, 31), addi(1, 0, 1), slli(1, 1, 12), over("add", 9, 9, 1)]


def turn(passes, back):
    words = [ld(1, 264, 31), addi(1, 1, 1), sd(1, 264, 31), addi(2, 0, passes), branch("beq", 1, 2, 2)]
    return words + [jump(-back)]


class HartCode:
    """The words of one hart's program, with its marks, as places in words from its first."""

    def __init__(self, cases, h):
        self.cases = cases
        self.hart = h
        self.words = []
        self.starts = []
        self.ends = []
        self.calls = []
        self.put([Instr("jal", 0, 0, 0, 0)] * 3 + constant(31, places.private(h)))
        for c in range(len(cases.cases)):
            self.put_case(c)
        self.halt = len(self.words)
        self.put([jump(0)])
        self.barrier = len(self.words)
        self.put(barrier(h, cases.harts))
        self.exit = len(self.words) - 1
        for at in self.calls:
            self.words[at] = encode(jump(self.barrier - at, rd=1))
        gate = [addi(1, 0, h), branch("beq", 1, 10, 2), jump(len(self.words) - 2)]
        self.words[:3] = [encode(i) for i in gate]

    def put(self, instrs):
        self.words += [encode(i) for i in instrs]

    def call(self):
        self.calls.append(len(self.words))
        self.words.append(0)

    def put_case(self, c):
        cases, h = self.cases, self.hart
        table = places.table(cases.harts, c)
        self.put([sd(0, 264, 31)])
        first = len(self.words)
        self.put(first_bytes(cases, h, table + 256 * cases.harts))
        self.call()
        self.put(load_registers(table + 256 * h))
        self.starts.append(len(self.words))
        self.words += cases.cases[c].words[h]
        self.ends.append(len(self.words))
        self.put(save_registers())
        self.call()
        self.put(AIM + collect(cases, h))
        self.put(turn(cases.passes, len(self.words) + 5 - first))
        self.put(compare(cases, c, h))


class Program:
    """The text of all harts and its marks, as addresses."""

    def __init__(self, cases):
        self.cases = cases
        self.words = []
        self.starts = []
        self.ends = []
        self.exits = []
        self.halts = []
        for h in range(cases.harts):
            code = HartCode(cases, h)
            base = places.TEXT + 4 * len(self.words)
            self.starts.append([base + 4 * at for at in code.starts])
            self.ends.append([base + 4 * at for at in code.ends])
            self.exits.append(base + 4 * code.exit)
            self.halts.append(base + 4 * code.halt)
            self.words += code.words

    def symbols(self):
        """The names and addresses of the marks, in the order of the symbol table."""
        found = []
        for h in range(self.cases.harts):
            for c in range(len(self.cases.cases)):
                found.append((f"tm_s_{h}_{c}".encode(), self.starts[h][c]))
                found.append((f"tm_e_{h}_{c}".encode(), self.ends[h][c]))
            found.append((f"tm_x_{h}".encode(), self.exits[h]))
            found.append((f"tm_halt_{h}".encode(), self.halts[h]))
        return found
