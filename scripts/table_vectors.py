#!/usr/bin/env python3
"""Compares the instruction table with GNU binutils for RISC-V.

Outside the gate: it needs riscv64-linux-gnu-as and riscv64-linux-gnu-objdump (Debian: binutils-riscv64-linux-gnu) and
the kit's rt. It assembles each of the 65 instructions, RV64I's 52 and M's
13, with many operands, and compares the words with `encode` and `decode`; it disassembles many words, and compares
what stands there with `decode`. The table's calls run in a small program that is written into a temporary folder.
FENCE words outside the table's profile (fm, rd or rs1 not zero), FENCE.I, and CSR and privileged instructions have no
row, whatever the disassembler names them.

It ends with status 0 where all agree, with 1 where something differs, and with 2 where a tool is missing.
"""
import argparse
import os
import random
import re
import shutil
import subprocess
import sys
import tempfile

ROOT = os.path.dirname(os.path.dirname(os.path.abspath(__file__)))
ASSEMBLER = "riscv64-linux-gnu-as"
DISASSEMBLER = "riscv64-linux-gnu-objdump"
OPERANDS = 60
WORDS = 60000

SHAPES = {
    "upper": "lui auipc",
    "jump": "jal",
    "memory": "jalr lb lh lw ld lbu lhu lwu",
    "branch": "beq bne blt bge bltu bgeu",
    "store": "sb sh sw sd",
    "immediate": "addi slti sltiu xori ori andi addiw",
    "shift": "slli srli srai",
    "word_shift": "slliw srliw sraiw",
    "registers": "add sll slt sltu xor srl or and sub sra addw sllw srlw subw sraw "
    "mul mulh mulhsu mulhu div divu rem remu mulw divw divuw remw remuw",
    "fence": "fence",
    "bare": "ecall ebreak",
}
SHAPE_OF = {name: shape for shape, names in SHAPES.items() for name in names.split()}

# the disassembler names these in the base set; they have no row here
NOT_IN_TABLE = set(
    "fence.tso fence.i csrrw csrrs csrrc csrrwi csrrsi csrrci unimp sret mret uret dret hret wfi sfence.vma "
    "sfence.vm".split()
)

PROGRAM = """#![tactic(auto)]

use std::io;

use tm_table::{Instr, Op, decode, encode, fits};

fn op_of(name: &str) -> Option<Op> {
    match name {
%s
        _ => None,
    }
}

fn instr_of(line: &str) -> Option<Instr> {
    let mut parts = line.split_whitespace();
    let op = op_of(parts.next()?)?;
    let rd = parts.next()?.parse::<u8>().ok()?;
    let rs1 = parts.next()?.parse::<u8>().ok()?;
    let rs2 = parts.next()?.parse::<u8>().ok()?;
    let imm = parts.next()?.parse::<i64>().ok()?;
    Some(Instr {
        op,
        rd,
        rs1,
        rs2,
        imm,
    })
}

fn main(rt: HostRuntime) -> io::Result<()> {
    for line in rt.lines(rt.alloc()) {
        let line = line?;
        let text = line.as_str();
        match text.parse::<u32>() {
            Ok(word) => match decode(word) {
                Some(i) => {
                    let back = encode(i);
                    println!(rt; "{:?} {} {} {} {} {back}", i.op, i.rd, i.rs1, i.rs2, i.imm)?;
                }
                None => println!(rt; "none")?,
            },
            Err(_) => match instr_of(text) {
                Some(i) => {
                    if fits(i) {
                        let word = encode(i);
                        println!(rt; "{word}")?;
                    } else {
                        println!(rt; "unfit")?;
                    }
                }
                None => println!(rt; "unread")?,
            },
        }
    }
    Ok(())
}
"""


def run(command, folder, text=None):
    done = subprocess.run(command, cwd=folder, input=text, capture_output=True, text=True)
    if done.returncode != 0:
        sys.exit("%s failed:\n%s%s" % (command[0], done.stdout[-2000:], done.stderr[-2000:]))
    return done.stdout


def table(folder, lines):
    """What the table's calls answer to each line: a word in decimal, or an op with rd, rs1, rs2 and immediate."""
    crate = os.path.join(folder, "crates", "table_vectors")
    if not os.path.isdir(crate):
        os.makedirs(os.path.join(crate, "src"))
        shutil.copytree(
            os.path.join(ROOT, "crates", "tm_table"),
            os.path.join(folder, "crates", "tm_table"),
            ignore=shutil.ignore_patterns("out"),
        )
        with open(os.path.join(folder, "crates.txt"), "w") as out:
            out.write("tm_table:\ntable_vectors: tm_table\n")
        arms = "\n".join('        "%s" => Some(Op::%s),' % (n.capitalize(), n.capitalize()) for n in SHAPE_OF)
        with open(os.path.join(crate, "src", "main.rt"), "w") as out:
            out.write(PROGRAM % arms)
    said = run(["rt", "try"], crate, "\n".join(lines) + "\n").splitlines()
    answers = [a for a in said if re.match(r"(none|unfit|unread|\d+|[A-Z][a-z]+ \d+ .*)$", a)]
    if len(answers) != len(lines):
        sys.exit("the program answered %d of %d lines" % (len(answers), len(lines)))
    return answers


def signed(bits, pick):
    low, high = -(1 << (bits - 1)), (1 << (bits - 1)) - 1
    return pick.choice([low, low + 1, -1, 0, 1, high - 1, high, pick.randint(low, high)])


def operands(shape, pick):
    """rd, rs1, rs2 and immediate as the table has them."""
    a, b, c = (pick.choice([0, 1, 15, 16, 31, pick.randrange(32)]) for _ in range(3))
    if shape == "upper":
        return a, 0, 0, pick.choice([0, 1, 0x7FFFF, 0x80000, 0xFFFFF, pick.randrange(1 << 20)])
    if shape == "jump":
        return a, 0, 0, 2 * signed(20, pick)
    if shape in ("memory", "immediate"):
        return a, b, 0, signed(12, pick)
    if shape == "branch":
        return 0, a, b, 2 * signed(12, pick)
    if shape == "store":
        return 0, a, b, signed(12, pick)
    if shape == "shift":
        return a, b, 0, pick.choice([0, 1, 31, 32, 63, pick.randrange(64)])
    if shape == "word_shift":
        return a, b, 0, pick.choice([0, 1, 31, pick.randrange(32)])
    if shape == "registers":
        return a, b, c, 0
    if shape == "fence":
        return 0, 0, 0, 16 * pick.randint(1, 15) + pick.randint(1, 15)
    return 0, 0, 0, 0


def letters(n):
    return "".join(x for x, bit in zip("iorw", (8, 4, 2, 1)) if n & bit)


def line_of(name, fields):
    rd, rs1, rs2, imm = fields
    return {
        "upper": "x%d, %d" % (rd, imm),
        "jump": "x%d, . + %d" % (rd, imm),
        "memory": "x%d, %d(x%d)" % (rd, imm, rs1),
        "branch": "x%d, x%d, . + %d" % (rs1, rs2, imm),
        "store": "x%d, %d(x%d)" % (rs2, imm, rs1),
        "immediate": "x%d, x%d, %d" % (rd, rs1, imm),
        "shift": "x%d, x%d, %d" % (rd, rs1, imm),
        "word_shift": "x%d, x%d, %d" % (rd, rs1, imm),
        "registers": "x%d, x%d, x%d" % (rd, rs1, rs2),
        "fence": "%s, %s" % (letters(imm // 16), letters(imm % 16)),
        "bare": "",
    }[SHAPE_OF[name]]


def assembled(folder, lines):
    """The object's lines as the disassembler prints them: address, word, name, operands."""
    source = os.path.join(folder, "vectors.s")
    with open(source, "w") as out:
        out.write("\t.option norvc\n\t.option norelax\n" + "".join("\t%s\n" % line for line in lines))
    run([ASSEMBLER, "-march=rv64im", "-mabi=lp64", "-mno-relax", "-o", "vectors.o", "vectors.s"], folder)
    text = run([DISASSEMBLER, "-d", "-z", "-M", "no-aliases,numeric", "vectors.o"], folder)
    found = re.findall(r"^\s*([0-9a-f]+):\s+([0-9a-f]{8}|[0-9a-f]{4})\s+(\S+)[ \t]*([^\n]*)$", text, re.M)
    return [
        (int(at, 16), int(word, 16), name, rest.split("#")[0].split("<")[0].strip())
        for at, word, name, rest in found
    ]


def number(text):
    return int(text, 0)


def fields_of(at, name, rest):
    """The fields of a line that the disassembler printed."""
    shape = SHAPE_OF[name]
    parts = [p.strip() for p in re.split(r"[,()]", rest) if p.strip()] if rest else []
    reg = lambda p: int(p[1:])
    if shape == "upper":
        return reg(parts[0]), 0, 0, number(parts[1])
    if shape == "jump":
        return reg(parts[0]), 0, 0, near(int(parts[1], 16) - at, 21)
    if shape == "memory":
        return reg(parts[0]), reg(parts[2]), 0, number(parts[1])
    if shape == "branch":
        return 0, reg(parts[0]), reg(parts[1]), near(int(parts[2], 16) - at, 13)
    if shape == "store":
        return 0, reg(parts[2]), reg(parts[0]), number(parts[1])
    if shape in ("immediate", "shift", "word_shift"):
        return reg(parts[0]), reg(parts[1]), 0, number(parts[2])
    if shape == "registers":
        return reg(parts[0]), reg(parts[1]), reg(parts[2]), 0
    if shape == "fence":
        sets = [sum(bit for x, bit in zip("iorw", (8, 4, 2, 1)) if p != "unknown" and x in p) for p in parts]
        return 0, 0, 0, 16 * sets[0] + sets[1]
    return 0, 0, 0, 0


def near(n, bits):
    n %= 1 << bits
    return n - (1 << bits) if n >> (bits - 1) else n


def show(name, fields):
    return "%s %d %d %d %d" % ((name.capitalize(),) + tuple(fields))


def main():
    parser = argparse.ArgumentParser(description=__doc__, formatter_class=argparse.RawDescriptionHelpFormatter)
    parser.add_argument("seed", nargs="?", type=int, default=1, help="the seed of the operands and words (1)")
    asked = parser.parse_args()
    missing = [tool for tool in (ASSEMBLER, DISASSEMBLER, "rt") if shutil.which(tool) is None]
    if missing:
        print("table_vectors.py: not found: %s" % ", ".join(missing), file=sys.stderr)
        sys.exit(2)
    pick = random.Random(asked.seed)
    folder = tempfile.mkdtemp(prefix="table_vectors.")
    wrong = []
    try:
        # each instruction with many operands: the assembler's word is ours, and is read back
        cases = []
        for name, shape in SHAPE_OF.items():
            for _ in range(1 if shape == "bare" else OPERANDS):
                cases.append((name, operands(shape, pick)))
        words = [word for _, word, _, _ in assembled(folder, ["%s %s" % (n, line_of(n, f)) for n, f in cases])]
        if len(words) != len(cases):
            sys.exit("the assembler made %d of %d words" % (len(words), len(cases)))
        asked = [show(n, f) for n, f in cases] + ["%d" % w for w in words]
        answers = table(folder, asked)
        for (n, f), word, ours, back in zip(cases, words, answers[: len(cases)], answers[len(cases) :]):
            if ours != "%d" % word:
                wrong.append("encode %s: %s, and the assembler has %d" % (show(n, f), ours, word))
            if back != "%s %d" % (show(n, f), word):
                wrong.append("decode %08x: %s, and it is %s" % (word, back, show(n, f)))
        print("assembled: %d instructions of %d ops" % (len(cases), len(SHAPE_OF)))

        # words of all kinds: what the disassembler names is what decode gives
        opcodes = [0x37, 0x17, 0x6F, 0x67, 0x63, 0x03, 0x23, 0x13, 0x33, 0x1B, 0x3B, 0x0F, 0x73]
        tried = []
        for n in range(WORDS):
            word = pick.getrandbits(32)
            if n % 8 != 0:
                word = word & ~0x7F | pick.choice(opcodes)
            if n % 4 == 1:
                word = word & 0x01FFFFFF | pick.choice([0, 0x20, 0x01, 0x21]) << 25
            if n % 16 == 2:
                word = word & 0xFFF0007F
            tried.append(word)
        tried += [word ^ 1 << pick.randrange(32) for word in words]
        whole = [word for word in tried if word & 3 == 3 and word & 0x1C != 0x1C]
        other = [word for word in tried if not (word & 3 == 3 and word & 0x1C != 0x1C)]
        lines = assembled(folder, [".insn 4, 0x%08x" % word for word in whole])
        if [word for _, word, _, _ in lines] != whole:
            sys.exit("the disassembler's lines aren't the words")
        answers = table(folder, ["%d" % word for word in whole + other])
        rows = 0
        for (at, word, name, rest), ours in zip(lines, answers):
            if name in SHAPE_OF:
                rows += 1
                theirs = "%s %d" % (show(name, fields_of(at, name, rest)), word)
            elif name in NOT_IN_TABLE or name.startswith(".") or name == "unknown":
                theirs = "none"
            else:
                theirs = "%s %s" % (name, rest)
            if ours != theirs:
                wrong.append("word %08x: decode gives %s, and the disassembler %s" % (word, ours, theirs))
        for word, ours in zip(other, answers[len(whole) :]):
            if ours != "none":
                wrong.append("word %08x: decode gives %s, and it isn't of 32 bits" % (word, ours))
        print("disassembled: %d words, %d of them with a row; %d of other lengths" % (len(whole), rows, len(other)))
    finally:
        shutil.rmtree(folder)
    for line in wrong[:20]:
        print(line)
    print("differences: %d" % len(wrong))
    sys.exit(1 if wrong else 0)


main()
