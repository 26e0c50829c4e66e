#!/usr/bin/env python3
"""Loads an image through gdb on a processor, runs it, and prints its report: over JTAG, or any other stub of gdb.

The stub shows each hart as a thread of gdb's, and all harts are held. Hart h of the image is thread h + 1, where
--threads doesn't say otherwise; harts that aren't of the image have to be held elsewhere (docs/bring-up.md). What is
done, in this order: text and tables are written and read again, the work area is filled with zeros, x10 and pc of
each hart are set, all harts go on, and the verdicts are read when each hart is at its halt mark. The lines are

    case C NAME: ok
    case C NAME: hart H pass K WHERE      WHERE is a register, or the address of a dword of shared memory

To wait for halt a hardware breakpoint stands at each hart's halt mark; with --poll the harts are stopped and looked at
instead. --plant tries the set-up: it stops hart H before slot SLOT of case C in pass P, and flips bits of a register,
so that the report has something to name. Needs gdb-multiarch (Debian: gdb-multiarch) or a gdb for RISC-V, with Python.
It isn't part of the gate.

It ends with status 0 where all verdicts are 0, with 1 where one isn't, and with 2 where nothing could be told."""

import argparse
import os
import shutil
import signal
import struct
import subprocess
import sys
import threading
import time
from pathlib import Path

try:
    import gdb
except ImportError:
    gdb = None

HERE = Path(__file__).resolve()
sys.path.insert(0, str(HERE.parent))

from run_on_qemu import Failure, plan_of, report, sections, symbols_of

TEXT = 0x80000000
WORK, WORK_SIZE = 0x80C00000, 0x300000
PASS_NUMBERS = 0x80C10000 + 0x108
PIECE = 0x10000


def words():
    parser = argparse.ArgumentParser(description=__doc__, formatter_class=argparse.RawDescriptionHelpFormatter)
    parser.add_argument("image")
    parser.add_argument("--remote", default="localhost:1234", metavar="HOST:PORT", help="the stub (localhost:1234)")
    parser.add_argument("--gdb", metavar="PATH", help="the gdb to use (gdb-multiarch)")
    parser.add_argument("--threads", metavar="N,N", help="gdb's threads of the harts 0, 1 and so on")
    parser.add_argument("--seconds", type=float, default=60, help="how long to wait for halt (60)")
    parser.add_argument("--poll", type=float, metavar="S", help="look every S seconds; no breakpoints for halt")
    parser.add_argument("--loaded", action="store_true", help="text and tables are there already")
    parser.add_argument("--setup", action="append", default=[], metavar="COMMAND", help="a command for gdb beforehand")
    fault = ("C", "H", "P", "SLOT", "REG", "BITS")
    parser.add_argument("--plant", nargs=6, metavar=fault, help="flip bits of one of x1 to x27")
    return parser


def progress(text):
    """A line that is written over by the next, on a terminal alone."""
    if os.isatty(2):
        os.write(2, f"\r\x1b[K{text}".encode())


# Outside of gdb: find it, and let it run this file.


def start(asked):
    program = shutil.which(asked.gdb) if asked.gdb else shutil.which("gdb-multiarch") or shutil.which("riscv64-elf-gdb")
    if program is None:
        raise Failure("there is no " + (asked.gdb or "gdb-multiarch (Debian: gdb-multiarch)"))
    command = [program, "-nx", "-q", "-batch", "-ex", f"python import sys; sys.argv = {sys.argv!r}", "-x", str(HERE)]
    done = subprocess.run(command, stdin=subprocess.DEVNULL, stdout=subprocess.PIPE, check=False)
    told = [line for line in done.stdout.decode(errors="replace").splitlines() if line.startswith("case ")]
    if done.returncode not in (0, 1, 2) or (done.returncode < 2 and not told):
        raise Failure(f"gdb ended with status {done.returncode} and told no report")
    print("\n".join(told) + "\n" if told else "", end="")
    return done.returncode


# Inside of gdb.


def execute(command):
    try:
        return gdb.execute(command, to_string=True)
    except gdb.error as why:
        raise Failure(f"gdb: {command}: {why}") from None


class Image:
    """What is read of the file."""

    def __init__(self, path):
        file = Path(path).read_bytes()
        plan, table, strings = sections(file)
        self.symbols = symbols_of(table, strings)
        self.harts, self.line, self.windows, self.cases = plan_of(plan)
        self.parts = []
        for number in (0, 1):
            offset, addr, _, size = struct.unpack_from("<QQQQ", file, 64 + 56 * number + 8)
            self.parts.append((addr, file[offset : offset + size]))

    def symbol(self, name):
        if name not in self.symbols:
            raise Failure(f"the image has no symbol {name}")
        return self.symbols[name]


class Target:
    """The processor behind the stub."""

    def __init__(self, asked, image):
        for command in ["set pagination off", "set confirm off", "set architecture riscv:rv64"] + asked.setup:
            execute(command)
        execute(f"target remote {asked.remote}")
        self.memory = gdb.selected_inferior()
        there = sorted(thread.num for thread in self.memory.threads())
        numbers = [int(n) for n in asked.threads.split(",")] if asked.threads else there[: image.harts]
        if len(numbers) != image.harts or not set(numbers) <= set(there):
            raise Failure(f"the image has {image.harts} harts, and gdb has the threads {there}")
        if len(there) > image.harts:
            others = f"{len(there) - image.harts} threads aren't harts of the image: they must be held elsewhere"
            print(f"read_out.py: {others}", file=sys.stderr)
        self.numbers = numbers

    def select(self, hart):
        execute(f"thread {self.numbers[hart]}")

    def register(self, hart, name):
        self.select(hart)
        return int(gdb.parse_and_eval(f"(unsigned long)${name}"))

    def set_register(self, hart, name, value):
        self.select(hart)
        execute(f"set ${name} = 0x{value:x}")

    def read(self, addr, size):
        try:
            return bytes(self.memory.read_memory(addr, size))
        except gdb.error as why:
            raise Failure(f"memory at 0x{addr:x} can't be read: {why}") from None

    def dword(self, addr):
        return struct.unpack("<Q", self.read(addr, 8))[0]

    def write(self, addr, data, what, is_checked):
        """Memory is written piece by piece, and read again where that is asked for."""
        for at in range(0, len(data), PIECE):
            piece = data[at : at + PIECE]
            progress(f"{what}: {at // 1024} of {len(data) // 1024} KiB")
            try:
                self.memory.write_memory(addr + at, piece)
            except gdb.error as why:
                raise Failure(f"memory at 0x{addr + at:x} can't be written: {why}") from None
            if is_checked and self.read(addr + at, len(piece)) != piece:
                raise Failure(f"memory at 0x{addr + at:x} doesn't hold what was written to it")
        progress("")

    def go(self, seconds):
        """All harts go on until one is stopped, or until the time is over."""
        timer = threading.Timer(max(seconds, 0.01), os.kill, (os.getpid(), signal.SIGINT))
        timer.start()
        try:
            execute("continue")
        finally:
            timer.cancel()


class Breakpoints:
    """Hardware breakpoints by name."""

    def __init__(self):
        self.there = {}

    def put(self, name, addr):
        execute(f"hbreak *0x{addr:x}")
        self.there[name] = max(b.number for b in gdb.breakpoints())

    def take(self, name):
        if name in self.there:
            execute(f"delete {self.there.pop(name)}")


class Plant:
    """A fault that is planted: bits of a register are flipped before a slot in one pass."""

    def __init__(self, values, image):
        numbers = [int(value, 0) for value in values[:4]]
        self.case, self.hart, self.number, slot = numbers
        self.register, self.bits = values[4], int(values[5], 0)
        if self.register not in [f"x{r}" for r in range(1, 28)]:
            raise Failure("a register to plant in is x1 to x27")
        mark = f"_{self.hart}_{self.case}"
        self.at = image.symbol("tm_s" + mark) + 4 * slot
        if slot < 0 or self.at >= image.symbol("tm_e" + mark):
            raise Failure(f"the stream has no slot {slot}")
        self.is_done = False

    def try_at(self, target):
        """Whether it was the time to plant it."""
        if target.register(self.hart, "pc") != self.at:
            return False
        if target.dword(PASS_NUMBERS + 0x20000 * self.hart) != self.number:
            return False
        old = target.register(self.hart, self.register)
        target.set_register(self.hart, self.register, old ^ self.bits)
        self.is_done = True
        return True


def at_halt(target, halts):
    return [target.register(hart, "pc") == halt for hart, halt in enumerate(halts)]


def wait_for_halt(target, image, asked, plant):
    halts = [image.symbol(f"tm_halt_{hart}") for hart in range(image.harts)]
    breakpoints = Breakpoints()
    if plant:
        breakpoints.put("plant", plant.at)
    if asked.poll is None:
        for hart, halt in enumerate(halts):
            breakpoints.put(hart, halt)
    last = time.monotonic() + asked.seconds
    while True:
        left = last - time.monotonic()
        target.go(left if asked.poll is None else min(asked.poll, left))
        if plant and not plant.is_done and plant.try_at(target):
            breakpoints.take("plant")
        done = at_halt(target, halts)
        progress(f"{sum(done)} of {len(done)} harts at halt")
        for hart, is_there in enumerate(done):
            if is_there:
                breakpoints.take(hart)
        if all(done):
            break
        if time.monotonic() > last:
            counters = [f"0x{target.register(hart, 'pc'):x}" for hart in range(image.harts)]
            raise Failure(f"after {asked.seconds:g} seconds {sum(done)} of {len(done)} harts are at halt; "
                          f"program counters: {' '.join(counters)}")
    progress("")
    breakpoints.take("plant")
    if plant and not plant.is_done:
        raise Failure("the slot wasn't reached in that pass: nothing was planted")


def read_out(asked):
    image = Image(asked.image)
    plant = Plant(asked.plant, image) if asked.plant else None
    target = Target(asked, image)
    if not asked.loaded:
        for addr, data in image.parts:
            target.write(addr, data, "text" if addr == TEXT else "tables", True)
    target.write(WORK, bytes(WORK_SIZE), "zeros", False)
    for hart in range(image.harts):
        target.set_register(hart, "x10", hart)
        target.set_register(hart, "pc", TEXT)
    wait_for_halt(target, image, asked, plant)
    lines, differs = report(target, image.harts, image.line, image.windows, image.cases)
    print("\n".join(lines), flush=True)
    return 1 if differs else 0


def main():
    asked = words().parse_args()
    try:
        if gdb is None:
            Image(asked.image)
            return start(asked)
        return read_out(asked)
    except (Failure, OSError, ValueError) as why:
        progress("")
        print(f"read_out.py: {why}", file=sys.stderr, flush=True)
        return 2
    finally:
        if gdb is not None and gdb.selected_inferior().pid:
            gdb.execute("disconnect", to_string=True)


if __name__ == "__main__":
    if gdb is None:
        sys.exit(main())
    gdb.execute(f"quit {main()}")
