#!/usr/bin/env python3
"""Records a run of an image on QEMU, and has threadmill judge it. It isn't part of the gate.

usage: judge_qemu.py IMAGE [--order one|many] [--trace OUT] [--seconds N] [--threadmill PATH]

Needs qemu-system-riscv64 (Debian: qemu-system-misc), and the program, which the gate leaves at
crates/threadmill/out/threadmill. QEMU runs the image's harts as one processor each of the machine `virt`, without
firmware, one instruction at a time, and logs each hart's registers before each instruction. From them the script tells
the address of each access, what was stored, and what a load left in its register, and writes it as a trace, until each
hart is at its halt mark.

  --order one     QEMU gives its processors turns on one thread, so that the log has all steps in their order. All
                  three answers are printed. This is what is done where --order isn't given.
  --order many    Each processor has a thread of its own. The log then has the steps of each hart in order, but doesn't
                  tell the order of accesses of different harts. So only the first answer is printed, whether each
                  hart follows the instruction table, which doesn't depend on that order.

--trace OUT leaves the trace, which `threadmill judge IMAGE OUT` judges again; --seconds N (120) is how long the run may
take. QEMU writes about 2,000 bytes for each step, of which some ten thousand a second are read.

Ends with 0 where all printed answers are yes, with 1 where one isn't, and with 2 where nothing could be told.
"""
import argparse
import os
import re
import shutil
import struct
import subprocess
import sys
import tempfile
import time
from functools import lru_cache
from pathlib import Path

sys.path.insert(0, str(Path(__file__).resolve().parent))

from derive import memory_map as places
from derive import table
from derive.elf import read_elf
from derive.faults import Fault
from derive.table import LOADS, STORES, has_rd
from derive.traces import Event, event_text
from run_on_qemu import Failure

PROGRAM = Path(__file__).resolve().parent.parent / "crates" / "threadmill" / "out" / "threadmill"
HART = re.compile(rb"^ mhartid +([0-9a-f]+)")
COUNTER = re.compile(rb"^ pc +([0-9a-f]+)")
REGISTERS = re.compile(rb"x([0-9]+)/[a-z0-9]+ +([0-9a-f]{16})")

decode = lru_cache(maxsize=None)(table.decode)


class Image:
    """What the script needs of the file: the words of the text, and each hart's halt mark."""

    def __init__(self, path):
        try:
            parts = read_elf(Path(path).read_bytes())
        except Fault as fault:
            raise Failure(f"the file is no image: {fault.told()}") from None
        self.text, self.tables = parts.text, parts.tables
        self.words = struct.unpack(f"<{len(parts.text) // 4}I", parts.text)
        marks = dict(parts.symbols)
        self.halts = []
        while (name := f"tm_halt_{len(self.halts)}".encode()) in marks:
            self.halts.append(marks[name])
        if not self.halts:
            raise Failure("the image has no symbol tm_halt_0")

    def word(self, pc):
        at = (pc - places.TEXT) // 4
        if pc % 4 or not 0 <= at < len(self.words):
            raise Failure(f"a hart is outside of the text, at 0x{pc:x}")
        return self.words[at]


class State:
    """A hart before one of its steps, and where that stands among all steps."""

    def __init__(self, place, pc):
        self.place, self.pc, self.x = place, pc, [0] * 32


def states(log):
    """The states that a log tells, each with its hart: in the log's order, from a hart's entry on."""
    place, pc, hart, x = 0, None, None, None
    for line in log:
        if found := COUNTER.match(line):
            pc, hart, x = int(found[1], 16), None, {}
        elif pc is not None and hart is None and (found := HART.match(line)):
            hart = int(found[1], 16)
        elif pc is not None and line.startswith(b" x"):
            x.update((int(r), int(value, 16)) for r, value in REGISTERS.findall(line))
            if len(x) == 32 and hart is not None and places.TEXT <= pc < places.TEXT + places.MEMORY_SIZE:
                state = State(place, pc)
                state.x = [x[r] for r in range(32)]
                yield hart, state
                place, pc = place + 1, None


class Recorder:
    """The steps of a run: each is told by two states of its hart, one behind the other."""

    def __init__(self, image):
        self.image = image
        self.before = [None] * len(image.halts)
        self.steps = []
        self.unknown = 0

    def is_done(self):
        return all(s is not None and s.pc == halt for s, halt in zip(self.before, self.image.halts))

    def put(self, hart, state):
        """A hart's next state. The same program counter once more is of an instruction that QEMU put off."""
        if hart >= len(self.before):
            raise Failure(f"a hart {hart} came by, which the image doesn't have")
        before = self.before[hart]
        if before is not None and before.pc == self.image.halts[hart]:
            return
        if before is None and state.pc != places.TEXT:
            raise Failure(f"hart {hart} begins at 0x{state.pc:x}")
        if before is not None and before.pc != state.pc:
            self.steps.append((before.place, self.event(hart, before, state)))
        self.before[hart] = state

    def event(self, hart, before, after):
        word = self.image.word(before.pc)
        return Event(hart, before.pc, word, self.access(decode(word), before.x, after.x))

    def access(self, i, x, after):
        """What a step reads or writes. A load into x0 leaves no trace of what it read."""
        if i is None or i.op not in LOADS and i.op not in STORES:
            return None
        addr = x[i.rs1] + i.imm & 2**64 - 1
        width = LOADS.get(i.op) or STORES[i.op]
        if i.op in STORES:
            return "writes", width, addr, x[i.rs2] % 256**width
        if not has_rd(i) or i.rd == 0:
            self.unknown += 1
            return "reads", width, addr, None
        return "reads", width, addr, after[i.rd] % 256**width

    def events(self):
        """All events in the order of the log; a read that left no trace is taken to be what memory held."""
        memory = bytearray(places.MEMORY_SIZE)
        for first, data in ((places.TEXT, self.image.text), (places.TABLES, self.image.tables)):
            memory[first - places.TEXT : first - places.TEXT + len(data)] = data
        for _, event in sorted(self.steps, key=lambda step: step[0]):
            if event.access is not None:
                kind, width, addr, value = event.access
                at = addr - places.TEXT
                if kind == "writes":
                    memory[at : at + width] = value.to_bytes(width, "little")
                elif value is None:
                    held = int.from_bytes(memory[at : at + width], "little")
                    event = event._replace(access=(kind, width, addr, held))
            yield event


def started(image, path, log, threads):
    program = shutil.which("qemu-system-riscv64")
    if program is None:
        raise Failure("there is no qemu-system-riscv64 (Debian: qemu-system-misc)")
    told = subprocess.run([program, "--version"], capture_output=True, text=True).stdout
    version = re.search(r"version (\d+)\.(\d+)", told)
    is_new = version is not None and (int(version[1]), int(version[2])) >= (8, 1)
    one = ["-accel", f"tcg,thread={threads}" + (",one-insn-per-tb=on" if is_new else "")]
    words = [program, *one, *([] if is_new else ["-singlestep"]), "-machine", "virt", "-bios", "none"]
    words += ["-smp", str(len(image.halts)), "-m", "64M", "-display", "none", "-serial", "none", "-monitor", "none"]
    words += ["-kernel", path, "-d", "exec,cpu,nochain", "-D", log]
    quiet = subprocess.DEVNULL
    return subprocess.Popen(words, stdin=quiet, stdout=quiet, stderr=subprocess.PIPE)


def recorded(image, path, threads, seconds):
    """The steps of a run on QEMU, whose log goes through a pipe and isn't kept."""
    recorder = Recorder(image)
    last = time.monotonic() + seconds
    with tempfile.TemporaryDirectory() as folder:
        log = str(Path(folder) / "log")
        os.mkfifo(log)
        process = started(image, path, log, threads)
        try:
            with open(log, "rb", buffering=1 << 20) as file:
                for hart, state in states(file):
                    recorder.put(hart, state)
                    if recorder.is_done():
                        return recorder
                    if time.monotonic() > last:
                        raise Failure(f"after {seconds} seconds not all harts are at halt")
        finally:
            process.kill()
            process.wait()
    raise Failure("QEMU ended: " + process.stderr.read().decode(errors="replace").strip())


def write_trace(recorder, path):
    """Writes the trace, and answers how many events it has."""
    events = list(recorder.events())
    with open(path, "w") as file:
        file.write(f"trace 1 harts {len(recorder.image.halts)} events {len(events)}\n")
        for event in events:
            file.write(event_text(event) + "\n")
        file.write("end\n")
    return len(events)


def judged(program, path, trace):
    """The three lines of the program."""
    try:
        done = subprocess.run([program, "judge", path, trace], capture_output=True, text=True)
    except OSError as why:
        raise Failure(f"{program} can't be run ({why.strerror}); the gate leaves the program there") from None
    if done.returncode not in (0, 1):
        raise Failure(f"{program} ended with status {done.returncode}: {done.stderr.strip()}")
    return done.stdout.splitlines()


def main():
    words = argparse.ArgumentParser(description=__doc__, formatter_class=argparse.RawDescriptionHelpFormatter)
    words.add_argument("image")
    words.add_argument("--order", choices=["one", "many"], default="one")
    words.add_argument("--trace", metavar="OUT")
    words.add_argument("--seconds", type=float, default=120, metavar="N")
    words.add_argument("--threadmill", default=str(PROGRAM), metavar="PATH")
    asked = words.parse_args()
    image = Image(asked.image)
    recorder = recorded(image, asked.image, "single" if asked.order == "one" else "multi", asked.seconds)
    with tempfile.TemporaryDirectory() as folder:
        trace = asked.trace or str(Path(folder) / "trace")
        print(f"recorded: harts {len(image.halts)}, events {write_trace(recorder, trace)}")
        if recorder.unknown:
            print(f"{recorder.unknown} loads into x0, which are taken to have read what was written last")
        lines = judged(asked.threadmill, asked.image, trace)
    if asked.order == "many":
        lines = lines[:1]
        print("the order of accesses isn't told, so that plain and legal aren't judged")
    print("\n".join(lines))
    return 0 if all(line.endswith(": yes") for line in lines) else 1


if __name__ == "__main__":
    try:
        sys.exit(main())
    except (Failure, OSError) as why:
        print(f"judge_qemu.py: {why}", file=sys.stderr)
        sys.exit(2)
