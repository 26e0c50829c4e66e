#!/usr/bin/env python3
"""Runs an image of threadmill on QEMU and prints its report. It isn't part of the gate, and a run on QEMU is no proof.

usage: run_on_qemu.py IMAGE [--seconds N]        N is 60 where it isn't given

Needs qemu-system-riscv64 (Debian: qemu-system-misc). The image's harts run as one processor each of the machine
`virt`, without firmware. The machine is stopped and looked at until the program counter of every hart is its halt
mark (the symbols tm_halt_H); then the verdict cells are read, and told as the report's lines:

    case C NAME: ok
    case C NAME: hart H pass K WHERE      WHERE is a register, or the address of a dword of shared memory

Ends with 0 where all verdicts are 0, with 1 where one isn't, and with 2 where nothing could be told.
"""
import argparse
import re
import shutil
import socket
import struct
import subprocess
import sys
import tempfile
import time
import tomllib
from pathlib import Path

VERDICTS = 0x80C01000
WINDOWS = 0x80E80000
PROMPT = b"(qemu) "


class Failure(Exception):
    """Why nothing could be told."""


def sections(image):
    """The plan, the symbol table and the strings of an image: its sections 4, 5 and 6."""
    if len(image) < 744 or image[:4] != b"\x7fELF":
        raise Failure("the file is no image")
    at = struct.unpack_from("<Q", image, 40)[0]
    if at + 512 != len(image):
        raise Failure("the file is no image: its section headers don't end it")
    found = []
    for number in (4, 5, 6):
        offset, size = struct.unpack_from("<QQ", image, at + 64 * number + 24)
        found.append(image[offset : offset + size])
    return found


def symbols_of(table, strings):
    """The addresses by name."""
    found = {}
    for at in range(24, len(table), 24):
        name, addr = struct.unpack_from("<I", table, at)[0], struct.unpack_from("<Q", table, at + 8)[0]
        found[strings[name : strings.index(b"\0", name)].decode()] = addr
    return found


def plan_of(plan):
    """What the report needs of the two texts that the image was built of."""
    if plan[:6] != b"TMPLAN":
        raise Failure("the image has no plan")
    topology_size, template_size = struct.unpack_from("<II", plan, 16)
    topology = tomllib.loads(plan[24 : 24 + topology_size].decode())
    text = plan[24 + topology_size :][:template_size].decode("latin-1")
    lines = [words for words in (line.split("#")[0].split() for line in text.split("\n")) if words]
    windows = {int(words[1], 0): int(words[3], 0) for words in lines if words[0] == "window"}
    cases = [words[1] for words in lines if words[0] == "case"]
    return topology["cores"] * topology["threads"], topology["line"], windows, cases


def collected(hart, harts, line, windows):
    """The dwords of shared memory that a hart collects, in the order of addresses."""
    for number in sorted(windows):
        base = WINDOWS + 0x800 * number
        for addr in range(base, base + windows[number] * line, 8):
            if (addr - WINDOWS) // line % harts == hart:
                yield addr


class Machine:
    """A running QEMU, by its monitor."""

    def __init__(self, image, harts, folder):
        program = shutil.which("qemu-system-riscv64")
        if program is None:
            raise Failure("there is no qemu-system-riscv64 (Debian: qemu-system-misc)")
        path = str(Path(folder) / "monitor")
        words = [program, "-machine", "virt", "-bios", "none", "-smp", str(harts), "-m", "64M", "-display", "none"]
        words += ["-serial", "none", "-kernel", image, "-monitor", f"unix:{path},server=on,wait=off"]
        quiet = subprocess.DEVNULL
        self.process = subprocess.Popen(words, stdin=quiet, stdout=quiet, stderr=subprocess.PIPE)
        self.socket = socket.socket(socket.AF_UNIX, socket.SOCK_STREAM)
        self.socket.settimeout(10)
        for _ in range(200):
            if self.process.poll() is not None:
                raise Failure("QEMU ended: " + self.process.stderr.read().decode(errors="replace").strip())
            try:
                self.socket.connect(path)
                break
            except (FileNotFoundError, ConnectionRefusedError):
                time.sleep(0.05)
        else:
            raise Failure("QEMU's monitor doesn't answer")
        self.answer()

    def answer(self):
        got = b""
        while not got.endswith(PROMPT):
            piece = self.socket.recv(65536)
            if not piece:
                raise Failure("QEMU's monitor closed")
            got += piece
        return got.decode(errors="replace")

    def ask(self, command):
        self.socket.sendall(command.encode() + b"\n")
        return self.answer()

    def counters(self):
        """The program counters, hart by hart, of the stopped machine."""
        return [int(word, 16) for word in re.findall(r"\bpc\s+([0-9a-f]+)", self.ask("info registers -a"))]

    def dword(self, addr):
        found = re.search(rf"{addr:016x}: 0x([0-9a-f]+)", self.ask(f"xp /1gx 0x{addr:x}"))
        if found is None:
            raise Failure(f"QEMU doesn't tell the memory at 0x{addr:x}")
        return int(found.group(1), 16)

    def end(self):
        self.process.kill()
        self.process.wait()


def wait_for_halt(machine, halts, seconds):
    last = time.monotonic() + seconds
    while True:
        machine.ask("stop")
        counters = machine.counters()
        if counters[: len(halts)] == halts:
            return
        if time.monotonic() > last:
            there = sum(1 for at, halt in zip(counters, halts) if at == halt)
            raise Failure(f"after {seconds} seconds {there} of {len(halts)} harts are at halt")
        machine.ask("cont")
        time.sleep(0.05)


def report(machine, harts, line, windows, cases):
    """The report's lines, and whether some verdict isn't 0."""
    lines, differs = [], False
    for number, name in enumerate(cases):
        bad = []
        for hart in range(harts):
            verdict = machine.dword(VERDICTS + 8 * (16 * number + hart))
            if verdict:
                passed, part = verdict >> 32, (verdict & 0xFFFFFFFF) - 1
                addresses = list(collected(hart, harts, line, windows))
                where = f"x{part + 1}" if part < 30 else f"0x{addresses[part - 30]:08x}"
                bad.append(f"case {number} {name}: hart {hart} pass {passed} {where}")
        differs = differs or bool(bad)
        lines += bad or [f"case {number} {name}: ok"]
    return lines, differs


def main():
    words = argparse.ArgumentParser(description="Runs an image on QEMU and prints its report.")
    words.add_argument("image")
    words.add_argument("--seconds", type=float, default=60)
    asked = words.parse_args()
    plan, table, strings = sections(Path(asked.image).read_bytes())
    symbols = symbols_of(table, strings)
    harts, line, windows, cases = plan_of(plan)
    missing = [f"tm_halt_{hart}" for hart in range(harts) if f"tm_halt_{hart}" not in symbols]
    if missing:
        raise Failure("the image has no symbol " + missing[0])
    halts = [symbols[f"tm_halt_{hart}"] for hart in range(harts)]
    with tempfile.TemporaryDirectory() as folder:
        machine = Machine(asked.image, harts, folder)
        try:
            wait_for_halt(machine, halts, asked.seconds)
            lines, differs = report(machine, harts, line, windows, cases)
        finally:
            machine.end()
    print("\n".join(lines))
    return 1 if differs else 0


if __name__ == "__main__":
    try:
        sys.exit(main())
    except (Failure, OSError) as why:
        print(f"run_on_qemu.py: {why}", file=sys.stderr)
        sys.exit(2)
