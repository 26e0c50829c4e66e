#!/usr/bin/env python3
"""Tries scripts/read_out.py on QEMU's stub for gdb: with images of 1 to 8 harts, and with a fault that gdb plants.

For each number of harts an image of two cases is built by the second reading in scripts/derive, and QEMU is started
with as many processors, all held. It is read out four times: as it is; with --poll in place of breakpoints at the halt
marks; with a register of the last hart changed by gdb before a slot in pass 2, which the report has to name, with the
hart and the pass; and once more as it is, where nothing may be left of the fault. What was printed is left in FOLDER.
Needs qemu-system-riscv64 and gdb-multiarch (Debian: qemu-system-misc, gdb-multiarch). It isn't part of the gate.

It ends with status 0 where all came as it should, with 1 where something didn't, and with 2 where nothing could be
tried."""

import argparse
import shutil
import socket
import subprocess
import sys
import time
from pathlib import Path

HERE = Path(__file__).resolve().parent
sys.path.insert(0, str(HERE))

from derive.image import Image

# The cores and the threads of each number of harts.
SYSTEMS = {1: (1, 1), 2: (2, 1), 3: (1, 3), 4: (2, 2), 5: (5, 1), 6: (3, 2), 7: (7, 1), 8: (4, 2)}
TEMPLATE = b"""template read_out
passes 3
window 0 true 2
window 2 own 8
case slots
body all
emit addi x6, x5, 1
emit add x7, x6, x5
emit ld x8, 0(x28)
case drawn
body all
mix 60 alu 4 load 3 store 3 branch 1
"""
FINE = "case 0 slots: ok\ncase 1 drawn: ok\n"


class Stub:
    """A QEMU whose harts are held, behind a stub for gdb at a free port of this machine."""

    def __init__(self, harts):
        with socket.socket() as free:
            free.bind(("localhost", 0))
            self.port = free.getsockname()[1]
        words = ["qemu-system-riscv64", "-machine", "virt", "-bios", "none", "-smp", str(harts), "-m", "64M"]
        words += ["-display", "none", "-serial", "none", "-monitor", "none", "-S", "-gdb", f"tcp:localhost:{self.port}"]
        self.process = subprocess.Popen(words, stdin=subprocess.DEVNULL)
        time.sleep(1)

    def end(self):
        self.process.kill()
        self.process.wait()


def built(harts, folder):
    cores, threads = SYSTEMS[harts]
    topology = f"cores = {cores}\nthreads = {threads}\nline = 64\n".encode()
    image = folder / f"{harts}.elf"
    image.write_bytes(Image(topology, TEMPLATE, harts).file)
    return image


def tries(harts):
    """What is tried: a name, the words, and what has to come of it."""
    last = harts - 1
    planted = f"case 0 slots: hart {last} pass 2 x6\ncase 1 drawn: ok\n"
    yield "plain", [], (0, FINE)
    yield "polled", ["--loaded", "--poll", "0.3"], (0, FINE)
    yield "planted", ["--loaded", "--plant", "0", str(last), "2", "1", "x6", "0x10"], (1, planted)
    yield "plain again", ["--loaded"], (0, FINE)


def try_harts(harts, asked):
    """The line of a number of harts, and whether all came as it should."""
    image, stub, told = built(harts, asked.folder), Stub(harts), []
    try:
        for name, words, wanted in tries(harts):
            if sys.stderr.isatty():
                sys.stderr.write(f"\r\x1b[K{harts} harts: {name}")
            command = [sys.executable, HERE / "read_out.py", image, "--remote", f"localhost:{stub.port}", *words]
            done = subprocess.run([*command, "--seconds", str(asked.seconds)], capture_output=True, text=True)
            out = asked.folder / f"{harts}.{name.replace(' ', '_')}"
            out.write_text(done.stdout + done.stderr)
            told.append(f"{name} ok" if (done.returncode, done.stdout) == wanted else f"{name} FAILED (see {out})")
    finally:
        stub.end()
    if sys.stderr.isatty():
        sys.stderr.write("\r\x1b[K")
    return f"{harts} harts: " + ", ".join(told), all(part.endswith(" ok") for part in told)


def main():
    parser = argparse.ArgumentParser(description=__doc__, formatter_class=argparse.RawDescriptionHelpFormatter)
    parser.add_argument("folder", type=Path, help="a folder for what is made")
    parser.add_argument("--harts", type=int, choices=SYSTEMS, metavar="N", help="with this number of harts alone")
    parser.add_argument("--seconds", type=float, default=120, metavar="S", help="how long to wait for halt (120)")
    asked = parser.parse_args()
    for tool, package in (("qemu-system-riscv64", "qemu-system-misc"), ("gdb-multiarch", "gdb-multiarch")):
        if shutil.which(tool) is None:
            print(f"try_read_out.py: there is no {tool} (Debian: {package})", file=sys.stderr)
            return 2
    asked.folder.mkdir(parents=True, exist_ok=True)
    is_all_good = True
    for harts in [asked.harts] if asked.harts else SYSTEMS:
        line, is_good = try_harts(harts, asked)
        print(line, flush=True)
        is_all_good = is_all_good and is_good
    return 0 if is_all_good else 1


if __name__ == "__main__":
    try:
        sys.exit(main())
    except KeyboardInterrupt:
        sys.exit(2)
    except OSError as why:
        print(f"try_read_out.py: {why}", file=sys.stderr)
        sys.exit(2)
