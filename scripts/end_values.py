#!/usr/bin/env python3
"""Prints the end values that an image's streams have, for who looks for the cause of a report.

For each case and hart a line tells each register, and each dword of shared memory that the hart collects, with its
value at the end of the last pass of a run in round order. What is checked is the same in every pass of every run on a
processor that does what it should. A register that isn't checked stands as `free`, and a byte that isn't as two dots,
the highest byte first. The values are those of the second reading in scripts/derive, and are not proved.

It ends with status 2 where the file is no image, or the run has more than the most events."""

import argparse
import sys
from pathlib import Path

sys.path.insert(0, str(Path(__file__).resolve().parent))

from derive import memory_map as places
from derive.bounds import owned
from derive.faults import Fault
from derive.image import open_image
from derive.simulator import Run


class WatchedRun(Run):
    """A run that keeps what a hart has saved when it writes a verdict."""

    def __init__(self, image, most):
        self.saved = {}
        super().__init__(image, most)

    def put(self, addr, data):
        super().put(addr, data)
        first = places.verdict(0, 0)
        if first <= addr < first + 8 * 16 * len(self.cases.cases):
            c, h = divmod((addr - first) // 8, 16)
            at = places.save(h, self.cases.passes - 1)
            self.saved[c, h] = [self.read(at + 8 * i, 8) for i in range(30 + len(owned(self.cases, h)))]


def register_lines(values, mask):
    for r in range(1, 31):
        yield f"x{r} " + (f"0x{values[r - 1]:016x}" if mask >> r & 1 else "free")


def dword_lines(values, dwords, checked):
    for value, dword in zip(values[30:], dwords):
        data = value.to_bytes(8, "little")
        shown = [f"{data[j]:02x}" if checked[dword + j] else ".." for j in range(8)]
        yield f"0x{places.WINDOWS + dword:08x} 0x" + "".join(reversed(shown))


def print_values(image, run, asked):
    for c, case in enumerate(run.cases.cases):
        registers, checked = image.masks[c]
        for h in range(run.cases.harts):
            if asked.case not in (None, c) or asked.hart not in (None, h):
                continue
            print(f"case {c} {case.name} hart {h}")
            values = run.saved[c, h]
            for line in register_lines(values, registers[h]):
                print(line)
            for line in dword_lines(values, owned(run.cases, h), checked):
                print(line)


def main():
    parser = argparse.ArgumentParser(
        description=__doc__, formatter_class=argparse.RawDescriptionHelpFormatter
    )
    parser.add_argument("image")
    parser.add_argument("--case", type=int, metavar="C", help="of this case alone")
    parser.add_argument("--hart", type=int, metavar="H", help="of this hart alone")
    parser.add_argument("--events", type=int, default=4_000_000, metavar="N", help="the most events (4,000,000)")
    asked = parser.parse_args()
    try:
        image = open_image(Path(asked.image).read_bytes())
    except (Fault, OSError) as why:
        print(f"end_values.py: {why.told() if isinstance(why, Fault) else why}", file=sys.stderr)
        return 2
    run = WatchedRun(image, asked.events)
    if run.halted() < run.cases.harts:
        print("end_values.py: the run has more events than that", file=sys.stderr)
        return 2
    print_values(image, run, asked)
    return 0


if __name__ == "__main__":
    sys.exit(main())
