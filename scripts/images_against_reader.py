#!/usr/bin/env python3
"""Builds images of random texts by the program, and compares with the second reading in scripts/derive.

Compared are the file, byte by byte, its listing, and the report of its run in round order. Seed n gives the texts and
the seed of image n, as in scripts/seeds_on_qemu.py. It isn't part of the gate.

It ends with status 0 where all agree, and with 1 where one differs."""

import argparse
import random
import subprocess
import sys
from pathlib import Path

sys.path.insert(0, str(Path(__file__).resolve().parent))

from derive import texts
from derive.elf import first_difference
from derive.image import Image
from derive.simulator import Run
from seeds_on_qemu import template_of, topology_of


def printed(program, *words):
    """What the program prints, and its status."""
    done = subprocess.run([program, *words], capture_output=True, check=False)
    return done.stdout + b"status %d\n" % done.returncode


def differences(program, folder, seed):
    """What differs in the image of a seed."""
    draw = random.Random(seed)
    topology, cores, threads, line = topology_of(draw)
    template = template_of(draw, cores, threads, line)
    names = [str(folder / f"{seed}.{end}") for end in ("toml", "tm", "elf")]
    Path(names[0]).write_text(topology)
    Path(names[1]).write_text(template)
    built = printed(program, "build", *names, "--seed", str(seed))
    image = Image(topology.encode(), template.encode(), seed)
    at = first_difference(image.file, Path(names[2]).read_bytes())
    if at is not None:
        yield f"the files differ at {at}; the program printed {built.decode()}"
    if printed(program, "list", names[2]) != texts.listing(image) + b"status 0\n":
        yield "the listings differ"
    run = Run(image, 4_000_000)
    done = run.halted() == run.cases.harts
    report = (texts.report(run) if done else texts.full_line(run)) + b"status %d\n" % (0 if done else 4)
    if printed(program, "run", names[2], "--order", "round") != report:
        yield "the reports differ"


def main():
    parser = argparse.ArgumentParser(description=__doc__, formatter_class=argparse.RawDescriptionHelpFormatter)
    parser.add_argument("threadmill", help="the program")
    parser.add_argument("folder", type=Path, help="a folder for the texts and the images")
    parser.add_argument("--first", type=int, default=0, metavar="N", help="the first seed (0)")
    parser.add_argument("--count", type=int, default=20, metavar="N", help="how many seeds (20)")
    asked = parser.parse_args()
    asked.folder.mkdir(parents=True, exist_ok=True)
    wrong = 0
    for seed in range(asked.first, asked.first + asked.count):
        found = list(differences(asked.threadmill, asked.folder, seed))
        wrong += bool(found)
        for line in found:
            print(f"seed {seed}: {line}")
    print(f"{asked.count - wrong} of {asked.count} images agree")
    return 1 if wrong else 0


if __name__ == "__main__":
    sys.exit(main())
