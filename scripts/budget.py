#!/usr/bin/env python3
"""Tells the budget of images: a run with a limit of so many events ends with all harts at halt.

A run in round order has fewer events, and so has a run with a thread for each hart where the call returns. The number
follows from the texts in the image alone, by the formula of docs/formats.md; it is read here by the second reading in
scripts/derive, not by the program. `run` without --events stops at 4,000,000 events, and --events goes to 100,000,000.
It isn't part of the gate.

For each image it prints its name, its budget, and what to write behind `run IMAGE`, if anything. It ends with status 0,
or with 1 where a file is no image or can't be read."""

import argparse
import sys
from pathlib import Path

sys.path.insert(0, str(Path(__file__).resolve().parent))

from derive.bounds import budget
from derive.elf import read_elf
from derive.faults import Fault
from derive.image import read_inputs
from derive.streams import streams

DEFAULT_EVENTS = 4_000_000
MOST_EVENTS = 100_000_000


def budget_of(file):
    parts = read_elf(file)
    return budget(streams(read_inputs(parts.topology, parts.template), parts.seed))


def advice(events):
    """What a user adds to `run`."""
    if events <= DEFAULT_EVENTS:
        return ""
    return f" --events {events}" if events <= MOST_EVENTS else " more than a run can have"


def main():
    parser = argparse.ArgumentParser(description=__doc__, formatter_class=argparse.RawDescriptionHelpFormatter)
    parser.add_argument("images", nargs="+", metavar="image")
    status = 0
    for name in parser.parse_args().images:
        try:
            events = budget_of(Path(name).read_bytes())
            print(f"{name}: {events}{advice(events)}")
        except (Fault, OSError) as why:
            told = f"no image ({why.told()})" if isinstance(why, Fault) else why.strerror
            print(f"budget.py: {name}: {told}", file=sys.stderr)
            status = 1
    return status


if __name__ == "__main__":
    sys.exit(main())
