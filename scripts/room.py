#!/usr/bin/env python3
"""Measures the address space that a run takes, by running it under a limit. It isn't part of the gate.

usage: room.py THREADMILL IMAGE

A run in round order of at most N events takes room for the guest's memory, 16 MiB, and for 40 bytes an event, and some
more for the program itself, its stack, the file and what it is built of again. For some N the least limit is sought
under which the run doesn't end for want of memory, and what it is above 16 MiB + 40 N is told. Ends with status 1 where
that rest is more than 16 MiB, or where a limit that is too low ends in another way than with status 6.
"""
import argparse
import resource
import subprocess
import sys

GUEST = 16 << 20
EVENT = 40
REST = 16 << 20
STEP = 256 << 10
COUNTS = (1_000, 1_000_000, 4_000_000, 20_000_000)
NO_MEMORY = 6
DONE = (0, 4)


def ended(words, limit):
    """The status of a command under a limit of its address space, None where it couldn't be started."""

    def bound():
        resource.setrlimit(resource.RLIMIT_AS, (limit, limit))

    try:
        return subprocess.run(words, preexec_fn=bound, capture_output=True, check=False).returncode
    except (OSError, subprocess.SubprocessError):
        return None


def least(words, strange):
    """The least limit, in steps, under which the command has memory enough. What is neither goes to `strange`."""
    low, high = 0, 1 << 34
    while high - low > STEP:
        middle = (low + high) // 2
        status = ended(words, middle)
        if status in DONE:
            high = middle
        else:
            low = middle
            if status not in (NO_MEMORY, None):
                strange.append((middle, status))
    return high


def main():
    parser = argparse.ArgumentParser(description=__doc__, formatter_class=argparse.RawDescriptionHelpFormatter)
    parser.add_argument("threadmill", help="the program, as LLVM compiles it")
    parser.add_argument("image", help="an image that it built")
    given = parser.parse_args()
    worst = 0
    for count in COUNTS:
        strange = []
        words = [given.threadmill, "run", given.image, "--order", "round", "--events", str(count)]
        needed = least(words, strange)
        rest = needed - GUEST - EVENT * count
        worst = max(worst, rest)
        print(f"{count} events: {needed / 2**20:.1f} MiB, which is 16 MiB + 40 N + {rest / 2**20:.1f} MiB")
        # A process that the system can't load at all ends by a signal or an error of the loader; a limit that is high
        # enough for that has to end with 6.
        for limit, status in strange:
            if limit > REST:
                print(f"under a limit of {limit / 2**20:.1f} MiB the status was {status}")
                worst = max(worst, REST + 1)
    return 0 if worst <= REST else 1


if __name__ == "__main__":
    sys.exit(main())
