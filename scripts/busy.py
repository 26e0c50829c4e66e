#!/usr/bin/env python3
"""Runs a program again and again beside one busy loop for each processor, and compares what it does.

Each run has to end with status 0 (or the one that --status names), within --seconds, and to print what stands in the
file of --stdout. It is meant for programs that drive threads, as that of `tm_thread_rows`, whose threads then wait for
the scheduler at every turn:

  scripts/busy.py --count 100 --stdout crates/tm_thread_rows/stdout crates/tm_thread_rows/out/tm_thread_rows

A program is run in a folder of its own, with the files of --data beside it. It isn't part of the gate.

It ends with status 0 where all runs were right, with 1 where one wasn't, and with 2 where nothing could be run."""

import argparse
import os
import shutil
import subprocess
import sys
import tempfile
import time
from contextlib import contextmanager
from pathlib import Path


def busy_loop(processor):
    """A process that keeps one processor busy."""
    loop = subprocess.Popen([sys.executable, "-c", "while True: pass"])
    os.sched_setaffinity(loop.pid, {processor})
    return loop


@contextmanager
def busy_loops():
    """One busy loop for each processor, as long as something is done."""
    loops = []
    try:
        loops += [busy_loop(processor) for processor in sorted(os.sched_getaffinity(0))]
        yield
    finally:
        for loop in loops:
            loop.kill()
            loop.wait()


def what_is_wrong(words, folder, asked, wanted):
    """What is wrong with a run, or None."""
    try:
        done = subprocess.run(words, cwd=folder, capture_output=True, timeout=asked.seconds, check=False)
    except subprocess.TimeoutExpired:
        return f"no end after {asked.seconds:g} seconds"
    if done.returncode != asked.status:
        return f"status {done.returncode}: {(done.stderr or done.stdout).decode(errors='replace').strip()}"
    if wanted is not None and done.stdout != wanted:
        lines = zip(done.stdout.split(b"\n") + [b""], wanted.split(b"\n") + [b""])
        there, right = next(((a, b) for a, b in lines if a != b), (b"more lines, or fewer", b""))
        return f"it printed {there.decode(errors='replace')}, and should have printed {right.decode(errors='replace')}"
    return None


def run_all(asked, words, wanted):
    """The seconds of all runs, and how many were wrong."""
    seconds, wrong = [], 0
    for number in range(1, asked.count + 1):
        with tempfile.TemporaryDirectory() as folder:
            if asked.data:
                shutil.copytree(asked.data, folder, dirs_exist_ok=True)
            begun = time.monotonic()
            why = what_is_wrong(words, folder, asked, wanted)
        seconds.append(time.monotonic() - begun)
        if why:
            wrong += 1
            print(f"run {number}: {why}", flush=True)
        if sys.stderr.isatty():
            sys.stderr.write(f"\r\x1b[K{number} of {asked.count} runs")
    if sys.stderr.isatty():
        sys.stderr.write("\r\x1b[K")
    return seconds, wrong


def main():
    parser = argparse.ArgumentParser(description=__doc__, formatter_class=argparse.RawDescriptionHelpFormatter)
    parser.add_argument("program")
    parser.add_argument("words", nargs=argparse.REMAINDER, help="the program's words")
    parser.add_argument("--count", type=int, default=100, metavar="N", help="run it N times (100)")
    parser.add_argument("--stdout", type=Path, metavar="FILE", help="what each run has to print")
    parser.add_argument("--status", type=int, default=0, metavar="S", help="the status of each run (0)")
    parser.add_argument("--data", type=Path, metavar="FOLDER", help="files that lie where it runs")
    parser.add_argument("--seconds", type=float, default=120, metavar="S", help="how long a run may take (120)")
    asked = parser.parse_args()
    program = shutil.which(asked.program)
    if program is None:
        print(f"busy.py: there is no program {asked.program}", file=sys.stderr)
        return 2
    wanted = asked.stdout.read_bytes() if asked.stdout else None
    with busy_loops():
        seconds, wrong = run_all(asked, [os.path.realpath(program), *asked.words], wanted)
    least, most = min(seconds, default=0), max(seconds, default=0)
    print(f"{asked.count} runs beside busy loops, {wrong} wrong, {least:.1f} to {most:.1f} s each")
    return 1 if wrong else 0


if __name__ == "__main__":
    try:
        sys.exit(main())
    except KeyboardInterrupt:
        sys.exit(2)
    except OSError as why:
        print(f"busy.py: {why}", file=sys.stderr)
        sys.exit(2)
