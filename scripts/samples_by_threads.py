#!/usr/bin/env python3
"""Builds the images of samples and runs each with a thread for each hart; counts the cases that are reported.

`sample N` itself runs in round order; here the same two texts go through `build` and `run`. With --busy there is one
busy loop for each processor beside the runs, so that threads wait for the scheduler at every turn; --jobs J then keeps
J runs going at once. It isn't part of the gate.

It ends with status 0 where each run ended with status 0 and reported nothing, with 1 where one didn't, and with 2 where
nothing could be run."""

import argparse
import shutil
import subprocess
import sys
import time
from concurrent.futures import ThreadPoolExecutor
from contextlib import nullcontext
from pathlib import Path

sys.path.insert(0, str(Path(__file__).resolve().parent))

from busy import busy_loops


def texts_of(number):
    """The topology and the template of a sample."""
    cores, line = 1 + number % 2, (32, 64, 128)[number % 3]
    topology = f"cores = {cores}\nthreads = 2\nline = {line}\nbias = {number % 101}\n"
    head = f"template sample\npasses {2 + number % 3}\nwindow 0 true 2\nwindow 1 false 2\nwindow 2 own 8\n"
    cases = "".join(f"case c{c}\nbody all\nmix 100 alu 4 load 3 store 3 branch 1\n" for c in range(8))
    return topology, head + cases


def try_sample(program, folder, number, longest):
    """What is wrong with a sample's run, or None."""
    names = [folder / f"{number}.{end}" for end in ("toml", "tm", "elf")]
    for file, text in zip(names, texts_of(number)):
        file.write_text(text)
    try:
        built = subprocess.run([program, "build", *names, "--seed", str(number)], capture_output=True, text=True)
        if built.returncode:
            return f"sample {number}: not built: {built.stderr.strip()}"
        ran = subprocess.run([program, "run", names[2]], capture_output=True, text=True, timeout=longest)
    except subprocess.TimeoutExpired:
        return f"sample {number}: no end after {longest:g} seconds"
    finally:
        for name in names:
            name.unlink(missing_ok=True)
    if ran.returncode == 0 and ran.stdout.split("\n")[:8] == [f"case {c} c{c}: ok" for c in range(8)]:
        return None
    return f"sample {number}: status {ran.returncode}: {ran.stdout}{ran.stderr}"


def run_all(asked):
    """How many samples were wrong; each is told."""
    wrong = 0
    with ThreadPoolExecutor(asked.jobs) as pool:
        numbers = range(asked.first, asked.first + asked.count)
        try:
            told = pool.map(lambda n: try_sample(asked.program, asked.folder, n, asked.seconds), numbers)
            for done, why in enumerate(told, 1):
                if why:
                    wrong += 1
                    print(why, flush=True)
                if sys.stderr.isatty():
                    sys.stderr.write(f"\r\x1b[K{done} of {asked.count} samples")
        except BaseException:
            pool.shutdown(wait=False, cancel_futures=True)
            raise
    if sys.stderr.isatty():
        sys.stderr.write("\r\x1b[K")
    return wrong


def main():
    parser = argparse.ArgumentParser(description=__doc__, formatter_class=argparse.RawDescriptionHelpFormatter)
    parser.add_argument("program")
    parser.add_argument("folder", type=Path, help="for what is made")
    parser.add_argument("--first", type=int, default=0, metavar="N", help="from sample N on (0)")
    parser.add_argument("--count", type=int, default=1000, metavar="N", help="so many samples (1000)")
    parser.add_argument("--jobs", type=int, default=1, metavar="J", help="so many runs at once (1)")
    parser.add_argument("--seconds", type=float, default=600, metavar="S", help="how long a run may take (600)")
    parser.add_argument("--busy", action="store_true", help="beside one busy loop for each processor")
    asked = parser.parse_args()
    if shutil.which(asked.program) is None:
        print(f"samples_by_threads.py: there is no program {asked.program}", file=sys.stderr)
        return 2
    asked.folder.mkdir(parents=True, exist_ok=True)
    begun = time.monotonic()
    with busy_loops() if asked.busy else nullcontext():
        wrong = run_all(asked)
    how = "beside busy loops, " if asked.busy else ""
    print(f"{asked.count} samples by threads, {how}{asked.count - wrong} with reported 0, {wrong} not, "
          f"{time.monotonic() - begun:.0f} s")
    return 1 if wrong else 0


if __name__ == "__main__":
    try:
        sys.exit(main())
    except KeyboardInterrupt:
        sys.exit(2)
    except OSError as why:
        print(f"samples_by_threads.py: {why}", file=sys.stderr)
        sys.exit(2)
