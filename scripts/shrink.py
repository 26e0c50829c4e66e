#!/usr/bin/env python3
"""Makes a smaller test of an image, of which a command still says that it fails.

--run is how an image is tried: a command of your own, in which {} stands for the image's file, and which ends with
another status than 0 where it still fails, as `ssh lab run_on_board {}` or
`threadmill run {} --order round --faults board.faults`. With --fails S only the status S says so; take --fails 1 where
the command could end otherwise for want of something. --tries N tries each test up to N times, for a fault that doesn't
come in each run.

The test is written out first, each slot as the `emit` line that `threadmill list` shows, with the numbers of cases,
harts and slots and the seed as they are, so that first values stay. Then, as long as the command says that it fails:

  cases    the last ones are left out, others lose their slots, and in the end go away
  harts    lose their slots, and go away
  passes   are made fewer
  slots    become `addi x0, x0, 0`, many at once and then one by one; then these are taken out, and branches lead on to
           the slot that they led to. --in-place leaves them, where a script or a board counts slots
  windows  that no slot needs go away

What is found is left in FOLDER as small.toml, small.tm and small.elf; where it is stopped, what it has found by then.
It isn't part of the gate, and nothing is proved.

It ends with status 0; with 1 where the image itself, or its test as it is written out, doesn't fail; and with 2 where
nothing could be tried."""

import argparse
import os
import shlex
import struct
import subprocess
import sys
from collections import namedtuple
from pathlib import Path

HERE = Path(__file__).resolve().parent
sys.path.insert(0, str(HERE))

from derive.assembler import print_line
from derive.elf import read_elf
from derive.faults import Fault
from derive.image import topology_of
from derive.table import BRANCHES, Instr
from survey import FileImage, decode

PROGRAM = HERE.parent / "crates" / "threadmill" / "out" / "threadmill"
NOTHING = Instr("addi", 0, 0, 0, 0)

# A test: how many cores and threads, the seed, the passes, the windows, and the cases, each a name and a tuple of a
# tuple of instructions for each hart. The instructions of a hart without a body are none.
Test = namedtuple("Test", "cores threads line seed name passes windows cases")


class Stop(Exception):
    """Why nothing is made smaller: a status, and a line."""

    def __init__(self, status, line):
        super().__init__(line)
        self.status = status


def read_test(file):
    """The test of an image's file."""
    image = FileImage(file)
    topology = topology_of(read_elf(file).topology)
    cases = tuple((case.name, tuple(tuple(map(decode, words)) for words in case.words)) for case in image.cases.cases)
    windows = tuple((w.number, w.kind, w.lines) for w in image.cases.shape.windows if w)
    shape = topology.cores, topology.threads, topology.line
    return Test(*shape, image.seed, image.cases.name, image.cases.passes, windows, cases)


def body_text(h, stream):
    return f"body hart {h}\n" + "".join(f"emit {print_line(i)}\n" for i in stream) if stream else ""


def texts(test):
    """The topology and the template of a test."""
    topology = f"cores = {test.cores}\nthreads = {test.threads}\nline = {test.line}\n"
    lines = [f"template {test.name}\npasses {test.passes}\n"]
    lines += [f"window {number} {kind} {count}\n" for number, kind, count in test.windows]
    for name, streams in test.cases:
        lines.append(f"case {name}\n")
        lines += [body_text(h, stream) for h, stream in enumerate(streams)]
    return topology, "".join(lines)


class Trial:
    """Builds tests and tries them; keeps what it was told of each."""

    def __init__(self, asked):
        self.asked = asked
        self.folder = asked.folder
        self.known = {}
        self.tried = 0

    def fails(self, image):
        """Whether the command says that an image fails."""
        words = self.asked.run.replace("{}", shlex.quote(str(image)))
        for _ in range(self.asked.tries):
            self.tried += 1
            status = subprocess.run(words, shell=True, capture_output=True, check=False).returncode
            if status != 0 and self.asked.fails in (None, status):
                return True
        return False

    def build(self, test, name):
        """The file of a test's image, None where the program refuses it."""
        paths = [self.folder / f"{name}.{end}" for end in ("toml", "tm", "elf")]
        for path, words in zip(paths, texts(test)):
            path.write_text(words, encoding="ascii")
        words = [self.asked.threadmill, "build", *map(str, paths), "--seed", str(test.seed)]
        done = subprocess.run(words, capture_output=True, check=False)
        return paths[2] if done.returncode == 0 else None

    def still(self, test):
        """Whether a test is one that still fails."""
        key = texts(test)
        if key not in self.known:
            image = self.build(test, "trial")
            self.known[key] = image is not None and self.fails(image)
            if self.known[key]:
                self.keep()
            self.show(test)
        return self.known[key]

    def keep(self):
        """What fails is the smallest test so far."""
        for path in self.folder.glob("trial.*"):
            path.replace(path.with_stem("small"))

    def show(self, test):
        if sys.stderr.isatty():
            sys.stderr.write(f"\r\x1b[K{self.tried} tries, at {sizes(test)}")


def sizes(test):
    slots = sum(len(stream) for _, streams in test.cases for stream in streams)
    return f"{len(test.cases)} cases, {test.cores * test.threads} harts, {test.passes} passes, {slots} slots"


def with_stream(test, c, h, stream):
    """A test with another stream of a hart in a case."""
    name, streams = test.cases[c]
    streams = streams[:h] + (tuple(stream),) + streams[h + 1 :]
    return test._replace(cases=test.cases[:c] + ((name, streams),) + test.cases[c + 1 :])


def without_case(test, c):
    return test._replace(cases=test.cases[:c] + test.cases[c + 1 :])


def emptied(test, c):
    """A test in which no hart has slots in a case."""
    name, streams = test.cases[c]
    return test._replace(cases=test.cases[:c] + ((name, ((),) * len(streams)),) + test.cases[c + 1 :])


def first(trial, test, candidates):
    """The first of the candidates that still fails, or the test as it is."""
    return next((candidate for candidate in candidates if trial.still(candidate)), test)


def fewer_cases(trial, test):
    """Cases are taken away: the last ones by halves, then those before one by one."""
    step = len(test.cases)
    while step:
        if step < len(test.cases) and trial.still(test._replace(cases=test.cases[:-step])):
            test = test._replace(cases=test.cases[:-step])
        else:
            step //= 2
    for c in range(len(test.cases)):
        test = first(trial, test, [emptied(test, c)])
    for c in reversed(range(len(test.cases))):
        if len(test.cases) > 1:
            test = first(trial, test, [without_case(test, c)])
    return test


def of_harts(test, harts):
    """A test of some of the harts alone, one a core."""
    cases = tuple((name, tuple(streams[h] for h in harts)) for name, streams in test.cases)
    return test._replace(cores=len(harts), threads=1, cases=cases)


def fewer_harts(trial, test):
    """Harts lose their slots, and go away: those without slots, or the last ones."""
    harts = test.cores * test.threads
    for h in range(harts):
        streams = [(name, s[:h] + ((),) + s[h + 1 :]) for name, s in test.cases]
        test = first(trial, test, [test._replace(cases=tuple(streams))])
    needed = [h for h in range(harts) if any(streams[h] for _, streams in test.cases)] or [0]
    kept = sorted({tuple(needed), *(tuple(range(n)) for n in range(1, harts))}, key=len)
    return first(trial, test, [of_harts(test, some) for some in kept if len(some) < harts])


def fewer_passes(trial, test):
    return first(trial, test, [test._replace(passes=n) for n in range(2, test.passes)])


def replaced(trial, test, c, h):
    """Slots of a stream become nothing: many at once, then fewer."""
    size = len(test.cases[c][1][h])
    while size:
        at = 0
        while at < len(test.cases[c][1][h]):
            stream = list(test.cases[c][1][h])
            part = stream[at : at + size]
            if any(i != NOTHING for i in part):
                stream[at : at + size] = [NOTHING] * len(part)
                test = first(trial, test, [with_stream(test, c, h, stream)])
            at += size
        size //= 2
    return test


def is_jump(i):
    return i.op in BRANCHES or i.op == "jal"


def without_slots(stream, gone):
    """A stream without some slots; branches lead on to the slot that they led to, or to the first that is left."""
    left = [n for n in range(len(stream)) if n not in gone]
    now = {n: sum(m < n for m in left) for n in range(len(stream) + 1)}
    out = []
    for n in left:
        i = stream[n]
        if is_jump(i):
            target = min(n + i.imm // 4, len(stream))
            i = i._replace(imm=4 * max(now[target] - now[n], 1))
        out.append(i)
    return out


def taken_out(trial, test, c, h):
    """Slots that do nothing are taken out: all of them, else one by one."""
    stream = test.cases[c][1][h]
    empty = {n for n, i in enumerate(stream) if i == NOTHING}
    if len(empty) == len(stream):
        return first(trial, test, [with_stream(test, c, h, ())])
    test = first(trial, test, [with_stream(test, c, h, without_slots(stream, empty))])
    if len(test.cases[c][1][h]) < len(stream):
        return test
    for n in sorted(empty, reverse=True):
        test = first(trial, test, [with_stream(test, c, h, without_slots(test.cases[c][1][h], {n}))])
    return test


def fewer_slots(trial, test, in_place):
    for c, (_, streams) in enumerate(test.cases):
        for h in range(len(streams)):
            test = replaced(trial, test, c, h)
            if not in_place:
                test = taken_out(trial, test, c, h)
    return test


def fewer_windows(trial, test):
    for window in test.windows:
        left = tuple(other for other in test.windows if other != window)
        test = first(trial, test, [test._replace(windows=left)])
    return test


def shrunk(trial, test, in_place):
    """The smallest test that is found."""
    while True:
        before = texts(test)
        for step in (fewer_cases, fewer_harts, fewer_passes):
            test = step(trial, test)
        test = fewer_windows(trial, fewer_slots(trial, test, in_place))
        if texts(test) == before:
            return test


def parsed():
    parser = argparse.ArgumentParser(description=__doc__, formatter_class=argparse.RawDescriptionHelpFormatter)
    parser.add_argument("image")
    parser.add_argument("folder", type=Path, help="where the smaller test is left")
    parser.add_argument("--run", required=True, metavar="COMMAND", help="how an image is tried; {} is its file")
    parser.add_argument("--fails", type=int, metavar="S", help="the status that says that it fails (any but 0)")
    parser.add_argument("--tries", type=int, default=1, metavar="N", help="try each test up to N times (1)")
    parser.add_argument("--in-place", action="store_true", help="leave slots that do nothing where they are")
    parser.add_argument("--threadmill", default=str(PROGRAM), metavar="PATH", help=f"the program ({PROGRAM})")
    return parser.parse_args()


def main():
    asked = parsed()
    if not os.access(asked.threadmill, os.X_OK) or not os.path.isfile(asked.threadmill):
        raise Stop(2, f"{asked.threadmill} isn't the program; name it with --threadmill, or build it with `rt ci`")
    test = read_test(Path(asked.image).read_bytes())
    asked.folder.mkdir(parents=True, exist_ok=True)
    trial = Trial(asked)
    if not trial.fails(asked.image):
        raise Stop(1, "the command doesn't say that the image fails")
    if not trial.still(test):
        raise Stop(1, "the test as it is written out doesn't fail; its texts are left as trial.toml and trial.tm")
    try:
        small = shrunk(trial, test, asked.in_place)
    except KeyboardInterrupt:
        raise Stop(2, "stopped; the smallest test so far is left as small.toml, small.tm and small.elf") from None
    for path in asked.folder.glob("trial.*"):
        path.unlink()
    if sys.stderr.isatty():
        sys.stderr.write("\r\x1b[K")
    print(f"from {sizes(test)}\nto   {sizes(small)}\nseed {small.seed}, {trial.tried} tries\n")
    print(texts(small)[1], end="")
    return 0


if __name__ == "__main__":
    try:
        sys.exit(main())
    except KeyboardInterrupt:
        sys.exit(2)
    except (KeyError, struct.error):
        print("shrink.py: the file isn't as it was built", file=sys.stderr)
        sys.exit(2)
    except Stop as why:
        print(f"shrink.py: {why}", file=sys.stderr)
        sys.exit(why.status)
    except (Fault, OSError) as why:
        print(f"shrink.py: {why.told() if isinstance(why, Fault) else why}", file=sys.stderr)
        sys.exit(2)
