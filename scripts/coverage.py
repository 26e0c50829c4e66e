#!/usr/bin/env python3
"""Tells how good a test is: which faults in its slots it reports.

Each fault of the image, or a random sample of them, is planted by a script of one line, and the image is run under it
in round order. A fault is planted in one pass alone: one bit of what a slot computes, loads or stores is flipped, its
store is dropped, or its branch goes the other way. For each case, class of slot and kind of fault a table tells how
many were planted and how many reported; then the slots are listed of which no fault was ever seen, each with a reason.

What happens in one case has no say in another: each begins from its own first registers and bytes. So a run plants one
fault in each case, and the report tells which of them was seen. With --alone each fault has a run of its own.

  result    a bit of what is written to a register          drop   a store isn't done
  loaded    a bit of what a load reads                      turn   a branch goes the other way
  stored    a bit of what a store writes

Many faults are rightly not seen. Behind a slot of which none was seen stands

  not run        no run of the image without faults comes to it: a branch leads over it
  overwritten    later slots set again all that depends on it
  not compared   all that depends on it may lawfully differ between passes, since it depends on a race
  no difference  something that is compared depends on it, but came out the same

The reason is worked out from the stream and the masks alone, but for the first, and tells what may depend on the slot
whichever way branches go. It isn't part of the gate, and nothing is proved.

It ends with status 0; with 1 where fewer are reported than --least asks for; and with 2 where nothing could be told: no
program, no image, or a run that ended with another status than 0 and 1."""

import argparse
import os
import random
import re
import struct
import subprocess
import sys
import tempfile
from collections import defaultdict, namedtuple
from concurrent.futures import ThreadPoolExecutor
from pathlib import Path
from threading import local

HERE = Path(__file__).resolve().parent
sys.path.insert(0, str(HERE))

from derive.assembler import print_line
from derive.bounds import budget
from derive.faults import Fault
from derive.races import bytes_of
from derive.scripts import NUMBERED, has_effect, xor_end
from derive.table import LOADS, STORES, has_rd, sources
from survey import FileImage, class_of, decode, head_line, printed, rectangle, share, text

PROGRAM = HERE.parent / "crates" / "threadmill" / "out" / "threadmill"
KINDS = ("result", "loaded", "stored", "drop", "turn")
CLASSES = ("alu", "load", "store", "branch")
REASONS = ("not run", "overwritten", "not compared", "no difference")
MOST_EVENTS = 100_000_000
REPORTED = re.compile(r"case (\d+) \S+: hart ")

# A fault that can be planted: where, what, and the bit that is flipped, or None.
Planted = namedtuple("Planted", "case hart slot kind bit")


class Stop(Exception):
    """Why nothing can be told."""


def bits_of(kind, i, asked):
    """The bits that a kind of fault may flip in a slot."""
    if kind not in NUMBERED:
        return [None]
    width = xor_end(kind, i).bit_length() - 1
    return [bit for bit in (asked if asked is not None else range(width)) if bit < width]


def all_faults(image, bits):
    """Every fault of the image, in order."""
    found = []
    for c, case in enumerate(image.cases.cases):
        for h, words in enumerate(case.words):
            for s, i in enumerate(map(decode, words)):
                for kind in KINDS:
                    if has_effect(kind, i):
                        found += [Planted(c, h, s, kind, bit) for bit in bits_of(kind, i, bits)]
    return found


def script_line(fault, at_pass):
    xor = "" if fault.bit is None else f" {1 << fault.bit:#x}"
    return f"hart {fault.hart} case {fault.case} pass {at_pass} slot {fault.slot} {fault.kind}{xor}\n"


def batches(faults, alone):
    """The faults in groups that are run together: at most one of each case."""
    if alone:
        return [[fault] for fault in faults]
    by_case = defaultdict(list)
    for fault in faults:
        by_case[fault.case].append(fault)
    longest = max(map(len, by_case.values()), default=0)
    return [[of[n] for of in by_case.values() if n < len(of)] for n in range(longest)]


class Runner:
    """Runs an image under scripts, each thread with a script's file of its own."""

    def __init__(self, asked, folder, events):
        self.words = [asked.threadmill, "run", asked.image, "--order", "round", "--events", str(events), "--faults"]
        self.at_pass = asked.at_pass
        self.folder = folder
        self.own = local()

    def script(self, batch):
        if not hasattr(self.own, "file"):
            handle, self.own.file = tempfile.mkstemp(dir=self.folder)
            os.close(handle)
        with open(self.own.file, "w", encoding="ascii") as file:
            file.writelines(script_line(fault, self.at_pass) for fault in batch)
        return self.own.file

    def seen(self, batch):
        """The faults of a batch, and which of them were reported."""
        words = self.words + [self.script(batch)]
        done = subprocess.run(words, capture_output=True, text=True, check=False, close_fds=False)
        if done.returncode not in (0, 1):
            told = done.stderr.strip() or done.stdout.strip() or f"status {done.returncode}"
            raise Stop(f"{told} ({script_line(batch[0], self.at_pass).strip()})")
        cases = set(map(int, REPORTED.findall(done.stdout)))
        return [(fault, fault.case in cases) for fault in batch]


    def addresses(self):
        """The addresses of the instructions that a run without faults comes to."""
        path = os.path.join(self.folder, "trace")
        words = self.words[:-1] + ["--trace", path]
        done = subprocess.run(words, capture_output=True, text=True, check=False)
        if done.returncode:
            raise Stop(f"without a fault: {done.stderr.strip() or done.stdout.strip()}")
        with open(path, "rb") as trace:
            found = {line.split(b" ", 2)[1] for line in trace if line[:1].isdigit()}
        return {int(address, 16) for address in found}


def run_all(runner, groups, count, jobs):
    """For each fault whether it was reported; progress on a terminal."""
    found, shows = [], sys.stderr.isatty()
    with ThreadPoolExecutor(jobs) as pool:
        try:
            for told in pool.map(runner.seen, groups):
                found += told
                if shows:
                    sys.stderr.write(f"\r{len(found)} of {count} faults")
        except BaseException:
            pool.shutdown(wait=False, cancel_futures=True)
            raise
    if shows:
        sys.stderr.write("\r\x1b[K")
    return found


class Counts:
    """How many faults were planted, and how many of them reported."""

    def __init__(self):
        self.planted = 0
        self.reported = 0

    def add(self, is_reported):
        self.planted += 1
        self.reported += is_reported

    def told(self):
        return share(self.reported, self.planted)


def counted(found, key):
    """The counts of the faults by a key."""
    counts = defaultdict(Counts)
    for fault, is_reported in found:
        counts[key(fault)].add(is_reported)
    return counts


def table(found, image):
    """A table of counts by class of slot and kind of fault."""
    counts = counted(found, lambda f: (class_of(instruction(image, f)), f.kind))
    yield ["slots", "fault", "planted", "reported"]
    for name in CLASSES:
        for kind in KINDS:
            if (name, kind) in counts:
                yield [name, kind, counts[name, kind].planted, counts[name, kind].told()]
    total = counted(found, lambda _: None)[None]
    yield ["all", "", total.planted, total.told()]


def instruction(image, fault):
    return decode(image.cases.cases[fault.case].words[fault.hart][fault.slot])


# Places: registers by their numbers, and behind them the bytes of the windows.
REGISTERS = 32


def written(i):
    """The places that a slot writes."""
    if i.op in STORES:
        return {REGISTERS + b for b in bytes_of(i)}
    return {i.rd} - {0} if has_rd(i) else set()


def read(i):
    """The places that a slot reads."""
    return set(sources(i)) | ({REGISTERS + b for b in bytes_of(i)} if i.op in LOADS else set())


def depends(stream, slot):
    """The places that may depend on what a slot does, at the stream's end.

    Slots before `either` are run or not by a branch that depends on it; those before `over` by any branch."""
    found, either, over = set(), slot + 1, 0
    for n, i in enumerate(stream):
        target = n + i.imm // 4 if class_of(i) == "branch" else 0
        if n >= slot:
            if n < either or read(i) & found:
                found |= written(i)
                either = max(either, target)
            elif n >= over:
                found -= written(i)
        over = max(over, target)
    return found


def reason(image, run, c, h, s):
    """Why no fault of a slot was seen, where a run comes to these addresses."""
    if image.starts[c][h] + 4 * s not in run:
        return "not run"
    registers, checked = image.masks[c]
    found = depends([decode(word) for word in image.cases.cases[c].words[h]], s)
    if not found:
        return "overwritten"
    is_compared = (registers[h] >> at & 1 if at < REGISTERS else checked[at - REGISTERS] for at in found)
    return "no difference" if any(is_compared) else "not compared"


def unseen(found, image, run):
    """The slots of which a fault was planted and none was seen, each with what it is and why."""
    counts = counted(found, lambda f: (f.case, f.hart, f.slot))
    for (c, h, s), count in sorted(counts.items()):
        if not count.reported:
            words = print_line(decode(image.cases.cases[c].words[h][s]))
            why = reason(image, run, c, h, s)
            yield why, f"case {c} hart {h} slot {s}: {words}, {count.planted} planted: {why}"


# The picture: for each case a row for each hart and a column for each slot.
CELL, LEFT, HEAD = 8, 56, 22
NONE = "#f0f0f0"


def shade(count):
    """From red, where nothing was seen, to green, where all was."""
    part = count.reported / count.planted
    red, green = (200, 85, 61), (74, 140, 90)
    mixed = [round(r + (g - r) * part) for r, g in zip(red, green)]
    return "#{:02x}{:02x}{:02x}".format(*mixed)


def case_picture(image, counts, c, top):
    """The elements of a case."""
    case = image.cases.cases[c]
    parts = [text(4, top + 14, f"case {c} {case.name}")]
    for h, words in enumerate(case.words):
        y = top + HEAD + CELL * h
        parts.append(text(4, y + 7, f"hart {h}"))
        for s, word in enumerate(words):
            count = counts.get((c, h, s))
            told = f"{count.told()} reported" if count else "no fault planted"
            title = f"hart {h} slot {s}, {print_line(decode(word))}: {told}"
            parts.append(rectangle(LEFT + CELL * s, y, CELL - 1, CELL - 1, shade(count) if count else NONE, title))
    return parts


def picture(image, found):
    """The picture as SVG."""
    counts = counted(found, lambda f: (f.case, f.hart, f.slot))
    longest = max(len(words) for case in image.cases.cases for words in case.words)
    parts, y = [], 0
    for c in range(len(image.cases.cases)):
        parts += case_picture(image, counts, c, y)
        y += HEAD + CELL * image.cases.harts + 8
    parts.append(text(4, y + 14, "a slot's faults: red, none is reported; green, all are; grey, none was planted"))
    width, height = max(LEFT + CELL * longest + 4, 480), y + 22
    head = f'<svg xmlns="http://www.w3.org/2000/svg" width="{width}" height="{height}"'
    head += ' font-family="sans-serif" font-size="9">'
    return "\n".join([head, f'<rect width="{width}" height="{height}" fill="#ffffff"/>', *parts, "</svg>"]) + "\n"


def numbers(words):
    return sorted({int(word) for word in words.split(",")})


def parsed():
    parser = argparse.ArgumentParser(description=__doc__, formatter_class=argparse.RawDescriptionHelpFormatter)
    parser.add_argument("image")
    parser.add_argument("--threadmill", default=str(PROGRAM), metavar="PATH", help=f"the program ({PROGRAM})")
    parser.add_argument("--sample", type=int, metavar="N", help="plant N faults, drawn at random, instead of all")
    parser.add_argument("--seed", type=int, default=1, metavar="S", help="the seed of the sample (1)")
    parser.add_argument("--bits", type=numbers, metavar="B,B", help="flip these bits alone, instead of each")
    parser.add_argument("--pass", dest="at_pass", type=int, default=1, metavar="K", help="plant in this pass (1)")
    parser.add_argument("--case", type=int, metavar="C", help="in this case alone")
    parser.add_argument("--alone", action="store_true", help="a run of its own for each fault")
    parser.add_argument("--jobs", type=int, default=os.cpu_count() or 1, metavar="J", help="so many runs at once")
    parser.add_argument("--least", type=float, metavar="P", help="ask for P reported ones of a hundred")
    parser.add_argument("--svg", metavar="FILE", help="write a picture of the slots")
    return parser.parse_args()


def chosen_faults(image, asked):
    """The faults that are planted, and of how many."""
    if not 0 <= asked.at_pass < image.cases.passes:
        raise Stop(f"the image has the passes 0 to {image.cases.passes - 1}")
    if asked.case is not None and not 0 <= asked.case < len(image.cases.cases):
        raise Stop(f"the image has the cases 0 to {len(image.cases.cases) - 1}")
    if asked.sample is not None and asked.sample < 1:
        raise Stop("--sample wants a number from 1 on")
    faults = [fault for fault in all_faults(image, asked.bits) if asked.case in (None, fault.case)]
    if asked.sample is None or asked.sample >= len(faults):
        return faults, len(faults)
    drawn = sorted(random.Random(asked.seed).sample(range(len(faults)), asked.sample))
    return [faults[n] for n in drawn], len(faults)


def print_all(image, found, whole, run, asked):
    planted = f"{len(found)} of {whole} faults" + (f", drawn by seed {asked.seed}" if len(found) < whole else "")
    print(f"{head_line(image)}\n{planted}, in pass {asked.at_pass}")
    for c, case in enumerate(image.cases.cases):
        of_case = [(fault, is_reported) for fault, is_reported in found if fault.case == c]
        if of_case:
            print(f"case {c} {case.name}")
            print("\n".join(printed(table(of_case, image))))
    print("all cases")
    print("\n".join(printed(table(found, image))))
    slots = list(unseen(found, image, run))
    reasons = [f"{sum(why == name for why, _ in slots)} {name}" for name in REASONS]
    print(f"slots of which none was seen: {len(slots)}: " + ", ".join(reasons))
    for _, line in slots:
        print("never seen: " + line)


def main():
    asked = parsed()
    if not os.access(asked.threadmill, os.X_OK) or not os.path.isfile(asked.threadmill):
        raise Stop(f"{asked.threadmill} isn't the program; name it with --threadmill, or build it with `rt ci`")
    image = FileImage(Path(asked.image).read_bytes())
    faults, whole = chosen_faults(image, asked)
    events = min(budget(image.cases), MOST_EVENTS)
    with tempfile.TemporaryDirectory() as folder:
        runner = Runner(asked, folder, events)
        run = runner.addresses()
        found = run_all(runner, batches(faults, asked.alone), len(faults), max(asked.jobs, 1))
    print_all(image, found, whole, run, asked)
    if asked.svg:
        Path(asked.svg).write_text(picture(image, found), encoding="ascii")
    reported = sum(is_reported for _, is_reported in found)
    return 1 if asked.least is not None and 100 * reported < asked.least * len(found) else 0


if __name__ == "__main__":
    try:
        sys.exit(main())
    except KeyboardInterrupt:
        sys.exit(2)
    except (KeyError, struct.error):
        print("coverage.py: the file isn't as it was built", file=sys.stderr)
        sys.exit(2)
    except (Fault, OSError, Stop) as why:
        print(f"coverage.py: {why.told() if isinstance(why, Fault) else why}", file=sys.stderr)
        sys.exit(2)
