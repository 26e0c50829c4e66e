#!/usr/bin/env python3
"""Measures the program beside GNU as, ld and QEMU on the same machine. It isn't part of the gate.

usage: speed.py THREADMILL FOLDER

Needs riscv64-linux-gnu-as and -ld (Debian: binutils-riscv64-linux-gnu) and qemu-system-riscv64 (qemu-system-misc), and
crates/tm_cases_scripts/out/tm_cases_scripts, which the gate leaves there; what is missing is left out, and said.

The program's own figures are compared with those that docs/gate.md keeps, in the table that begins
`| Figure | Kept | Unit |`. A kept figure whose unit ends with "at least" or "at most" is a bound. Of the others those
"a second" are better where they are greater, all others where they are less. Where a bound isn't kept, a figure is
worse than twice the kept one, or a kept one wasn't measured, the script says so and ends with status 1.
"""
import argparse
import os
import shutil
import subprocess
import sys
import time
from pathlib import Path

sys.path.insert(0, str(Path(__file__).resolve().parent))

from busy import busy_loops
from derive.scripts import has_effect
from survey import FileImage, decode

MIXED = "cores = 2\nthreads = 2\nline = 64\nbias = 40\n"
WINDOWS = "window 0 true 4\nwindow 1 false 4\nwindow 2 own 8\n"
WIDE = "cores = 8\nthreads = 1\nline = 64\n"
QEMU_SECONDS = 5
MEGABYTE = 1e6
# A trace that is read back has so many of these lines; one that is judged, so many events.
TRACE_EVENTS = 800_000
JUDGED_EVENTS = 4_000_000
TRACE_LINE = "0 0000000080000578 0083b023 w 0000000080c01000 8 0000000000000000"
READER = Path(__file__).resolve().parent.parent / "crates" / "tm_cases_scripts" / "out" / "tm_cases_scripts"
KEPT = Path(__file__).resolve().parent.parent / "docs" / "gate.md"
KEPT_HEAD = "| Figure | Kept | Unit |"


def mixed(load):
    """8 cases of 100 drawn slots for 4 harts."""
    cases = "".join(f"case c{c}\nbody all\nmix 100 alu 4 load {load} store 3 branch 1\n" for c in range(8))
    return "template mixed\npasses 4\n" + WINDOWS + cases


def long():
    """32 cases of 256 drawn slots for 4 harts and 8 passes."""
    cases = "".join(f"case c{c}\nbody all\nmix 256 alu 4 load 3 store 3 branch 1\n" for c in range(32))
    return "template long\npasses 8\n" + WINDOWS + cases


def stores():
    """32 cases of 256 stores for 8 harts and 8 passes."""
    cases = "".join(f"case c{c}\nbody all\nmix 256 alu 0 load 0 store 1 branch 0\n" for c in range(32))
    return "template stores\npasses 8\n" + WINDOWS + cases


def fault_of(value, kept, unit):
    """What is wrong with a figure, if anything."""
    if unit.endswith("at least"):
        return ": LESS" if value < kept else ""
    if unit.endswith("at most"):
        return ": MORE" if value > kept else ""
    times = kept / value if unit.endswith("a second") else value / kept
    return ": WORSE THAN TWICE" if times > 2 else ""


class Figures:
    """The figures that were measured, and how they compare with the kept ones."""

    def __init__(self, kept):
        self.kept = kept
        self.left = set(kept)
        self.worse = 0

    def note(self, name, value, unit):
        kept = self.kept.get((name, unit))
        if kept is None:
            print(f"  {name}: {value:.2f} {unit}, not kept")
            return
        self.left.discard((name, unit))
        wrong = fault_of(value, kept, unit)
        self.worse += wrong != ""
        print(f"  {name}: {value:.2f} {unit}, kept {kept:g}{wrong}")

    def status(self):
        for name, unit in sorted(self.left):
            print(f"{name}, {unit}: kept, and not measured")
        if self.worse:
            print(f"{self.worse} figures are worse than twice, or not within their bounds")
        return 1 if self.worse or self.left else 0


def kept_figures(page):
    """The table of docs/gate.md: a number by its name and unit."""
    lines = page.read_text().split("\n")
    if KEPT_HEAD not in lines:
        sys.exit(f"{page} has no table {KEPT_HEAD}")
    kept = {}
    for line in lines[lines.index(KEPT_HEAD) + 2:]:
        if not line.startswith("|"):
            break
        name, number, unit = [cell.strip() for cell in line.strip("|").split("|")]
        kept[name, unit] = float(number)
    return kept


def measured(words, times=5, folder=None):
    """The least seconds of some runs in a folder, and the last run's output and greatest memory in MiB."""
    best = None
    for _ in range(times):
        begun = time.monotonic()
        process = subprocess.Popen([str(word) for word in words], stdout=subprocess.PIPE, cwd=folder)
        out = process.stdout.read().decode()
        _, status, usage = os.wait4(process.pid, 0)
        seconds = time.monotonic() - begun
        best = seconds if best is None else min(best, seconds)
    return best, out, usage.ru_maxrss / 1024, os.waitstatus_to_exitcode(status)


def built(program, folder, name, topology, template, figures):
    paths = [folder / f"{name}.{end}" for end in ("toml", "tm", "elf")]
    paths[0].write_text(topology)
    paths[1].write_text(template)
    seconds, out, memory, _ = measured([program, "build", *paths, "--seed", "1"])
    print(f"build {name}: {1000 * seconds:.1f} ms, {memory:.0f} MiB at most: {out.strip()}")
    figures.note(f"build {name}", 1000 * seconds, "ms")
    figures.note(f"build {name}", memory, "MiB")
    return paths[2]


def assembled(program, folder, image):
    """GNU as and ld on the streams' lines of the same image."""
    tools = [shutil.which(f"riscv64-linux-gnu-{tool}") for tool in ("as", "ld")]
    if None in tools:
        print("as and ld aren't here")
        return
    listing = measured([program, "list", image], 1)[1]
    lines = [line.split(" ", 2)[2] for line in listing.split("\n") if line[:1].isdigit()]
    text = folder / "same.s"
    short = {"lui", "auipc", "jal"}
    jumps = {"beq", "bne", "blt", "bge", "bltu", "bgeu", "jal"}
    fixed = []
    for line in lines:
        op, _, rest = line.partition(" ")
        parts = rest.split(", ")
        if op in jumps:
            parts[-1] = ". + " + parts[-1]
        if op in short - jumps:
            parts[-1] = str(int(parts[-1], 0) & 0xFFFFF)
        fixed.append(f"{op} {', '.join(parts)}\n")
    text.write_text(".option norelax\n.option norvc\n" + "".join(fixed))
    flags = ["-march=rv64i", "-mabi=lp64"]
    first = measured([tools[0], *flags, "-o", folder / "same.o", text])
    second = measured([tools[1], "-Ttext=0x80000000", "-e", "0x80000000", "-o", folder / "same", folder / "same.o"])
    print(f"as: {1000 * first[0]:.1f} ms, ld: {1000 * second[0]:.1f} ms, on {len(lines)} lines of the same streams")


def simulated(program, image, order, limit, figures):
    """A run, and its rate without what a run of one event takes: the image is opened, which builds it again."""
    words = [program, "run", image] + (["--order", "round"] if order == "round" else [])
    opening = measured(words + ["--events", "1"], 7)[0]
    seconds, out, memory, status = measured(words + ["--events", str(limit)], 7)
    last = out.strip().split("\n")[-1]
    events = limit if status == 4 else int(last.split()[-1])
    rate = (events - 1) / max(seconds - opening, 1e-6) / 1e6
    print(f"run {order}: {events} events in {seconds:.3f} s, {opening:.3f} s of them before the first; "
          f"{rate:.2f} million a second; {memory:.0f} MiB at most; status {status}: {last}")
    name = f"run {image.stem} {order}"
    figures.note(name, 1000 * opening, "ms before the first event")
    figures.note(name, rate, "million events a second")
    figures.note(name, memory, "MiB")


def shared(program, image, figures):
    """A run by threads on a machine that it shares: beside one busy loop for each processor, and on one processor."""
    words = [program, "run", image, "--order", "threads"]
    alone = measured(words)[0]
    processors = sorted(os.sched_getaffinity(0))
    with busy_loops():
        beside = measured(words)[0]
    os.sched_setaffinity(0, processors[:1])
    try:
        pinned = measured(words)[0]
    finally:
        os.sched_setaffinity(0, processors)
    print(f"run threads: {alone:.3f} s alone, {beside:.3f} s beside busy loops, {pinned:.3f} s on one processor")
    name = f"run {image.stem} threads"
    figures.note(f"{name} beside busy loops", beside / alone, "times as long, at most")
    figures.note(f"{name} on one processor", pinned / alone, "times as long, at most")


def script_of(image, folder):
    """A script of some hundred lines for an image: a bit of a result, in pass 1, which most of them leave behind."""
    cases = FileImage(image.read_bytes()).cases.cases
    lines = []
    for c, case in enumerate(cases):
        for h, words in enumerate(case.words):
            slots = [s for s, word in enumerate(words) if has_effect("result", decode(word))]
            lines += [f"hart {h} case {c} pass 1 slot {s} result 1\n" for s in slots[:: max(1, len(slots) // 4)]]
    path = folder / "long.faults"
    path.write_text("".join(lines))
    return path, len(lines)


def faulted(program, image, folder, figures):
    """A run in round order under a script beside the same without."""
    script, lines = script_of(image, folder)
    words = [program, "run", image, "--order", "round"]
    plain = measured(words, 7)
    under = measured([*words, "--faults", script], 7)
    # A reported pass ends its comparison early, so the rates are compared, not the seconds.
    events = [int(out.strip().split()[-1]) for _, out, _, _ in (plain, under)]
    rates = [count / run[0] for count, run in zip(events, (plain, under))]
    print(f"run round under a script of {lines} lines: {events[1]} events in {under[0]:.3f} s, "
          f"without it {events[0]} in {plain[0]:.3f} s")
    figures.note(f"run {image.stem} faulted", rates[0] / rates[1], "times as long, at most")


def written(program, image, folder, figures):
    """The trace of a run, written."""
    trace = folder / "long.trace"
    words = [program, "run", image, "--order", "round"]
    plain = measured(words, 7)[0]
    seconds = measured([*words, "--trace", trace], 7)[0]
    size = trace.stat().st_size
    trace.unlink()
    rate = size / MEGABYTE / max(seconds - plain, 1e-6)
    print(f"trace of a run in round order: {size} bytes in {seconds:.3f} s, {plain:.3f} s of them without it")
    figures.note("trace written", rate, "MB a second, at least")


def read_back(folder, figures):
    """A trace, read and written again by the program of cases; what else it does is measured without the reading."""
    if not READER.exists():
        print(f"{READER} isn't here")
        return
    folder = folder / "read_back"
    folder.mkdir(exist_ok=True)
    for other in ("scripts", "races"):
        (folder / other).write_text("")
    head = f"trace 1 harts 1 events {TRACE_EVENTS}\\n"
    size = len(head) - 1 + TRACE_EVENTS * (len(TRACE_LINE) + 1) + 4
    seconds = []
    for kind in ("let T", "trace"):
        lines = f"times E {TRACE_EVENTS} {TRACE_LINE}\\n\n{kind} {head}{{E}}end\\n\n"
        (folder / "traces").write_text(lines)
        took, out, _, status = measured([READER], 3, folder)
        if status != 0 or (kind == "trace" and not out.endswith(", the same\n")):
            print(f"{READER} ended with status {status}: {out[-80:]}")
            return
        seconds.append(took)
    rate = size / MEGABYTE / max(seconds[1] - seconds[0], 1e-6)
    print(f"trace of {size} bytes, read and written again: {seconds[1]:.3f} s, {seconds[0]:.3f} s of them for its text")
    figures.note("trace read back", rate, "MB a second, at least")


def judged(program, image, harts, folder, figures):
    """A trace of as many events as a run has by default, judged. The same of one hart more is read and then refused."""
    trace = folder / "judged.trace"
    measured([program, "run", image, "--order", "round", "--events", str(JUDGED_EVENTS), "--trace", trace], 1)
    words = [program, "judge", image, trace]
    seconds, out, memory, status = measured(words, 3)
    with open(trace, "r+b") as file:
        events = int(file.readline().split()[-1])
        file.seek(len("trace 1 harts "))
        file.write(str(harts + 1).encode())
    size = trace.stat().st_size
    reading = measured(words, 3)[0]
    trace.unlink()
    rate = events / max(seconds - reading, 1e-6) / 1e6
    beyond = (memory * 2**20 - size) / events
    print(f"judge: {events} events in {size} bytes in {seconds:.3f} s, {reading:.3f} s of them until all is read; "
          f"{rate:.2f} million a second; {memory:.0f} MiB at most; status {status}: {out.split()}")
    figures.note(f"judge {image.stem}", seconds * JUDGED_EVENTS / events, "s for 4,000,000 events, at most")
    figures.note(f"judge {image.stem}", rate, "million events a second, at least")
    figures.note(f"judge {image.stem}", beyond, "bytes for an event beyond its text, at most")


def traced(folder, image, harts):
    """QEMU's own trace of the same image, one instruction a block."""
    program = shutil.which("qemu-system-riscv64")
    if program is None:
        print("QEMU isn't here")
        return
    trace = folder / "trace"
    words = [program, "-machine", "virt", "-bios", "none", "-smp", str(harts), "-m", "64M", "-display", "none"]
    words += ["-serial", "none", "-monitor", "none", "-kernel", str(image), "-singlestep", "-d", "exec,nochain"]
    process = subprocess.Popen(words + ["-D", str(trace)], stdin=subprocess.DEVNULL)
    time.sleep(QEMU_SECONDS)
    process.kill()
    process.wait()
    with open(trace, "rb") as file:
        count = sum(line.startswith(b"Trace") for line in file)
    trace.unlink()
    print(f"QEMU's trace: {count} lines in {QEMU_SECONDS} s, {count / QEMU_SECONDS / 1e6:.2f} million a second")


def main():
    words = argparse.ArgumentParser(description="Measures the program beside GNU as, ld and QEMU.")
    words.add_argument("program")
    words.add_argument("folder", type=Path)
    asked = words.parse_args()
    asked.folder.mkdir(parents=True, exist_ok=True)
    print(f"{os.cpu_count()} processors, load {os.getloadavg()[0]:.1f}")
    figures = Figures(kept_figures(KEPT))
    image = built(asked.program, asked.folder, "without_loads", MIXED, mixed(0), figures)
    assembled(asked.program, asked.folder, image)
    image = built(asked.program, asked.folder, "mixed", MIXED, mixed(3), figures)
    built(asked.program, asked.folder, "stores", WIDE, stores(), figures)
    for order in ("round", "threads"):
        simulated(asked.program, image, order, 4000000, figures)
    image = built(asked.program, asked.folder, "long", MIXED, long(), figures)
    for order in ("round", "threads"):
        simulated(asked.program, image, order, 4000000, figures)
    faulted(asked.program, image, asked.folder, figures)
    written(asked.program, image, asked.folder, figures)
    read_back(asked.folder, figures)
    shared(asked.program, image, figures)
    traced(asked.folder, image, 4)
    image = built(asked.program, asked.folder, "wide", WIDE, long(), figures)
    judged(asked.program, image, 8, asked.folder, figures)
    return figures.status()


if __name__ == "__main__":
    sys.exit(main())
