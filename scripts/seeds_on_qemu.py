#!/usr/bin/env python3
"""Builds images of random texts, runs each on QEMU, and counts the cases that are reported.

It isn't part of the gate, and a run on QEMU is no proof. Seed n gives the topology, the template and the seed of image
n: 1 to 8 harts, lines of 32, 64 or 128 bytes, each kind of window, bodies for all harts, for one and for a core, drawn
slots and slots of a text's own.

usage: seeds_on_qemu.py THREADMILL FOLDER [--first N] [--count N] [--jobs N]

THREADMILL is the program, FOLDER a folder for the texts and the images. Needs qemu-system-riscv64 (Debian:
qemu-system-misc). Ends with 0 where each image was built and run, and no case was reported.
"""
import argparse
import random
import subprocess
import sys
import time
from concurrent.futures import ThreadPoolExecutor
from pathlib import Path

SCRIPT = Path(__file__).resolve().parent / "run_on_qemu.py"
ALU = ["addi x{d}, x{a}, {n}", "xor x{d}, x{a}, x{b}", "sub x{d}, x{a}, x{b}", "sltu x{d}, x{a}, x{b}"]
SYSTEMS = [(1, 1), (1, 2), (2, 1), (2, 2), (1, 4), (4, 1), (3, 1), (2, 3), (5, 1), (7, 1), (8, 1), (4, 2), (1, 8)]
BRANCHES = ["beq", "bne", "blt", "bge", "bltu", "bgeu"]


def topology_of(draw):
    """The text of a topology, and its harts and line size."""
    cores, threads = draw.choice(SYSTEMS)
    line, bias = draw.choice([32, 64, 128]), draw.choice([0, 40, 100, draw.randrange(101)])
    return f"cores = {cores}\nthreads = {threads}\nline = {line}\nbias = {bias}\n", cores, threads, line


def windows_of(draw, harts, line):
    """The windows by number: kind and lines. An own window has a line for each hart."""
    most = 2048 // line
    shape = {}
    for number in range(3):
        kind = draw.choice(["true", "false", "own", None])
        if kind == "own":
            shape[number] = kind, draw.randrange(harts, max(harts, min(most, 3 * harts)) + 1)
        elif kind:
            shape[number] = kind, draw.choice([1, 2, 4, most])
    return shape or {0: ("true", 1)}


def access_of(draw, shape, line, whom):
    """A load or store that each hart of the body may make."""
    number = draw.choice(sorted(shape))
    kind, lines = shape[number]
    width, load, store = draw.choice([(1, "lbu", "sb"), (2, "lh", "sh"), (4, "lw", "sw"), (8, "ld", "sd")])
    addr = draw.randrange(lines * line // width) * width
    if addr > 2040:
        addr = 0
    if kind == "own":
        return None
    if kind == "true" and draw.random() < 0.5:
        return f"emit {store} x{draw.randrange(28)}, {addr}(x{28 + number})"
    return f"emit {load} x{draw.randrange(1, 28)}, {addr}(x{28 + number})"


def body_of(draw, shape, line, whom):
    """The lines of a body."""
    lines = [f"body {whom}"]
    for _ in range(draw.randrange(1, 4)):
        if draw.random() < 0.6:
            lines.append("mix {} alu {} load {} store {} branch {}".format(
                draw.randrange(1, 60), draw.randrange(1, 5), draw.randrange(5), draw.randrange(5), draw.randrange(3)))
            continue
        for _ in range(draw.randrange(1, 6)):
            form = draw.choice(ALU).format(
                d=draw.randrange(1, 28), a=draw.randrange(28), b=draw.randrange(28), n=draw.randrange(-2048, 2048))
            lines.append(access_of(draw, shape, line, whom) or "emit " + form)
        lines.append(f"emit {draw.choice(BRANCHES)} x{draw.randrange(28)}, x{draw.randrange(28)}, 4")
    return lines


def template_of(draw, cores, threads, line):
    """The text of a template."""
    harts = cores * threads
    shape = windows_of(draw, harts, line)
    lines = ["template seeds", f"passes {draw.randrange(2, 9)}"]
    lines += [f"window {number} {kind} {count}" for number, (kind, count) in sorted(shape.items())]
    for case in range(draw.choice([1, 2, 3, 8])):
        lines.append(f"case c{case}")
        form = draw.choice(["all", "harts", "cores"])
        some = {"all": ["all"], "harts": [f"hart {h}" for h in range(harts)]}.get(form)
        some = some or [f"core {c}" for c in range(cores)]
        for whom in some:
            if len(some) > 1 and draw.random() < 0.15:
                continue
            lines += body_of(draw, shape, line, whom)
        if not any(text.startswith("body") for text in lines[lines.index(f"case c{case}"):]):
            lines += body_of(draw, shape, line, "all")
    return "\n".join(lines) + "\n"


def try_seed(program, folder, seed):
    """What came of one seed: cases told as ok, cases reported, and what failed."""
    draw = random.Random(seed)
    topology, cores, threads, line = topology_of(draw)
    names = [folder / f"{seed}.{end}" for end in ("toml", "tm", "elf")]
    names[0].write_text(topology)
    names[1].write_text(template_of(draw, cores, threads, line))
    built = subprocess.run([program, "build", *names, "--seed", str(seed)], capture_output=True, text=True)
    if built.returncode:
        return 0, 0, f"seed {seed}: not built: {built.stderr.strip()}"
    ran = subprocess.run([sys.executable, SCRIPT, names[2], "--seconds", "120"], capture_output=True, text=True)
    told = ran.stdout.split("\n")[:-1]
    reported = [text for text in told if not text.endswith(": ok")]
    failed = f"seed {seed}: {ran.stderr.strip() or reported}" if ran.returncode else ""
    names[2].unlink()
    return len(told) - len(reported), len(reported), failed


def main():
    words = argparse.ArgumentParser(description="Runs images of random texts on QEMU.")
    words.add_argument("program")
    words.add_argument("folder", type=Path)
    words.add_argument("--first", type=int, default=0)
    words.add_argument("--count", type=int, default=1000)
    words.add_argument("--jobs", type=int, default=2)
    asked = words.parse_args()
    asked.folder.mkdir(parents=True, exist_ok=True)
    begun = time.monotonic()
    with ThreadPoolExecutor(asked.jobs) as pool:
        seeds = range(asked.first, asked.first + asked.count)
        all_told = list(pool.map(lambda seed: try_seed(asked.program, asked.folder, seed), seeds))
    fails = [failed for _, _, failed in all_told if failed]
    print("\n".join(fails) + "\n" if fails else "", end="")
    fine, reported = sum(told[0] for told in all_told), sum(told[1] for told in all_told)
    print(f"{asked.count} images, {fine + reported} cases, {reported} reported, {len(fails)} failed, "
          f"{time.monotonic() - begun:.0f} s")
    return 1 if fails else 0


if __name__ == "__main__":
    sys.exit(main())
