"""What commands print: listings, reports, lines."""

from . import memory_map as places
from .assembler import print_line
from .bounds import owned
from .table import decode

USAGE = """usage: threadmill build TOPO TEMPLATE OUT --seed S
       threadmill list IMAGE
       threadmill run IMAGE [--events N] [--order threads|round] [--faults F] [--trace OUT]
       threadmill sample N
       threadmill judge IMAGE TRACE
"""


def listing(image):
    """The listing of an image."""
    cases = image.cases
    harts, passes, count = cases.harts, cases.passes, len(cases.cases)
    lines = [f"template {cases.name} seed {image.seed} harts {harts} passes {passes} cases {count}"]
    for c, case in enumerate(cases.cases):
        registers, checked = image.masks[c]
        lines.append(f"case {c} {case.name}")
        for h in range(cases.harts):
            lines.append(f"hart {h} slots {len(case.words[h])}")
            lines += [f"{n} {w:08x} {print_line(decode(w))}" for n, w in enumerate(case.words[h])]
            free = [f"x{r}" for r in range(1, 31) if not registers[h] >> r & 1]
            lines.append(" ".join(["unchecked"] + (free or ["none"])))
        lines.append(" ".join(["bytes"] + (unchecked_bytes(cases, checked) or ["none"])))
    return "".join(line + "\n" for line in lines).encode()


def unchecked_bytes(cases, checked):
    """The entries of the dwords of declared lines of which some byte isn't checked."""
    found = []
    for w in cases.shape.windows:
        if w is None:
            continue
        first = places.WINDOW_SIZE * w.number
        for dword in range(first, first + w.lines * cases.line, 8):
            bits = sum(1 << j for j in range(8) if not checked[dword + j])
            if bits:
                found.append(f"0x{places.WINDOWS + dword:08x}:{bits:02x}")
    return found


def place_text(cases, h, saved):
    """The place of a saved dword: a register, or the address of a dword of shared memory."""
    if saved < 30:
        return f"x{saved + 1}"
    return f"0x{places.WINDOWS + owned(cases, h)[saved - 30]:08x}"


def report(run):
    """The report of a run whose harts are all at halt, and whether some verdict isn't 0."""
    lines = []
    for c, case in enumerate(run.cases.cases):
        told = []
        for h in range(run.cases.harts):
            verdict = run.verdict(c, h)
            if verdict:
                where = place_text(run.cases, h, verdict % 2**32 - 1)
                told.append(f"case {c} {case.name}: hart {h} pass {verdict >> 32} {where}")
        lines += told or [f"case {c} {case.name}: ok"]
    lines.append(f"events {run.events}")
    return "".join(line + "\n" for line in lines).encode()


def reported(run):
    """How many verdicts aren't 0."""
    pairs = [(c, h) for c in range(len(run.cases.cases)) for h in range(run.cases.harts)]
    return sum(run.verdict(c, h) != 0 for c, h in pairs)


def full_line(run):
    return f"full: {run.events} events, {run.halted()} of {run.cases.harts} harts halted\n".encode()


def sample_texts(n):
    """The two texts of a sample."""
    cores, line, bias = 1 + n % 2, (32, 64, 128)[n % 3], n % 101
    topology = f"cores = {cores}\nthreads = 2\nline = {line}\nbias = {bias}\n"
    template = f"template sample\npasses {2 + n % 3}\n"
    template += "window 0 true 2\nwindow 1 false 2\nwindow 2 own 8\n"
    for d in range(8):
        template += f"case c{d}\nbody all\nmix 100 alu 4 load 3 store 3 branch 1\n"
    return topology.encode(), template.encode()


def sample_line(n, run):
    cases = run.cases
    words = sum(len(words) for case in cases.cases for words in case.words)
    head = f"sample {n}: harts {cases.harts}, cases {len(cases.cases)}, passes {cases.passes}"
    return f"{head}, words {words}, reported {reported(run)}\n".encode()
