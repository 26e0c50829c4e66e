#!/usr/bin/env python3
"""Tells what an image exercises: what a mix, a bias and the windows made of a template.

For each case it prints a table of the harts (their slots by class, how many of their loads race, how many of their 30
registers are checked) and one of the windows (its lines by how many harts touch them, its lines by how they are
shared, how many of its bytes are checked). A slot counts whether it is executed or not: a branch may lead over it.

  touches      the line has a byte to which a load or a store of the hart goes
  true         a hart stores to a byte of the line that another hart touches
  false        no such byte; but a hart stores to the line, and another hart touches it
  read         several harts load from the line, and none stores to it
  alone        at most one hart touches it
  racing       a load of a byte to which another hart may store in the same case
  hot          the line on which drawn accesses meet; in an own window each hart has one of its own, and - stands there

--svg draws the lines by harts. It isn't part of the gate, and nothing is proved. Streams and masks are taken from the
file as it is, by scripts/derive: that it is what is built of its plan, is looked at by `threadmill list`.

It ends with status 0, or with 2 where the file is no image or the picture can't be written."""

import argparse
import struct
import sys
from functools import lru_cache
from pathlib import Path

sys.path.insert(0, str(Path(__file__).resolve().parent))

from derive import memory_map as places
from derive import races, table
from derive.faults import Fault
from derive.elf import read_elf
from derive.image import read_inputs
from derive.placement import hot_line
from derive.streams import Case, Cases
from derive.races import bytes_of, may_writers
from derive.table import BRANCHES, LOADS, STORES

CLASSES = ("alu", "load", "store", "branch", "fence")
KINDS = ("true", "false", "read", "alone")


decode = races.decode = lru_cache(maxsize=None)(table.decode)


class FileImage:
    """What the file holds: the streams between their marks, and the masks of the tables. Nothing is built again."""

    def __init__(self, file):
        parts = read_elf(file)
        test = read_inputs(parts.topology, parts.template)
        harts, marks = test.shape.harts, dict(parts.symbols)
        self.seed, self.masks, self.starts, cases = parts.seed, [], [], []
        for c, (name, _) in enumerate(test.cases):
            words = []
            for h in range(harts):
                first, end = (marks[f"tm_{mark}_{h}_{c}".encode()] - places.TEXT for mark in "se")
                words.append(struct.unpack_from(f"<{(end - first) // 4}I", parts.text, first))
            at = places.table(harts, c) - places.TABLES
            registers = [struct.unpack_from("<Q", parts.tables, at + 256 * h + 248)[0] for h in range(harts)]
            masks = parts.tables[at + 256 * harts + 6144 :][:6144]
            self.masks.append((registers, [byte == 255 for byte in masks]))
            self.starts.append([marks[f"tm_s_{h}_{c}".encode()] for h in range(harts)])
            if any(decode(word) is None for stream in words for word in stream):
                raise Fault("NotAnInstruction")
            cases.append(Case(name, words, None, None))
        self.cases = Cases(test.name, harts, test.shape.line, test.passes, test.shape, cases)


def class_of(i):
    if i.op in LOADS:
        return "load"
    if i.op in STORES:
        return "store"
    if i.op in BRANCHES or i.op == "jal":
        return "branch"
    return "fence" if i.op == "fence" else "alu"


class Line:
    """A declared line: for each hart how many loads and stores go there, and which bytes they touch."""

    def __init__(self, window, number, harts):
        self.window = window
        self.number = number
        self.loads = [0] * harts
        self.stores = [0] * harts
        self.loaded = [set() for _ in range(harts)]
        self.stored = [set() for _ in range(harts)]

    def count(self, h, i, touched):
        if i.op in STORES:
            self.stores[h] += 1
            self.stored[h].update(touched)
        else:
            self.loads[h] += 1
            self.loaded[h].update(touched)

    def harts(self):
        """The harts that touch it."""
        return [h for h in range(len(self.loads)) if self.loads[h] or self.stores[h]]

    def kind(self):
        harts = self.harts()
        if len(harts) < 2:
            return "alone"
        if not any(self.stores):
            return "read"
        for h in harts:
            for g in harts:
                if g != h and self.stored[h] & (self.stored[g] | self.loaded[g]):
                    return "true"
        return "false"


class CaseSurvey:
    """What a case exercises."""

    def __init__(self, image, c):
        cases, case = image.cases, image.cases.cases[c]
        self.number, self.name = c, case.name
        self.windows = [w for w in cases.shape.windows if w]
        self.lines = [Line(w, n, cases.harts) for w in self.windows for n in range(w.lines)]
        shared = [w for w in self.windows if w.kind != "own"]
        self.hot = {w.number: hot_line(image.seed, c, w.number, w.lines) for w in shared}
        self.registers, checked = image.masks[c]
        self.slots = [dict.fromkeys(CLASSES, 0) for _ in range(cases.harts)]
        self.racing = [0] * cases.harts
        writers = may_writers(case)
        by_place = {(line.window.number, line.number): line for line in self.lines}
        for h, words in enumerate(case.words):
            for i in map(decode, words):
                self.slots[h][class_of(i)] += 1
                if i.op in LOADS or i.op in STORES:
                    touched = bytes_of(i)
                    place = divmod(touched[0], places.WINDOW_SIZE)
                    by_place[place[0], place[1] // cases.line].count(h, i, touched)
                if i.op in LOADS:
                    self.racing[h] += any(writers.get(b, set()) - {h} for b in bytes_of(i))
        self.checked = {w.number: checked_bytes(cases, w, checked) for w in self.windows}

    def checked_registers(self, h):
        return sum(self.registers[h] >> r & 1 for r in range(1, 31))

    def lines_of(self, window):
        return [line for line in self.lines if line.window is window]


def checked_bytes(cases, window, checked):
    first = places.WINDOW_SIZE * window.number
    return sum(checked[first : first + window.lines * cases.line])


def hart_table(survey):
    yield ["hart", "slots", *CLASSES, "racing", "registers checked"]
    for h, slots in enumerate(survey.slots):
        row = [h, sum(slots.values()), *slots.values()]
        yield [*row, f"{survey.racing[h]} of {slots['load']}", f"{survey.checked_registers(h)} of 30"]


def window_table(survey, line_size):
    yield ["window", "lines", "hot", "0 harts", "1 hart", "2 harts", "more", *KINDS, "bytes checked"]
    for window in survey.windows:
        lines = survey.lines_of(window)
        harts = [min(len(line.harts()), 3) for line in lines]
        kinds = [line.kind() for line in lines]
        row = [f"{window.number} {window.kind}", len(lines), survey.hot.get(window.number, "-")]
        row += [harts.count(n) for n in range(4)] + [kinds.count(kind) for kind in KINDS]
        yield [*row, f"{survey.checked[window.number]} of {len(lines) * line_size}"]


def printed(rows):
    """A table with its columns as wide as they have to be, numbers to the right."""
    rows = [[str(cell) for cell in row] for row in rows]
    widths = [max(len(row[n]) for row in rows) for n in range(len(rows[0]))]
    return ["  " + "  ".join(cell.rjust(width) for cell, width in zip(row, widths)) for row in rows]


def share(part, whole):
    return f"{part} of {whole} ({100 * part / whole:.0f}%)" if whole else "0 of 0"


def totals(surveys, line_size):
    """One line for the whole image."""
    slots = sum(sum(h.values()) for s in surveys for h in s.slots)
    loads = sum(h["load"] for s in surveys for h in s.slots)
    racing = sum(sum(s.racing) for s in surveys)
    registers = sum(s.checked_registers(h) for s in surveys for h in range(len(s.slots)))
    declared = sum(len(s.lines) for s in surveys) * line_size
    told = [f"slots {slots}", f"racing loads {share(racing, loads)}"]
    told.append(f"registers checked {share(registers, 30 * sum(len(s.slots) for s in surveys))}")
    return told + [f"bytes checked {share(sum(sum(s.checked.values()) for s in surveys), declared)}"]


# The picture: a row for each hart, a column for each line, and below each line how it is shared.
CELL, GAP, LEFT, HEAD = 12, 10, 64, 46
COLORS = {"load": "#4a7fb5", "store": "#c8553d", "both": "#7b4b94", "none": "#f0f0f0"}
KIND_COLORS = {"true": "#c8553d", "false": "#e0a030", "read": "#4a7fb5", "alone": "#d0d0d0"}


def rectangle(x, y, width, height, color, title, opacity=1.0):
    shade = f' fill-opacity="{opacity:.2f}"' if opacity < 1 else ""
    return (f'<rect x="{x}" y="{y}" width="{width}" height="{height}" fill="{color}"{shade}>'
            f"<title>{title}</title></rect>")


def text(x, y, words):
    return f'<text x="{x}" y="{y}">{words}</text>'


def cell(line, h, most, x, y):
    loads, stores = line.loads[h], line.stores[h]
    kind = "both" if loads and stores else "store" if stores else "load" if loads else "none"
    strength = 0.35 + 0.65 * (loads + stores) / most if loads or stores else 1.0
    title = f"hart {h}, window {line.window.number} line {line.number}: {loads} loads, {stores} stores"
    return rectangle(x, y, CELL - 1, CELL - 1, COLORS[kind], title, strength)


def case_picture(survey, top):
    """The elements of a case, and its width."""
    harts = len(survey.slots)
    most = max([line.loads[h] + line.stores[h] for line in survey.lines for h in range(harts)] + [1])
    y = top + HEAD
    parts = [text(4, top + 14, f"case {survey.number} {survey.name}")]
    parts += [text(4, y + CELL * h + 10, f"hart {h}") for h in range(harts)]
    parts.append(text(4, y + CELL * harts + 14, "shared"))
    x = LEFT
    for window in survey.windows:
        parts.append(text(x, top + 30, f"{window.number} {window.kind}"))
        for line in survey.lines_of(window):
            if line.number == survey.hot.get(window.number):
                parts.append(rectangle(x + 2, y - 8, CELL - 5, 5, "#222222", f"hot line {line.number}"))
            parts += [cell(line, h, most, x, y + CELL * h) for h in range(harts)]
            title = f"window {window.number} line {line.number}: {line.kind()}"
            parts.append(rectangle(x, y + CELL * harts + 5, CELL - 1, 9, KIND_COLORS[line.kind()], title))
            x += CELL
        x = max(x, LEFT) + max(GAP, 50 - CELL * window.lines)
    return parts, x


def legend(y):
    """What the colors mean."""
    told = [(COLORS["load"], "loads"), (COLORS["store"], "stores"), (COLORS["both"], "both")]
    told += [("#222222", "hot line"), (KIND_COLORS["true"], "shared: true"), (KIND_COLORS["false"], "false")]
    told += [(KIND_COLORS["read"], "read"), (KIND_COLORS["alone"], "alone")]
    parts, x = [], 4
    for color, words in told:
        parts += [rectangle(x, y, 10, 10, color, words), text(x + 14, y + 9, words)]
        x += 26 + 7 * len(words)
    return parts, x


def picture(surveys):
    """The picture as SVG."""
    parts, right, y = [], 0, 0
    for survey in surveys:
        drawn, width = case_picture(survey, y)
        parts += drawn
        right = max(right, width)
        y += HEAD + CELL * len(survey.slots) + 26
    drawn, width = legend(y + 4)
    right = max(right, width)
    head = f'<svg xmlns="http://www.w3.org/2000/svg" width="{right}" height="{y + 22}"'
    head += ' font-family="sans-serif" font-size="11">'
    white = f'<rect width="{right}" height="{y + 22}" fill="#ffffff"/>'
    return "\n".join([head, white, *parts, *drawn, "</svg>"]) + "\n"


def head_line(image):
    cases = image.cases
    return (f"template {cases.name} seed {image.seed} harts {cases.harts} line {cases.line} "
            f"passes {cases.passes} cases {len(cases.cases)}")


def main():
    parser = argparse.ArgumentParser(description=__doc__, formatter_class=argparse.RawDescriptionHelpFormatter)
    parser.add_argument("image")
    parser.add_argument("--case", type=int, metavar="C", help="of this case alone")
    parser.add_argument("--svg", metavar="FILE", help="write a picture of the lines by harts")
    asked = parser.parse_args()
    image = FileImage(Path(asked.image).read_bytes())
    count = len(image.cases.cases)
    if asked.case is not None and not 0 <= asked.case < count:
        raise OSError(f"the image has the cases 0 to {count - 1}")
    chosen = range(count) if asked.case is None else [asked.case]
    surveys = [CaseSurvey(image, c) for c in chosen]
    line_size = image.cases.line
    print(head_line(image))
    for survey in surveys:
        print(f"case {survey.number} {survey.name}")
        print("\n".join(printed(hart_table(survey))))
        if survey.windows:
            print("\n".join(printed(window_table(survey, line_size))))
    print("all: " + ", ".join(totals(surveys, line_size)))
    if asked.svg:
        Path(asked.svg).write_text(picture(surveys))
    return 0


if __name__ == "__main__":
    try:
        sys.exit(main())
    except (KeyError, struct.error):
        print("survey.py: the file isn't as it was built", file=sys.stderr)
        sys.exit(2)
    except (Fault, OSError) as why:
        print(f"survey.py: {why.told() if isinstance(why, Fault) else why}", file=sys.stderr)
        sys.exit(2)
