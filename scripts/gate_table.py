#!/usr/bin/env python3
"""Looks over the table of crates in docs/gate.md, and tells the heaviest chain of crates. It isn't part of the gate.

usage: gate_table.py [--write]

A row has a crate's lines of code, specs and proofs, its tests, its edits, and the seconds of its last measuring, with
the number of edits that it had then where that was another one. All but the seconds are counted here; with --write the
table is written anew, with a row for each crate of crates.txt, in its order. A crate that was never measured has `-`.

The heaviest chain is told twice: by the sums as they were measured, and with 27 seconds less for each edit that a crate
has lost since, which is what an edit took on the average. Ends with status 1 where the table isn't what was counted.
"""
import argparse
import re
import sys
from pathlib import Path

TOP = Path(__file__).resolve().parent.parent
PAGE = TOP / "docs" / "gate.md"
ROW = re.compile(r"^\| `([a-z0-9_]+)` \| ([^|]*)\| ([^|]*)\| ([^|]*)\| ([^|]*)\|$")
HEAD = "| Crate | Lines: code, specs, proofs | Tests | Edits | Seconds |"
EDIT_SECONDS = 27


def crates():
    """Each crate with the crates of this repository that it names, in the order of crates.txt."""
    found = {}
    for line in (TOP / "crates.txt").read_text().splitlines():
        match = re.match(r"([a-z0-9_]+)[^:#]*:(.*)$", line)
        if match:
            found[match.group(1)] = match.group(2).split()
    return {name: [below for below in all_below if below in found] for name, all_below in found.items()}


def lines_in(folder, ending):
    return sum(len(path.read_text().splitlines()) for path in folder.rglob(f"*{ending}")) if folder.is_dir() else 0


def counted(name):
    """The lines, tests and edits of a crate."""
    folder = TOP / "crates" / name
    lines = [lines_in(folder / "src", ".rt"), lines_in(folder / "specs", ".antt"), lines_in(folder / "proofs", ".antt")]
    tests = sum(path.read_text().count("#[test]") for path in (folder / "src").rglob("*.rt"))
    edits = len(list((folder / "must-fail").glob("*.edit")))
    return lines, tests, edits


def measured(page):
    """The seconds of each row, and how many edits the crate had then."""
    found = {}
    for line in page.splitlines():
        match = ROW.match(line)
        if not match or match.group(5).strip() == "-":
            continue
        numbers = re.findall(r"\d+", match.group(5))
        then = numbers[1] if len(numbers) > 1 else match.group(4).strip().replace("-", "0")
        found[match.group(1)] = (int(numbers[0]), int(then))
    return found


def row(name, known):
    lines, tests, edits = counted(name)
    if name not in known:
        seconds = "-"
    elif known[name][1] != edits:
        seconds = f"{known[name][0]} with {known[name][1]}"
    else:
        seconds = str(known[name][0])
    return f"| `{name}` | {', '.join(map(str, lines))} | {tests or '-'} | {edits or '-'} | {seconds} |"


def heaviest(below, weight):
    best = {}

    def chain(name):
        if name not in best:
            longest = max((chain(other) for other in below[name]), default=(0, []))
            best[name] = (longest[0] + weight(name), longest[1] + [name])
        return best[name]

    return max(chain(name) for name in below)


def main():
    parser = argparse.ArgumentParser(description=__doc__, formatter_class=argparse.RawDescriptionHelpFormatter)
    parser.add_argument("--write", action="store_true", help="write the table anew")
    words = parser.parse_args()
    page = PAGE.read_text()
    known = measured(page)
    below = crates()
    rows = [row(name, known) for name in below]
    for title, lost in (("as measured", 0), ("without the edits that went", EDIT_SECONDS)):

        def weight(name):
            seconds, then = known.get(name, (0, 0))
            return max(0, seconds - lost * max(0, then - counted(name)[2]))

        total, chain = heaviest(below, weight)
        print(f"heaviest chain {title}: {total} s over {len(chain)} crates: {' '.join(chain)}")
        print(f"all crates {title}: {sum(map(weight, below)) / 60:.0f} min")
    old = [line for line in page.splitlines() if ROW.match(line)]
    if words.write:
        start = page.index(HEAD)
        end = page.index("\n\n", start)
        PAGE.write_text(page[:start] + "\n".join([HEAD, "|---|---|---|---|---|", *rows]) + page[end:])
        return 0
    for line in sorted(set(old) ^ set(rows)):
        print(("counted " if line in rows else "stands ") + line)
    return 0 if old == rows else 1


if __name__ == "__main__":
    sys.exit(main())
