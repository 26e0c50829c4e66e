#!/usr/bin/env python3
"""Compares documents with the crates. In docs/architecture.md each crate of crates.txt has one row, and its column
"Next below" names the libraries of its line in crates.txt that aren't below another one of that line, those of the kit
last. In all documents the crates that are named are there, a name such as `tm_gen.specs.Gen.gen_of` stands in that file
of the crate, and one such as `tm_top::still` in the crate's sources.

Prints what differs, and ends with status 1 where something does. With --write the column is written anew."""

import argparse
import re
import sys
from pathlib import Path

TOP = Path(__file__).resolve().parent.parent
DOCUMENT = TOP / "docs" / "architecture.md"


def read_crates():
    """The libraries of each crate's line."""
    found = {}
    for line in (TOP / "crates.txt").read_text().split("\n"):
        name, is_crate, libraries = line.split("#")[0].partition(":")
        if is_crate:
            found[name.split()[0]] = libraries.split()
    return found


def all_below(crates, name, known):
    """All libraries below a crate."""
    if name not in known:
        known[name] = set()
        for library in crates.get(name, []):
            known[name] |= {library} | all_below(crates, library, known)
    return known[name]


def next_below(crates, name, known):
    """The libraries of a crate's line that aren't below another one of it."""
    line = crates[name]
    top = [one for one in line if not any(one in all_below(crates, other, known) for other in line)]
    return sorted(top, key=lambda one: (one not in crates, one))


def column(libraries):
    return ", ".join(f"`{one}`" for one in libraries) or "-"


def compare(lines, crates):
    """The lines with the column anew, and what differs."""
    known, rows, wrong, out = {}, [], [], []
    for line in lines:
        cells = line.split(" | ")
        name = cells[0].removeprefix("| ").strip("`")
        if len(cells) == 5 and name in crates:
            rows.append(name)
            must = column(next_below(crates, name, known))
            if cells[1] != must:
                wrong.append(f"{name}: next below is {must}, and not {cells[1]}")
                line = " | ".join([cells[0], must] + cells[2:])
        out.append(line)
    wrong += [f"{name}: no row" for name in crates if name not in rows]
    wrong += [f"{name}: {rows.count(name)} rows" for name in crates if rows.count(name) > 1]
    return out, wrong


def has_word(paths, word):
    """Whether a word stands in one of some files."""
    return any(re.search(rf"\b{re.escape(word)}\b", path.read_text()) for path in paths)


def names_that_are_gone(document):
    """The names of a document that aren't in the crates any more."""
    text = document.read_text()
    crates = TOP / "crates"
    gone = []
    for name, crate, file, word in re.findall(r"\b((tm_\w+)\.specs\.(\w+)(?:\.(\w+))?)", text):
        path = crates / crate / "specs" / f"{file}.antt"
        if not path.exists() or not has_word([path], word or ""):
            gone.append(name)
    for name in re.findall(r"`(tm_[a-z_]+)`", text):
        if not (crates / name).is_dir():
            gone.append(name)
    for name, crate, word in re.findall(r"((tm_\w+)::(?:\w+::)*(\w+))", text):
        if not has_word(sorted((crates / crate / "src").glob("*.rt")), word):
            gone.append(name)
    return [f"{document.relative_to(TOP)}: {name} isn't there" for name in gone]


def main():
    parser = argparse.ArgumentParser(description=__doc__, formatter_class=argparse.RawDescriptionHelpFormatter)
    parser.add_argument("--write", action="store_true", help="write the column anew")
    asked = parser.parse_args()
    out, wrong = compare(DOCUMENT.read_text().split("\n"), read_crates())
    for document in sorted((TOP / "docs").glob("*.md")) + [TOP / "README.md"]:
        wrong += names_that_are_gone(document)
    print("\n".join(wrong) or "the documents agree with the crates")
    if asked.write:
        DOCUMENT.write_text("\n".join(out))
    return 1 if wrong else 0


if __name__ == "__main__":
    sys.exit(main())
