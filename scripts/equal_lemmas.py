#!/usr/bin/env python3
"""Lists lemmas that are stated twice: top-level signatures of proofs/ and specs/ that are equal but for bound names.

A lemma belongs to the lowest crate whose words it speaks of, and everybody else cites it. Two signatures with equal
words may still speak of two definitions of one name; look before you merge.

usage: equal_lemmas.py [-h] [FOLDER]

It isn't part of the gate, and ends with status 0 where nothing is stated twice, and else with 1.
"""
import argparse
import collections
import pathlib
import re
import sys

SIGNATURE = re.compile(r"^(?:pub )?([A-Za-z_][^\s:({]*)(?: \{[^}]*\})? :(?: (.*))?$")
BINDER = re.compile(r"[({]([A-Za-z_][\w'-]*(?: [A-Za-z_][\w'-]*)*) :")
NAME = re.compile(r"[A-Za-z_][\w'-]*")
SHORTEST = 40


def with_numbers(signature):
    """The signature, with a number for each bound name, in the order of the binders."""
    numbers = {}
    for binder in BINDER.finditer(signature):
        for name in binder.group(1).split():
            numbers.setdefault(name, f"v{len(numbers)}")
    return NAME.sub(lambda m: numbers.get(m.group(0), m.group(0)), signature)


def signatures(file):
    """Line, name and type of each top-level signature of a file."""
    lines = file.read_text().split("\n")
    for at, line in enumerate(lines):
        head = SIGNATURE.match(line)
        if not head:
            continue
        parts = [head.group(2) or ""]
        for more in lines[at + 1:]:
            if not more.startswith(" "):
                break
            parts.append(more.strip())
        yield at + 1, head.group(1), " ".join(" ".join(parts).split())


def groups(folder):
    """The places of each statement that stands in more than one file."""
    found = collections.defaultdict(list)
    for file in sorted(folder.glob("crates/*/*/**/*.antt")):
        if file.relative_to(folder).parts[2] not in ("proofs", "specs"):
            continue
        for line, name, signature in signatures(file):
            if "→" in signature and len(signature) > SHORTEST:
                found[with_numbers(signature)].append((file.relative_to(folder), line, name))
    return {text: places for text, places in found.items() if len({place[0] for place in places}) > 1}


def main():
    parser = argparse.ArgumentParser(description=__doc__, formatter_class=argparse.RawDescriptionHelpFormatter)
    parser.add_argument("folder", nargs="?", type=pathlib.Path, default=pathlib.Path(__file__).resolve().parent.parent)
    twice = groups(parser.parse_args().folder)
    for text, places in sorted(twice.items(), key=lambda group: -len(group[1])):
        print(text[:150])
        for file, line, name in places:
            print(f"    {file}:{line} {name}")
    print(f"{len(twice)} statements stand in more than one file")
    sys.exit(1 if twice else 0)


if __name__ == "__main__":
    main()
