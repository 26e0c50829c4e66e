#!/usr/bin/env python3
"""Derives the stored answers of the programs of cases again, and compares.

The answers are those of crates/tm_cases_*/stdout; beside them the stored runs of crates/threadmill and of
crates/threadmill_refused, and the words of crates/tm_pass_rows/stdout. They are derived by the package `derive` beside
this file, which was written from docs/formats.md, docs/definitions.md and docs/cases.md. For each program a line tells
how many answers agree. A name in PROGRAM is that of a crate; without one all are derived, in about a minute.

It ends with status 0 where all agree, and with 1 where one differs or is missing."""

import argparse
import sys
from pathlib import Path

sys.path.insert(0, str(Path(__file__).resolve().parent))

from derive.book import NOT_A_CASE, answers
from derive.commands import Call
from derive.desks import Desk, Sink
from derive.programs import PROGRAMS, word_lines

CRATES = Path(__file__).resolve().parent.parent / "crates"


def stored_answers(crate):
    """The stored cases with their answers: a line, and behind it one that begins with two blanks."""
    lines = (CRATES / crate / "stdout").read_bytes().decode("utf-8", "replace").split("\n")
    pairs = []
    for at in range(0, len(lines) - 1, 2):
        pairs.append((lines[at], lines[at + 1].removeprefix("  ")))
    return pairs


def print_answers(crate):
    """Prints the answers of a program as they are derived."""
    files, kinds = PROGRAMS[crate]
    for line, answer in answers([CRATES / crate / "data" / name for name in files], kinds):
        sys.stdout.write(f"{line}\n  {answer}\n")


def shorten(text):
    return text if len(text) <= 200 else text[:200] + f".. ({len(text)} bytes)"


def compare(crate, most_shown):
    """Whether all answers of a program agree; prints its line, and the first that don't."""
    files, kinds = PROGRAMS[crate]
    stored = stored_answers(crate)
    derived = list(answers([CRATES / crate / "data" / name for name in files], kinds))
    wrong = [(d, s) for d, s in zip(derived, stored) if d != s or d[1] == NOT_A_CASE]
    missing = abs(len(derived) - len(stored))
    agree = len(stored) - len(wrong) - max(0, len(stored) - len(derived))
    print(f"{crate}: {agree} of {len(stored)} agree" + (f", {missing} missing or more" if missing else ""))
    for d, s in wrong[:most_shown]:
        print(f"  {shorten(s[0])}\n    stored:  {shorten(s[1])}\n    derived: {shorten(d[1])}")
    return not wrong and not missing


def compare_run(crate):
    """Whether the stored run of a program agrees: its status and what it prints."""
    folder = CRATES / crate
    words = (folder / "args").read_text().split("\n")[:-1]
    data = folder / "data"
    files = {f"data/{p.name}": p.read_bytes() for p in data.iterdir()} if data.is_dir() else {}
    files |= {name.removeprefix("data/"): file for name, file in list(files.items())}
    out = Sink()
    call = Call(words, Desk(files), out, Sink(), ("round", "threads"))
    status = int((folder / "status").read_text()) if (folder / "status").exists() else 0
    stored = folder / "stdout"
    agrees = out.taken == (stored.read_bytes() if stored.exists() else b"") and call.status == status
    print(f"{crate}: {int(agrees)} of 1 agree")
    return agrees


def compare_words(crate):
    """Whether the words of a small test's program agree."""
    stored = (CRATES / crate / "stdout").read_text().split("\n")
    derived = word_lines()
    agree = sum(d == s for d, s in zip(derived, stored))
    print(f"{crate}: {agree} of {len(stored)} lines agree")
    return derived == stored


def main():
    parser = argparse.ArgumentParser(
        description=__doc__, formatter_class=argparse.RawDescriptionHelpFormatter
    )
    others = {"threadmill": compare_run, "threadmill_refused": compare_run, "tm_pass_rows": compare_words}
    names = list(PROGRAMS) + list(others)
    parser.add_argument("program", nargs="*", metavar="PROGRAM", help=", ".join(names))
    parser.add_argument("--show", type=int, default=5, metavar="N", help="show the first N that differ (5)")
    parser.add_argument("--print", choices=list(PROGRAMS), metavar="CRATE", help="print a derived stdout")
    options = parser.parse_args()
    if options.print:
        print_answers(options.print)
        return 0
    unknown = [name for name in options.program if name not in names]
    if unknown:
        parser.error(f"no such program: {' '.join(unknown)}")
    agreed = True
    for name in options.program or names:
        agreed &= others[name](name) if name in others else compare(name, options.show)
    return 0 if agreed else 1


if __name__ == "__main__":
    sys.exit(main())
