#!/usr/bin/env python3
"""Builds the worked examples of examples/, and lists, runs and surveys each.

The images, listings, reports, traces, surveys and pictures are left in FOLDER. Each example is run in round order, as
it is, with a trace, and under its script of faults, whose lines `# reported:` say what has to be told; with --threads
also with a thread for each hart; and on QEMU where that is installed (Debian: qemu-system-misc). With --reader the
second reading in scripts/derive builds, lists and runs in place of the program. It isn't part of the gate.

It ends with status 0 where all went well, and nothing was reported but under a script; with 1 where not; and with 2
where nothing could be tried."""

import argparse
import shutil
import subprocess
import sys
from pathlib import Path

HERE = Path(__file__).resolve().parent
sys.path.insert(0, str(HERE))

from derive import texts
from derive.faults import Fault
from derive.image import Image, open_image
from derive.scripts import read_script
from derive.simulator import Run
from derive.traces import read_trace, trace_text

EXAMPLES = HERE.parent / "examples"
PROGRAM = HERE.parent / "crates" / "threadmill" / "out" / "threadmill"
MOST_EVENTS = 4_000_000


def called(words, out, status=0):
    """Whether a command ends with a status; what it prints goes to a file."""
    done = subprocess.run([str(word) for word in words], capture_output=True, check=False)
    out.write_bytes(done.stdout + done.stderr)
    return done.returncode == status


def is_trace(path, report):
    """Whether a file is the trace of a run with this report."""
    _, events = read_trace(path.read_bytes())
    return report.read_bytes().endswith(f"events {len(events)}\n".encode())


def is_told(script, report):
    """Whether a report has exactly the lines that a script's remarks announce, beside those that are ok."""
    told = [line for line in report.read_text().splitlines() if ": hart " in line]
    mark = "# reported: "
    return told == [line.removeprefix(mark) for line in script.read_text().splitlines() if line.startswith(mark)]


def by_reader(inputs, image, asked):
    """The steps as the second reading does them."""
    *texts_of_test, script = inputs

    def build(out):
        found = Image(*(path.read_bytes() for path in texts_of_test), asked.seed)
        image.write_bytes(found.file)
        cases = found.cases
        out.write_text(f"built: harts {cases.harts}, cases {len(cases.cases)}, bytes {len(found.file)}\n")
        return True

    def listing(out):
        out.write_bytes(texts.listing(open_image(image.read_bytes())))
        return True

    def run(out, lines=()):
        done = Run(open_image(image.read_bytes()), MOST_EVENTS, lines)
        is_done = done.halted() == done.cases.harts
        out.write_bytes(texts.report(done) if is_done else texts.full_line(done))
        return done, is_done

    def plain(out):
        done, is_done = run(out)
        image.with_suffix(".trace").write_bytes(trace_text(done.cases.harts, done.journal))
        return is_done and not texts.reported(done)

    def faults(out):
        lines = read_script(script.read_bytes(), open_image(image.read_bytes()).cases)
        return run(out, lines)[1] and is_told(script, out)

    trace = image.with_suffix(".trace")
    steps = {"build": build, "list": listing, "round": plain}
    return steps | {"trace": lambda out: is_trace(trace, image.with_suffix(".round")), "faults": faults}


def by_program(inputs, image, asked):
    """The steps as the program does them."""
    *texts_of_test, script = inputs
    program, trace = asked.threadmill, image.with_suffix(".trace")
    run = [program, "run", image, "--order"]
    wanted = 1 if "# reported: " in script.read_text() else 0
    steps = {
        "build": lambda out: called([program, "build", *texts_of_test, image, "--seed", asked.seed], out),
        "list": lambda out: called([program, "list", image], out),
        "round": lambda out: called([*run, "round"], out),
        "trace": lambda out: called([*run, "round", "--trace", trace], out) and is_trace(trace, out),
        "faults": lambda out: called([*run, "round", "--faults", script], out, wanted) and is_told(script, out),
    }
    if asked.threads:
        steps["threads"] = lambda out: called([*run, "threads"], out)
    return steps


def steps_of(name, asked):
    inputs = [EXAMPLES / f"{name}.{end}" for end in ("toml", "tm", "faults")]
    image = asked.folder / f"{name}.elf"
    steps = (by_reader if asked.reader else by_program)(inputs, image, asked)
    if shutil.which("qemu-system-riscv64"):
        steps["qemu"] = lambda out: called([sys.executable, HERE / "run_on_qemu.py", image], out)
    words = [sys.executable, HERE / "survey.py", image, "--svg", asked.folder / f"{name}.svg"]
    return steps | {"survey": lambda out: called(words, out)}


def try_example(name, asked):
    """The line of an example, and whether all went well."""
    told = []
    for step, do in steps_of(name, asked).items():
        if sys.stderr.isatty():
            sys.stderr.write(f"\r\x1b[K{name}: {step}")
        out = asked.folder / (f"{name}.{step}" if step != "trace" else f"{name}.traced")
        try:
            is_good = do(out)
        except (Fault, OSError) as why:
            out.write_text(f"{why.told() if isinstance(why, Fault) else why}\n")
            is_good = False
        told.append(f"{step} ok" if is_good else f"{step} FAILED (see {out})")
        if not is_good and step == "build":
            break
    if sys.stderr.isatty():
        sys.stderr.write("\r\x1b[K")
    return f"{name}: " + ", ".join(told), all(part.endswith(" ok") for part in told)


def main():
    parser = argparse.ArgumentParser(description=__doc__, formatter_class=argparse.RawDescriptionHelpFormatter)
    parser.add_argument("folder", type=Path, help="a folder for what is made")
    parser.add_argument("--threadmill", type=Path, default=PROGRAM, metavar="PATH", help="the program")
    parser.add_argument("--reader", action="store_true", help="by scripts/derive in place of the program")
    parser.add_argument("--threads", action="store_true", help="run with a thread for each hart too")
    parser.add_argument("--seed", type=int, default=1, metavar="S", help="the seed (1)")
    parser.add_argument("--only", metavar="NAME", help="of this example alone")
    asked = parser.parse_args()
    names = sorted(path.stem for path in EXAMPLES.glob("*.tm") if asked.only in (None, path.stem))
    if not names:
        print(f"run_examples.py: there is no example {asked.only}", file=sys.stderr)
        return 2
    if not asked.reader and shutil.which(asked.threadmill) is None:
        print(f"run_examples.py: there is no program {asked.threadmill}: name it with --threadmill PATH, "
              "or take --reader", file=sys.stderr)
        return 2
    asked.folder.mkdir(parents=True, exist_ok=True)
    is_all_good = True
    for name in names:
        line, is_good = try_example(name, asked)
        print(line, flush=True)
        is_all_good = is_all_good and is_good
    return 0 if is_all_good else 1


if __name__ == "__main__":
    sys.exit(main())
