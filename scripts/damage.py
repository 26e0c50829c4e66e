#!/usr/bin/env python3
"""Damages files of random tests, and looks at what the program says of each.

Of each test an image, a template, a topology, a script of faults and a trace are damaged in one to eight places: bits
flipped, bytes changed, cut, doubled or swapped, lines moved. The image is listed or run, a text built or run under,
and the trace read by the program of cases (no command reads one). Each answer has to be status 3 with one line of its
form that names a place inside the file, and the very line that the second reading in scripts/derive says; or else a
rightful accept:

  an image     `list` and `run` do what they do for the image that `build` gives for the plan that it holds
  a text       what was read has another printed form than before, or the damage was in blanks and comments alone, or
               a number, or the order of a topology's lines, is spelled otherwise. And the printed form itself is
               taken for the same: the same words are built of it, or the run under it is the same
  a trace      the numbers of harts and events are those that stand there, and what was read is written again

Never another status, an empty error line, a file that changed, a run of more than 3 seconds or 200 MB. What is wrong is
printed, and the files are kept in FOLDER/wrong; --test T repeats a test. At the end one line tells the numbers. It
isn't part of the gate.

It ends with status 0; with 1 where something was wrong; and with 2 where nothing could be tried."""

import argparse
import os
import random
import shutil
import signal
import subprocess
import sys
import tempfile
import time
from collections import Counter, namedtuple
from concurrent.futures import ProcessPoolExecutor
from pathlib import Path

HERE = Path(__file__).resolve().parent
sys.path.insert(0, str(HERE))

from derive.book import shown
from derive.bounds import budget
from derive.commands import read_faults
from derive.elf import first_difference, range_of, read_elf
from derive.faults import Fault
from derive.image import read_inputs, topology_of
from derive.scripts import read_script
from derive.topology import parse_topology
from derive.traces import read_trace
from hostile.damages import damaged, damaged_image
from hostile.inputs import bare, script, script_text, template_text, texts, topology_text
from hostile.refusals import is_right
from survey import FileImage

CRATES = HERE.parent / "crates"
PROGRAM = CRATES / "threadmill" / "out" / "threadmill"
READER = CRATES / "tm_cases_scripts" / "out" / "tm_cases_scripts"
KINDS = {"image": "images", "template": "templates", "topology": "topologies", "script": "scripts", "trace": "traces"}
# So many files of each kind are damaged of a test.
OF_A_TEST = 8
MOST_SECONDS, MOST_MEGABYTES = 3.0, 200
TRACE_EVENTS = 40
MOST_EVENTS = 100_000_000
OLD = b"what stood here before\n"

Answer = namedtuple("Answer", "status out err")


class Wrong(Exception):
    """What is wrong with an answer."""


class Room:
    """A folder in which the program is run: what has to stand in it, and the most that a run has taken."""

    def __init__(self, program, reader, above, longest):
        self.program, self.reader, self.longest = program, reader, longest
        self.folder = Path(tempfile.mkdtemp(dir=above))
        self.sinks = [tempfile.TemporaryFile(dir=above) for _ in range(2)]
        self.files = {}
        self.seconds = self.megabytes = 0.0
        self.process = None
        signal.signal(signal.SIGALRM, lambda *_: self.process.kill())

    def put(self, name, data):
        (self.folder / name).write_bytes(data)
        self.files[name] = data

    def clear(self):
        for path in self.folder.iterdir():
            path.unlink()
        self.files = {}

    def call(self, *words, changes=(), program=None):
        """What a run answers. Of the files only those named may be other ones behind it."""
        for sink in self.sinks:
            sink.seek(0)
            sink.truncate()
        out, err = self.sinks
        begun = time.monotonic()
        self.process = subprocess.Popen([program or self.program, *words], cwd=self.folder, stdin=subprocess.DEVNULL,
                                        stdout=out, stderr=err, close_fds=False)
        signal.setitimer(signal.ITIMER_REAL, 3 * self.longest)
        _, status, usage = os.wait4(self.process.pid, 0)
        signal.setitimer(signal.ITIMER_REAL, 0)
        self.process.returncode = os.waitstatus_to_exitcode(status)
        self.measure(words, time.monotonic() - begun, usage.ru_maxrss * 1024 / 1e6)
        self.look(changes)
        for sink in self.sinks:
            sink.seek(0)
        return Answer(self.process.returncode, *(sink.read().decode("latin-1") for sink in self.sinks))

    def measure(self, words, seconds, megabytes):
        self.seconds, self.megabytes = max(self.seconds, seconds), max(self.megabytes, megabytes)
        if seconds > self.longest or megabytes > MOST_MEGABYTES:
            raise Wrong(f"{' '.join(words)}: {seconds:.1f} s, {megabytes:.0f} MB")

    def look(self, changes):
        there = {path.name: path for path in self.folder.iterdir()}
        if set(there) - set(changes) != set(self.files) - set(changes):
            raise Wrong(f"there are the files {' '.join(sorted(there))}")
        for name, data in self.files.items():
            if name not in changes and there[name].read_bytes() != data:
                raise Wrong(f"{name} was changed")

    def built(self, topology, template, seed):
        """The image that the program builds of two texts."""
        self.put("p.toml", topology)
        self.put("p.tm", template)
        answer = self.call("build", "p.toml", "p.tm", "p.elf", "--seed", str(seed), changes=["p.elf"])
        if answer.status:
            raise Wrong(f"its texts aren't built: {answer.err.strip()}")
        self.files["p.elf"] = (self.folder / "p.elf").read_bytes()
        return self.files["p.elf"]


class Test:
    """A random test: its texts, its image, a script and a trace."""

    def __init__(self, room, draw, seed):
        self.seed = seed
        self.topology, self.template = texts(draw)
        self.image = room.built(self.topology, self.template, seed)
        room.put("a.elf", self.image)
        self.plan = self.texts_of_plan()
        self.cases = FileImage(self.image).cases
        self.events = str(min(budget(self.cases), MOST_EVENTS))
        self.script = script(draw, self.cases)
        words = ["--order", "round", "--events", str(TRACE_EVENTS), "--trace", "a.trace"]
        if room.call("run", "a.elf", *words, changes=["a.trace"]).status not in (0, 4):
            raise Wrong("the image doesn't run")
        self.trace = (room.folder / "a.trace").read_bytes()
        room.files["a.trace"] = self.trace
        room.put("out.elf", OLD)

    def texts_of_plan(self):
        """Where in the image the texts of its plan begin, and where they end."""
        at, size = range_of(self.image, 4, True)
        return at + 24, at + size


def refusal(role, fault):
    return f"threadmill: {role}: {fault.told()}\n"


def must_refuse(answer, line, role, data, inputs=()):
    """The answer has to be a refusal with a line, of the form of its role."""
    if (answer.status, answer.out, answer.err) != (3, "", line):
        raise Wrong(f"answered {answer}, and the second reading has {line.strip()}")
    if not is_right(answer.err, role, data, inputs):
        raise Wrong(f"{answer.err.strip()} hasn't the form of a refusal, or names a place that isn't there")
    return "refused"


def must_do(answer, statuses):
    if answer.status not in statuses or answer.err or not answer.out:
        raise Wrong(f"answered {answer}, and the second reading accepts it")


def try_image(room, test, draw, data):
    room.put("d.elf", data)
    rest = draw.choice(([["list"], []], [["run"], ["--order", "round", "--events", test.events]]))
    answer = room.call(*rest[0], "d.elf", *rest[1])
    inputs = ()
    try:
        parts = read_elf(data)
        inputs = parts.topology, parts.template
    except Fault as fault:
        return must_refuse(answer, refusal("image", Fault("Elf", fault=fault)), "image", data)
    try:
        read_inputs(*inputs)
    except Fault as fault:
        return must_refuse(answer, refusal("image", Fault("Inputs", fault=fault)), "image", data, inputs)
    at = first_difference(room.built(*inputs, parts.seed), data)
    if at is not None:
        return must_refuse(answer, refusal("image", Fault("Differs", offset=at)), "image", data)
    for words in (["list"], []), (["run"], ["--order", "round", "--events", test.events]):
        answers = [room.call(*words[0], name, *words[1]) for name in ("d.elf", "p.elf")]
        must_do(answers[0], (0,))
        if answers[0] != answers[1]:
            raise Wrong(f"{words[0][0]} answers {answers[0]}, and for what is built of its plan {answers[1]}")
    return "accepted"


def accepted_as(kind, data, before, is_same):
    """How a text differs that was accepted."""
    if not is_same:
        return "read otherwise"
    return "blanks and comments" if bare(kind, data) == bare(kind, before) else "spelled otherwise"


def try_text(room, test, kind, data):
    """A topology or a template, which is built with the other text as it was."""
    pair = {"topology": test.topology, "template": test.template, kind: data}
    for name, text in zip(("d.toml", "d.tm"), pair.values()):
        room.put(name, text)
    words = ["build", "d.toml", "d.tm", "out.elf", "--seed", str(test.seed)]
    answer = room.call(*words, changes=["out.elf"])
    is_new = (room.folder / "out.elf").read_bytes() != OLD
    file = (room.folder / "out.elf").read_bytes()
    room.put("out.elf", OLD)
    role = "topology"
    try:
        topology_of(pair["topology"])
        role = "template"
        read_inputs(*pair.values())
    except Fault as fault:
        if is_new:
            raise Wrong("it is refused, and the output was changed") from None
        return must_refuse(answer, refusal(role, fault), role, pair[role])
    must_do(answer, (0,))
    topologies = [topology_text(parse_topology(text)) for text in (pair["topology"], test.topology)]
    templates = [template_text(text) for text in (pair["template"], test.template)]
    parts, again = read_elf(file), read_elf(room.built(topologies[0], templates[0], test.seed))
    if (parts.topology, parts.template) != tuple(pair.values()):
        raise Wrong("the plan hasn't the texts")
    if parts[:2] != again[:2] or parts.symbols != again.symbols:
        raise Wrong("what is built of the printed forms is another program")
    return accepted_as(kind, data, getattr(test, kind), topologies[0] == topologies[1] and templates[0] == templates[1])


def try_script(room, test, data):
    words = ["run", "a.elf", "--order", "round", "--events", test.events, "--faults"]
    room.put("d.faults", data)
    answer = room.call(*words, "d.faults")
    try:
        printed = script_text(read_faults(data, test.cases))
    except Fault as fault:
        return must_refuse(answer, refusal("faults", fault), "faults", data)
    must_do(answer, (0, 1))
    room.put("p.faults", printed)
    if room.call(*words, "p.faults") != answer:
        raise Wrong("a run under its printed form is another one")
    return accepted_as("script", data, test.script, printed == script_text(read_script(test.script, test.cases)))


def case_text(data):
    """A text as a line of a file of cases has it."""
    told = shown(data).replace("{", "\\x7b").replace("}", "\\x7d")
    return "\\e" + told + "\\e"


def try_traces(room, some):
    """What came of each trace, read by the program of cases."""
    room.put("scripts", b"")
    room.put("races", b"")
    room.put("traces", "".join(f"trace {case_text(data)}\n" for data in some).encode())
    answer = room.call(program=room.reader)
    told = answer.out.split("\n")[1::2]
    if answer.status or answer.err or len(told) != len(some):
        raise Wrong(f"the program of cases answered {answer}")
    return [trace_outcome(data, line.removeprefix("  ")) for data, line in zip(some, told)]


def trace_outcome(data, line):
    """What came of a trace: of its answer, or what is wrong with it."""
    try:
        harts, events = read_trace(data)
    except Fault as fault:
        at = fault.values["line"]
        is_fine = line == fault.told() and 1 <= at <= data.count(b"\n") + 1
        return "refused" if is_fine else Wrong(f"answered {line}, and the second reading has {fault.told()}")
    is_fine = line.startswith(f"harts {harts} events {len(events)}") and line.endswith(", the same")
    return "read otherwise" if is_fine else Wrong(f"answered {line}, and the second reading accepts it")


def try_file(room, test, kind, draw):
    """A damaged file of a kind, and what came of it."""
    if kind == "image":
        data = damaged_image(draw, test.image, test.plan)
        return data, lambda: try_image(room, test, draw, data)
    data = damaged(draw, getattr(test, kind))
    if kind == "script":
        return data, lambda: try_script(room, test, data)
    return data, lambda: try_text(room, test, kind, data)


class Tally:
    """What came of some files, and what was wrong."""

    def __init__(self):
        self.counts = Counter()
        self.wrong = []
        self.seconds = self.megabytes = 0.0

    def add(self, other):
        self.counts += other.counts
        self.wrong += other.wrong
        self.seconds, self.megabytes = max(self.seconds, other.seconds), max(self.megabytes, other.megabytes)

    def note(self, room, kept, kind, number, data, why):
        """Something was wrong with a file: it is kept, with all that stood beside it."""
        folder = kept / f"{kept.name}-{kind}-{number}" if number is not None else kept / kind
        shutil.copytree(room.folder, folder, dirs_exist_ok=True)
        if data is not None:
            (folder / "damaged").write_bytes(data)
        (folder / "told").write_text(f"{why}\n")
        self.wrong.append(f"{folder}: {why}")
        self.counts[kind, "wrong"] += 1


ROOM = None


def enter(*parts):
    """A room of its own for each process."""
    global ROOM
    signal.signal(signal.SIGINT, signal.SIG_IGN)
    ROOM = Room(*parts)


def try_test(number, seed, kept):
    """All that comes of a test."""
    room, tally, draw = ROOM, Tally(), random.Random(f"{seed} {number}")
    room.seconds = room.megabytes = 0.0
    room.clear()
    kept = kept / str(number)
    try:
        test = Test(room, draw, number)
    except (Wrong, Fault) as why:
        tally.note(room, kept, "test", None, None, why)
        return tally
    for kind in list(KINDS)[:-1]:
        for n in range(OF_A_TEST):
            data, do = try_file(room, test, kind, draw)
            try:
                tally.counts[kind, do()] += 1
            except Wrong as why:
                tally.note(room, kept, kind, n, data, why)
    some = [damaged(draw, test.trace) for _ in range(OF_A_TEST)]
    try:
        outcomes = try_traces(room, some)
    except Wrong as why:
        outcomes = [why] * OF_A_TEST
    for n, (data, outcome) in enumerate(zip(some, outcomes)):
        if isinstance(outcome, Wrong):
            tally.note(room, kept, "trace", n, data, outcome)
        else:
            tally.counts["trace", outcome] += 1
    tally.seconds, tally.megabytes = room.seconds, room.megabytes
    return tally


def numbers(tally, tests, begun):
    """The line at the end."""
    told = []
    for kind in KINDS:
        some = {what: n for (of, what), n in tally.counts.items() if of == kind}
        inner = ", ".join(f"{some[what]} {what}" for what in sorted(some, reverse=True))
        told.append(f"{sum(some.values())} {KINDS[kind]} ({inner})")
    whole, wrong = sum(tally.counts.values()), len(tally.wrong)
    return (f"{whole} damaged files of {tests} tests: {', '.join(told)}; {wrong} wrong; "
            f"at most {tally.seconds:.2f} s and {tally.megabytes:.0f} MB; {time.monotonic() - begun:.0f} s")


def parsed():
    parser = argparse.ArgumentParser(description=__doc__, formatter_class=argparse.RawDescriptionHelpFormatter)
    parser.add_argument("folder", type=Path, help="where what is wrong is kept")
    parser.add_argument("--threadmill", default=str(PROGRAM), metavar="PATH", help=f"the program ({PROGRAM})")
    parser.add_argument("--reader", default=str(READER), metavar="PATH", help=f"the program of cases ({READER})")
    parser.add_argument("--count", type=int, default=100_000, metavar="N", help="damage N files (100000)")
    parser.add_argument("--seed", type=int, default=1, metavar="S", help="the seed of all tests (1)")
    parser.add_argument("--test", type=int, metavar="T", help="of the test T alone")
    parser.add_argument("--seconds", type=float, default=MOST_SECONDS, metavar="S", help="how long a run may take (3)")
    parser.add_argument("--jobs", type=int, default=os.cpu_count() or 1, metavar="J", help="so many tests at once")
    return parser.parse_args()


def main():
    asked = parsed()
    for program in (asked.threadmill, asked.reader):
        if not os.access(program, os.X_OK) or not os.path.isfile(program):
            print(f"damage.py: there is no program {program}: `rt ci` leaves it there", file=sys.stderr)
            return 2
    kept = asked.folder.resolve() / "wrong"
    kept.mkdir(parents=True, exist_ok=True)
    of_a_test = len(KINDS) * OF_A_TEST
    tests = [asked.test] if asked.test is not None else range(-(-asked.count // of_a_test))
    tally, begun = Tally(), time.monotonic()
    with tempfile.TemporaryDirectory() as above:
        entry = os.path.realpath(asked.threadmill), os.path.realpath(asked.reader), above, asked.seconds
        with ProcessPoolExecutor(max(asked.jobs, 1), initializer=enter, initargs=entry) as pool:
            count = len(tests)
            for done, of_one in enumerate(pool.map(try_test, tests, [asked.seed] * count, [kept] * count)):
                tally.add(of_one)
                for line in of_one.wrong:
                    print(line, flush=True)
                if sys.stderr.isatty():
                    sys.stderr.write(f"\r\x1b[K{(done + 1) * of_a_test} of {count * of_a_test} files")
    if sys.stderr.isatty():
        sys.stderr.write("\r\x1b[K")
    print(numbers(tally, len(tests), begun))
    return 1 if tally.wrong else 0


if __name__ == "__main__":
    try:
        sys.exit(main())
    except KeyboardInterrupt:
        sys.exit(2)
    except OSError as why:
        print(f"damage.py: {why}", file=sys.stderr)
        sys.exit(2)
