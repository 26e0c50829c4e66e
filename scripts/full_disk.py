#!/usr/bin/env python3
"""Tries small commands where writes fail: at a bound of a file, on a full disk, at readers that go away. Not in the gate.

usage: full_disk.py THREADMILL [--every N]

A build, and a run with a trace, write OUT under limits of a file's size (the signal is ignored, so that the write
fails): at each count of bytes near the begin, the end and the ends of pages, and at each N-th one between. Where root
may mount one, they write to a small disk on which ever fewer pages are free. A listing is printed to /dev/full, to a
closed stream, to a pipe that nobody reads, and to one whose reader goes away after some bytes.

Where a write fails, the status has to be 5, with the line `threadmill: ROLE: Failed`; OUT has to be the old file, or
none where none was, with nothing beside it. Where none fails, all has to be as without. A process that SIGPIPE ends is
counted apart, since that is its caller's choice. The last line tells the numbers. Ends with status 0 where all went so,
with 1 where not, and with 2 where nothing could be tried.
"""
import argparse
import fcntl
import os
import resource
import signal
import subprocess
import sys
import tempfile
from pathlib import Path

TOPOLOGY = "cores = 1\nthreads = 2\nline = 64\n"
TEMPLATE = """template t
passes 2
window 0 true 1
case a
body all
mix 250 alu 2 load 1 store 1 branch 1
"""
OLD = b"an old file\n"
EVENTS = "2000"
FAILED = 5
PAGE = 4096
NEAR = 3
MOST_PAGES = 64


def ignoring(limit=None):
    """What a child does before it begins: failing writes give errors, and files may have so many bytes."""

    def bound():
        signal.signal(signal.SIGXFSZ, signal.SIG_IGN)
        signal.signal(signal.SIGPIPE, signal.SIG_IGN)
        if limit is not None:
            resource.setrlimit(resource.RLIMIT_FSIZE, (limit, limit))

    return bound


class Counts:
    """How many calls ended with status 5, as without, by a signal, and otherwise."""

    def __init__(self):
        self.failed = 0
        self.same = 0
        self.ended = 0
        self.wrong = 0

    def note(self, where, fault, failed):
        if fault:
            self.wrong += 1
            print(f"{where}: {fault}")
        elif failed:
            self.failed += 1
        else:
            self.same += 1


class Writing:
    """A command that writes OUT, called again and again with or without an old file there."""

    def __init__(self, program, folder, name, words, role):
        self.program = program
        self.folder = folder
        self.name = name
        self.words = words
        self.line = f"threadmill: {role}: Failed\n".encode()
        self.status, self.printed, _ = self.called(folder / "out", None)
        self.new = (folder / "out").read_bytes()
        (folder / "out").unlink()

    def called(self, out, limit):
        words = [self.program, *self.words, str(out)] + (["--seed", "1"] if self.name == "build" else [])
        done = subprocess.run(words, preexec_fn=ignoring(limit), capture_output=True, check=False, cwd=self.folder)
        return done.returncode, done.stdout, done.stderr

    def tried(self, out, old, limit, fails):
        """Calls the command. What is wrong with how it ended, and whether it failed; `fails` is None for either."""
        if old is None:
            out.unlink(missing_ok=True)
        else:
            out.write_bytes(old)
        before = sorted(out.parent.iterdir())
        status, printed, told = self.called(out, limit)
        after = sorted(out.parent.iterdir())
        held = out.read_bytes() if out.exists() else None
        failed = status == FAILED
        if fails is not None and failed != fails:
            return f"status {status}: {told!r}", failed
        if failed:
            if (printed, told) != (b"", self.line):
                return f"status {status} with {told!r}", failed
            if held != old or after != before:
                return f"OUT isn't as it was, or the folder has {[path.name for path in after]}", failed
            return None, failed
        if (status, printed, told) != (self.status, self.printed, b""):
            return f"status {status}: {told!r}", failed
        if held != self.new or after != sorted({*before, out}):
            return f"OUT is not the new file, or the folder has {[path.name for path in after]}", failed
        return None, failed


def limits(size, every):
    """The counts of bytes at which writes of a file of this size are tried."""
    edges = [0, size, *range(PAGE, size, PAGE)]
    near = {edge + step for edge in edges for step in range(-NEAR, NEAR + 1)}
    return sorted(count for count in near | set(range(0, size, every)) if 0 <= count <= size + NEAR)


def sizes(command, every, counts):
    """Writes under limits of a file's size."""
    out = command.folder / "out"
    tried = limits(len(command.new), every)
    for limit in tried:
        for old in (OLD, None):
            fails = limit < len(command.new)
            fault, failed = command.tried(out, old, limit, fails)
            counts.note(f"{command.name}, files of {limit} bytes at most", fault, failed)
    out.unlink(missing_ok=True)
    return 2 * len(tried)


def disk(commands, top, counts):
    """Writes to a small disk with ever fewer free pages. How many, None where none may be mounted."""
    place = top / "disk"
    place.mkdir()
    mount = ["mount", "-t", "tmpfs", "-o", f"size={MOST_PAGES * PAGE}", "tmpfs", str(place)]
    try:
        if subprocess.run(mount, capture_output=True, check=False).returncode != 0:
            return None
    except OSError:
        return None
    calls = 0
    try:
        folder = place / "folder"
        folder.mkdir()
        for command in commands:
            pages = -(-len(command.new) // PAGE)
            for free in range(min(pages + 3, MOST_PAGES)):
                for old in (OLD, None):
                    fault, failed = on_disk(command, place, folder / "out", old, free)
                    counts.note(f"{command.name}, a disk with {free} free pages", fault, failed)
                    calls += 1
    finally:
        subprocess.run(["umount", str(place)], check=True)
    return calls


def on_disk(command, place, out, old, free):
    """Calls a command with so many free pages on the disk, whatever it then needs."""
    filler = place / "filler"
    filler.unlink(missing_ok=True)
    out.unlink(missing_ok=True)
    if old is not None:
        out.write_bytes(old)
    room = os.statvfs(place).f_bavail - free
    with open(filler, "wb") as file:
        file.write(bytes(max(room, 0) * PAGE))
    return command.tried(out, old, None, True if free * PAGE < len(command.new) else None)


def listing(program, folder, target, ignores=True):
    """The status and the error stream of a listing that is printed to a descriptor, or nowhere where it is None."""

    def bound():
        ignoring()()
        if not ignores:
            signal.signal(signal.SIGPIPE, signal.SIG_DFL)
        if target is None:
            os.close(1)

    done = subprocess.run([program, "list", "a.elf"], preexec_fn=bound, stdout=target, stderr=subprocess.PIPE,
                          restore_signals=False, check=False, cwd=folder)
    return done.returncode, done.stderr


def to_reader(program, folder, length, ignores):
    """A listing to a reader that goes away after so many bytes, through the smallest pipe. Whether all fit in."""
    reading, writing = os.pipe()
    room = fcntl.fcntl(writing, fcntl.F_SETPIPE_SZ, PAGE)
    pid = os.fork()
    if pid == 0:
        os.close(writing)
        left = length
        while left > 0 and (some := os.read(reading, left)):
            left -= len(some)
        os._exit(0)
    os.close(reading)
    answer = listing(program, folder, writing, ignores)
    os.close(writing)
    os.waitpid(pid, 0)
    return answer, length + room


def streams(program, folder, whole, counts):
    """Listings whose output fails. How many."""
    line = b"threadmill: output: Failed\n"
    calls = 0
    with open("/dev/full", "wb") as full:
        targets = [("/dev/full", full.fileno()), ("a closed stream", None)]
        for name, target in targets:
            answer = listing(program, folder, target)
            fault = None if answer == (FAILED, line) else f"status {answer[0]}: {answer[1]!r}"
            counts.note(f"list, {name}", fault, True)
            calls += 1
    for length in [*range(0, 64, 7), *range(64, whole, 997), whole]:
        for ignores in (True, False):
            (status, told), fit = to_reader(program, folder, length, ignores)
            calls += 1
            if not ignores and status == -signal.SIGPIPE and length < whole:
                counts.ended += 1
                continue
            failed = (status, told) == (FAILED, line) and length < whole
            same = (status, told) == (0, b"") and fit >= whole
            fault = None if failed or same else f"status {status}: {told!r}"
            counts.note(f"list, a reader that goes after {length} of {whole} bytes", fault, failed)
    return calls


def main():
    words = argparse.ArgumentParser(description=__doc__, formatter_class=argparse.RawDescriptionHelpFormatter)
    words.add_argument("threadmill", help="the program, as LLVM compiles it")
    words.add_argument("--every", type=int, default=211, help="bytes between two counts at which a write is tried")
    asked = words.parse_args()
    program = str(Path(asked.threadmill).resolve())
    if not os.access(program, os.X_OK):
        print(f"{program} isn't here")
        return 2
    counts = Counts()
    with tempfile.TemporaryDirectory() as name:
        top = Path(name)
        folders = [top / folder for folder in ("build", "run")]
        for folder in folders:
            folder.mkdir()
        (folders[0] / "a.toml").write_text(TOPOLOGY)
        (folders[0] / "a.tm").write_text(TEMPLATE)
        build = Writing(program, folders[0], "build", ["build", "a.toml", "a.tm"], "output")
        (folders[1] / "a.elf").write_bytes(build.new)
        run = Writing(program, folders[1], "run", ["run", "a.elf", "--order", "round", "--events", EVENTS, "--trace"],
                      "trace")
        files = sum(sizes(command, asked.every, counts) for command in (build, run))
        pages = disk((build, run), top, counts)
        if pages is None:
            print("no disk may be mounted here, so none is filled")
        listed = subprocess.run([program, "list", "a.elf"], capture_output=True, check=True, cwd=folders[1])
        printed = streams(program, folders[1], len(listed.stdout), counts)
    print(f"files {files}, disks {pages or 0}, streams {printed}: status 5 {counts.failed}, as without {counts.same}, "
          f"ended by SIGPIPE {counts.ended}, wrong {counts.wrong}")
    return 1 if counts.wrong else 0


if __name__ == "__main__":
    sys.exit(main())
