#!/usr/bin/env python3
"""Tries small commands where memory fails: each allocation in turn, and under falling limits. It isn't in the gate.

usage: no_memory.py THREADMILL

A build, a listing, and a run in round order under a script with a trace are each called once for each allocation that
they make, and this one fails; a library that gcc makes stands before the C library's calls for it. Then each is called
under falling limits of its address space (`ulimit -v`), down to that under which the program can't be started.

Each call has to end as without, or with status 6: then with the line `threadmill: no memory` or none, with a prefix of
what it prints, and with OUT as it was or whole, and nothing else beside it. The last line tells the numbers. Ends with
status 0 where all went so, with 1 where not, and with 2 where nothing could be tried.
"""
import argparse
import os
import resource
import shutil
import subprocess
import sys
import tempfile
from pathlib import Path

TOPOLOGY = "cores = 1\nthreads = 2\nline = 64\n"
TEMPLATE = """template t
passes 2
window 0 true 1
case a
body all
emit addi x6, x5, 1
mix 6 alu 2 load 1 store 1 branch 1
"""
SCRIPT = "hart 0 case 0 pass 1 slot 0 result 1\n"
OLD = b"an old file\n"
EVENTS = "20000"
NO_MEMORY = 6
LINE = b"threadmill: no memory\n"
STEP = 64 << 10
HIGH = 1 << 30

# The allocations are counted from the begin of main on: what the loader takes before isn't the program's.
SHIM = r"""
#define _GNU_SOURCE
#include <dlfcn.h>
#include <errno.h>
#include <stddef.h>
#include <stdio.h>
#include <stdlib.h>
#include <string.h>

static long count, failing;
static int counts;

static int fails(void) { return counts && ++count == failing ? (errno = ENOMEM, 1) : 0; }

static void *next(const char *name) { return dlsym(RTLD_NEXT, name); }

void *malloc(size_t size) {
    static void *(*real)(size_t);
    if (!real) real = next("malloc");
    return fails() ? NULL : real(size);
}

void *realloc(void *block, size_t size) {
    static void *(*real)(void *, size_t);
    if (!real) real = next("realloc");
    return fails() ? NULL : real(block, size);
}

void *aligned_alloc(size_t alignment, size_t size) {
    static void *(*real)(size_t, size_t);
    if (!real) real = next("aligned_alloc");
    return fails() ? NULL : real(alignment, size);
}

int posix_memalign(void **block, size_t alignment, size_t size) {
    static int (*real)(void **, size_t, size_t);
    if (!real) real = next("posix_memalign");
    return fails() ? ENOMEM : real(block, alignment, size);
}

__attribute__((constructor)) static void begin(void) {
    const char *number = getenv("FAILING_ALLOCATION");
    failing = number ? atol(number) : 0;
    counts = 1;
}

__attribute__((destructor)) static void end(void) {
    const char *path = getenv("ALLOCATIONS");
    counts = 0;
    FILE *file = path ? fopen(path, "w") : NULL;
    if (file) {
        fprintf(file, "%ld\n", count);
        fclose(file);
    }
}
"""


class Command:
    """A command that is called again and again in a folder of its own, with the same files before each call."""

    def __init__(self, program, name, words, folder, out):
        self.name = name
        self.words = [program, *words]
        self.folder = folder
        self.out = folder / out if out else None
        self.plain = self.called({}, None)
        self.names = sorted(path.name for path in folder.iterdir())
        self.new = self.out.read_bytes() if out else None

    def called(self, environment, limit):
        """The status, the output and the error stream of a call under a limit of its address space."""
        if self.out:
            self.out.write_bytes(OLD)

        def bound():
            if limit is not None:
                resource.setrlimit(resource.RLIMIT_AS, (limit, limit))

        done = subprocess.run(self.words, preexec_fn=bound, capture_output=True, check=False, cwd=self.folder,
                              env={**os.environ, **environment})
        return done.returncode, done.stdout, done.stderr

    def fault(self, answer):
        """What is wrong with a call's answer, None where nothing is."""
        status, printed, told = answer
        left = sorted(path.name for path in self.folder.iterdir())
        if left != self.names:
            return f"the folder has {left}"
        file = self.out.read_bytes() if self.out else None
        if status == self.plain[0]:
            if answer != self.plain:
                return f"status {status} with other texts: {told!r}"
            return None if file == self.new else "OUT has other bytes"
        if status != NO_MEMORY:
            return f"status {status}: {told!r}"
        if told not in (b"", LINE):
            return f"status {status} with the line {told!r}"
        if not self.plain[1].startswith(printed):
            return "the output is no prefix"
        return None if file in (None, OLD, self.new) else "OUT is neither the old file nor the new one"


class Counts:
    """How many calls ended with status 6, as without, and otherwise."""

    def __init__(self):
        self.no_memory = 0
        self.same = 0
        self.wrong = 0

    def note(self, where, command, answer):
        fault = command.fault(answer)
        if fault is not None:
            self.wrong += 1
            print(f"{command.name}, {where}: {fault}")
        elif answer[0] == NO_MEMORY:
            self.no_memory += 1
        else:
            self.same += 1


def commands(program, top):
    """The three commands, each in a folder of its own."""
    folders = [top / name for name in ("build", "list", "run")]
    for folder in folders:
        folder.mkdir()
    (folders[0] / "a.toml").write_text(TOPOLOGY)
    (folders[0] / "a.tm").write_text(TEMPLATE)
    build = Command(program, "build", ["build", "a.toml", "a.tm", "a.elf", "--seed", "1"], folders[0], "a.elf")
    for folder in folders[1:]:
        (folder / "a.elf").write_bytes(build.new)
    (folders[2] / "f").write_text(SCRIPT)
    words = ["run", "a.elf", "--order", "round", "--events", EVENTS, "--faults", "f", "--trace", "t"]
    return [build, Command(program, "list", ["list", "a.elf"], folders[1], None),
            Command(program, "run", words, folders[2], "t")]


def shim_in(top):
    """The library that lets an allocation fail, or None."""
    compiler = shutil.which("gcc")
    if compiler is None:
        return None
    source, library = top / "shim.c", top / "shim.so"
    source.write_text(SHIM)
    subprocess.run([compiler, "-O2", "-shared", "-fPIC", "-o", str(library), str(source), "-ldl"], check=True)
    return library


def each_allocation(command, library, top, counts):
    """Lets each allocation of a command fail. How many it makes."""
    number = top / "number"
    environment = {"LD_PRELOAD": str(library), "ALLOCATIONS": str(number)}
    answer = command.called(environment, None)
    if answer != command.plain:
        sys.exit(f"{command.name} ends otherwise where its allocations are counted: {answer}")
    made = int(number.read_text()) if number.exists() else 0
    for failing in range(1, made + 1):
        answer = command.called({**environment, "FAILING_ALLOCATION": str(failing)}, None)
        counts.note(f"allocation {failing} of {made}", command, answer)
    return made


def starts(program, folder, limit):
    """Whether the program can be started under a limit: it refuses to be called without words, or has no memory."""

    def bound():
        resource.setrlimit(resource.RLIMIT_AS, (limit, limit))

    try:
        done = subprocess.run([program], preexec_fn=bound, capture_output=True, check=False, cwd=folder)
    except (OSError, subprocess.SubprocessError):
        return False
    return done.returncode in (2, NO_MEMORY) and b"shared librar" not in done.stderr


def least(holds):
    """The least limit, in steps, from which on something holds."""
    low, high = 0, HIGH
    while high - low > STEP:
        middle = (low + high) // 2
        if holds(middle):
            high = middle
        else:
            low = middle
    return high


def falling(command, floor, counts):
    """Calls a command under limits that fall to the floor from where it has room enough. How many."""
    limit = least(lambda value: value >= floor and command.called({}, value)[0] == command.plain[0]) + STEP
    calls = 0
    while limit >= floor:
        counts.note(f"a limit of {limit} bytes", command, command.called({}, limit))
        limit -= STEP
        calls += 1
    return calls


def main():
    words = argparse.ArgumentParser(description=__doc__, formatter_class=argparse.RawDescriptionHelpFormatter)
    words.add_argument("threadmill", help="the program, as LLVM compiles it")
    program = str(Path(words.parse_args().threadmill).resolve())
    if not os.access(program, os.X_OK):
        print(f"{program} isn't here")
        return 2
    with tempfile.TemporaryDirectory() as name:
        top = Path(name)
        tried = commands(program, top)
        library = shim_in(top)
        counts = Counts()
        made = [each_allocation(command, library, top, counts) for command in tried] if library else []
        if sum(made) == 0:
            print("gcc isn't here, or no allocation of the program could be seen")
        floor = least(lambda limit: starts(program, top, limit))
        calls = [falling(command, floor, counts) for command in tried]
    print(f"allocations {sum(made)} ({', '.join(map(str, made))}), limits {sum(calls)}: "
          f"status 6 {counts.no_memory}, as without {counts.same}, wrong {counts.wrong}")
    return 1 if counts.wrong or sum(made) == 0 else 0


if __name__ == "__main__":
    sys.exit(main())
