"""Whole commands over a desk and two sinks; of the runs by threads those of one hart alone."""

from . import template, texts, topology
from .faults import Fault
from .image import Image, open_image, topology_of
from .judge import judged
from .numbers import number_or_none
from .scripts import LONGEST, read_script
from .simulator import Run
from .traces import read_trace, trace_text

LONGEST_IMAGE = 16_777_216
LONGEST_TRACE = 268_435_456
MOST_EVENTS = 4_000_000


class Stop(Exception):
    """A command that ends before its job is done: its status, and the line that it tells."""

    def __init__(self, status, line):
        super().__init__(line)
        self.status = status
        self.line = line.encode()


# Of each command: how many names stand behind it, and its options.
FORMS = {
    "build": (3, ("--seed",)),
    "list": (1, ()),
    "run": (1, ("--events", "--order", "--faults", "--trace")),
    "sample": (1, ()),
    "judge": (2, ()),
}


def number_of(word):
    return number_or_none(word.encode())


def split_words(words, known):
    """The names and, by name, the options of the words behind a command; None where they aren't of the form."""
    names, options, left = [], {}, list(words)
    while left:
        word = left.pop(0)
        if word == "--":
            names += left
            break
        if not word.startswith("-"):
            names.append(word)
            continue
        option, is_joined, value = word.partition("=")
        if option not in known or option in options:
            return None
        options[option] = value if is_joined else left.pop(0) if left else ""
    taken = [*names, *options.values()]
    return (names, options) if all(word and not word.startswith("-") for word in taken) else None


def read_run(image, options, orders):
    """The parts of a run in one of the orders, or None."""
    events = number_of(options.get("--events", str(MOST_EVENTS)))
    order = options.get("--order", "threads")
    if order not in orders or events is None or not 1 <= events <= 100_000_000:
        return None
    return image, events, order, options.get("--faults"), options.get("--trace")


def parts_of(command, names, options, orders):
    """What a command asks for, or None."""
    if command == "run":
        return read_run(*names, options, orders)
    if command in ("list", "judge"):
        return names
    number = number_of(options.get("--seed", "") if command == "build" else names[0])
    if number is None:
        return None
    return (*names, number) if command == "build" else (number,)


def read_words(words, orders):
    """The command that the words ask for, where runs may have these orders: a name and its parts, or None."""
    command, *rest = words or [""]
    if command not in FORMS:
        return None
    count, known = FORMS[command]
    found = split_words(rest, known)
    if found is None or len(found[0]) != count:
        return None
    parts = parts_of(command, *found, orders)
    return None if parts is None else (command, *parts)


def read_faults(text, cases):
    """The lines of a script, or its first fault, named by the layer that it is of."""
    try:
        return read_script(text, cases)
    except Fault as fault:
        raise Fault("Lex", fault=fault) if fault.name in ("BadByte", "LongWord") else fault from None


def read_trace_of(text, harts):
    """The events of a trace of so many harts, or its first fault."""
    count, events = read_trace(text)
    if count != harts:
        raise Fault("Harts", harts=count)
    return events


class Call:
    """One call of a command, where runs may have these orders: its status, and whether it answered a journal."""

    def __init__(self, words, desk, out, err, orders=("round",)):
        self.desk = desk
        self.out = out
        self.err = err
        self.journal = False
        try:
            self.status = self.do(read_words(words, orders))
        except Stop as stop:
            self.status = stop.status
            try:
                err.put_all(stop.line)
            except Fault:
                pass

    def do(self, command):
        if command is None:
            raise Stop(2, texts.USAGE)
        return getattr(self, command[0])(*command[1:])

    def read(self, role, name, most):
        try:
            return self.desk.read(name, most)
        except Fault as fault:
            raise Stop(5 if fault.name == "Failed" else 3, f"threadmill: {role}: {fault.told()}\n") from None

    def write(self, role, name, data):
        try:
            self.desk.write(name, data)
        except Fault:
            raise Stop(5, f"threadmill: {role}: Failed\n") from None

    def asked(self, role, question, *parts):
        """What a question answers, where its fault is a refusal."""
        try:
            return question(*parts)
        except Fault as fault:
            raise Stop(3, f"threadmill: {role}: {fault.told()}\n") from None

    def print(self, text):
        try:
            self.out.put_all(text)
        except Fault:
            raise Stop(5, "threadmill: output: Failed\n") from None

    def build(self, topo, tmpl, out, seed):
        first = self.read("topology", topo, topology.LONGEST)
        self.asked("topology", topology_of, first)
        second = self.read("template", tmpl, template.LONGEST)
        image = self.asked("template", Image, first, second, seed)
        self.write("output", out, image.file)
        cases = image.cases
        self.print(f"built: harts {cases.harts}, cases {len(cases.cases)}, bytes {len(image.file)}\n".encode())
        return 0

    def opened(self, name):
        return self.asked("image", open_image, self.read("image", name, LONGEST_IMAGE))

    def list(self, name):
        self.print(texts.listing(self.opened(name)))
        return 0

    def told(self, run, text):
        """The status of a run, of which a text tells where all harts are at halt."""
        done = run.halted() == run.cases.harts
        self.print(text(run) if done else texts.full_line(run))
        self.journal = True
        if not done:
            return 4
        return 1 if texts.reported(run) else 0

    def script(self, name, cases):
        """The lines of a script, none where none is named."""
        if name is None:
            return []
        return self.asked("faults", read_faults, self.read("faults", name, LONGEST), cases)

    def run(self, name, events, order, faults, trace):
        image = self.opened(name)
        script = self.script(faults, image.cases)
        run = Run(image, events, script)
        if order == "threads" and run.cases.harts != 1:
            raise NotImplementedError("a run of many harts by threads has more than one end")
        if trace is not None:
            self.write("trace", trace, trace_text(run.cases.harts, run.journal))
        return self.told(run, texts.report)

    def sample(self, n):
        run = Run(Image(*texts.sample_texts(n), n), MOST_EVENTS)
        status = self.told(run, lambda r: texts.sample_line(n, r))
        return 0 if status == 1 else status

    def judge(self, name, trace):
        image = self.opened(name)
        text = self.read("trace", trace, LONGEST_TRACE)
        lines, is_yes = judged(image, self.asked("trace", read_trace_of, text, image.cases.harts))
        self.print(lines)
        return 0 if is_yes else 1
