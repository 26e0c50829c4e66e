"""Templates: read by the grammar, and printed."""

from collections import namedtuple

from .faults import Fault
from .lexer import tokens
from .numbers import number_or_none

LONGEST = 1_048_576

Template = namedtuple("Template", "name passes passes_at windows cases end")
Window = namedtuple("Window", "number kind lines at")
Case = namedtuple("Case", "name at bodies")
Body = namedtuple("Body", "selector number at slots")
Emit = namedtuple("Emit", "asm at")
Mix = namedtuple("Mix", "count weights at")

CLASSES = ("alu", "load", "store", "branch")
LETTERS = b"abcdefghijklmnopqrstuvwxyz"
NAME_BYTES = LETTERS + b"0123456789_"


def is_name(text):
    return 1 <= len(text) <= 16 and text[0] in LETTERS and all(b in NAME_BYTES for b in text)


class Line:
    """The tokens of one line, taken in order."""

    def __init__(self, list_of_tokens):
        self.left = list(list_of_tokens)
        self.at = self.left[0].at

    def wanted(self, what):
        return Fault("Expected", pos=self.left[0].at, what=what)

    def take(self, fits, what):
        token = self.left[0]
        if not fits(token):
            raise self.wanted(what)
        self.left.pop(0)
        return token.text

    def word(self, choices, what):
        return self.take(lambda t: t.kind == "word" and t.text.decode("latin1") in choices, what).decode()

    def name(self):
        return self.take(lambda t: t.kind == "word" and is_name(t.text), "Name").decode()

    def number(self):
        text = self.take(lambda t: t.kind == "word" and number_or_none(t.text, 2**32) is not None, "Number")
        return number_or_none(text)

    def raw(self):
        return self.take(lambda t: t.kind == "raw", "Asm")

    def end(self):
        self.take(lambda t: t.kind == "line end", "LineEnd")


def split_lines(list_of_tokens):
    lines = []
    line = []
    for token in list_of_tokens:
        line.append(token)
        if token.kind == "line end":
            lines.append(Line(line))
            line = []
    return lines


def read_window(line):
    number = line.number()
    kind = line.word(("true", "false", "own"), "Kind")
    lines = line.number()
    line.end()
    return Window(number, kind, lines, line.at)


def read_body(line):
    selector = line.word(("all", "hart", "core", "thread"), "Selector")
    number = 0 if selector == "all" else line.number()
    line.end()
    return Body(selector, number, line.at, [])


def read_mix(line):
    count = line.number()
    weights = []
    for name in CLASSES:
        line.word((name,), "Class")
        weights.append(line.number())
    line.end()
    return Mix(count, tuple(weights), line.at)


def read_statement(line, windows, cases):
    """One of the statements behind the first two, where its first word may stand."""
    allowed = ["case"]
    if not cases:
        allowed.append("window")
    else:
        allowed.append("body")
        if cases[-1].bodies:
            allowed += ["emit", "mix"]
    word = line.word(allowed, "Statement")
    if word == "window":
        windows.append(read_window(line))
    elif word == "case":
        name = line.name()
        line.end()
        cases.append(Case(name, line.at, []))
    elif word == "body":
        cases[-1].bodies.append(read_body(line))
    elif word == "emit":
        asm = line.raw()
        line.end()
        cases[-1].bodies[-1].slots.append(Emit(asm, line.at))
    else:
        cases[-1].bodies[-1].slots.append(read_mix(line))


def parse_template(text):
    """The template that a text spells, or its first fault."""
    lines = split_lines(tokens(text))
    if not lines:
        raise Fault("Early", what="Template")
    lines[0].word(("template",), "Template")
    name = lines[0].name()
    lines[0].end()
    if len(lines) < 2:
        raise Fault("Early", what="Passes")
    lines[1].word(("passes",), "Passes")
    passes = lines[1].number()
    lines[1].end()
    windows, cases = [], []
    for line in lines[2:]:
        read_statement(line, windows, cases)
    last = text.rsplit(b"\n", 1)[-1]
    end = (text.count(b"\n") + 1, len(last) + 1)
    return Template(name, passes, lines[1].at, windows, cases, end)


def statement_lines(t):
    """The printed lines of a template, each with the place of its statement."""
    yield f"template {t.name}".encode(), None
    yield f"passes {t.passes}".encode(), t.passes_at
    for w in t.windows:
        yield f"window {w.number} {w.kind} {w.lines}".encode(), w.at
    for case in t.cases:
        yield f"case {case.name}".encode(), case.at
        for body in case.bodies:
            number = "" if body.selector == "all" else f" {body.number}"
            yield f"body {body.selector}{number}".encode(), body.at
            for slot in body.slots:
                yield slot_line(slot), slot.at


def slot_line(slot):
    if isinstance(slot, Emit):
        return b"emit " + slot.asm
    weights = " ".join(f"{name} {weight}" for name, weight in zip(CLASSES, slot.weights))
    return f"mix {slot.count} {weights}".encode()


def printed(t):
    """The printed form of a template."""
    return b"".join(line + b"\n" for line, _ in statement_lines(t))


def places(t):
    """The places of a template's statements but the first."""
    return [at for _, at in statement_lines(t) if at is not None]
