"""Scripts of faults over the cases of a test."""

from .faults import Fault
from .lexer import tokens
from .numbers import number_or_none
from .table import BRANCHES, LOADS, STORES, decode, has_rd

LONGEST = 65_536

NUMBERED = ("result", "loaded", "stored")
ACTIONS = NUMBERED + ("drop", "turn")


def has_effect(action, i):
    """Whether an action does something to an instruction."""
    if action == "result":
        return has_rd(i) and 1 <= i.rd <= 27
    if action == "loaded":
        return i.op in LOADS
    return i.op in BRANCHES if action == "turn" else i.op in STORES


def xor_end(action, i):
    """The least number that is too great for an action's XOR."""
    if action == "result":
        return 2**64
    return 256 ** (LOADS if action == "loaded" else STORES)[i.op]


class Line:
    """The tokens of a line, taken from left to right."""

    def __init__(self, found):
        self.left = list(found)

    def take(self, wanted, fits):
        """What the next token is, where it is of the wanted kind."""
        token = self.left.pop(0)
        value = fits(token)
        if value is None:
            raise Fault("Expected", pos=token.at, what=wanted)
        return token, value

    def word(self, word):
        self.take("Word", lambda t: True if t.kind == "word" and t.text == word else None)

    def number(self, below, least=0):
        token, value = self.take("Number", lambda t: number_or_none(t.text) if t.kind == "word" else None)
        if not least <= value < below:
            raise Fault("OutOfRange", pos=token.at, value=value)
        return value

    def pass_of(self, passes):
        """A pass, or None for all of them."""
        if self.left[0].text == b"*":
            self.left.pop(0)
            return None
        return self.number(passes)

    def action(self, i):
        names = {name.encode(): name for name in ACTIONS}
        token, name = self.take("Action", lambda t: names.get(t.text) if t.kind == "word" else None)
        if not has_effect(name, i):
            raise Fault("NoEffect", pos=token.at)
        return name, self.number(xor_end(name, i), 1) if name in NUMBERED else None

    def end(self):
        self.take("LineEnd", lambda t: True if t.kind == "line end" else None)


def read_line(found, cases):
    """What a line says: hart, case, pass or None, slot, and the action with its number or None."""
    line = Line(found)
    line.word(b"hart")
    hart = line.number(cases.harts)
    line.word(b"case")
    case = line.number(len(cases.cases))
    line.word(b"pass")
    at_pass = line.pass_of(cases.passes)
    line.word(b"slot")
    words = cases.cases[case].words[hart]
    slot = line.number(len(words))
    action = line.action(decode(words[slot]))
    line.end()
    return hart, case, at_pass, slot, action


def are_twice(a, b):
    """Whether two lines name the same by the same word, with a pass in common."""
    same = (a[0], a[1], a[3], a[4][0]) == (b[0], b[1], b[3], b[4][0])
    return same and (a[2] is None or b[2] is None or a[2] == b[2])


def lines_of(found):
    """The tokens, line by line."""
    line = []
    for token in found:
        line.append(token)
        if token.kind == "line end":
            yield line
            line = []


def read_script(text, cases):
    """The lines of a script, or its first fault."""
    read = []
    for found in lines_of(tokens(text)):
        line = read_line(found, cases)
        if any(are_twice(earlier, line) for earlier in read):
            raise Fault("Twice", pos=found[0].at)
        read.append(line)
    return read
