"""Traces: the texts of recorded runs."""

import re
from collections import namedtuple

from .faults import Fault

MOST_HARTS = 16
MOST_EVENTS = 100_000_000

# An access is None, or ("reads" or "writes", width, address, value).
Event = namedtuple("Event", "hart pc word access")

DECIMAL = rb"(0|[1-9][0-9]{0,8})"
DWORD = rb"([0-9a-f]{16})"
HEAD = re.compile(rb"trace 1 harts " + DECIMAL + rb" events " + DECIMAL)
QUIET = re.compile(DECIMAL + b" " + DWORD + rb" ([0-9a-f]{8}) -")
ACCESS = re.compile(DECIMAL + b" " + DWORD + rb" ([0-9a-f]{8}) ([rw]) " + DWORD + b" " + DECIMAL + b" " + DWORD)


class Lines:
    """The lines of a text that LF ends, and what stands behind the last of them."""

    def __init__(self, text):
        *self.whole, self.rest = text.split(b"\n")

    def take(self, k, form):
        """Line k, from 1, as a pattern matches it."""
        if k > len(self.whole):
            raise Fault("Early", line=len(self.whole) + 1)
        found = form.fullmatch(self.whole[k - 1])
        if not found:
            raise Fault("Expected", line=k)
        return found

    def has(self, k):
        """Whether something stands in line k."""
        return k <= len(self.whole) or k == len(self.whole) + 1 and self.rest != b""


def access_of(k, kind, addr, width, value):
    addr, width, value = int(addr, 16), int(width), int(value, 16)
    if width not in (1, 2, 4, 8) or addr % width != 0 or value >= 256**width:
        raise Fault("OutOfRange", line=k)
    return "reads" if kind == b"r" else "writes", width, addr, value


class EventForm:
    """The forms of the line of an event."""

    @staticmethod
    def fullmatch(line):
        return QUIET.fullmatch(line) or ACCESS.fullmatch(line)


def read_event(lines, k, harts):
    """The event of line k."""
    hart, pc, word, *access = lines.take(k, EventForm).groups()
    if int(hart) >= harts:
        raise Fault("OutOfRange", line=k)
    return Event(int(hart), int(pc, 16), int(word, 16), access_of(k, *access) if access else None)


def read_trace(text):
    """The number of harts and the events of a trace, or its first fault."""
    lines = Lines(text)
    harts, count = (int(n) for n in lines.take(1, HEAD).groups())
    if not 1 <= harts <= MOST_HARTS or count > MOST_EVENTS:
        raise Fault("OutOfRange", line=1)
    events = [read_event(lines, k, harts) for k in range(2, count + 2)]
    lines.take(count + 2, re.compile(b"end"))
    if lines.has(count + 3):
        raise Fault("Expected", line=count + 3)
    return harts, events


def event_text(event):
    text = f"{event.hart} {event.pc:016x} {event.word:08x} "
    if event.access is None:
        return text + "-"
    kind, width, addr, value = event.access
    return text + f"{kind[0]} {addr:016x} {width} {value:016x}"


def trace_text(harts, events):
    """The text of a trace."""
    lines = [f"trace 1 harts {harts} events {len(events)}"] + [event_text(e) for e in events] + ["end"]
    return "".join(line + "\n" for line in lines).encode()
