"""Tokens of templates."""

from collections import namedtuple

from .faults import Fault

# kind is "word", "raw" or "line end"; at is a place, first and last bound the bytes in the text.
Token = namedtuple("Token", "kind at first last text")

SEPARATORS = b" \t\r"


def is_word_byte(b):
    return 0x21 <= b <= 0x7E and b != 0x23


def split_words(line):
    """The words of a line without its comment, as pairs of a first place and the one behind the last.

    A byte that is no word's and no separator stands as a word of its own, with None behind it."""
    at = 0
    while at < len(line):
        if line[at] in SEPARATORS:
            at += 1
            continue
        start = at
        while at < len(line) and is_word_byte(line[at]):
            at += 1
        if at > start:
            yield start, at
        if at < len(line) and line[at] not in SEPARATORS:
            yield at, None
            at += 1


def line_tokens(number, start, line, end):
    """The tokens of one line, which begins at a byte of the text and ends at another."""

    def at(col):
        return (number, col + 1)

    def make(kind, a, b):
        return Token(kind, at(a), start + a, start + b, line[a:b])

    found = []
    faults = []
    raw = None
    for first, last in split_words(line):
        if last is None:
            faults.append((first, 0, Fault("BadByte", pos=at(first), byte=line[first])))
        elif raw is None:
            found.append(make("word", first, last))
            if last - first > 64:
                faults.append((first, 1, Fault("LongWord", pos=at(first))))
            if len(found) == 1 and line[first:last] == b"emit" and rest_follows(line, last):
                raw = rest_of(line, last)
    if raw is not None and raw[1] > raw[0]:
        found.append(make("raw", *raw))
        if raw[1] - raw[0] > 64:
            faults.append((raw[0], 1, Fault("LongWord", pos=at(raw[0]))))
    if faults:
        raise min(faults, key=lambda f: f[:2])[2]
    if found:
        col = end - start
        found.append(Token("line end", at(col), end, end, b""))
    return found


def rest_follows(line, last):
    return last == len(line) or line[last] in SEPARATORS


def rest_of(line, last):
    """What stands behind a place, without the separators at its ends."""
    a, b = last, len(line)
    while a < b and line[a] in SEPARATORS:
        a += 1
    while b > a and line[b - 1] in SEPARATORS:
        b -= 1
    return a, b


def tokens(text):
    """The tokens of a text, or its first fault."""
    found = []
    start = 0
    for number, line in enumerate(text.split(b"\n"), 1):
        found += line_tokens(number, start, line.split(b"#", 1)[0], start + len(line))
        start += len(line) + 1
    return found
