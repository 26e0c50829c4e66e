"""Numbers as text."""

from .faults import Fault

DECIMAL = b"0123456789"
HEXADECIMAL = b"0123456789abcdefABCDEF"


def read_number(text):
    """Decimal digits, or `0x` and hexadecimal digits, below 2^64; else the first fault."""
    start, digits = (2, HEXADECIMAL) if text[:2] == b"0x" else (0, DECIMAL)
    if len(text) == start:
        raise Fault("Empty")
    for at in range(start, len(text)):
        if text[at] not in digits:
            raise Fault("BadDigit", place=at)
    value = int(text[start:].decode(), 16 if start else 10)
    if value >= 2**64:
        raise Fault("TooLarge")
    return value


def number_or_none(text, below=2**64):
    """The number that a text spells, or None."""
    try:
        value = read_number(text)
    except Fault:
        return None
    return value if value < below else None


class NotACase(Exception):
    """What a line of a file of cases has in the place of a known name, a digit or a number."""


def number(word, below=2**64):
    """The number of a word of a case, 0 where the word isn't there."""
    value = number_or_none(word.encode(), below) if word else 0
    if value is None:
        raise NotACase(word)
    return value


def small(word):
    """The number below 2^32 of a word of a case."""
    return number(word, 2**32)


def digits(value, count):
    """So many hexadecimal digits of a number, the low ones."""
    return f"{value % 16**count:0{count}x}"
