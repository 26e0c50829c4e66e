"""Who may store and load where; what a seed draws."""

from collections import namedtuple
from functools import lru_cache
from struct import pack, unpack

from . import memory_map as places

# A test before its streams are drawn: the windows by number, None where one isn't declared.
Shape = namedtuple("Shape", "harts line windows")


def part_size(line, harts):
    """The greatest power of two that is at most line / harts."""
    part = 1
    while 2 * part <= line // harts:
        part *= 2
    return part


def spot(shape, addr):
    """The declared window, line and byte in it of an address, or None."""
    w, rest = divmod(addr - places.WINDOWS, places.WINDOW_SIZE)
    if w not in (0, 1, 2) or shape.windows[w] is None:
        return None
    line, byte = divmod(rest, shape.line)
    return (shape.windows[w], line, byte) if line < shape.windows[w].lines else None


def may_touch(shape, h, addr, width, is_store):
    """Whether hart h may make an access: it is aligned, and each of its bytes is allowed."""
    if addr % width:
        return False
    part = part_size(shape.line, shape.harts)
    for at in range(addr, addr + width):
        found = spot(shape, at)
        if found is None:
            return False
        window, line, byte = found
        if window.kind == "own" and line % shape.harts != h:
            return False
        if window.kind == "false" and is_store and byte // part != h:
            return False
    return True


def choice(word, n):
    """One of n numbers, by a word of 32 bits."""
    return word * n >> 32


def quarter(x, a, b, c, d):
    for p, q, r, left in ((a, b, d, 16), (c, d, b, 12), (a, b, d, 8), (c, d, b, 7)):
        x[p] = (x[p] + x[q]) & 0xFFFFFFFF
        mixed = x[r] ^ x[p]
        x[r] = (mixed << left | mixed >> (32 - left)) & 0xFFFFFFFF


@lru_cache(maxsize=4096)
def block(seed, stream, counter):
    """The 16 words of one block of ChaCha with 8 rounds."""
    key = unpack("<8I", pack("<Q", seed) + bytes(24))
    first = list(unpack("<4I", b"expand 32-byte k")) + list(key)
    first += list(unpack("<2I", pack("<Q", counter))) + list(unpack("<2I", pack("<Q", stream)))
    x = list(first)
    for _ in range(4):
        for i in range(4):
            quarter(x, i, i + 4, i + 8, i + 12)
        for i in range(4):
            quarter(x, i, (i + 1) % 4 + 4, (i + 2) % 4 + 8, (i + 3) % 4 + 12)
    return [(a + b) & 0xFFFFFFFF for a, b in zip(x, first)]


def draw(seed, c, h, i, d):
    """Word d that a seed draws for slot i of hart h in case c."""
    return block(seed, 64 * c + h, i)[d]


def hot_line(seed, c, w, lines):
    """The hot line of window w in case c."""
    return choice(draw(seed, c, 62, w, 0), lines)
