"""The memory map."""

TEXT = 0x80000000
TABLES = 0x80800000
WORK = 0x80C00000
WORK_SIZE = 0x300000
WINDOWS = 0x80E80000
WINDOW_SIZE = 2048
MEMORY_SIZE = 0x1000000


def window(w):
    return WINDOWS + WINDOW_SIZE * w


def flag(h):
    return WORK + 128 * h


def verdict(c, h):
    return 0x80C01000 + 8 * (16 * c + h)


def private(h):
    return 0x80C10000 + 0x20000 * h


def save(h, k):
    return private(h) + 0x1000 + 0x2000 * k


def table(harts, c):
    return TABLES + c * (256 * harts + 12288)
