"""What each hart collects, and how much work a test asks for."""

from . import memory_map as places


def first_line(cases, h, w):
    """The first line of window w that hart h collects, counted in the window."""
    lines_before = places.WINDOW_SIZE * w // cases.line
    return (h - lines_before) % cases.harts


def own_lines(cases, h, w):
    """The declared lines of window w that hart h collects."""
    window = cases.shape.windows[w]
    return range(first_line(cases, h, w), window.lines if window else 0, cases.harts)


def owned(cases, h):
    """The declared dwords that hart h collects, as places from the first window on, in order."""
    dwords = []
    for w in range(3):
        for line in own_lines(cases, h, w):
            first = places.WINDOW_SIZE * w + cases.line * line
            dwords += range(first, first + cases.line, 8)
    return dwords


def work(cases, h):
    """The most steps of hart h that aren't idle."""
    dwords = len(owned(cases, h))
    total = 64
    for case in cases.cases:
        slots = len(case.words[h])
        total += 64 + cases.passes * (slots + 256 + 32 * cases.harts + 32 * (30 + dwords))
    return total


def budget(cases):
    """The most steps of a run without idle reads."""
    total = sum(work(cases, h) for h in range(cases.harts))
    return cases.harts * (total + 16 * len(cases.cases) * cases.passes)
