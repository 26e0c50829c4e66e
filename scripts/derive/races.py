"""What of a case depends on a race, and what is checked."""

from . import memory_map as places
from .table import BRANCHES, LOADS, STORES, decode, has_rd, sources


def bytes_of(i):
    """The bytes of a load or a store, counted from the first window."""
    width = LOADS.get(i.op) or STORES[i.op]
    first = places.WINDOW_SIZE * (i.rs1 - 28) + i.imm
    return range(first, first + width)


def may_writers(case):
    """For each byte of the windows the harts of which a store slot covers it, executed or not."""
    writers = {}
    for h, words in enumerate(case.words):
        for word in words:
            i = decode(word)
            if i.op in STORES:
                for b in bytes_of(i):
                    writers.setdefault(b, set()).add(h)
    return writers


def is_jump(i):
    return i.op in BRANCHES or i.op == "jal"


class Walk:
    """What depends on a race along one stream: registers as numbers, bytes as ("byte", place)."""

    def __init__(self, hart, writers):
        self.hart = hart
        self.writers = writers
        self.dependent = set()
        self.covered = 0
        self.steered = 0

    def is_resource(self, b):
        return self.writers.get(b) == {self.hart}

    def reads(self, i):
        found = {x for x in sources(i) if x != 0}
        if i.op in LOADS:
            found |= {("byte", b) for b in bytes_of(i) if self.is_resource(b)}
        return found

    def writes(self, i):
        if i.op in STORES:
            return {("byte", b) for b in bytes_of(i) if self.is_resource(b)}
        return {i.rd} if has_rd(i) and i.rd != 0 else set()

    def races(self, i):
        if i.op not in LOADS:
            return False
        return any(self.writers.get(b, set()) - {self.hart} for b in bytes_of(i))

    def step(self, n, i):
        """Slot n, whose instruction is i."""
        is_covered = self.covered > n
        is_steered = self.steered > n
        depends = bool(self.reads(i) & self.dependent)
        written = self.writes(i)
        if self.races(i) or depends or is_steered:
            self.dependent |= written
        elif not is_covered:
            self.dependent -= written
        if is_jump(i):
            target = n + i.imm // 4
            self.covered = max(self.covered, target)
            if is_steered or (i.op in BRANCHES and depends):
                self.steered = max(self.steered, target)


def dependent_at_end(case, h, writers):
    walk = Walk(h, writers)
    for n, word in enumerate(case.words[h]):
        walk.step(n, decode(word))
    return walk.dependent


def masks(cases, case):
    """The word of each hart's registers, and for each byte of the windows whether it is checked."""
    writers = may_writers(case)
    ends = [dependent_at_end(case, h, writers) for h in range(cases.harts)]
    registers = [sum(1 << r for r in range(1, 31) if r not in end) for end in ends]
    checked = [False] * (3 * places.WINDOW_SIZE)
    for w in cases.shape.windows:
        if w is None:
            continue
        first = places.WINDOW_SIZE * w.number
        for b in range(first, first + w.lines * cases.line):
            harts = writers.get(b, set())
            if len(harts) < 2:
                checked[b] = all(("byte", b) not in ends[h] for h in harts)
    return registers, checked
