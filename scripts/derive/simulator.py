"""Runs of images, in round order, also under a script of faults."""

from . import memory_map as places
from .table import BRANCHES, decode, step
from .traces import Event


class Change:
    """What the lines of a script do to one step: to what it reads, to its access, its result and its way on."""

    def __init__(self, actions):
        self.by = dict(actions)

    def read(self, read):
        """The values that a load finds, changed."""
        return lambda addr, width: read(addr, width) ^ self.by.get("loaded", 0)

    def access(self, access):
        """The access that is made: a dropped store has none, also where it is xored."""
        if access is None or access[0] == "reads":
            return access
        if "drop" in self.by:
            return None
        kind, width, addr, value = access
        return kind, width, addr, value ^ self.by.get("stored", 0)

    def result(self, i, x):
        if "result" in self.by:
            x[i.rd] ^= self.by["result"]

    def way(self, i, pc, to):
        """Where the step goes on."""
        if "turn" not in self.by or i.op not in BRANCHES:
            return to
        # A branch to the next word goes there in either case.
        return pc + 4 if to != pc + 4 else pc + i.imm


class Run:
    """A run in round order for at most so many events, under the lines of a script."""

    def __init__(self, image, most, script=()):
        self.cases = image.cases
        self.program = image.program
        self.halts = image.program.halts
        self.memory = bytearray(places.MEMORY_SIZE)
        self.put(places.TEXT, image.text)
        self.put(places.TABLES, image.tables)
        self.code = [None] * len(image.program.words)
        self.words = image.program.words
        self.pcs = [places.TEXT] * self.cases.harts
        self.registers = [[0] * 10 + [h] + [0] * 21 for h in range(self.cases.harts)]
        self.exits = [0] * self.cases.harts
        self.faults = self.by_place(script)
        self.cells = {}
        self.journal = []
        self.go(most)

    @property
    def events(self):
        return len(self.journal)

    def by_place(self, script):
        """The lines of a script by hart and address."""
        found = {}
        for hart, case, at_pass, slot, action in script:
            place = hart, self.program.starts[hart][case] + 4 * slot
            found.setdefault(place, []).append((case, at_pass, action))
        return found

    def put(self, addr, data):
        at = addr - places.TEXT
        self.memory[at : at + len(data)] = data

    def read(self, addr, width):
        at = addr - places.TEXT
        return int.from_bytes(self.memory[at : at + width], "little")

    def go(self, most):
        while self.halted() < self.cases.harts:
            for h in range(self.cases.harts):
                if self.pcs[h] != self.halts[h]:
                    if self.events == most:
                        return
                    self.turn(h)

    def change(self, h, pc):
        """What the script does to the step of a hart at an address, in the pass to which its exits have led."""
        lines = self.faults.get((h, pc), ())
        passes = [(self.exits[h] - 1) // 2 - case * self.cases.passes for case, _, _ in lines]
        return Change([line[2] for line, now in zip(lines, passes) if line[1] is None or line[1] == now])

    def turn(self, h):
        pc = self.pcs[h]
        at = (pc - places.TEXT) // 4
        i = self.code[at]
        if i is None:
            i = self.code[at] = decode(self.words[at])
        if (h, pc) in self.faults:
            access = self.changed_step(h, i, pc)
        else:
            self.pcs[h], access = step(i, pc, self.registers[h], self.read)
        self.exits[h] += pc == self.program.exits[h]
        self.journal.append(Event(h, pc, self.words[at], access))
        if access and access[0] == "writes":
            self.write(*access[1:])

    def changed_step(self, h, i, pc):
        """A step of which the script may speak; what its access is."""
        change, x = self.change(h, pc), self.registers[h]
        to, access = step(i, pc, x, change.read(self.read))
        change.result(i, x)
        self.pcs[h] = change.way(i, pc, to)
        return change.access(access)

    def write(self, width, addr, value):
        self.put(addr, value.to_bytes(width, "little"))
        if width == 8:
            self.cells[addr] = value

    def halted(self):
        return sum(pc == halt for pc, halt in zip(self.pcs, self.halts))

    def verdict(self, c, h):
        return self.cells.get(places.verdict(c, h), 0)
