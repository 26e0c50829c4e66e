"""The judge of a recorded run: docs/definitions.md, "Runs" and "A judge of a recorded run". A trace and the definitions
are all that it goes by: it keeps every write with its phase, and looks back through them."""

from . import memory_map as places
from .races import may_writers
from .table import decode, step


class Broken(Exception):
    """Why an event breaks what is asked of a run."""


def addr_text(addr):
    return f"0x{addr:08x}" if addr < 2**32 else f"0x{addr:016x}"


def bytes_read(access):
    """The address and the value of each byte that an access reads."""
    if access is None or access[0] != "reads":
        return []
    _, width, addr, value = access
    return [(addr + i, value >> 8 * i & 255) for i in range(width)]


class Writers:
    """Who may write a byte in a phase."""

    def __init__(self, cases):
        self.cases = cases
        self.stores = [may_writers(case) for case in cases.cases]
        self.owners = {}

    def owner(self, b):
        """The hart that may always write a byte outside the windows, if there is one."""
        for h in range(self.cases.harts):
            areas = [(places.flag(h), 8), (places.private(h), 0x20000)]
            areas += [(places.verdict(c, h), 8) for c in range(len(self.cases.cases))]
            if any(first <= b < first + size for first, size in areas):
                return h
        return None

    def at(self, phase, b):
        """The harts that may write byte b in a phase."""
        place = b - places.WINDOWS
        if not 0 <= place < 3 * places.WINDOW_SIZE:
            if b not in self.owners:
                self.owners[b] = self.owner(b)
            owner = self.owners[b]
            return set() if owner is None else {owner}
        if phase % 2 == 0:
            return {place // self.cases.line % self.cases.harts}
        case = phase // 2 // self.cases.passes
        return self.stores[case].get(place, set()) if case < len(self.stores) else set()


class Judge:
    """The run that events record, as far as it was followed: each hart's state, and all writes by hart, byte and phase."""

    def __init__(self, image):
        self.cases = image.cases
        self.program = image.program
        self.image = bytearray(places.MEMORY_SIZE)
        for first, data in ((places.TEXT, image.text), (places.TABLES, image.tables)):
            self.image[first - places.TEXT : first - places.TEXT + len(data)] = data
        self.memory = bytearray(self.image)
        self.writers = Writers(image.cases)
        harts = image.cases.harts
        self.pcs = [places.TEXT] * harts
        self.registers = [[0] * 10 + [h] + [0] * 21 for h in range(harts)]
        self.phases = [0] * harts
        self.signals = [0] * harts
        self.writes = {}

    # ---- the table

    def word_at(self, pc):
        at, rest = divmod(pc - places.TEXT, 4)
        return self.program.words[at] if rest == 0 and 0 <= at < len(self.program.words) else None

    def follow(self, event):
        """The registers and program counter after an event that is its hart's next step."""
        h = event.hart
        if self.pcs[h] == self.program.halts[h]:
            raise Broken("AfterHalt")
        if event.pc != self.pcs[h]:
            raise Broken(f"Pc {addr_text(self.pcs[h])}")
        word = self.word_at(event.pc)
        if word is not None and word != event.word:
            raise Broken(f"Word 0x{word:08x}")
        i = None if word is None else decode(word)
        if i is None:
            raise Broken("Stuck")
        x = list(self.registers[h])
        found = event.access[3] if event.access and event.access[0] == "reads" else 0
        to, access = step(i, event.pc, x, lambda addr, width: found)
        if access is not None and not self.is_reachable(*access[1:3]):
            raise Broken("Stuck")
        if access != event.access:
            raise Broken("Step")
        return x, to

    @staticmethod
    def is_reachable(width, addr):
        return addr % width == 0 and places.TEXT <= addr and addr + width <= places.TEXT + places.MEMORY_SIZE

    # ---- reads

    def check_plain(self, event):
        for b, got in bytes_read(event.access):
            held = self.memory[b - places.TEXT]
            if got != held:
                raise Broken(f"Byte {addr_text(b)} {held}")

    def settled(self, phase, b):
        """To what byte b has settled for a phase; None where it is open."""
        for q in range(phase - 1, -1, -1):
            harts = self.writers.at(q, b)
            if len(harts) > 1:
                return None
            for h in harts:
                if q in self.writes.get((h, b), {}):
                    return self.writes[h, b][q]
        return self.image[b - places.TEXT]

    def owed(self, h, b):
        """The byte that hart h has to read at b in its phase; None where it may read anything."""
        phase = self.phases[h]
        if self.writers.at(phase, b) - {h}:
            return None
        own = self.writes.get((h, b), {})
        return own[phase] if phase in own else self.settled(phase, b)

    def check_legal(self, event):
        h = event.hart
        for g in range(self.cases.harts):
            if g != h and self.signals[g] < self.phases[h]:
                raise Broken(f"Early {g}")
        for b, got in bytes_read(event.access):
            held = self.owed(h, b)
            if held is not None and got != held:
                raise Broken(f"Byte {addr_text(b)} {held}")

    # ---- the events

    def note(self, event, registers, to):
        h = event.hart
        self.registers[h], self.pcs[h] = registers, to
        if event.access and event.access[0] == "writes":
            _, width, addr, value = event.access
            for i in range(width):
                held = value >> 8 * i & 255
                self.memory[addr + i - places.TEXT] = held
                self.writes.setdefault((h, addr + i), {})[self.phases[h]] = held
            self.signals[h] += addr < places.flag(h) + 8 and places.flag(h) < addr + width
        self.phases[h] += event.pc == self.program.exits[h]

    def answers(self, events):
        """The three answers: None for yes, else the place and why."""
        found = {"path": None, "plain": None, "legal": None}

        def broken(question, place, why):
            if found[question] is None:
                found[question] = place, why

        for place, event in enumerate(events):
            try:
                after = self.follow(event)
            except Broken as why:
                for question in found:
                    broken(question, place, str(why))
                break
            for question, check in (("plain", self.check_plain), ("legal", self.check_legal)):
                try:
                    check(event)
                except Broken as why:
                    broken(question, place, str(why))
            self.note(event, *after)
        return found


def answer_text(answer):
    return "yes" if answer is None else f"no, event {answer[0]} {answer[1]}"


def judged(image, events):
    """The three lines on the events of a trace, and whether all three answers are yes."""
    found = Judge(image).answers(events)
    text = "".join(f"{question}: {answer_text(answer)}\n" for question, answer in found.items())
    return text.encode(), not any(found.values())
