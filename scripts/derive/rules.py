"""The rules of templates and of slots, and the form in which a template is admitted."""

from collections import namedtuple

from . import memory_map as places
from .assembler import parse_line
from .faults import Fault
from .placement import Shape, may_touch, spot
from .table import BRANCHES, LOADS, PRODUCTS, STORES, Instr, has_rd, sources
from .template import Emit

# What a test is before its streams are drawn: for each case its name and the slots of each hart, a slot being an
# instruction or four weights.
Test = namedtuple("Test", "name shape bias passes windows cases")
NOP = Instr("addi", 0, 0, 0, 0)


def team(topology, body):
    """The harts that a body is for, from the least on."""
    harts = range(topology.cores * topology.threads)
    if body.selector == "all":
        return list(harts)
    if body.selector == "hart":
        return [h for h in harts if h == body.number]
    if body.selector == "core":
        return [h for h in harts if h // topology.threads == body.number]
    return [h for h in harts if h % topology.threads == body.number]


def slot_count(body):
    return min(sum(1 if isinstance(s, Emit) else s.count for s in body.slots), 2**64 - 1)


def emit_fault(shape, harts, slot, count, asm):
    """The first rule that a line breaks in a slot, or None."""
    try:
        i = parse_line(asm)
    except Fault as fault:
        return Fault("Asm", of=fault)
    if i.op in ("jalr", "ecall", "ebreak") or i.op in PRODUCTS:
        return Fault("NotAllowed", name=i.op)
    is_access = i.op in LOADS or i.op in STORES
    wrong = wrong_register(i, is_access)
    if wrong is not None:
        return Fault("Register", x=wrong)
    if is_access:
        return access_fault(shape, harts, i)
    if i.op in BRANCHES or i.op == "jal":
        if i.imm % 4 or i.imm < 4 or slot + i.imm // 4 > count:
            return Fault("Target", slot=slot, offset=i.imm)
    return None


def wrong_register(i, is_access):
    """Of rd, rs1 and rs2 the first that may not stand there, or None."""
    if has_rd(i) and i.rd > 27:
        return i.rd
    for place, x in zip(("rs1", "rs2"), sources(i)):
        if is_access and place == "rs1":
            if x not in (28, 29, 30):
                return x
        elif x > 27:
            return x
    return None


def access_fault(shape, harts, i):
    window = i.rs1 - 28
    if shape.windows[window] is None:
        return Fault("NoWindow", w=window)
    width = LOADS.get(i.op) or STORES[i.op]
    addr = (places.window(window) + i.imm) % 2**64
    found = spot(shape, addr)
    if addr % width or found is None or found[0].number != window:
        return Fault("BadPlace", addr=addr)
    for h in harts:
        if not may_touch(shape, h, addr, width, i.op in STORES):
            return Fault("NotOwner", hart=h, addr=addr)
    return None


def mix_fault(shape, weights):
    if not 1 <= sum(weights) <= 1_000_000:
        return Fault("NoWeight", sum=sum(weights))
    if weights[1] + weights[2] and not any(shape.windows):
        return Fault("NoWindow", w=0)
    return None


def window_faults(t, n, harts, line):
    w = t.windows[n]
    if w.number >= 3:
        yield w.at, Fault("NoWindow", w=w.number)
    if any(v.number == w.number for v in t.windows[:n]):
        yield w.at, Fault("TwiceName")
    if w.lines < 1 or w.lines * line > 2048 or (w.kind == "own" and w.lines < harts):
        yield w.at, Fault("Lines", n=w.lines)


def body_faults(topology, shape, case, n):
    body = case.bodies[n]
    harts = team(topology, body)
    if not harts:
        yield body.at, Fault("NoHart", n=body.number)
    taken = {h for other in case.bodies[:n] for h in team(topology, other)}
    for h in harts:
        if h in taken:
            yield body.at, Fault("TwiceBody", h=h)
            break
    count = slot_count(body)
    if not 1 <= count <= 256:
        yield body.at, Fault("Slots", n=count)
    before = 0
    for slot in body.slots:
        if isinstance(slot, Emit):
            fault = emit_fault(shape, harts, before, count, slot.asm)
            before += 1
        else:
            fault = mix_fault(shape, slot.weights)
            before += slot.count
        if fault:
            yield slot.at, fault


def shape_of(topology, t):
    windows = [next((w for w in t.windows if w.number == n), None) for n in range(3)]
    return Shape(topology.cores * topology.threads, topology.line, windows)


def broken_rules(topology, t):
    """The rules that a template breaks, in text order, each with its place; read no further than the first."""
    shape = shape_of(topology, t)
    if not 2 <= t.passes <= 8:
        yield t.passes_at, Fault("Passes", n=t.passes)
    for n in range(len(t.windows)):
        yield from window_faults(t, n, shape.harts, shape.line)
    for n, case in enumerate(t.cases):
        if n == 32:
            yield case.at, Fault("Cases", n=len(t.cases))
        if any(other.name == case.name for other in t.cases[:n]):
            yield case.at, Fault("TwiceName")
        for b in range(len(case.bodies)):
            yield from body_faults(topology, shape, case, b)
    if not t.cases:
        yield t.end, Fault("Cases", n=0)


def written_out(body):
    slots = []
    for slot in body.slots:
        slots += [parse_line(slot.asm)] if isinstance(slot, Emit) else [slot.weights] * slot.count
    return slots


def admit(topology, t):
    """The test that a template asks for, or the first rule that it breaks: Fault `Rule` with its place and fault."""
    for pos, fault in broken_rules(topology, t):
        raise Fault("Rule", pos=pos, fault=fault)
    shape = shape_of(topology, t)
    cases = []
    for case in t.cases:
        bodies = [[NOP] for _ in range(shape.harts)]
        for body in case.bodies:
            for h in team(topology, body):
                bodies[h] = written_out(body)
        cases.append((case.name, bodies))
    return Test(t.name, shape, topology.bias, t.passes, t.windows, cases)
