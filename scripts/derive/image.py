"""From two texts and a seed to an image, and from a file to its image."""

from struct import pack

from .elf import Parts, first_difference, read_elf, write_elf
from .faults import Fault
from .races import masks
from .rules import admit
from .streams import streams
from .support import Program
from .template import parse_template
from .topology import parse_topology


class Image:
    """What is built of two texts and a seed: the program, the masks of each case, and the file."""

    def __init__(self, topology, template, seed):
        self.seed = seed
        test = read_inputs(topology, template)
        self.cases = streams(test, seed)
        self.masks = [masks(self.cases, case) for case in self.cases.cases]
        self.program = Program(self.cases)
        self.text = b"".join(pack("<I", word) for word in self.program.words)
        self.tables = b"".join(table_bytes(case, *mask) for case, mask in zip(self.cases.cases, self.masks))
        parts = Parts(self.text, self.tables, seed, topology, template, self.program.symbols())
        self.file = write_elf(parts)


def topology_of(text):
    try:
        return parse_topology(text)
    except Fault as fault:
        raise Fault("Topo", fault=fault) from None


def read_inputs(topology, template):
    """The test of two texts, or their first fault, named by the layer that it is of."""
    read = topology_of(topology)
    try:
        parsed = parse_template(template)
    except Fault as fault:
        if fault.name in ("BadByte", "LongWord"):
            fault = Fault("Lex", fault=fault)
        raise Fault("Tmpl", fault=fault) from None
    return admit(read, parsed)


def table_bytes(case, registers, checked):
    """The table of a case."""
    out = b""
    for values, mask in zip(case.registers, registers):
        out += pack("<32Q", *values[1:], mask)
    return out + pack("<768Q", *case.dwords) + bytes(255 if is_checked else 0 for is_checked in checked)


def open_image(file):
    """The image that a file is, or its first fault."""
    try:
        parts = read_elf(file)
    except Fault as fault:
        raise Fault("Elf", fault=fault) from None
    try:
        image = Image(parts.topology, parts.template, parts.seed)
    except Fault as fault:
        raise Fault("Inputs", fault=fault) from None
    differs = first_difference(image.file, file)
    if differs is not None:
        raise Fault("Differs", offset=differs)
    return image
