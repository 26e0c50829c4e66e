"""Files in the form of an image: written of parts, and read."""

from collections import namedtuple
from struct import pack, unpack_from

from . import memory_map as places
from .faults import Fault

# The text and the tables as bytes; a plan is a seed and two texts; symbols are pairs of a name and an address.
Parts = namedtuple("Parts", "text tables seed topology template symbols")

MAGIC = b"\x7fELF\x02\x01\x01"
NAMES = (b"", b".text", b".tables", b".work", b".tmplan", b".symtab", b".strtab", b".shstrtab")


def plan_bytes(parts):
    lengths = pack("<QII", parts.seed, len(parts.topology), len(parts.template))
    return b"TMPLAN01" + lengths + parts.topology + parts.template


def symbol_bytes(parts):
    """The symbol table and the strings."""
    table, strings = bytes(24), b"\0"
    for name, addr in parts.symbols:
        table += pack("<IBBHQQ", len(strings), 0x10, 0, 1, addr, 0)
        strings += name + b"\0"
    return table, strings


def placed(file, align, part):
    """The file with zeros up to a multiple and then a part, and where that stands."""
    file += bytes(-len(file) % align)
    return file + part, len(file)


def segment(flags, offset, addr, filesz, memsz):
    return pack("<IIQQQQQQ", 1, flags, offset, addr, addr, filesz, memsz, 4096)


def section(name, kind, flags=0, addr=0, at=0, size=0, link=0, info=0, align=0, entry=0):
    return pack("<IIQQQQIIQQ", name, kind, flags, addr, at, size, link, info, align, entry)


def write_elf(parts):
    """The file of parts."""
    plan = plan_bytes(parts)
    table, strings = symbol_bytes(parts)
    names = b"\0".join(NAMES) + b"\0"
    file = bytes(4096) + parts.text
    file, at_tables = placed(file, 4096, parts.tables)
    file, at_plan = placed(file, 8, plan)
    file, at_table = placed(file, 8, table)
    file, at_strings = placed(file, 1, strings)
    file, at_names = placed(file, 1, names)
    headers = section(0, 0)
    headers += section(1, 1, 6, places.TEXT, 4096, len(parts.text), align=4096)
    headers += section(7, 1, 2, places.TABLES, at_tables, len(parts.tables), align=4096)
    headers += section(15, 8, 3, places.WORK, 0, places.WORK_SIZE, align=4096)
    headers += section(21, 1, at=at_plan, size=len(plan), align=8)
    headers += section(29, 2, at=at_table, size=len(table), link=6, info=1, align=8, entry=24)
    headers += section(37, 3, at=at_strings, size=len(strings), align=1)
    headers += section(45, 3, at=at_names, size=len(names), align=1)
    file, at_headers = placed(file, 8, headers)
    head = MAGIC + bytes(9) + pack("<HHIQQQ", 2, 243, 1, places.TEXT, 64, at_headers)
    head += pack("<IHHHHHH", 0, 64, 56, 3, 64, 8, 7)
    head += segment(5, 4096, places.TEXT, len(parts.text), len(parts.text))
    head += segment(4, at_tables, places.TABLES, len(parts.tables), len(parts.tables))
    head += segment(6, 0, places.WORK, 0, places.WORK_SIZE)
    return head + file[len(head) :]


def header_fault(file):
    """The fault of a file's header, or None."""
    if len(file) < 64:
        return Fault("Short", have=len(file))
    if file[:7] != MAGIC:
        return Fault("BadMagic")
    kind, machine = unpack_from("<HH", file, 16)
    if machine != 243:
        return Fault("NotRiscv", machine=machine)
    if kind != 2:
        return Fault("NotExec", kind=kind)
    if any(file[7:16]):
        return Fault("BadHeader", field=7)
    fields = unpack_from("<IQQQIHHHHHH", file, 20)
    offsets = (20, 24, 32, 40, 48, 52, 54, 56, 58, 60, 62)
    wanted = (1, places.TEXT, 64, len(file) - 512, 0, 64, 56, 3, 64, 8, 7)
    for offset, is_now, must in zip(offsets, fields, wanted):
        if is_now != must or (offset == 40 and len(file) < 744):
            return Fault("BadHeader", field=offset)
    return None


def range_of(file, header, is_section):
    """The offset and the size that a program header, or a section header, states."""
    if is_section:
        return unpack_from("<QQ", file, len(file) - 512 + 64 * header + 24)
    offset, _, _, filesz = unpack_from("<QQQQ", file, 64 + 56 * header + 8)
    return offset, filesz


def bad_segment(file):
    end = len(file) - 512
    offset, size = range_of(file, 0, False)
    if offset + size > end or size == 0 or size % 4 or size > 8_388_608:
        return Fault("BadSegment", index=0)
    offset, size = range_of(file, 1, False)
    if offset + size > end or size > 4_194_304:
        return Fault("BadSegment", index=1)
    return None


def read_plan(file):
    """The seed and the two texts of section 4, or None."""
    end = len(file) - 512
    offset, size = range_of(file, 4, True)
    (kind,) = unpack_from("<I", file, end + 64 * 4 + 4)
    if kind != 1 or offset + size > end:
        return None
    plan = file[offset : offset + size]
    if len(plan) < 24 or plan[:8] != b"TMPLAN01":
        return None
    seed, first, second = unpack_from("<QII", plan, 8)
    if first > 65_536 or second > 1_048_576 or 24 + first + second != size:
        return None
    return seed, plan[24 : 24 + first], plan[24 + first :]


def name_at(strings, at):
    """The name that begins at a place of the strings, or None."""
    if at >= len(strings):
        return None
    end = strings.find(b"\0", at, at + 33)
    name = strings[at:end] if end >= 0 else b""
    return name if name and max(name) < 128 else None


def read_symbols(file):
    """The symbols of sections 5 and 6, or the fault of the first that is bad."""
    end = len(file) - 512
    offset, size = range_of(file, 5, True)
    at, length = range_of(file, 6, True)
    if offset + size > end or at + length > end or size == 0 or size % 24 or size // 24 > 65_536:
        raise Fault("BadSymbol", index=0)
    strings = file[at : at + length]
    symbols = []
    for index in range(1, size // 24):
        name_offset, _, _, _, addr = unpack_from("<IBBHQ", file, offset + 24 * index)
        name = name_at(strings, name_offset)
        if name is None:
            raise Fault("BadSymbol", index=index)
        symbols.append((name, addr))
    return symbols


def first_difference(a, b):
    """The first place at which two files differ, or the shorter length; None where they are the same."""
    if a == b:
        return None
    low, high = 0, min(len(a), len(b))
    while low < high:
        middle = (low + high + 1) // 2
        if a[low:middle] == b[low:middle]:
            low = middle
        else:
            high = middle - 1
    return low


def read_elf(file):
    """The parts that a file is the file of, or its first fault."""
    fault = header_fault(file) or bad_segment(file)
    if fault:
        raise fault
    plan = read_plan(file)
    if plan is None:
        raise Fault("NoPlan")
    symbols = read_symbols(file)
    ranges = [range_of(file, header, False) for header in (0, 1)]
    text, tables = (file[offset : offset + size] for offset, size in ranges)
    parts = Parts(text, tables, *plan, symbols)
    differs = first_difference(write_elf(parts), file)
    if differs is not None:
        raise Fault("Differs", offset=differs)
    return parts
