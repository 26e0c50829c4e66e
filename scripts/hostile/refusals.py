"""The form of the lines of refusals, and whether the place that one names is inside the file."""

import re

AT = r"(?P<line>\d+):(?P<col>\d+)"
KEY = r"(?P<key>[!-~]+)"
ADDR = r"0x(?:[0-9a-f]{8}|[0-9a-f]{16})"
ASM = r"Asm (?:UnknownName|BadRegister \d+|BadNumber \d+|OutOfRange -?\d+|BadShape \d+)"
RULES = (
    r"(?:Passes|NoWindow|Lines|Cases|NoHart|TwiceBody|Slots|NoWeight|Register) \d+|TwiceName"
    rf"|{ASM}|NotAllowed [a-z]+|BadPlace {ADDR}|NotOwner \d+ {ADDR}|Target \d+ -?\d+"
)
LEX = (rf"Lex BadByte {AT} \d+", rf"Lex LongWord {AT}")


def forms(*texts):
    return [re.compile(text) for text in texts]


# The forms of what is told of each kind of file.
FORMS = {
    "topology": forms(
        r"Topo NotToml",
        rf"Topo (?:UnknownKey|WrongKind) {KEY}",
        r"Topo Missing (?:cores|threads|line)",
        rf"Topo OutOfRange {KEY} -?\d+",
        r"Topo TooManyHarts \d+",
    ),
    "template": forms(
        *(f"Tmpl {text}" for text in LEX),
        r"Tmpl Early (?:Template|Passes)",
        rf"Tmpl Expected {AT} (?:Template|Passes|Statement|Name|Number|Kind|Selector|Asm|Class|LineEnd)",
        rf"Rule {AT} (?:{RULES})",
    ),
    "faults": forms(
        *LEX,
        rf"Expected {AT} (?:Word|Number|Action|LineEnd)",
        rf"OutOfRange {AT} \d+",
        rf"(?:NoEffect|Twice) {AT}",
    ),
    "image": forms(
        r"Elf Short (?P<length>\d+)",
        r"Elf (?:BadMagic|NotRiscv \d+|NotExec \d+|BadSegment [01]|NoPlan)",
        r"Elf BadHeader (?P<offset>\d+)",
        r"Elf BadSymbol (?P<symbol>\d+)",
        r"(?:Elf )?Differs (?P<offset>\d+)",
    ),
}
LINE = re.compile(r"threadmill: (topology|template|faults|image): (.+)\n")


def has_place(text, line, col):
    """Whether a text has a line, and this line the byte, or the end, of a column."""
    lines = text.split(b"\n")
    return 1 <= line <= len(lines) and 1 <= col <= len(lines[line - 1]) + 1


def is_inside(found, data):
    """Whether what a line names is in the file. A key with escapes or other bytes stands there in other words."""
    if "line" in found:
        return has_place(data, int(found["line"]), int(found["col"]))
    if "key" in found:
        return found["key"].encode() in data or "?" in found["key"] or b"\\" in data
    if "length" in found:
        return int(found["length"]) == len(data)
    if "symbol" in found:
        return 24 * int(found["symbol"]) < len(data)
    return "offset" not in found or int(found["offset"]) <= len(data)


def tells(role, fault, data):
    """Whether what is told of a file of a role has its form, with a place inside it."""
    matches = (form.fullmatch(fault) for form in FORMS[role])
    return any(match and is_inside(match.groupdict(), data) for match in matches)


def is_right(told, role, data, inputs=()):
    """Whether a text is one line that refuses a file of a role, or one of the texts of the image that it is."""
    found = LINE.fullmatch(told)
    if not found or found[1] != role:
        return False
    fault = found[2]
    if role == "image" and fault.startswith("Inputs "):
        roles = zip(("topology", "template"), inputs)
        return any(tells(text_role, fault.removeprefix("Inputs "), text) for text_role, text in roles)
    return tells(role, fault, data)
