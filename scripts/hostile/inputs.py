"""Random tests with all that belongs to them: two texts, a script of faults, and what these say in other words."""

from derive.lexer import tokens
from derive.scripts import ACTIONS, NUMBERED, has_effect, xor_end
from derive.template import parse_template, printed
from seeds_on_qemu import template_of, topology_of
from survey import decode

MOST_LINES = 12


def blanks(draw):
    return draw.choice(("", "", "  ", "\t", " \t"))


def other_number(draw, word):
    """A number in one of its other spellings, now and then."""
    if not word.isdigit() or draw.random() < 0.9:
        return word
    return draw.choice((f"{int(word):#x}", f"0{word}", f"0x0{int(word):X}"))


def remarked(draw, text, has_numbers):
    """The text with blanks, empty lines and comments, and with numbers in other spellings."""
    lines = []
    for line in text.splitlines():
        if draw.random() < 0.08:
            lines.append(draw.choice(("", "# a remark", "   # another one: 7, x5")))
        if has_numbers and not line.startswith("emit"):
            line = draw.choice((" ", " ", "  ")).join(other_number(draw, word) for word in line.split())
        remark = draw.choice(("", "", "", "", " ", "\t# remark", " # what for"))
        lines.append(blanks(draw) + line + remark)
    return ("\n".join(lines) + draw.choice(("\n", "\n", "", "\n\n# the end\n"))).encode()


def texts(draw):
    """A topology and a template."""
    topology, cores, threads, line = topology_of(draw)
    template = template_of(draw, cores, threads, line)
    return remarked(draw, topology, False), remarked(draw, template, True)


def script_line(draw, cases):
    """A line of a script, and what it names; None where the slot that was drawn has no action."""
    case, hart = draw.randrange(len(cases.cases)), draw.randrange(cases.harts)
    words = cases.cases[case].words[hart]
    slot = draw.randrange(len(words))
    i = decode(words[slot])
    some = [action for action in ACTIONS if has_effect(action, i)]
    if not some:
        return None
    action = draw.choice(some)
    at_pass = draw.choice(("*", str(draw.randrange(cases.passes))))
    xor = f" {draw.randrange(1, xor_end(action, i)):#x}" if action in NUMBERED else ""
    return f"hart {hart} case {case} pass {at_pass} slot {slot} {action}{xor}", (hart, case, slot, action)


def script(draw, cases):
    """A script of a few lines, of which no two name the same."""
    lines, named = [], set()
    for _ in range(draw.randint(1, MOST_LINES)):
        found = script_line(draw, cases)
        if found and found[1] not in named:
            lines.append(found[0])
            named.add(found[1])
    return remarked(draw, "\n".join(lines) + "\n", True) if lines else b"# nothing\n"


def topology_text(t):
    """The printed form of a topology."""
    return f"cores = {t.cores}\nthreads = {t.threads}\nline = {t.line}\nbias = {t.bias}\n".encode()


def template_text(text):
    """The printed form of what a text is read as."""
    return printed(parse_template(text))


def script_text(lines):
    """The printed form of the lines of a script."""
    told = []
    for hart, case, at_pass, slot, (action, xor) in lines:
        named = f"hart {hart} case {case} pass {'*' if at_pass is None else at_pass} slot {slot} {action}"
        told.append(named + ("" if xor is None else f" {xor:#x}") + "\n")
    return "".join(told).encode()


def bare(kind, text):
    """What is left of a text without its blanks and comments."""
    if kind == "topology":
        lines = [b"".join(line.split(b"#")[0].split()) for line in text.removeprefix(b"\xef\xbb\xbf").split(b"\n")]
        return [line for line in lines if line]
    return [(token.kind, token.text) for token in tokens(text)]
