"""The kinds of case, program by program, each as a function of the book and of what stands behind the kind."""

import hashlib

from . import memory_map as places
from .assembler import parse_line, print_line
from .book import calls, changed, options_of, settings_of, shown, words_of
from .bounds import budget, owned, work
from .commands import Call
from .desks import Desk, Sink
from .elf import read_elf
from .faults import Fault, place
from .image import Image
from .lexer import tokens
from .numbers import digits, number, read_number, small
from .placement import Shape, choice, draw, may_touch, part_size
from .races import masks
from .rules import admit
from .scripts import read_script
from .streams import streams
from .support import HartCode
from .table import Instr, decode, encode, step
from .template import LONGEST, Window, parse_template, printed
from .template import places as statement_places
from .topology import parse_topology
from .traces import read_trace, trace_text


def by_fault(answer):
    """A kind whose faults are shown as they are."""

    def kind(book, rest):
        try:
            return answer(book, rest)
        except Fault as fault:
            return fault.shown()

    return kind


# ---- numbers


def choose(_, rest):
    word, n = words_of(rest, 2)
    return str(choice(small(word), small(n))) if small(n) else "nothing to choose"


def hexadecimal(_, rest):
    value, count = words_of(rest, 2)
    return digits(number(value), small(count) if small(count) in (1, 2, 4, 8) else 16)


def drawn(_, rest):
    seed, *numbers = words_of(rest, 5)
    c, h, i, d = (small(n) for n in numbers)
    return digits(draw(number(seed), c % 64, h % 64, i % 1024, d % 16), 8)


def hart_limit(harts, most):
    if harts < 1:
        return "no harts"
    return "too many harts" if harts > most else None


def part(_, rest):
    line, harts = (small(word) for word in words_of(rest, 2))
    if line not in (32, 64, 128):
        return "no such line"
    return hart_limit(harts, 16) or str(part_size(line, harts))


def address(_, rest):
    name, first, second = words_of(rest, 3)
    a, b = small(first), small(second)
    known = {
        "window": (a < 3, lambda: places.window(a)),
        "flag": (a < 16, lambda: places.flag(a)),
        "private": (a < 16, lambda: places.private(a)),
        "verdict": (a < 64 and b < 16, lambda: places.verdict(a, b)),
        "save": (a < 16 and b < 8, lambda: places.save(a, b)),
        "table": (1 <= a <= 16 and b < 64, lambda: places.table(a, b)),
    }
    is_known, where = known.get(name, (False, None))
    return digits(where(), 16) if is_known else "no such address"


def window_of(harts, line, n, word):
    for kind in ("true", "false", "own"):
        if word.startswith(kind):
            lines = small(word[len(kind) :])
            fits = harts <= lines and 1 <= lines and lines * line <= places.WINDOW_SIZE
            return Window(n, kind, lines, None) if fits else None
    return None


def may(_, rest):
    harts, line, *windows, h, addr, width = words_of(rest)
    harts, line, h, width = small(harts), small(line), small(h), small(width)
    if line not in (32, 64, 128):
        return "no such line"
    if hart_limit(harts, 8):
        return hart_limit(harts, 8)
    if h >= harts:
        return "no such hart"
    if width not in (1, 2, 4, 8):
        return "no such width"
    shape = Shape(harts, line, [window_of(harts, line, n, w) for n, w in enumerate(windows)])
    found = [may_touch(shape, h, number(addr), width, is_store) for is_store in (True, False)]
    return {(1, 1): "store and load", (1, 0): "store", (0, 1): "load", (0, 0): "neither"}[tuple(found)]


NUMBERS = {
    "number": by_fault(lambda book, rest: str(read_number(book.read(rest)))),
    "decimal": lambda _, rest: str(number(rest)),
    "hex": hexadecimal,
    "choice": choose,
    "draw": drawn,
    "part": part,
    "address": address,
    "may": may,
}

# ---- lines


def line(book, rest):
    i = parse_line(book.read(rest))
    word = encode(i)
    fields = f"rd {i.rd} rs1 {i.rs1} rs2 {i.rs2} imm {i.imm}"
    return f"0x{word:08x} {printed_word(word)} {fields}"


def printed_word(word):
    i = decode(word)
    return print_line(i) if i else "none"


def exec_step(_, rest):
    word, _, settings = rest.partition(" ")
    i = decode(small(word))
    if i is None:
        return "none"
    pc, x, found = 0x80000100, [0] * 32, 0
    for name, value in settings_of(settings).items():
        if name == "pc":
            pc = number(value)
        elif name == "read":
            found = number(value)
        elif name[:1] == "x" and small(name[1:]) < 32:
            x[small(name[1:])] = number(value)
    x[0] = 0
    old = list(x)
    to, access = step(i, pc, x, lambda addr, width: found % 256**width)
    out = f"pc {to:#x}"
    out += "".join(f", x{r} {x[r]:#x}" for r in range(32) if x[r] != old[r])
    if access:
        kind, width, addr, value = access
        out += f", {kind} {width} at {addr:#x}: {value:#x}"
    return out


def labelled(_, rest):
    """A branch to the word so many words on, behind which nothing stands; for 0 a jump to itself."""
    to = small(rest)
    if to == 0:
        words = [encode(Instr("jal", 0, 0, 0, 0))]
    elif 4 * to > 4094:
        return Fault("FarBranch", **{"from": 0, "to": to}).shown()
    else:
        words = [encode(Instr("beq", 0, 0, 0, 4 * to))] + [0x13] * (to - 1)
    return f"{len(words)} words, 0x{words[0]:08x} to 0x{words[-1]:08x}"


LINES = {
    "line": by_fault(line),
    "word": lambda _, rest: printed_word(small(rest)),
    "exec": exec_step,
    "code": labelled,
}

# ---- grammar


def in_words(answer):
    """A kind whose faults are shown by their names and values alone."""

    def kind(book, rest):
        text = book.read(rest)
        try:
            return "too long" if len(text) > LONGEST else answer(text)
        except Fault as fault:
            if fault.name == "UnknownKey":
                return "UnknownKey " + shown(fault.values["key"])
            return fault.told()

    return kind


def tokens_of(text):
    parts = [f"{t.kind} {place(t.at)} {t.first}-{t.last}, " for t in tokens(text)]
    return "".join(parts) + "end"


def topology(text):
    t = parse_topology(text)
    return f"cores {t.cores} threads {t.threads} line {t.line} bias {t.bias}"


def template(text):
    t = parse_template(text)
    at = " ".join(place(pos) for pos in statement_places(t))
    return f"{shown(printed(t))} at {at} end {place(t.end)}"


def test_of(topology_text, template_text):
    """The test of two texts; a Fault whose name says what is missing."""
    try:
        t = parse_template(template_text)
    except Fault:
        raise Fault("no template") from None
    try:
        topo = parse_topology(topology_text)
    except Fault:
        raise Fault("no topology") from None
    return admit(topo, t)


def rules(book, rest):
    name, _, text = rest.partition(" ")
    data = book.read(text)
    if len(data) > LONGEST:
        return "too long"
    try:
        test = test_of(book.find(name), data)
    except Fault as fault:
        if fault.name != "Rule":
            return fault.name
        return f"{place(fault.values['pos'])} {fault.values['fault'].shown()}"
    lengths = [str(len(slots)) for _, bodies in test.cases for slots in bodies]
    return " ".join(["slots"] + lengths)


GRAMMAR = {"tokens": in_words(tokens_of), "topology": in_words(topology), "template": in_words(template)}
GRAMMAR["rules"] = rules

# ---- races


def of_test(answer):
    """A kind about the streams that a seed draws for two texts by name."""

    def kind(book, rest):
        topo, tmpl, seed = words_of(rest, 3)
        try:
            test = test_of(book.find(topo), book.find(tmpl))
        except Fault:
            return "no test"
        return answer(streams(test, number(seed)))

    return kind


def ranges(checked):
    """Each range of checked bytes, with its first place and the one behind its last."""
    out = []
    start = None
    for at, is_checked in enumerate(checked + [False]):
        if is_checked and start is None:
            start = at
        elif not is_checked and start is not None:
            out.append(f" {start}..{at}")
            start = None
    return "".join(out)


def race(cases):
    out = ""
    for case in cases.cases:
        registers, checked = masks(cases, case)
        words = "".join(f" {word:#x}" for word in registers)
        out += f"registers{words}, bytes{ranges(checked)}, "
    return out + "end"


def bounds(cases):
    out = ""
    for h in range(cases.harts):
        out += f"dwords {len(owned(cases, h))} work {work(cases, h)}, "
    return out + f"budget {budget(cases)}"


RACES = {"race": of_test(race), "work": of_test(bounds)}

# ---- scripts and traces


def script_line(line):
    hart, case, at_pass, slot, (action, xor) = line
    number = "" if xor is None else f" {xor:#x}"
    at_pass = "*" if at_pass is None else at_pass
    return f"hart {hart} case {case} pass {at_pass} slot {slot} {action}{number}, "


def script(book, rest):
    topo, tmpl, seed, text = (rest.split(" ", 3) + [""])[:4]
    data = book.read(text)

    def answer(cases):
        if len(data) > LONGEST:
            return "too long"
        try:
            return "".join(script_line(line) for line in read_script(data, cases)) + "end"
        except Fault as fault:
            return fault.told()

    return of_test(answer)(book, f"{topo} {tmpl} {seed}")


def event(e):
    out = f" hart {e.hart} pc {e.pc:#x} word {e.word:#x}"
    if e.access:
        kind, width, addr, value = e.access
        out += f" {kind} {width} at {addr:#x}: {value:#x}"
    return out


def trace(book, rest):
    text = book.read(rest)
    try:
        harts, events = read_trace(text)
    except Fault as fault:
        return fault.told()
    out = f"harts {harts} events {len(events)}"
    if events:
        out += f", first{event(events[0])}, last{event(events[-1])}"
    written = trace_text(harts, events)
    return out + (", the same" if written == text else ", written " + shown(written))


SCRIPTS = {"script": script, "trace": trace}

# ---- files of images


def elf(book, rest):
    name, _, changes = rest.partition(" ")
    parts = read_elf(changed(book.find(name), changes))
    out = f"words {len(parts.text) // 4}, tables {len(parts.tables)}, seed {parts.seed:#x}"
    out += f", topology {shown(parts.topology)}, template {shown(parts.template)}"
    return out + "".join(f", {shown(name)} {addr:#x}" for name, addr in parts.symbols)


ELF = {"elf": by_fault(elf)}

# ---- desks and sinks


def answered(call):
    try:
        return call()
    except Fault as fault:
        return fault.shown()


def desk_call(book, desk, words):
    name, file, text = words_of(words.lstrip(" "), 3)
    if name == "read":
        return answered(lambda: "holds " + shown(desk.read(file, number(text))))
    return answered(lambda: desk.write(file, book.read(text)) or "written")


def desks(book, rest):
    options, ops = options_of(rest)
    desk = Desk(book.held, calls(options, "desk"), options.get("calm") == "1")
    return "".join(desk_call(book, desk, op) + "; " for op in ops.split(";")) + "end"


def sink_call(book, sink, words):
    name, text = words_of(words.lstrip(" "), 2)
    data = book.read(text)
    if name == "all":
        return answered(lambda: sink.put_all(data) or "all")
    return answered(lambda: str(sink.put(data)))


def sinks(book, rest):
    options, ops = options_of(rest)
    is_calm = options.get("calm") == "1"
    most = None if is_calm else max(small(options.get("most", "")), 1)
    sink = Sink(most, () if is_calm else calls(options, "out"))
    out = "".join(sink_call(book, sink, op) + "; " for op in ops.split(";"))
    return out + "taken " + shown(sink.taken)


DESKS = {"desk": desks, "sink": sinks}

# ---- commands


def long_shown(data):
    """Bytes; of a long text its length and its digest."""
    if len(data) <= 4096:
        return shown(data)
    return f"{len(data)} bytes of SHA-256 {hashlib.sha256(data).hexdigest()}"


def taken(name, data):
    """What a sink took, if it took something."""
    return f", {name} {long_shown(data)}" if data else ""


def call(words, desk, options):
    most = small(options.get("most", "")) or 0x100000
    out, err = Sink(most, calls(options, "out")), Sink(most, calls(options, "err"))
    done = Call(words, desk, out, err)
    journal = ", a journal" if done.journal else ""
    return f"{done.status}{journal}{taken('output', out.taken)}{taken('error', err.taken)}"


def file_told(book, name, file):
    for text_name, text in book.texts.items():
        if text == file:
            return f", {name} holds {text_name}"
    return f", {name} holds {len(file)} bytes"


def files_told(book, desk, words):
    """Each file that isn't as it was: those that were held, then new ones in the order of the words."""
    out = ""
    for name, was in book.held.items():
        if desk.files[name] != was:
            out += file_told(book, name, desk.files[name])
    for word in words:
        for name in (word, word.partition("=")[2]):
            if name in desk.files and name not in book.held:
                out += file_told(book, name, desk.files[name])
    return out


def done(book, rest):
    """What a command over the held files answers, and the desk behind it."""
    options, words = options_of(rest)
    words = [book.read(word).decode("utf-8", "replace") for word in words.split(" ")]
    desk = Desk(book.held, calls(options, "desk"))
    return call(words, desk, options) + files_told(book, desk, words), desk


def command(book, rest):
    return done(book, rest)[0]


def keep(book, rest):
    """A command; one of the files that the desk then holds gets a name as a text."""
    name, _, rest = rest.partition(" ")
    file, _, rest = rest.partition(" ")
    out, desk = done(book, rest)
    if file in desk.files:
        book.texts[name] = desk.files[file]
    return out


def image(book, rest):
    name, topo, tmpl, seed = words_of(rest, 4)
    desk = Desk({"a.toml": book.find(topo), "a.tm": book.find(tmpl)})
    out = call(["build", "a.toml", "a.tm", "a.elf", "--seed", seed], desk, {})
    if "a.elf" in desk.files:
        book.texts[name] = desk.files["a.elf"]
    return out


def bytes_of(book, rest):
    name, at, count = words_of(rest, 3)
    return long_shown(book.find(name)[small(at) :][: small(count)])


COMMANDS = {"command": command, "keep": keep, "image": image, "bytes": bytes_of}

# ---- words of a program


def word_lines():
    """The lines of tm_pass_rows: words of the program of a test of two harts, at its marks."""
    topo = b"cores = 2\nthreads = 1\nline = 64\n"
    tmpl = b"template t\npasses 2\nwindow 0 true 1\ncase a\nbody all\nemit addi x1, x0, 1\n"
    made = Image(topo, tmpl, 1).program
    other = HartCode(made.cases, 1)

    def at(addr):
        return made.words[(addr - places.TEXT) // 4]

    lines = ["the text of two harts", f"first, addi x1, x0, 0: 0x{at(places.TEXT):08x}"]
    lines += [f"start, addi x1, x0, 1: 0x{at(start):08x}" for starts in made.starts for start in starts]
    lines += [f"exit, jalr x0, 0(x1): 0x{at(exit_mark):08x}" for exit_mark in made.exits]
    lines += ["the second hart's code", f"first, addi x1, x0, 1: 0x{other.words[0]:08x}"]
    return lines + [f"halt, jal x0, 0: 0x{other.words[other.halt]:08x}", ""]


# Each program: the files of its folder `data`, and the kinds of case that it answers.
PROGRAMS = {
    "tm_cases_numbers": (["numbers"], NUMBERS),
    "tm_cases_lines": (["lines", "words", "steps", "labels"], LINES),
    "tm_cases_grammar": (["texts", "grammar", "rules"], GRAMMAR),
    "tm_cases_scripts": (["scripts", "traces", "races"], SCRIPTS | RACES),
    "tm_cases_elf": (["elf"], ELF),
    "tm_cases_desks": (["desks"], DESKS),
    "tm_cases_commands": (["texts", "commands", "runs", "tests", "words", "faults", "judged"], COMMANDS),
}
