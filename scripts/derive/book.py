"""Files of cases: their lines, their texts by name, and how answers show bytes."""

from .numbers import NotACase, number, small

NOT_A_CASE = "not a case"

SETTINGS = {"calm", "desk", "err", "most", "out", "pc", "read"}

ESCAPES = {"n": b"\n", "t": b"\t", "r": b"\r", "e": b"", "\\": b"\\"}


def shown(data):
    """Bytes in the form of a file of cases."""
    out = ""
    for b in data:
        special = {10: "\\n", 9: "\\t", 13: "\\r", 92: "\\\\"}.get(b)
        out += special or (chr(b) if 0x20 <= b <= 0x7E else f"\\x{b:02x}")
    return out


def changed(data, changes):
    """A text with changes."""
    for change in changes.split(" "):
        place, is_change, value = change.partition("=")
        if change == "":
            continue
        if not is_change:
            raise NotACase(change)
        byte = bytes([small(value) % 256])
        if place == "cut":
            data = data[: small(value)]
        elif place == "more":
            data += byte
        else:
            at = number(place)
            data = data[:at] + byte + data[at + 1 :]
    return data


class Book:
    """What the lines of a file have said so far: texts by name, and the held files."""

    def __init__(self):
        self.texts = {}
        self.held = {}

    def find(self, name):
        if name not in self.texts:
            raise NotACase(name)
        return self.texts[name]

    def read(self, text):
        """The bytes that a text writes."""
        out = b""
        at = 0
        while at < len(text):
            c = text[at]
            if c == "\\":
                piece, at = self.escape(text, at + 1)
                out += piece
            elif c == "{":
                end = text.find("}", at)
                if end < 0:
                    raise NotACase(text[at:])
                out += self.find(text[at + 1 : end])
                at = end + 1
            else:
                out += c.encode()
                at += 1
        return out

    @staticmethod
    def escape(text, at):
        c = text[at : at + 1]
        if c == "x":
            digits = text[at + 1 : at + 3]
            if len(digits) < 2 or any(d not in "0123456789abcdef" for d in digits):
                raise NotACase(digits)
            return bytes([int(digits, 16)]), at + 3
        if c not in ESCAPES:
            raise NotACase(c)
        return ESCAPES[c], at + 1

    def set(self, kind, rest):
        """Whether a line sets something, and then it is done."""
        name, _, text = rest.partition(" ")
        if kind == "let":
            self.texts[name] = self.read(text)
        elif kind == "times":
            count, _, text = text.partition(" ")
            self.texts[name] = self.read(text) * small(count)
        elif kind == "change":
            old, _, changes = text.partition(" ")
            self.texts[name] = changed(self.find(old), changes)
        elif kind == "hold":
            self.held[name] = self.read(text)
        elif kind == "drop":
            self.held = {}
        else:
            return False
        return True


def answers(files, kinds):
    """The cases of files, each with its line and its derived answer; an answer may be None."""
    book = Book()
    for file in files:
        for line in file.read_bytes().decode().split("\n"):
            if line == "" or line.startswith("#"):
                continue
            kind, _, rest = line.partition(" ")
            try:
                if book.set(kind, rest):
                    continue
                answer = kinds[kind](book, rest) if kind in kinds else NOT_A_CASE
            except NotACase:
                answer = NOT_A_CASE
            yield line, answer


def words_of(rest, count=8):
    """The first words of a line, empty where there are fewer."""
    words = rest.split(" ")[:count]
    return words + [""] * (count - len(words))


def settings_of(text):
    """Settings by name: the first of a name counts, and an unknown name makes the line no case."""
    pairs = [word.partition("=") for word in text.split(" ") if word]
    for name, _, value in pairs:
        if not (name in SETTINGS or name[:1] == "x" and name[1:].isdigit()):
            raise NotACase(name)
        for one in value.split(","):
            number(one)
    return {name: value for name, _, value in reversed(pairs)}


def options_of(rest):
    """The options in front of `: `, by name, and what stands behind."""
    options, is_split, words = rest.partition(": ")
    return (settings_of(options), words) if is_split else ({}, rest)


def calls(options, name):
    """The numbers of an option."""
    return {small(word) for word in options.get(name, "").split(",")}
