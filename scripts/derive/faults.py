"""Faults: how a case shows them, and how the line of a refusal tells them."""


class Fault(Exception):
    """A fault by name, with its values in order: (key, value), where a value may be a fault of its own."""

    def __init__(self, name, /, **values):
        super().__init__(name)
        self.name = name
        self.values = values

    def shown(self):
        """As answers of cases show it: `Name`, `Name { key: value }`, or `Name(Fault)`."""
        if not self.values:
            return self.name
        if "of" in self.values:
            return f"{self.name}({self.values['of'].shown()})"
        inner = ", ".join(f"{key}: {show(value)}" for key, value in self.values.items())
        return f"{self.name} {{ {inner} }}"

    def told(self):
        """As the line of a refusal tells it: names from outside in, each followed by its values."""
        words = [self.name] + [tell(key, value) for key, value in self.values.items()]
        return " ".join(words)


def show(value):
    return value.capitalize() if isinstance(value, str) else str(value)


def tell(key, value):
    if isinstance(value, Fault):
        return value.told()
    if isinstance(value, tuple):
        return place(value)
    if isinstance(value, bytes):
        return "".join(chr(b) if 0x21 <= b <= 0x7E else "?" for b in value)
    if key == "addr":
        return address(value)
    return str(value)


def place(pos):
    """A place: line, colon, column."""
    return f"{pos[0]}:{pos[1]}"


def address(value):
    """An address: 8 hexadecimal digits, or 16 from 2^32 on."""
    return f"0x{value:08x}" if value < 2**32 else f"0x{value:016x}"
