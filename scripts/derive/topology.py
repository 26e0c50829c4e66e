"""Topologies."""

import tomllib
from collections import namedtuple

from .faults import Fault

LONGEST = 65_536

Topology = namedtuple("Topology", "cores threads line bias")
RANGES = {"cores": range(1, 9), "threads": range(1, 9), "line": (32, 64, 128), "bias": range(0, 101)}


def fits_64_bits(value):
    """Whether all integers of a document have 64 bits."""
    if isinstance(value, dict):
        return all(fits_64_bits(v) for v in value.values())
    if isinstance(value, list):
        return all(fits_64_bits(v) for v in value)
    return not isinstance(value, int) or isinstance(value, bool) or -(2**63) <= value < 2**63


def document(text):
    """The document that a text is; a mark of byte order at its start is skipped."""
    try:
        found = tomllib.loads(text.removeprefix(b"\xef\xbb\xbf").decode("utf-8"))
    except (UnicodeDecodeError, tomllib.TOMLDecodeError, RecursionError):
        raise Fault("NotToml") from None
    if not fits_64_bits(found):
        raise Fault("NotToml")
    return found


def parse_topology(text):
    """The topology that a text states, or its first fault."""
    found = document(text)
    unknown = [key.encode() for key in found if key not in RANGES]
    if unknown:
        raise Fault("UnknownKey", key=min(unknown))
    values = {"bias": 40}
    for key, allowed in RANGES.items():
        if key not in found:
            if key == "bias":
                continue
            raise Fault("Missing", key=key)
        value = found[key]
        if not isinstance(value, int) or isinstance(value, bool):
            raise Fault("WrongKind", key=key)
        if value not in allowed:
            raise Fault("OutOfRange", key=key, value=value)
        values[key] = value
    topology = Topology(**values)
    product = topology.cores * topology.threads
    if product > 8:
        raise Fault("TooManyHarts", product=product)
    return topology
