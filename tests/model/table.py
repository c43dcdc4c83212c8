"""The forwarding table, the destination of a frame, and its route."""

from __future__ import annotations

from typing import Dict, List, NamedTuple, Optional, Tuple

from .captures import ETHERNET
from .faults import Fault
from .ports import LEVELS, Ports

MOST_LINES = 4_096
FAULT_LINES: Dict[str, str] = {
    "bad_line": "table line {line}: bad line", "host_bits": "table line {line}: host bits",
    "bad_port": "table line {line}: port {port}", "bad_level": "table line {line}: level",
    "repeated": "table line {line}: repeats line {first}", "too_many_lines": "table: {count} lines",
}


class Prefix(NamedTuple):
    """The first bits of addresses."""

    address: int
    length: int

    def covers(self, address: Optional[int]) -> bool:
        """Whether an address begins with it."""
        return address is not None and (address ^ self.address) >> (32 - self.length) == 0


class Line(NamedTuple):
    """A line of the table: its prefix, None for `*`, its fan-out and its level."""

    prefix: Optional[Prefix]
    fan: Ports
    level: int


class Route(NamedTuple):
    """Where a packet goes."""

    fan: Ports
    level: int


def lines_of(text: bytes) -> List[Tuple[int, bytes]]:
    """The lines of a text with their numbers, without one carriage return at the end and without blanks at both
    ends."""
    lines = text.split(b"\n")
    if lines[-1] == b"":
        lines.pop()  # Nothing stands behind the last line feed.
    cut = (line[:-1] if line.endswith(b"\r") else line for line in lines)
    return [(number, line.strip(b" \t")) for number, line in enumerate(cut, 1)]


def is_number(word: bytes) -> bool:
    """Whether a word is a number: 1 to 3 digits, with no leading zero but for "0" itself."""
    return 1 <= len(word) <= 3 and all(48 <= byte <= 57 for byte in word) and (word[:1] != b"0" or word == b"0")


def read_prefix(target: bytes) -> Optional[Prefix]:
    """The prefix that a target is, None where it is none."""
    if target.count(b"/") != 1:
        return None
    dotted, length = target.split(b"/")
    octets = dotted.split(b".")
    if len(octets) != 4 or not all(is_number(word) and int(word) <= 255 for word in octets):
        return None
    if not is_number(length) or int(length) > 32:
        return None
    return Prefix(int.from_bytes(bytes(map(int, octets)), "big"), int(length))


class Fields(NamedTuple):
    """The fields of a line, as they stand there; the prefix is None for `*`."""

    prefix: Optional[Prefix]
    outputs: List[int]
    level: int


def read_fields(line: bytes) -> Optional[Fields]:
    """The fields of a line, None where it has not their form."""
    words = [word for word in line.replace(b"\t", b" ").split(b" ") if word != b""]
    if len(words) not in (2, 3):
        return None
    outputs, level = words[1].split(b","), words[2] if len(words) == 3 else b"0"
    prefix = read_prefix(words[0])
    if prefix is None and words[0] != b"*" or not all(map(is_number, [*outputs, level])):
        return None
    return Fields(prefix, [int(output) for output in outputs], int(level))


def read_line(number: int, line: bytes, ports: int, seen: Dict[Optional[Prefix], int]) -> Line:
    """A line of the table; its first fault is raised. `seen` has the numbers of the lines before, by their prefixes."""
    fields = read_fields(line)
    if fields is None:
        raise Fault("bad_line", line=number)
    prefix = fields.prefix
    if prefix is not None and prefix.address & ((1 << (32 - prefix.length)) - 1):
        raise Fault("host_bits", line=number)
    for output in fields.outputs:
        if output >= ports:
            raise Fault("bad_port", line=number, port=output)
    if fields.level >= LEVELS:
        raise Fault("bad_level", line=number)
    if prefix in seen:
        raise Fault("repeated", line=number, first=seen[prefix])
    seen[prefix] = number
    return Line(prefix, frozenset(fields.outputs), fields.level)


def read_table(text: bytes, ports: int) -> List[Line]:
    """The table for a switch of so many ports; the first fault of its text is raised."""
    lines = [(number, line) for number, line in lines_of(text) if line and not line.startswith(b"#")]
    if len(lines) > MOST_LINES:
        raise Fault("too_many_lines", count=len(lines))
    seen: Dict[Optional[Prefix], int] = {}
    return [read_line(number, line, ports, seen) for number, line in lines]


def route_of(table: List[Line], address: Optional[int]) -> Optional[Route]:
    """The route of an address, or of a packet that has none: by the longest prefix that covers it, else by `*`."""
    prefixes = {line.prefix: line for line in table}
    covering = [prefix for prefix in prefixes if prefix is not None and prefix.covers(address)]
    best = prefixes.get(max(covering, key=lambda prefix: prefix.length, default=None))
    return None if best is None else Route(best.fan, best.level)


def destination(link: int, frame: bytes) -> Optional[int]:
    """The address to which a frame goes, None where it has none. One tag of an Ethernet frame is skipped."""
    start = 0
    if link == ETHERNET:
        start = 18 if frame[12:14] == b"\x81\x00" else 14
        if frame[start - 2:start] != b"\x08\x00":
            return None
    if len(frame) < start + 20 or frame[start] >> 4 != 4:
        return None
    return int.from_bytes(frame[start + 16:start + 20], "big")
