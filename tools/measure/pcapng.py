"""Reads files in the pcapng format (Internet-Draft draft-ietf-opsawg-pcapng): their interfaces and their packets."""

import struct
from typing import List, NamedTuple

from launcher.captures import SECOND, BadCapture, Record

MAGIC = b"\x0a\x0d\x0d\x0a"
SECTION, INTERFACE, OLD_PACKET, SIMPLE_PACKET, PACKET = 0x0A0D0D0A, 1, 2, 3, 6
BYTE_ORDER = 0x1A2B3C4D
LEAST_BLOCK = 12  # Its type, and its length twice.
END, NAME, RESOLUTION, OFFSET = 0, 2, 9, 14  # Codes of options.
MICROSECONDS = 6  # The resolution where an interface does not say it: so many digits of a second.


class Interface(NamedTuple):
    """An interface: its link type, its name, the parts of a second that times count, and the seconds added to them."""

    link: int
    name: str
    parts: int
    offset: int


class Packet(NamedTuple):
    """A packet: the number of its interface in the file, from 0, and its record."""

    interface: int
    record: Record


class Section(NamedTuple):
    """The interfaces and the packets of a file."""

    interfaces: List[Interface]
    packets: List[Packet]

    @property
    def is_nano(self):
        """Whether an interface has times of more than microseconds."""
        return any(SECOND // 1000 % it.parts for it in self.interfaces)


def read(data):
    """What a file has; BadCapture where it is cut off or no such file."""
    found, order, first = Section([], []), "<", 0
    at = 0
    while at < len(data):
        if data[at:at + 4] == MAGIC:
            order, first = _order(data, at), len(found.interfaces)
        kind, body, at = _block(data, at, order)
        if kind == INTERFACE:
            found.interfaces.append(_interface(data, body, order))
        elif kind in (OLD_PACKET, SIMPLE_PACKET, PACKET):
            found.packets.append(_packet(data, kind, body, order, found, first))
    return found


def _order(data, at):
    """The byte order of a section that begins at a byte."""
    mark = data[at + 8:at + 12]
    for order in "<>":
        if mark == struct.pack(order + "I", BYTE_ORDER):
            return order
    raise BadCapture(f"bad section at {at}")


def _block(data, at, order):
    """The type of a block, its body as a range of bytes, and where the next one begins."""
    if at + LEAST_BLOCK > len(data):
        raise BadCapture(f"cut block at {at}")
    kind, length = struct.unpack_from(order + "II", data, at)
    if length < LEAST_BLOCK or length % 4:
        raise BadCapture(f"bad block at {at}")
    if at + length > len(data):
        raise BadCapture(f"cut block at {at}")
    return kind, range(at + 8, at + length - 4), at + length


def _interface(data, body, order):
    if len(body) < 8:
        raise BadCapture(f"bad block at {body.start - 8}")
    options = _options(data, body.start + 8, body.stop, order)
    digits = options.get(RESOLUTION, bytes([MICROSECONDS]))[:1]
    power = digits[0] if digits else MICROSECONDS
    parts = 2 ** (power & 0x7F) if power & 0x80 else 10**power
    offset = options.get(OFFSET, b"")
    seconds = struct.unpack(order + "q", offset)[0] if len(offset) == 8 else 0
    name = options.get(NAME, b"").decode(errors="surrogateescape")
    return Interface(struct.unpack_from(order + "H", data, body.start)[0], name, parts, seconds)


def _options(data, at, end, order):
    """The options from a byte on, by their codes, each once."""
    found = {}
    while at + 4 <= end:
        code, length = struct.unpack_from(order + "HH", data, at)
        if code == END:
            break
        found.setdefault(code, data[at + 4:min(end, at + 4 + length)])
        at += 4 + (length + 3) // 4 * 4
    return found


def _packet(data, kind, body, order, found, first):
    """A packet of a section whose interfaces count from `first`."""
    if kind == SIMPLE_PACKET:
        raise BadCapture(f"packet without a time at {body.start - 8}")
    form = "IIIII" if kind == PACKET else "HxxIIII"
    if len(body) < 20:
        raise BadCapture(f"bad block at {body.start - 8}")
    number, high, low, length, original = struct.unpack_from(order + form, data, body.start)
    interface = first + number
    if interface >= len(found.interfaces) or 20 + length > len(body):
        raise BadCapture(f"bad block at {body.start - 8}")
    _, _, parts, offset = found.interfaces[interface]
    time = ((high << 32 | low) * SECOND) // parts + offset * SECOND
    return Packet(interface, Record(time, original, body.start + 20, length))
