"""Reads captures, by the rules of the switch: what it refuses is refused here, by the same text; and the arrivals of packets.

`read_file` reads one from its file, `read_capture` from its bytes; `records_of` goes through the records of a long one
without a copy.
"""

import mmap
import os
import struct
from functools import lru_cache
from itertools import chain
from typing import Iterable, Iterator, List, NamedTuple, Optional, Tuple, Union

from .capture_hints import ETHERNET, LONGEST_RECORD, RAW_IP, first_bytes, hint_on
from .given import given_name
from .slot_lengths import MICROSECOND, SECOND, Slot, of_pace
from .sources import stamp_of
from .tables import Routes, read_table, route

MICROSECONDS, NANOSECONDS = 0xA1B2C3D4, 0xA1B23C4D
FILE_HEADER, RECORD_HEADER = 24, 16
VERSION = 2, 4
TAGGED, IPV4 = 0x8100, 0x0800
IP_HEADER = 20
MESSAGE_HEADER, CELL_PAYLOAD = 16, 56
LONGEST_FORWARDED = 65_535
MOST_PACKETS = 1_000_000  # So many are looked at again after a run, in some seconds.


class BadCapture(ValueError):
    """A file is no capture; the message is what the program says of it behind `capture P: `."""


class Unseen(Exception):
    """Why captures are not looked at again."""


class TooManyPackets(Unseen):
    """There are more packets than are looked at after a run."""


class Arrival(NamedTuple):
    """A packet for the queues of a switch, in the slot in which it has arrived whole."""

    slot: int
    input: int
    outputs: tuple
    level: int
    cells: int


class Header(NamedTuple):
    """What the header of a capture says: the byte order for `struct`, whether fractions are nanoseconds, the link type."""

    order: str
    is_nano: bool
    link: int


class Record(NamedTuple):
    """A record: its time in nanoseconds, how many bytes the packet had on the line, and where its captured ones stand."""

    time: int
    original: int
    start: int
    length: int


class Packet(NamedTuple):
    """A record with its bytes: its time in nanoseconds, how many bytes the packet had on the line, and the captured ones."""

    time: int
    original: int
    frame: bytes

    @property
    def length(self) -> int:
        return len(self.frame)


class Capture(NamedTuple):
    """The link type of a capture, whether its times are in nanoseconds, and its packets in their order."""

    link: int
    is_nano: bool
    packets: List[Packet]


def read_file(name: Union[str, "os.PathLike[str]"]) -> Capture:
    """Reads a capture from its file; where it is refused, BadCapture with its name and with what helps."""
    with open(name, "rb") as file:
        data = file.read()
    try:
        return read_capture(data)
    except BadCapture as fault:
        hint = hint_on(os.fspath(name), str(fault))
        raise BadCapture(f"{name}: {fault}" + (f"; hint: {name} {hint}" if hint else "")) from None


def read_capture(data: bytes) -> Capture:
    """Reads a capture from its bytes; BadCapture where they are none."""
    header = read_header(data)
    found = [Packet(it.time, it.original, data[it.start:it.start + it.length]) for it in records_of(data)]
    return Capture(header.link, header.is_nano, found)


def read_header(data: bytes) -> Header:
    """The header at the front of a capture; BadCapture with the first fault in it."""
    if len(data) < FILE_HEADER:
        raise BadCapture(f"short header, {len(data)} bytes")
    magic = {order: struct.unpack_from(order + "I", data)[0] for order in "><"}
    order = next((it for it in magic if magic[it] in (MICROSECONDS, NANOSECONDS)), None)
    if order is None:
        raise BadCapture(f"bad magic {magic['>']:08x}")
    major, minor, _, _, _, link = struct.unpack_from(order + "HHIIII", data, 4)
    if (major, minor) != VERSION:
        raise BadCapture(f"version {major}.{minor}")
    if link not in (ETHERNET, RAW_IP):
        raise BadCapture(f"link type {link}")
    return Header(order, magic[order] == NANOSECONDS, link)


def records_of(data: bytes) -> Iterator[Record]:
    """The records of a capture, in their order; BadCapture where the next one is none, or the header."""
    return map(Record._make, fields_of(data))


def fields_of(data: bytes) -> Iterator[Tuple[int, int, int, int]]:
    """The fields of the same records as plain tuples, which take less time."""
    order, is_nano, _ = read_header(data)
    numbers = struct.Struct(order + "IIII").unpack_from
    unit = 1 if is_nano else MICROSECOND
    last = SECOND // unit - 1
    at, end = FILE_HEADER, len(data)
    while at < end:
        start = at + RECORD_HEADER
        if start > end:
            raise BadCapture(f"cut record at {at}")
        seconds, fraction, length, original = numbers(data, at)
        if length > LONGEST_RECORD:
            raise BadCapture(f"long record at {at}, {length} bytes")
        if start + length > end:
            raise BadCapture(f"cut record at {at}")
        # A fraction beyond the second is the last one of that second.
        yield seconds * SECOND + (fraction if fraction < last else last) * unit, original, start, length
        at = start + length


def bytes_in(file) -> Union[bytes, mmap.mmap]:
    """The bytes of an open regular file; each part is read where it is looked at."""
    return mmap.mmap(file.fileno(), 0, access=mmap.ACCESS_READ) if os.fstat(file.fileno()).st_size else b""


def stamp_nanos(name: str) -> int:
    """The nanoseconds of a step of the time stamps of a capture; of what is none, those of one in microseconds."""
    try:
        return 1 if read_header(first_bytes(name, FILE_HEADER)).is_nano else MICROSECOND
    except BadCapture:
        return MICROSECOND


class Records:
    """The records of the capture of a port, whose file is read anew each time that one goes through them."""

    def __init__(self, port, name):
        self.name, self.told = name, f"{given_name(name)}, the capture of port {port},"

    def __iter__(self):
        return map(Record._make, self.fields())

    def fields(self):
        """Their fields, as plain tuples."""
        if not stamp_of(self.name):
            raise Unseen(f"{self.told} is no file that can be read again")
        try:
            with open(self.name, "rb") as file:
                yield from fields_of(bytes_in(file))
        except OSError as fault:
            raise Unseen(f"{self.told} cannot be read again: {fault.strerror}") from None
        except BadCapture as fault:
            raise Unseen(f"{self.told} is not as it was: {fault}") from None


def addresses(link, frame):
    """The addresses that a frame comes from and goes to, as numbers, or None where it has none."""
    at = 0
    if link == ETHERNET:
        at, kind = 14, frame[12:14]
        if int.from_bytes(kind, "big") == TAGGED:
            at, kind = 18, frame[16:18]
        if int.from_bytes(kind, "big") != IPV4:
            return None
    if len(frame) < at + IP_HEADER or frame[at] >> 4 != 4:
        return None
    return int.from_bytes(frame[at + 12:at + 16], "big"), int.from_bytes(frame[at + 16:at + 20], "big")


def destination(link, frame):
    """The address that a frame goes to, as a number, or None where it has none."""
    found = addresses(link, frame)
    return found[1] if found else None


def cells_of(length: int) -> int:
    """The number of cells of a packet of so many captured bytes."""
    return -(-(MESSAGE_HEADER + length) // CELL_PAYLOAD)


class OnLine(NamedTuple):
    """A packet on the line of its port: itself or its record, the slot of its time stamp, that of its first cell, and
    its cells. At line pace each time stamp counts as the first slot."""

    packet: Union[Packet, Record]
    due: int
    first: int
    cells: int


def on_line(packets, base, slot):
    """The packets of one port as its line brings them, in slots of a length, counted from a time in nanoseconds; at line
    pace where there is none."""
    free = 0
    for packet in packets:
        cells = cells_of(packet.length)
        due = slot.at(packet.time - base) if slot else 0
        first = max(free, due)
        free = first + cells
        yield OnLine(packet, due, first, cells)


def over(most):
    """That there are more packets than the most that are looked at."""
    return TooManyPackets(f"the captures have more than {most:,} packets; --dry-run before the command looks at all of them")


def first_time(packets_by_port, most=None):
    """The earliest time of all packets of all ports; Unseen where there are more packets than the most."""
    first = None
    for count, packet in enumerate(chain.from_iterable(packets_by_port), 1):
        if most and count > most:
            raise over(most)
        first = packet.time if first is None else min(first, packet.time)
    return first or 0


def arrivals_of(table, captures, pace_us):
    """The packets that are offered to queues, in the order of slots; pace_us None is line pace."""
    routes = read_table(table, len(captures))
    offered = offered_to_queues(routes, map(read_capture, captures), of_pace(pace_us) if pace_us else None)
    return sorted(packet for _, packet in offered)


def offered_to_queues(routes: Routes, captures: Iterable[Capture], slot: Optional[Slot]) -> Iterator[Tuple[int, Arrival]]:
    """The packets that are offered to queues, port by port, each behind its number in its capture, which counts from 0; in
    slots of a length, at line pace where there is none."""
    read = list(captures)
    base = first_time(capture.packets for capture in read)
    served_at = lru_cache(maxsize=None)(lambda address: route(routes, address))  # Many packets have the same address.
    for card, capture in enumerate(read):
        for number, (packet, _, first, cells) in enumerate(on_line(capture.packets, base, slot)):
            served = served_at(destination(capture.link, packet.frame))
            if served and packet.length <= LONGEST_FORWARDED:
                yield number, Arrival(first + cells - 1, card, served[0], served[1], cells)
