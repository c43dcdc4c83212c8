"""Captures: the classic pcap format, as it is read and as it is written."""

from __future__ import annotations

from typing import Dict, Iterable, List, Literal, NamedTuple, Tuple

from .faults import Fault

ETHERNET, RAW_IP = 1, 101
Order = Literal["big", "little"]  # Of the bytes of a number.
ORDERS: Tuple[Order, ...] = ("big", "little")
MOST_CAPTURED = 262_144  # Bytes of a record, and the snap length that is written.
HEADER_BYTES, RECORD_BYTES = 24, 16
MICROSECONDS, NANOSECONDS = 0xA1B2C3D4, 0xA1B23C4D
FAULT_LINES: Dict[str, str] = {
    "short_header": "capture {port}: short header, {length} bytes",
    "bad_magic": "capture {port}: bad magic {found:08x}",
    "bad_version": "capture {port}: version {major}.{minor}",
    "bad_link": "capture {port}: link type {found}",
    "cut_record": "capture {port}: cut record at {at}",
    "long_record": "capture {port}: long record at {at}, {length} bytes",
}


class Packet(NamedTuple):
    """A packet of a capture: its time, its length on the line, and the bytes that were captured."""

    seconds: int
    nanos: int
    original: int
    data: bytes

    def time(self) -> int:
        """Its time in nanoseconds."""
        return self.seconds * 1_000_000_000 + self.nanos


class Capture(NamedTuple):
    """A capture: whether its unit is the nanosecond, its link type, and its packets."""

    is_nano: bool
    link: int
    packets: List[Packet]


def byte_order(data: bytes) -> Order:
    """The order of a file's bytes, by its magic."""
    for order in ORDERS:
        if int.from_bytes(data[:4], order) in (MICROSECONDS, NANOSECONDS):
            return order
    raise Fault("bad_magic", found=int.from_bytes(data[:4], "big"))


def read_header(data: bytes) -> Tuple[Order, bool, int]:
    """The order of a file's bytes, whether its unit is the nanosecond, and its link type."""
    if len(data) < HEADER_BYTES:
        raise Fault("short_header", length=len(data))
    order = byte_order(data)
    major, minor = (int.from_bytes(data[at:at + 2], order) for at in (4, 6))
    if (major, minor) != (2, 4):
        raise Fault("bad_version", major=major, minor=minor)
    link = int.from_bytes(data[20:24], order)
    if link not in (ETHERNET, RAW_IP):
        raise Fault("bad_link", found=link)
    return order, int.from_bytes(data[:4], order) == NANOSECONDS, link


def read_record(data: bytes, at: int, order: Order, is_nano: bool) -> Packet:
    """The record at a place. A fraction beyond the second is the last one of that second."""
    if len(data) - at < RECORD_BYTES:
        raise Fault("cut_record", at=at)
    seconds, fraction, length, original = (int.from_bytes(data[at + k:at + k + 4], order) for k in (0, 4, 8, 12))
    if length > MOST_CAPTURED:
        raise Fault("long_record", at=at, length=length)
    start = at + RECORD_BYTES
    if length > len(data) - start:
        raise Fault("cut_record", at=at)
    nanos = min(fraction, 999_999_999) if is_nano else min(fraction, 999_999) * 1_000
    return Packet(seconds, nanos, original, bytes(data[start:start + length]))


def read_capture(data: bytes) -> Capture:
    """What a file says; its first fault is raised."""
    order, is_nano, link = read_header(data)
    packets: List[Packet] = []
    at = HEADER_BYTES
    while at < len(data):
        packets.append(read_record(data, at, order, is_nano))
        at += RECORD_BYTES + len(packets[-1].data)
    return Capture(is_nano, link, packets)


def header_bytes(is_nano: bool, link: int) -> bytes:
    """The header of an output capture: little-endian, with time zone and accuracy 0."""
    magic = NANOSECONDS if is_nano else MICROSECONDS
    fields = ((magic, 4), (2, 2), (4, 2), (0, 8), (MOST_CAPTURED, 4), (link, 4))
    return b"".join(number.to_bytes(size, "little") for number, size in fields)


def record_bytes(message: bytes, is_nano: bool) -> bytes:
    """The record of a message, whose header says its time and its length on the line."""
    seconds, nanos, _, original = (int.from_bytes(message[k:k + 4], "big") for k in (0, 4, 8, 12))
    fraction = nanos if is_nano else nanos // 1_000
    fields = (seconds, fraction, len(message) - RECORD_BYTES, original)
    return b"".join(number.to_bytes(4, "little") for number in fields) + message[RECORD_BYTES:]


def capture_bytes(messages: Iterable[bytes], is_nano: bool, link: int) -> bytes:
    """An output capture."""
    return header_bytes(is_nano, link) + b"".join(record_bytes(message, is_nano) for message in messages)
