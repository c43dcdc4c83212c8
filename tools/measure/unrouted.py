"""The packets of a run that no line of its table serves, by what they are: by the rules of the switch.

It routes by the destination of an IPv4 packet, in raw IP or in an Ethernet frame with at most one tag of type 0x8100.
"""

from collections import Counter
from typing import NamedTuple, Optional

from launcher.captures import ETHERNET, IP_HEADER, IPV4, LONGEST_FORWARDED, TAGGED, destination, read_file
from launcher.tables import route

from .frame_headers import IPV6, TAGS, type_name
from .run_inputs import read_routes

NO_LINE = "no line for the address"
TWO_TAGS, OTHER_TAG = "two tags", "tag of 802.1ad"
CUT_FRAME, CUT_HEADER = "Ethernet header cut off", "IPv4 header cut off"
NO_IPV4, NEITHER = "IPv4 by its type, and not by its version", "neither version 4 nor 6"
ETHERNET_HEADER, TAG_BYTES = 14, 4


class Unrouted(NamedTuple):
    """A packet that goes nowhere: its port, its number from 1, what it is, and its address where it has one."""

    port: int
    frame: int
    kind: str
    address: Optional[int]


class Counts(NamedTuple):
    """The packets of a run that go nowhere, and how many packets there are of all states."""

    found: list
    packets: int

    def kinds(self):
        """How many there are of each kind, those with most packets first, and the first of each."""
        firsts = {}
        for packet in self.found:
            firsts.setdefault(packet.kind, packet)
        counts = Counter(packet.kind for packet in self.found)
        return [(count, kind, firsts[kind]) for kind, count in counts.most_common()]

    def addresses(self):
        """How many go to each address that no line has, those with most packets first."""
        return Counter(packet.address for packet in self.found if packet.address is not None).most_common()


def unrouted(table, names):
    """The packets of captures, in the order of ports, that a table serves by none of its lines."""
    routes, found, packets = read_routes(table, len(names)), [], 0
    for port, name in enumerate(names):
        capture = read_file(name)
        packets += len(capture.packets)
        found += _of_capture(routes, port, capture)
    return Counts(found, packets)


def _of_capture(routes, port, capture):
    for number, packet in enumerate(capture.packets, 1):
        if packet.length <= LONGEST_FORWARDED:
            address = destination(capture.link, packet.frame)
            if route(routes, address) is None:
                kind = NO_LINE if address is not None else kind_of(capture.link, packet.frame)
                yield Unrouted(port, number, kind, address)


def kind_of(link, frame):
    """What a frame without an IPv4 destination is, by which the switch finds none."""
    if link != ETHERNET:
        version = frame[0] >> 4 if frame else 0
        return {4: CUT_HEADER, 6: type_name(IPV6)}.get(version, NEITHER)
    if len(frame) < ETHERNET_HEADER:
        return CUT_FRAME
    kind, at = _type_at(frame, ETHERNET_HEADER)
    if kind == TAGGED:
        if len(frame) < ETHERNET_HEADER + TAG_BYTES:
            return CUT_FRAME
        kind, at = _type_at(frame, ETHERNET_HEADER + TAG_BYTES)
        if kind in TAGS:
            return TWO_TAGS
    if kind in TAGS:
        return OTHER_TAG
    if kind == IPV4:
        return CUT_HEADER if len(frame) < at + IP_HEADER else NO_IPV4
    return type_name(kind)


def _type_at(frame, end):
    """The type that ends at a byte, and this byte."""
    return int.from_bytes(frame[end - 2:end], "big"), end
