"""The flow of a frame: its addresses, its protocol and its ports, as Wireshark finds them.

The switch looks at less: it routes by IPv4 behind at most one tag. What it makes of any other frame is in `unrouted`.
"""

import socket
from typing import NamedTuple, Optional

from launcher.captures import ETHERNET, IPV4

IPV6 = 0x86DD
TAGS = (0x8100, 0x88A8, 0x9100)
MPLS = (0x8847, 0x8848)
PPPOE_SESSION = 0x8864
# Names of types of Ethernet; a number below is a length, and LLC follows it.
TYPES = {
    IPV4: "IPv4", IPV6: "IPv6", 0x0806: "ARP", 0x8035: "RARP", 0x8808: "flow control", 0x8809: "LACP", 0x8847: "MPLS",
    0x8848: "MPLS", 0x8863: "PPPoE", PPPOE_SESSION: "PPPoE", 0x888E: "802.1X", 0x88CC: "LLDP", 0x88E5: "MACsec",
    0x88F7: "PTP", 0x9000: "loopback",
}
LEAST_TYPE = 0x0600
LLC = "LLC"
PROTOCOLS = {
    1: "ICMP", 2: "IGMP", 6: "TCP", 17: "UDP", 33: "DCCP", 47: "GRE", 50: "ESP", 51: "AH", 58: "ICMPv6", 88: "EIGRP",
    89: "OSPF", 103: "PIM", 112: "VRRP", 132: "SCTP", 136: "UDP-Lite",
}
WITH_PORTS = (6, 17, 33, 132, 136)
# Headers of IPv6 that stand before the protocol's own: hop by hop, routing, destination; and that of fragments.
BEFORE_PROTOCOL, FRAGMENT = (0, 43, 60), 44
PPP_TYPES = {0x0021: IPV4, 0x0057: IPV6}


class Flow(NamedTuple):
    """Where a packet comes from and goes to; a field that it does not have is empty or None."""

    source: str = ""
    source_port: Optional[int] = None
    destination: str = ""
    destination_port: Optional[int] = None
    protocol: str = ""

    @property
    def name(self):
        """The flow in one text: TCP 10.0.0.1:50312 > 10.0.1.20:80."""
        if not self.source:
            return self.protocol
        source, destination = _end(self.source, self.source_port), _end(self.destination, self.destination_port)
        return f"{self.protocol} {source} > {destination}"


def _end(address, port):
    if port is None:
        return address
    return f"[{address}]:{port}" if ":" in address else f"{address}:{port}"


def _number(frame, at, count=2):
    """A number of so many bytes; 0 where the frame ends before them."""
    return int.from_bytes(frame[at:at + count], "big") if at + count <= len(frame) else 0


def flow_of(link, frame):
    """The flow of a frame."""
    kind, at = _ethernet_payload(frame) if link == ETHERNET else (None, 0)
    if kind in (None, IPV4, IPV6):
        version = frame[at] >> 4 if at < len(frame) else 0
        if version == 4 and kind != IPV6:
            found = _ipv4(frame, at)
        else:
            found = _ipv6(frame, at) if version == 6 and kind != IPV4 else None
        if found:
            return found
    return Flow(protocol="" if kind is None else type_name(kind))


def type_name(kind):
    """The name of a type of Ethernet."""
    return LLC if kind < LEAST_TYPE else TYPES.get(kind, f"type 0x{kind:04x}")


def _ethernet_payload(frame):
    """The type of what a frame carries behind tags, labels and PPPoE, or None, and where that begins."""
    if len(frame) < 14:
        return None, len(frame)
    at, kind = 14, _number(frame, 12)
    while kind in TAGS and at + 4 <= len(frame):
        at, kind = at + 4, _number(frame, at + 2)
    if kind == PPPOE_SESSION and _number(frame, at + 6) in PPP_TYPES:
        return PPP_TYPES[_number(frame, at + 6)], at + 8
    if kind in MPLS:
        return _behind_labels(frame, kind, at)
    return kind, at


def _behind_labels(frame, kind, at):
    """What stands behind the label that is marked as the last; IP has no type there, and goes by its version."""
    while at + 4 <= len(frame):
        at += 4
        if frame[at - 2] & 1:
            version = frame[at] >> 4 if at < len(frame) else 0
            return {4: IPV4, 6: IPV6}.get(version, kind), at
    return kind, at


def _ipv4(frame, at):
    if len(frame) < at + 20:
        return None
    source, destination = (socket.inet_ntop(socket.AF_INET, frame[it:it + 4]) for it in (at + 12, at + 16))
    length, is_first = 4 * (frame[at] & 15), _number(frame, at + 6) & 0x1FFF == 0
    return _flow(frame, source, destination, frame[at + 9], at + length if is_first and length >= 20 else None)


def _ipv6(frame, at):
    if len(frame) < at + 40:
        return None
    source, destination = (socket.inet_ntop(socket.AF_INET6, frame[it:it + 16]) for it in (at + 8, at + 24))
    protocol, at, is_first = frame[at + 6], at + 40, True
    while protocol in (*BEFORE_PROTOCOL, FRAGMENT) and at + 8 <= len(frame):
        is_first = is_first and (protocol != FRAGMENT or _number(frame, at + 2) >> 3 == 0)
        length = 8 if protocol == FRAGMENT else 8 * (frame[at + 1] + 1)
        protocol, at = frame[at], at + length
    return _flow(frame, source, destination, protocol, at if is_first else None)


def _flow(frame, source, destination, protocol, at):
    """The flow of a packet whose protocol's header begins at a byte, None for a fragment that does not have it."""
    name = PROTOCOLS.get(protocol, f"protocol {protocol}")
    if protocol in WITH_PORTS and at is not None and at + 4 <= len(frame):
        return Flow(source, _number(frame, at), destination, _number(frame, at + 2), name)
    return Flow(source, None, destination, None, name)
