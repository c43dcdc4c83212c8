"""The ports of a switch in a network, by which a capture of the network is split: words, and where packets come in.

A word is a port, the first is port 0. It has one or more, joined by commas, of

  10.0.0.0/24, 10.0.0.1      a network or an address: what comes from there; of several the longest prefix decides
  02:00:00:00:00:01          a MAC address: what comes from there
  vlan=10, vlan=untagged     a VLAN: what has its number in the first tag, or has no tag
  interface=eth0, interface=0   an interface of a pcapng file, by its name or its number: what was captured there

or it is * : all the rest. All words but * are of one of these kinds.
"""

import re
from ipaddress import IPv4Address, ip_address, ip_network
from typing import NamedTuple, Optional

from launcher.captures import ETHERNET, addresses
from launcher.tables import MAX_PORTS, route

from .frame_headers import TAGS
from .unrouted import kind_of

NETWORK, MAC, VLAN, INTERFACE, REST = "network", "MAC address", "VLAN", "interface", "*"
MAC_FORM = re.compile(r"(?:[0-9a-fA-F]{2}[:-]){5}[0-9a-fA-F]{2}")
UNTAGGED = "untagged"
VLANS = {UNTAGGED, *map(str, range(4096))}


class Ports(NamedTuple):
    """The ports: their words, of which kind they are (None where there is * alone), and which port each item has."""

    words: list
    kind: Optional[str]
    items: dict
    rest: Optional[int]


def read_ports(words):
    """The ports of words; ValueError where one is wrong."""
    if len(words) > MAX_PORTS:
        raise ValueError(f"here are {len(words)} ports, and a switch has at most {MAX_PORTS}")
    kinds, items = set(), {}
    for port, item in [(port, item) for port, word in enumerate(words) if word != REST for item in word.split(",")]:
        kind, value = _read_item(item)
        kinds.add(kind)
        if items.setdefault(value, port) != port:
            raise ValueError(f"{item} stands for two ports, {items[value]} and {port}")
    if len(kinds) > 1:
        raise ValueError(f"ports are of one kind, and here are {' and '.join(sorted(kinds))}")
    if words.count(REST) > 1:
        raise ValueError(f"{REST} stands twice")
    return Ports(words, kinds.pop() if kinds else None, items, words.index(REST) if REST in words else None)


def _read_item(item):
    """The kind of an item, and what packets have that come in there."""
    name, equals, value = item.partition("=")
    if equals and name == "interface":
        if not value:
            raise ValueError(f"{item!r} names no interface; interface=0 is the first of a pcapng file")
        return INTERFACE, value
    if equals and name == "vlan":
        if value not in VLANS:
            raise ValueError(f"{item!r} is no VLAN; vlan= takes a number from 0 to {len(VLANS) - 2:,} or {UNTAGGED}")
        return VLAN, None if value == UNTAGGED else int(value)
    if MAC_FORM.fullmatch(item):
        return MAC, bytes.fromhex(item.replace("-", ":").replace(":", ""))
    try:
        network = ip_network(item, strict=False)
    except ValueError:
        raise ValueError(f"{item!r} is no IPv4 network, MAC address, vlan=NUMBER or interface=NAME") from None
    if network.version != 4:
        raise ValueError(f"{item!r} is IPv6, which the switch does not route; give MAC addresses, VLANs or interfaces")
    if network.network_address != ip_address(item.partition("/")[0]):
        raise ValueError(f"{item!r} has bits beyond its length; its network is {network}")
    return NETWORK, (network.prefixlen, int(network.network_address) >> (32 - network.prefixlen))


def interface_ports(interfaces):
    """A port for each interface of a file, by its name where all have one of their own."""
    has_names = all(interfaces) and len(set(interfaces)) == len(interfaces) and not any("," in it for it in interfaces)
    return read_ports([f"interface={it}" for it in (interfaces if has_names else range(len(interfaces)))])


class Places:
    """At which port packets come in; the interfaces are the names of those of a file, by their numbers."""

    def __init__(self, ports, link, interfaces):
        if ports.kind in (MAC, VLAN) and link != ETHERNET:
            raise ValueError(f"raw IP has no {ports.kind}")
        if ports.kind == INTERFACE and not interfaces:
            raise ValueError("only a pcapng file says at which interface a packet was captured")
        self.ports, self.link, self.interfaces = ports, link, interfaces
        if ports.kind == NETWORK:
            self.routes = {prefix: ((port,), 0) for prefix, port in ports.items.items()}
        if ports.kind == INTERFACE:
            known = {*map(str, range(len(interfaces))), *interfaces}
            missing = [it for it in ports.items if it not in known]
            if missing:
                names = ", ".join(f"{number} {name}".rstrip() for number, name in enumerate(interfaces))
                raise ValueError(f"there is no interface {missing[0]}; those of the file are {names}")

    def port_of(self, frame, interface):
        """The port of a packet, None where it has none."""
        kind, items, rest = self.ports.kind, self.ports.items, self.ports.rest
        if kind == NETWORK:
            ends = addresses(self.link, frame)
            found = route(self.routes, ends[0]) if ends else None
            return found[0][0] if found else rest
        if kind == INTERFACE:
            return items.get(self.interfaces[interface], items.get(str(interface), rest))
        return items.get(_vlan(frame) if kind == VLAN else frame[6:12], rest)

    def where(self, frame, interface):
        """What a packet has in place of what a port has, for those that have none."""
        kind = self.ports.kind
        if kind == NETWORK:
            ends = addresses(self.link, frame)
            return f"from {IPv4Address(ends[0])}" if ends else f"without IPv4 addresses: {kind_of(self.link, frame)}"
        if kind == INTERFACE:
            return f"of interface {interface} {self.interfaces[interface]}".rstrip()
        if kind == MAC:
            return f"from {frame[6:12].hex(':')}"
        number = _vlan(frame)
        return "without a tag" if number is None else f"of VLAN {number}"


def _vlan(frame):
    """The number of the first tag, None without one."""
    has_tag = len(frame) >= 16 and int.from_bytes(frame[12:14], "big") in TAGS
    return int.from_bytes(frame[14:16], "big") & 0xFFF if has_tag else None
