"""Splits one capture of a network into a capture for each port of a switch, with a table to begin with."""

import struct
from bisect import bisect_left
from collections import Counter
from ipaddress import IPv4Address
from pathlib import Path
from typing import NamedTuple

from launcher.capture_hints import ETHERNET, LONGEST_RECORD, RAW_IP, hint_on
from launcher.captures import MICROSECONDS, NANOSECONDS, SECOND, BadCapture, addresses, cells_of, read_header, records_of
from launcher.made import most_cells
from launcher.tables import MAX_LINES

from . import pcapng, traffic
from .network_ports import NETWORK, Places, interface_ports, read_ports

TABLE = "table.txt"
MULTICAST = 224 << 24  # The first address that is no host's.


class Network(NamedTuple):
    """A capture of a network: its bytes, its link type, whether its times are in nanoseconds, the names of its
    interfaces, and its packets, each with the number of its interface."""

    data: bytes
    link: int
    is_nano: bool
    interfaces: list
    packets: list


class Split(NamedTuple):
    """The ports, the records of each, what the other packets have in place of a port, and the lines of the table."""

    ports: object
    records: list
    others: Counter
    lines: list


def read_network(name):
    """Reads a classic capture or a pcapng file; where it is refused, BadCapture with its name and with what helps."""
    data = Path(name).read_bytes()
    try:
        if data.startswith(pcapng.MAGIC):
            return _of_pcapng(data)
        _, is_nano, link = read_header(data)
        return Network(data, link, is_nano, [], [pcapng.Packet(0, record) for record in records_of(data)])
    except BadCapture as fault:
        hint = hint_on(str(name), str(fault))
        raise BadCapture(f"{name}: {fault}" + (f"; hint: {name} {hint}" if hint else "")) from None


def _of_pcapng(data):
    found = pcapng.read(data)
    links = sorted({found.interfaces[it.interface].link for it in found.packets})
    if len(links) > 1:
        raise BadCapture(f"its interfaces have the link types {', '.join(map(str, links))}, and a switch has one")
    link = links[0] if links else ETHERNET
    if link not in (ETHERNET, RAW_IP):
        raise BadCapture(f"link type {link}")
    long = next((number for number, it in enumerate(found.packets, 1) if it.record.length > LONGEST_RECORD), None)
    if long:
        raise BadCapture(f"packet {long} has over {LONGEST_RECORD} bytes")
    return Network(data, link, found.is_nano, [it.name for it in found.interfaces], found.packets)


def split(network, words):
    """The packets of a network by the ports that words name; without words each interface is a port."""
    if not words and not network.interfaces:
        raise ValueError("name the ports, as networks or MAC addresses; only the interfaces of a pcapng file are ports")
    ports = read_ports(words) if words else interface_ports(network.interfaces)
    places = Places(ports, network.link, network.interfaces)
    records, others, sources = [[] for _ in ports.words], Counter(), Counter()
    for interface, record in network.packets:
        frame = network.data[record.start:record.start + record.length]
        port = places.port_of(frame, interface)
        if port is None:
            others[places.where(frame, interface)] += 1
            continue
        records[port].append(record)
        ends = addresses(network.link, frame)
        if ends and 0 < ends[0] < MULTICAST:
            sources[ends[0], port] += 1
    return Split(ports, records, others, table_lines(ports, sources))


def needs_long(found):
    """Whether a run of the captures takes a long job at any rate, since their packets have too many cells for another."""
    cells = sum(cells_of(record.length) for records in found.records for record in records)
    return cells > most_cells(len(found.records))


def table_lines(ports, sources):
    """The lines of a table: the networks of the ports, else the addresses from which packets came in at each.

    An address that came in at several ports goes to that with most of its packets, the first of several. Where there
    are more than a table may have, neighbours at one port have a line together, which covers what is between them too.
    """
    if ports.kind == NETWORK:
        found = [(prefix << 32 - length, length, port) for (length, prefix), port in sorted(ports.items.items())]
    else:
        routes = {}
        for (address, port), _ in sorted(sources.items(), key=lambda it: (-it[1], it[0])):
            routes.setdefault(address, port)
        known = sorted(address for address, port in routes.items() if port != ports.rest)
        room = MAX_LINES - (ports.rest is not None)
        found = [(it, 32, routes[it]) for it in known] if len(known) <= room else together(sorted(routes), routes)
    lines = [f"{IPv4Address(address)}/{length} {port}" for address, length, port in found if port != ports.rest]
    return lines if ports.rest is None else [*lines, f"* {ports.rest}"]


def together(addresses, routes, low=0, length=0):
    """Prefixes that cover addresses, which are in rising order and have a prefix together; each has those of one port."""
    if not addresses:
        return []
    ports = {routes[it] for it in addresses}
    if len(ports) == 1:
        shared = 32 - (addresses[0] ^ addresses[-1]).bit_length()
        return [(addresses[0] >> 32 - shared << 32 - shared, shared, ports.pop())]
    middle = low + (1 << 31 - length)
    at = bisect_left(addresses, middle)
    return together(addresses[:at], routes, low, length + 1) + together(addresses[at:], routes, middle, length + 1)


def write(folder, network, found):
    """Writes the captures and the table to a folder, which is made, or has no such file; nothing is replaced."""
    folder = Path(folder)
    folder.mkdir(parents=True, exist_ok=True)
    names = [folder / name for name in traffic.capture_names(len(found.records))]
    there = next((name for name in (*names, folder / TABLE) if name.exists() or name.is_symlink()), None)
    if there:
        raise FileExistsError(f"{there} is there, and is not replaced; give another folder")
    for name, records in zip(names, found.records):
        with open(name, "xb") as file:
            file.writelines(_capture(network, records))
    ports = [f"# port {port}: {word}\n" for port, word in enumerate(found.ports.words)]
    with open(folder / TABLE, "x", errors="surrogateescape") as file:
        file.writelines([*ports, *(f"{line}\n" for line in found.lines)])
    return names


def _capture(network, records):
    """The parts of a classic capture of these records."""
    magic, unit = (NANOSECONDS, 1) if network.is_nano else (MICROSECONDS, 1000)
    yield struct.pack("<IHHIIII", magic, 2, 4, 0, 0, traffic.SNAP_LENGTH, network.link)
    for record in records:
        seconds, fraction = divmod(record.time, SECOND)
        yield struct.pack("<IIII", seconds, fraction // unit, record.length, record.original)
        yield network.data[record.start:record.start + record.length]
