"""Makes the traffic of one run from captures of one's own: a trace, split into ports.

Each address of the trace gets a port at random, by the seed, and each port as many addresses as the others, or one
more. A packet comes to the port of its source and goes to that of its destination; frames are left as they are, and
the switch splits them into cells. The time stamps are stretched so that the whole trace comes at the load, in cells
per input and slot, and the packets of the first slots are taken. Packets without IPv4 addresses are left out.
"""

import random
from ipaddress import IPv4Address
from typing import NamedTuple

from launcher import captures

from . import traffic

MOST_ROUTES = 4096
MOST_SLOTS = 131_072
MOST_SLOTS_HALVED = 65_536


class Frame(NamedTuple):
    """A packet of a trace: its time in nanoseconds, its addresses and its bytes."""

    time: int
    source: int
    destination: int
    data: bytes


def read_trace(names):
    """The link type and the packets of captures, in the order of their times; ValueError where there are none."""
    links, found = {}, []
    for name in names:
        capture = captures.read_file(name)
        links.setdefault(capture.link, name)
        for packet in capture.packets:
            ends = captures.addresses(capture.link, packet.frame)
            if ends and packet.length <= captures.LONGEST_FORWARDED:
                found.append(Frame(packet.time, *ends, packet.frame))
    if not found:
        raise ValueError("the trace has no packet with IPv4 addresses")
    if len(links) > 1:
        raise ValueError("link types {} and {}: {} and {}".format(*links, *links.values()))
    return next(iter(links)), sorted(found, key=lambda frame: frame.time)


def write_trace(folder, names, load, ports, slots, seed):
    """Writes the traffic of one run to a folder, as `traffic.write_traffic` does; ValueError where it is too much."""
    link, frames = read_trace(names)
    routes = ports_of(frames, ports, seed)
    records = [[] for _ in range(ports)]
    for slot, frame in stretched(frames, load, ports):
        if slot < slots:
            records[routes[frame.source]].append((slot * traffic.PACE_US, frame.data))
    files = [traffic.capture_bytes(link, packets) for packets in records]
    table = table_text(sorted({frame.destination for frame in frames}), routes)
    check_size(captures.arrivals_of(table, files, traffic.PACE_US), ports)
    traffic.write_folder(folder, files, table)


def ports_of(frames, ports, seed):
    """The port of each address."""
    addresses = sorted({address for frame in frames for address in (frame.source, frame.destination)})
    random.Random(f"trace {ports} {seed}").shuffle(addresses)
    return {address: number % ports for number, address in enumerate(addresses)}


def stretched(frames, load, ports):
    """Each packet with the slot that it gets, so that all of them make the load."""
    cells = sum(captures.cells_of(len(frame.data)) for frame in frames)
    begin, span = frames[0].time, max(1, frames[-1].time - frames[0].time)
    slots = cells / (ports * load)
    return [(int((frame.time - begin) / span * slots), frame) for frame in frames]


def table_text(destinations, routes):
    """The table that sends each destination to its port; ValueError where it has too many lines."""
    if len(destinations) > MOST_ROUTES:
        raise ValueError(f"the trace has {len(destinations)} destinations, and a table at most {MOST_ROUTES} lines")
    names = map(IPv4Address, destinations)
    return "".join(f"{name}/32 {routes[address]}\n" for name, address in zip(names, destinations))


def check_size(arrivals, ports):
    """ValueError where a run would refuse these arrivals."""
    halved = ports > traffic.HALVED_ABOVE
    most_slots = MOST_SLOTS_HALVED if halved else MOST_SLOTS
    most_cells = traffic.MAX_CELLS // 2 if halved else traffic.MAX_CELLS
    cells = sum(packet.cells for packet in arrivals)
    if cells > most_cells:
        raise ValueError(f"the trace has {cells} cells in these slots, over {most_cells}: take fewer slots")
    if arrivals and arrivals[-1].slot >= most_slots:
        raise ValueError(f"a port's packets take {arrivals[-1].slot + 1} slots, over {most_slots}: take fewer slots")
