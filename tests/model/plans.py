"""What comes to a switch: the arrival slots of packets, their routes, and the plan of a job."""

from __future__ import annotations

from functools import lru_cache
from typing import Callable, Iterable, List, NamedTuple, Optional, Sequence, Tuple

from . import captures, table
from .captures import Capture, Packet
from .faults import Fault, Refusal
from .messages import cells_of
from .ports import NO_PORTS, Ports
from .rows import MULTICAST, UNICAST
from .table import Line, Route, destination, read_table, route_of

MOST_FORWARDED = 65_535  # Captured bytes of a packet that is forwarded.
MOST_SLOTS = MOST_CELLS = 131_072  # Of the arrivals of a port, of all cells at their outputs; half of it over 32 ports.
MOST_DEPTH = 131_072
# Of a long job: arrival slots, packets of all captures, cells at their outputs, and cells of a queue.
LONG_SLOTS, LONG_PACKETS, LONG_CELLS, LONG_DEPTH = 1 << 31, 1 << 30, 1 << 30, 1 << 30
MOST_PACE, MOST_RATE = 1_000_000, 1_600_000  # Microseconds of a slot, megabits a second of a line.
CELL_BITS = 512
OVERSIZE, UNROUTED, ROUTED = "oversize", "unrouted", "routed"
Router = Callable[[Optional[int]], Optional[Route]]  # The route of an address.


class Settings(NamedTuple):
    """The numbers that a job is given."""

    rounds: int = 4
    depth: int = MOST_DEPTH
    workers: int = 4
    pace: Optional[int] = None  # Microseconds of a slot.
    rate: Optional[int] = None  # Megabits a second of a line; at line pace where both are None.
    is_long: bool = False


class Planned(NamedTuple):
    """A packet of a port's plan: its cells, its arrival slot, what it is, its fan-out and its level."""

    packet: Packet
    cells: int
    arrival: int
    what: str
    fan: Ports
    level: int

    def kind(self) -> int:
        """Unicast or multicast, of a packet that has a route."""
        return UNICAST if len(self.fan) == 1 else MULTICAST


class Plan(NamedTuple):
    """What a run is made of. The cards have the packets of each port; `slots` are the most arrival slots of a port, and
    `cells` the cells of all routed packets, counted at each output."""

    ports: int
    rounds: int
    depth: int
    is_nano: bool
    link: int
    cards: List[List[Planned]]
    slots: int
    cells: int


def arrivals_of(
    stamps: Iterable[Tuple[int, int]], pace: Optional[int] = None, base: int = 0, rate: Optional[int] = None
) -> List[int]:
    """The arrival slots of a port's packets, given as times and cells: a packet comes one cell a slot, after the packet
    before it, and at a pace or a line rate not before the slot of its time."""
    arrivals: List[int] = []
    free = 0  # The slot after the last arrival.
    for time, cells in stamps:
        free = max(slot_at(time - base, pace, rate), free) + cells
        arrivals.append(free - 1)
    return arrivals


def slot_at(nanos: int, pace: Optional[int], rate: Optional[int]) -> int:
    """The slot of a time, counted from the begin of slot 0: at a line rate a slot takes as long as the bits of a cell.
    At line pace each time counts as slot 0."""
    if rate is not None:
        return nanos * rate // (1_000 * CELL_BITS)
    return 0 if pace is None else nanos // (1_000 * pace)


def slots_of(arrivals: Sequence[int]) -> int:
    """How many arrival slots a port has."""
    return arrivals[-1] + 1 if arrivals else 0


class Limits(NamedTuple):
    """The most arrival slots of a port, packets of all captures, where these are limited, and cells at their outputs."""

    slots: int
    packets: Optional[int]
    cells: int


def limits_of(settings: Settings, ports: int) -> Limits:
    """The limits of a job of so many ports."""
    if settings.is_long:
        return Limits(LONG_SLOTS, LONG_PACKETS, LONG_CELLS)
    half = 2 if ports > 32 else 1
    return Limits(MOST_SLOTS // half, None, MOST_CELLS // half)


def not_over(limits: Limits, slots: Sequence[int], packets: int, cells: int) -> None:
    """Refuses arrival slots of ports, packets or cells over the limits, in this order."""
    for port, count in enumerate(slots):
        if count > limits.slots:
            raise Refusal(4, f"too many slots: port {port} has {count}")
    if limits.packets is not None and packets > limits.packets:
        raise Refusal(4, f"too many packets: {packets}")
    if cells > limits.cells:
        raise Refusal(4, f"too many cells: {cells}")


def plan_files(settings: Settings, text: bytes, files: Sequence[bytes]) -> Plan:
    """The plan of a table and captures, as files; or the first refusal, raised."""
    try:
        lines = read_table(text, len(files))
    except Fault as fault:
        raise Refusal(4, fault.text(table.FAULT_LINES)) from None
    read = [read_input(port, data) for port, data in enumerate(files)]
    for capture in read:
        if capture.link != read[0].link:
            raise Refusal(4, f"link types {read[0].link} and {capture.link}")
    return plan(settings, lines, read)


def read_input(port: int, data: bytes) -> Capture:
    """The capture of a port."""
    try:
        return captures.read_capture(data)
    except Fault as fault:
        raise Refusal(4, fault.text(captures.FAULT_LINES, port=port)) from None


def plan(settings: Settings, lines: List[Line], read: Sequence[Capture]) -> Plan:
    """The plan of a table and captures; or the refusal of too many slots, packets or cells, raised."""
    ports = len(read)
    base = min((packet.time() for capture in read for packet in capture.packets), default=0)
    arrivals = [arrivals_at(settings, capture, base) for capture in read]
    slots = [slots_of(it) for it in arrivals]
    route = lru_cache(maxsize=None)(lambda address: route_of(lines, address))  # Many packets have the same address.
    cards = [plan_card(route, capture, its) for capture, its in zip(read, arrivals)]
    cells = sum(planned.cells * len(planned.fan) for card in cards for planned in card)
    not_over(limits_of(settings, ports), slots, sum(map(len, cards)), cells)
    is_nano = any(capture.is_nano for capture in read)
    return Plan(ports, settings.rounds, settings.depth, is_nano, read[0].link, cards, max(slots), cells)


def arrivals_at(settings: Settings, capture: Capture, base: int) -> List[int]:
    """The arrival slots of a capture; oversize packets and those without a route count too."""
    stamps = [(packet.time(), cells_of(len(packet.data))) for packet in capture.packets]
    return arrivals_of(stamps, settings.pace, base, settings.rate)


def plan_card(route: Router, capture: Capture, arrivals: Sequence[int]) -> List[Planned]:
    """The planned packets of a port."""
    return [plan_packet(route, capture.link, packet, slot) for packet, slot in zip(capture.packets, arrivals)]


def plan_packet(route: Router, link: int, packet: Packet, arrival: int) -> Planned:
    """A packet with its route."""
    cells = cells_of(len(packet.data))
    if len(packet.data) > MOST_FORWARDED:
        return Planned(packet, cells, arrival, OVERSIZE, NO_PORTS, 0)
    found = route(destination(link, packet.data))
    if found is None:
        return Planned(packet, cells, arrival, UNROUTED, NO_PORTS, 0)
    return Planned(packet, cells, arrival, ROUTED, found.fan, found.level)
