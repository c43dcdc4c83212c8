"""Which packets a line brings late: their first cells come to the switch more than a slot after their time stamps.

At a pace or a line rate a packet waits for the packets before it on its line. Where a capture is of a faster line, this
wait grows, and no number of the report has it. At a line rate many slots may have one time stamp, and packets of one
stamp come one after the other though the line keeps up: so the slots of one step of the stamps are allowed besides.
"""

import os
from array import array
from itertools import islice, repeat
from typing import NamedTuple

from .captures import CELL_PAYLOAD, MESSAGE_HEADER, Records, TooManyPackets, over, stamp_nanos
from .given import given_name

MOST_SLOTS = 1  # A packet that comes so many slots late is no late one.
MOST_BYTES = 64 << 20


class Late(NamedTuple):
    """The late packets of a port: how many of all its packets, and by how many slots at most."""

    port: int
    late: int
    packets: int
    slots: int


class Line(NamedTuple):
    """What is kept of the packets of a port, in their order: their times in nanoseconds, and how many bytes each has."""

    times: "array[int]"
    lengths: "array[int]"


def late_ports(packets_by_port, slot, most=None, allowed=repeat(MOST_SLOTS)):
    """The ports that have late packets, in order; Unseen where there are more packets than the most.

    Packets have the fields of a captures.Record. For each port so many slots are allowed.
    """
    lines = read_lines(packets_by_port, most)
    base = min((min(line.times) for line in lines if line.times), default=0)
    found = (Late(port, *_late(line, base, slot, slots)) for port, (line, slots) in enumerate(zip(lines, allowed)))
    return [it for it in found if it.late]


def read_lines(packets_by_port, most):
    lines, room = [], most
    for packets in packets_by_port:
        lines.append(_line(islice(packets, None if most is None else room + 1)))
        if most is not None:
            room -= len(lines[-1].times)
            if room < 0:
                raise over(most)
    return lines


def _line(packets):
    line = Line(array("q"), array("L"))
    for time, _, _, length in packets:
        line.times.append(time)
        line.lengths.append(length)
    return line


def _late(line, base, slot, allowed):
    """How many packets are late, of how many, and by how many slots of this length at most. Their first cells
    come as captures.on_line has them, in less time."""
    free, late, longest = 0, 0, 0
    nanos, divisor, _ = slot
    for time, length in zip(line.times, line.lengths):
        first = (time - base) * divisor // nanos
        if first < free:
            wait = free - first
            late += wait > allowed
            longest = wait if wait > longest else longest
            first = free
        free = first - -(MESSAGE_HEADER + length) // CELL_PAYLOAD
    return late, len(line.times), longest


def allowed_slots(slot, stamp):
    """By how many slots a packet may come late whose capture has time stamps of so many nanoseconds."""
    return MOST_SLOTS + (slot.slots_in(stamp) if slot.is_of_rate else 0)


def told_unseen(why, names):
    """That late packets were not looked for, and why."""
    if isinstance(why, TooManyPackets) and sum(map(os.path.getsize, names)) > MOST_BYTES:
        return f"not looked at, over {MOST_BYTES >> 20} MiB (--dry-run looks)"
    return f"not looked for: {why}"


def lines_of_late(names, slot, most=None):
    """A line for each port that has late packets; Unseen where they cannot be looked for."""
    found = []
    allowed = [allowed_slots(slot, stamp_nanos(name)) for name in names]
    for port, late, packets, slots in late_ports((Records(*it).fields() for it in enumerate(names)), slot, most, allowed):
        time = f"{slots:,} slots ({slot.told(slots)})"
        found.append(f"port {port} ({given_name(names[port])}): {late:,} of {packets:,} packets came late, by {time} at most")
    return found
