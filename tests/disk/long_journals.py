"""Lawful journals of many slots: 63 inputs that all ask output 0.

Each slot feeds output 0 from one input. While new cells keep coming, the queues of level 0 are all asked in
each slot, and their inputs take turns, from input 0 on. Some queues of levels 1 to 3 ask it from some slot on,
and are served when no cell of a better level is left: each level's inputs in rising order.
"""

import struct
from typing import NamedTuple

from .files import lawful

PORTS = 63  # With an odd number a file may have just the most bytes.
LEVELS = 4
HEADER, SET = 12, 8
MAX_BYTES = 134_217_728
MAX_SLOTS = 131_073
BARE_SLOT = 2 * PORTS + 2 * PORTS
FREE = b"\xff\x00"
OUTPUT_0 = struct.pack(">Q", 1)


class Shape(NamedTuple):
    """So many slots without the queues of levels 1 to 3, so many with them, and how many of these there are."""

    few: int
    many: int
    waiting: int

    def queues(self):
        """The (level, input) of all queues, in the order in which the last cell of each leaves."""
        levels = [(0, (self.few + self.many + turn) % PORTS) for turn in range(PORTS)]
        return levels + [(1 + number // PORTS, number % PORTS) for number in range(self.waiting)]

    def slots(self):
        return self.few + self.many + PORTS + self.waiting + 1


def longest_shape():
    """The shape of a journal of just the most bytes, with as many slots as that allows."""
    for slots in range(MAX_SLOTS, 0, -2):  # With an even number of slots the bytes of the sets are no multiple of 8.
        sets = (MAX_BYTES - HEADER - slots * BARE_SLOT) // SET
        for waiting in range(1, 3 * PORTS + 1):
            queues = PORTS + waiting
            steady = slots - 1 - queues
            # Each of the slots behind the steady ones serves a queue for the last time.
            more = sets - PORTS * steady - queues * (queues + 1) // 2
            many, rest = divmod(more, waiting)
            if rest == 0 and 0 <= many <= steady:
                return Shape(steady - many, many, waiting)
    raise AssertionError("no journal has just the most bytes")


def _posts(queues):
    """The posts of all inputs with these queues, each of which asks output 0."""
    levels = [0] * PORTS
    for level, port in queues:
        levels[port] |= 1 << level
    return b"".join(bytes([asked, asked != 0]) + OUTPUT_0 * asked.bit_count() for asked in levels)


def _outputs(level, port):
    return bytes([port, 2 * level]) + FREE * (PORTS - 1)


def _steady(queues, slots):
    """The bytes of these slots, in which the inputs take turns at level 0."""
    posts = _posts(queues)
    turns = [posts + _outputs(0, port) for port in range(PORTS)]
    return b"".join(turns[slot % PORTS] for slot in slots)


def journal(shape):
    """The bytes of the journal file of a shape."""
    queues = shape.queues()
    steady = shape.few + shape.many
    parts = [b"TTJ1", struct.pack(">BBHI", PORTS, 1, 0, shape.slots())]
    parts.append(_steady(queues[:PORTS], range(shape.few)))
    parts.append(_steady(queues, range(shape.few, steady)))
    parts += [_posts(queues[served:]) + _outputs(*queues[served]) for served in range(len(queues))]
    parts.append(_posts([]) + FREE * PORTS)
    return b"".join(parts)


def told(shape):
    """What `check` prints of it: a queue waits in all slots from its first request to the one before it is served."""
    longest = [PORTS - 1] + [0] * (LEVELS - 1)
    for number in range(shape.waiting):
        longest[1 + number // PORTS] = shape.many + PORTS + number
    return lawful(shape.slots(), *longest)
