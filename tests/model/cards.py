"""A line card: what it posts in each slot, and what it does with its part of the match."""

from __future__ import annotations

from typing import List, NamedTuple, Optional

from .messages import Cell, cut
from .plans import ROUTED, Planned
from .queues import Queues
from .rows import Row, Served


class Post(NamedTuple):
    """What a line card posts for a slot: its row, the cell that it was granted in the slot before, and whether more
    comes."""

    row: Row
    cell: Optional[Cell]
    more: bool


class Card:
    """The line card of an input. A packet comes in its arrival slot, before the post of the slot; a cell that is
    granted in a slot is posted in the next one."""

    def __init__(self, number: int, depth: int, packets: List[Planned]) -> None:
        self.number, self.packets = number, packets
        self.queues = Queues(depth)
        self.come = 0  # How many packets have come.
        self.granted: Optional[Cell] = None
        self.admitted: List[int] = []  # The packets that entered their queue, and those that did not fit there.
        self.dropped: List[int] = []

    def next_arrival(self) -> Optional[int]:
        """The arrival slot of the first packet that has not come, None where all have."""
        return self.packets[self.come].arrival if self.come < len(self.packets) else None

    def post(self, slot: int) -> Post:
        """Its post of a slot."""
        if self.next_arrival() == slot:
            self.arrive(self.come)
            self.come += 1
        cell, self.granted = self.granted, None
        row = self.queues.row
        return Post(row, cell, self.next_arrival() is not None or not row.is_empty())

    def arrive(self, number: int) -> None:
        """A packet comes: one without a route goes nowhere."""
        if self.packets[number].what == ROUTED:
            is_in = self.queues.offer(number, self.packets[number])
            (self.admitted if is_in else self.dropped).append(number)

    def take(self, served: Optional[Served]) -> None:
        """Its own part of the match of the slot that it posted for last."""
        if served is not None:
            packet, number, is_last = self.queues.serve(*served)
            self.granted = cut(self.packets[packet].packet, self.number, served.level, served.kind, number)
            assert self.granted.is_last == is_last
