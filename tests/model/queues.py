"""The queues of an input: one of unicast for each output and level, one of multicast for each level."""

from __future__ import annotations

from collections import deque
from typing import Deque, Dict, NamedTuple, Optional, Tuple

from .plans import Planned
from .ports import NO_PORTS, Ports
from .rows import MULTICAST, UNICAST, Row


class QueueName(NamedTuple):
    """A queue of an input, as reports sort them: by kind, then by output, which is -1 for multicast, then by level."""

    kind: int
    output: int
    level: int


def queue_for(fan: Ports, level: int) -> QueueName:
    """The queue that a packet of a fan-out and a level is for."""
    return QueueName(UNICAST, min(fan), level) if len(fan) == 1 else QueueName(MULTICAST, -1, level)


class CellName(NamedTuple):
    """A cell that waits: its packet, its number in the packet, and whether it is the packet's last."""

    packet: int
    number: int
    is_last: bool


class Queue:
    """The cells that wait in a queue, which takes a packet whole or not at all. `room` is for how many packets in all
    it was made, where that is said."""

    def __init__(self, depth: int, room: int = 0) -> None:
        self.depth, self.spare = depth, room
        self.cells: Deque[CellName] = deque()

    def fits(self, cells: int) -> bool:
        """Whether a packet of so many cells can be taken."""
        return len(self.cells) + cells <= self.depth

    def admit(self, packet: int, cells: int) -> None:
        """Takes a packet."""
        assert self.fits(cells)
        self.spare -= 1
        self.cells.extend(CellName(packet, number, number == cells - 1) for number in range(cells))

    def offer(self, packet: int, cells: int) -> bool:
        """Takes a packet if it fits, and says whether it did."""
        fits = self.fits(cells)
        if fits:
            self.admit(packet, cells)
        return fits

    def head(self) -> Optional[CellName]:
        """The first cell, None where none waits."""
        return self.cells[0] if self.cells else None

    def pop(self) -> CellName:
        """The first cell, which leaves."""
        return self.cells.popleft()


class FanQueue(Queue):
    """A queue of multicast: its head leaves when it was served to all outputs of its packet's fan-out."""

    def __init__(self, depth: int, room: int = 0) -> None:
        super().__init__(depth, room)
        self.fans: Dict[int, Ports] = {}  # Of the packets that were admitted.
        self.remaining = NO_PORTS  # Of the head's fan-out.

    def admit_to(self, packet: int, cells: int, fan: Ports) -> None:
        """Takes a packet with its fan-out."""
        is_first = not self.cells
        self.admit(packet, cells)
        self.fans[packet] = fan
        if is_first:
            self.remaining = fan

    def serve(self, outputs: Ports) -> bool:
        """Serves the head to some outputs that remain, and says whether it leaves."""
        assert outputs and outputs <= self.remaining
        self.remaining -= outputs
        if self.remaining:
            return False
        self.pop()
        self.remaining = self.fans[self.cells[0].packet] if self.cells else NO_PORTS
        return True


class Queues:
    """All queues of an input, made as packets come to them."""

    def __init__(self, depth: int) -> None:
        self.depth = depth
        self.banks: Dict[Tuple[int, int], Queue] = {}
        self.fans: Dict[int, FanQueue] = {}
        self.row = Row()

    def offer(self, number: int, packet: Planned) -> bool:
        """Takes a routed packet if it fits, and says whether it did."""
        if packet.kind() == UNICAST:
            (output,) = packet.fan
            is_in = self.banks.setdefault((output, packet.level), Queue(self.depth)).offer(number, packet.cells)
        else:
            queue = self.fans.setdefault(packet.level, FanQueue(self.depth))
            is_in = queue.fits(packet.cells)
            if is_in:
                queue.admit_to(number, packet.cells, packet.fan)
        self.row = self.asked(packet.level)
        return is_in

    def serve(self, outputs: Ports, level: int, kind: int) -> CellName:
        """The cell that a match grants to some outputs, which leaves where it was served to all of its own."""
        if kind == UNICAST:
            (output,) = outputs
            cell = self.banks[output, level].pop()
        else:
            cell = self.fans[level].cells[0]
            self.fans[level].serve(outputs)
        self.row = self.asked(level)
        return cell

    def asked(self, level: int) -> Row:
        """The row after a change at a level: the outputs for which a cell waits, and what remains of heads."""
        unicast, multicast = list(self.row.unicast), list(self.row.multicast)
        unicast[level] = frozenset(output for (output, at), queue in self.banks.items() if at == level and queue.cells)
        multicast[level] = self.fans[level].remaining if level in self.fans else NO_PORTS
        row = Row(tuple(unicast), tuple(multicast))
        return self.row if row == self.row else row
