"""The cells that wait in a run, from its packets file and its slot lines."""

from collections import defaultdict, deque
from itertools import groupby

from .packets import Misfit, forwarded

COLUMNS = ["input", "packet", "level", "kind", "cells", "arrival", "output", "departure"]


class _Packet:
    """A packet in its queue: how many of its cells are left, the outputs that still need the first of these, and its
    departure at each output."""

    def __init__(self, cells, departures):
        self.left, self.needed, self.departures = cells, set(departures), departures


class _Queues:
    """All queues of a switch, by input, output (None for multicast) and level."""

    def __init__(self):
        self.packets = defaultdict(deque)
        self.waiting = 0

    def admit(self, queue, packet):
        if packet.left > 0:
            self.packets[queue].append(packet)
            self.waiting += packet.left

    def serve(self, number, pair):
        """Serves an output from the head of its queue in a slot; Misfit where no such cell is there."""
        queue = self.packets[pair.input, None if pair.multicast else pair.output, pair.level]
        if not queue or pair.output not in queue[0].needed:
            raise Misfit(f"slot {number} feeds output {pair.output} from input {pair.input}, where no cell waits for it")
        packet = queue[0]
        departure = packet.departures[pair.output]
        if packet.left == 1 and departure != number + 1:
            raise Misfit(f"a packet that departs in slot {departure} has its last cell served in slot {number}")
        packet.needed.remove(pair.output)
        if packet.needed:
            return
        self.waiting -= 1
        packet.left -= 1
        if packet.left:
            packet.needed.update(packet.departures)
        else:
            queue.popleft()


def _coming(packets):
    """For each slot the queues and the packets that come in it."""
    coming = defaultdict(list)
    rows = forwarded(packets).sort_values(["input", "packet"])[COLUMNS].itertuples(index=False)
    for _, packet in groupby(rows, key=lambda row: (row.input, row.packet)):
        outputs = list(packet)
        first = outputs[0]
        queue = first.input, None if first.kind == "m" else first.output, first.level
        coming[first.arrival].append((queue, _Packet(first.cells, {row.output: row.departure for row in outputs})))
    return coming


def cells_waiting(packets, report):
    """For each slot of a run, how many cells wait in all queues when it has been decided.

    Cells that come in the slot count, those that it serves do not; a multicast cell counts once. Misfit where the
    slots do not serve just the packets of the file, each so that it departs when the file says.
    """
    coming = _coming(packets)
    queues = _Queues()
    waiting = []
    for number, slot in enumerate(report.slots):
        for queue, packet in coming.pop(number, ()):
            queues.admit(queue, packet)
        for pair in slot.pairs:
            queues.serve(number, pair)
        waiting.append(queues.waiting)
    if coming:
        raise Misfit(f"a packet comes in slot {max(coming)}, and the run has {len(report.slots)} slots")
    if queues.waiting:
        raise Misfit(f"{queues.waiting} cells were not served")
    return waiting
