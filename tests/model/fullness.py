"""How full the queues of a run were, from the packets that were admitted and the matches alone."""

from __future__ import annotations

from collections import defaultdict, deque
from typing import DefaultDict, Deque, Dict, Iterator, NamedTuple, Set, Tuple

from .plans import ROUTED
from .queues import QueueName, queue_for
from .rows import UNICAST, Entry
from .runs import Run, Slot

Place = Tuple[int, QueueName]  # An input and one of its queues.
Waiting = Dict[Place, Deque[Tuple[int, int]]]  # The packets of the cells that wait, and their numbers.


class QueueLine(NamedTuple):
    """The numbers of a queue: the routed packets that were for it, those that were dropped, the cells that entered, the
    most that waited, and the first slot in which so many did."""

    packets: int
    dropped: int
    cells: int
    peak: int
    slot: int


def place_of(run: Run, port: int, number: int) -> Place:
    """The queue that a routed packet is for."""
    packet = run.plan.cards[port][number]
    return port, queue_for(packet.fan, packet.level)


def place_of_entry(entry: Entry) -> Place:
    """The queue that an entry of a match serves."""
    return entry.input, QueueName(entry.kind, entry.output if entry.kind == UNICAST else -1, entry.level)


def waiting_cells(run: Run) -> Iterator[Waiting]:
    """For each slot the cells that wait in each queue that is not empty, after the arrivals of the slot and before it
    is served. (They change afterwards.)"""
    entering: DefaultDict[int, list] = defaultdict(list)
    for port, admitted in enumerate(run.admitted):
        for number in admitted:
            entering[run.plan.cards[port][number].arrival].append((port, number))
    waiting: DefaultDict[Place, Deque[Tuple[int, int]]] = defaultdict(deque)
    gone: DefaultDict[Place, Set[int]] = defaultdict(set)  # The outputs for which the head has left.
    for slot in run.slots:
        for port, number in entering[slot.number]:
            cells = range(run.plan.cards[port][number].cells)
            waiting[place_of(run, port, number)].extend((number, cell) for cell in cells)
        yield waiting
        serve(run, slot, waiting, gone)
    assert not waiting


def serve(run: Run, slot: Slot, waiting: Waiting, gone: DefaultDict[Place, Set[int]]) -> None:
    """What leaves in a slot: a head that has been served to all of its fan-out."""
    for entry in slot.match:
        gone[place_of_entry(entry)].add(entry.output)
    for place in {place_of_entry(entry) for entry in slot.match}:
        port, head = place[0], waiting[place][0][0]
        fan = run.plan.cards[port][head].fan
        assert gone[place] <= fan
        if gone[place] == fan:
            waiting[place].popleft()
            gone[place] = set()
        if not waiting[place]:
            del waiting[place]


def peaks_of(run: Run) -> Dict[Place, Tuple[int, int]]:
    """For each queue in which a cell waited the most that did, and the first slot in which so many did."""
    peaks: Dict[Place, Tuple[int, int]] = {}
    for slot, waiting in zip(run.slots, waiting_cells(run)):
        for place, cells in waiting.items():
            if len(cells) > peaks.get(place, (0, 0))[0]:
                peaks[place] = (len(cells), slot.number)
    return peaks


def queue_lines(run: Run) -> Dict[Place, QueueLine]:
    """The numbers of each queue that a routed packet was for, in the order of the report."""
    peaks = peaks_of(run)
    counts: DefaultDict[Place, list] = defaultdict(lambda: [0, 0, 0])
    for port, card in enumerate(run.plan.cards):
        dropped = set(run.dropped[port])
        for number, packet in enumerate(card):
            if packet.what == ROUTED:
                is_in = number not in dropped
                added = (1, int(not is_in), packet.cells * is_in)
                place = place_of(run, port, number)
                counts[place] = [count + more for count, more in zip(counts[place], added)]
    return {place: QueueLine._make([*counts[place], *peaks.get(place, (0, 0))]) for place in sorted(counts)}


def deepest(lines: Dict[Place, QueueLine]) -> int:
    """The most cells that waited in a queue."""
    return max((line.peak for line in lines.values()), default=0)
