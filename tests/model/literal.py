"""Rounds and line cards word for word, as slow as that is: tests compare the model's with them."""

from __future__ import annotations

from functools import cached_property, lru_cache
from itertools import product
from typing import FrozenSet, Iterable, List, Optional, Sequence, Set, Tuple

from .cards import Post
from .messages import Cell, cut
from .plans import ROUTED, Plan, Planned
from .ports import LEVELS, NO_PORTS, Ports, distance
from .queues import QueueName, queue_for
from .rounds import Pointers, preferred_kind
from .rows import KINDS, MULTICAST, UNICAST, Entry, Row, Served, served_part
from .schedulers import Scheduler, islip


class LiteralRound:
    """A round by quantifiers over all inputs, outputs, levels and kinds."""

    def __init__(
        self, ports: int, slot: int, rows: Sequence[Row], pointers: Pointers, entries: Iterable[Entry]
    ) -> None:
        self.ports, self.rows, self.pointers = ports, rows, pointers
        self.kinds = (preferred_kind(slot), 1 - preferred_kind(slot))
        self.entries = set(entries)

    def is_free(self, output: int) -> bool:
        """Whether an output is not matched."""
        return not any(entry.output == output for entry in self.entries)

    def asks(self, port: int, output: int, level: int, kind: int) -> bool:
        """Whether an input asks an output with a level and a kind."""
        row = self.rows[port]
        is_named = self.is_free(output) and output in row.of_kind(kind)[level]
        mine = [entry for entry in self.entries if entry.input == port]
        if mine:
            return is_named and kind == MULTICAST and all(it[2:] == (level, MULTICAST) for it in mine)
        return is_named and not any(row.names(output, better) for better in range(level))

    def first_with(self, entries: Set[Entry]) -> Set[Entry]:
        """Those of the best level, and at it of the preferred kind, else of the other."""
        for level, kind in product(range(LEVELS), self.kinds):
            found = {entry for entry in entries if (entry.level, entry.kind) == (level, kind)}
            if found:
                return found
        return set()

    def nearest(self, pointer: int, entries: Set[Entry], place: int) -> Set[Entry]:
        """Those whose input, or whose output, no other is nearer than."""
        far = {entry: distance(self.ports, pointer, entry[place]) for entry in entries}
        return {entry for entry in entries if all(far[entry] <= other for other in far.values())}

    @cached_property
    def grants(self) -> Set[Entry]:
        """What outputs grant."""
        granted: Set[Entry] = set()
        for output in range(self.ports):
            every = product(range(self.ports), [output], range(LEVELS), KINDS)
            asked = {Entry(*request) for request in every if self.asks(*request)}
            for entry in sorted(self.first_with(asked))[:1]:
                pointer = self.pointers.shared[entry.level]
                if entry.kind == UNICAST:
                    pointer = self.pointers.grant[output, entry.level]
                granted |= self.nearest(pointer, self.first_with(asked), 0)
        return granted

    @cached_property
    def accepted(self) -> Set[Entry]:
        """What inputs accept."""
        accepted: Set[Entry] = set()
        for port in range(self.ports):
            found = self.first_with({entry for entry in self.grants if entry.input == port})
            for entry in sorted(found)[:1]:
                pointer = self.pointers.accept[port, entry.level]
                accepted |= found if entry.kind == MULTICAST else self.nearest(pointer, found, 1)
        return accepted


class LiteralCard:
    """A line card over the list of its parts of all matches before, which may grow at its end: each queue as the list
    of all cells that entered it, without those that left."""

    def __init__(self, number: int, depth: int, packets: List[Planned], served: List[Optional[Served]]) -> None:
        self.number, self.depth, self.packets, self.served = number, depth, packets, served
        for name in ("is_admitted", "entered", "left", "remaining", "completes"):
            setattr(self, name, lru_cache(maxsize=None)(getattr(self, name)))

    def queue_of(self, number: int) -> QueueName:
        """The queue that a packet is for."""
        return queue_for(self.packets[number].fan, self.packets[number].level)

    def is_admitted(self, number: int) -> bool:
        """Whether a packet enters its queue: the cells there, with its own, are at most the depth."""
        packet = self.packets[number]
        if packet.what != ROUTED:
            return False
        name = self.queue_of(number)
        waiting = len(self.entered(name, packet.arrival - 1)) - self.left(name, packet.arrival)
        return waiting + packet.cells <= self.depth

    def entered(self, name: QueueName, slot: int) -> List[Tuple[int, int]]:
        """The cells that entered a queue up to a slot, as packets and numbers."""
        come = (number for number, packet in enumerate(self.packets) if packet.arrival <= slot)
        routed = (number for number in come if self.packets[number].what == ROUTED)
        admitted = (number for number in routed if self.queue_of(number) == name and self.is_admitted(number))
        return [(number, cell) for number in admitted for cell in range(self.packets[number].cells)]

    def left(self, name: QueueName, slot: int) -> int:
        """How many cells left a queue before a slot."""
        if name.kind == MULTICAST:
            return sum(self.completes(name.level, before) for before in range(slot))
        mine = Served(frozenset([name.output]), name.level, UNICAST)
        return sum(self.served[before] == mine for before in range(slot))

    def queue(self, name: QueueName, slot: int) -> List[Tuple[int, int]]:
        """The cells that wait in a queue, after the arrivals of a slot and before it is served."""
        return self.entered(name, slot)[self.left(name, slot):]

    def part(self, level: int, slot: int) -> Ports:
        """The outputs that the head of a level was served to in a slot."""
        served = self.served[slot]
        return served.outputs if served is not None and served[1:] == (level, MULTICAST) else NO_PORTS

    def remaining(self, level: int, slot: int) -> Ports:
        """What remains of the fan-out of the head of a level in a slot."""
        queue = self.queue(QueueName(MULTICAST, -1, level), slot)
        if not queue:
            return NO_PORTS
        since = max((before + 1 for before in range(slot) if self.completes(level, before)), default=0)
        gone = NO_PORTS.union(*(self.part(level, before) for before in range(since, slot)))
        return self.packets[queue[0][0]].fan - gone

    def completes(self, level: int, slot: int) -> bool:
        """Whether the head of a level was served to all that remained."""
        rest = self.remaining(level, slot)
        return bool(rest) and rest <= self.part(level, slot)

    def cell(self, slot: int) -> Optional[Cell]:
        """The cell that was granted in the slot before."""
        served = self.served[slot - 1] if slot > 0 else None
        if served is None:
            return None
        name = QueueName(served.kind, min(served.outputs) if served.kind == UNICAST else -1, served.level)
        number, cell = self.queue(name, slot - 1)[0]
        return cut(self.packets[number].packet, self.number, served.level, served.kind, cell)

    def post(self, ports: int, slot: int) -> Post:
        """The post of a slot."""
        unicast = tuple(
            frozenset(output for output in range(ports) if self.queue(QueueName(UNICAST, output, level), slot))
            for level in range(LEVELS)
        )
        row = Row(unicast, tuple(self.remaining(level, slot) for level in range(LEVELS)))
        more = any(packet.arrival > slot for packet in self.packets) or not row.is_empty()
        return Post(row, self.cell(slot), more)


LiteralSlot = Tuple[List[Post], FrozenSet[Entry]]


def literal_run(plan: Plan, scheduler: Scheduler = islip) -> Tuple[List[LiteralSlot], List[List[int]]]:
    """The slots of a run over such cards, as posts and matches, and the packets that were admitted."""
    served: List[List[Optional[Served]]] = [[] for _ in range(plan.ports)]
    cards = [LiteralCard(port, plan.depth, plan.cards[port], served[port]) for port in range(plan.ports)]
    pointers = Pointers(plan.ports)
    slots: List[LiteralSlot] = []
    while not slots or any(post.more for post in slots[-1][0]):
        posts = [card.post(plan.ports, len(slots)) for card in cards]
        decision = scheduler(plan.ports, plan.rounds, len(slots), [post.row for post in posts], pointers)
        pointers = decision.pointers
        for port, parts in enumerate(served):
            parts.append(served_part(decision.match, port))
        slots.append((posts, decision.match))
    return slots, [[number for number in range(len(card.packets)) if card.is_admitted(number)] for card in cards]
