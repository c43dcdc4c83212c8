"""The run of a plan, slot by slot, and what leaves the switch in it."""

from __future__ import annotations

from collections import defaultdict
from typing import DefaultDict, List, NamedTuple, Optional, Tuple

from .cards import Card
from .messages import Cell, Delivered, put_together
from .plans import Plan
from .rounds import Pointers
from .rows import Entry, Match, Row, served_part
from .schedulers import Scheduler, islip


class Slot(NamedTuple):
    """A slot of a run: its number, what the cards posted, the match and its numbers."""

    number: int
    rows: Tuple[Row, ...]
    mores: Tuple[bool, ...]
    cells: Tuple[Optional[Cell], ...]
    match: Match
    used: int
    first: int
    last_added: int


class Run(NamedTuple):
    """A run: its slots, and for each input the packets that entered a queue and those that were dropped. Of slots in which
    nothing happens it may have the first alone."""

    plan: Plan
    slots: List[Slot]
    admitted: List[List[int]]
    dropped: List[List[int]]


def run_plan(plan: Plan, scheduler: Scheduler = islip, skips_gaps: bool = False) -> Run:
    """The run of a plan under a scheduler: up to the first slot in which no card has more to come. Where nothing is asked in
    a slot, and nothing comes in the next, nothing changes up to the next arrival, and these slots may be skipped."""
    cards = [Card(port, plan.depth, packets) for port, packets in enumerate(plan.cards)]
    pointers = Pointers(plan.ports)
    slots: List[Slot] = []
    number = 0
    while not slots or any(slots[-1].mores):
        posts = [card.post(number) for card in cards]
        rows, cells, mores = zip(*posts)
        decision = scheduler(plan.ports, plan.rounds, number, rows, pointers)
        pointers = decision.pointers
        give(cards, decision.match)
        slots.append(Slot(number, rows, mores, cells, decision.match, decision.used, decision.first, decision.last_added))
        number = next_slot(slots[-1], cards) if skips_gaps else number + 1
    return Run(plan, slots, [card.admitted for card in cards], [card.dropped for card in cards])


def next_slot(slot: Slot, cards: List[Card]) -> int:
    """The slot after this one in which something happens: where nothing is asked in this one, that of the next arrival."""
    arrivals = [arrival for arrival in (card.next_arrival() for card in cards) if arrival is not None]
    return min(arrivals) if arrivals and all(row.is_empty() for row in slot.rows) else slot.number + 1


def give(cards: List[Card], match: Match) -> None:
    """Each card takes its part of a match."""
    of_input: DefaultDict[int, List[Entry]] = defaultdict(list)
    for entry in match:
        of_input[entry.input].append(entry)
    for card in cards:
        card.take(served_part(of_input.get(card.number, ()), card.number))


class Crossed(NamedTuple):
    """A cell that crossed to an output, and the slot in which it did."""

    slot: int
    cell: Cell


def crossings(run: Run) -> List[List[Crossed]]:
    """For each output the cells that crossed to it: the cell that is granted in a slot crosses in the next one."""
    crossed: List[List[Crossed]] = [[] for _ in range(run.plan.ports)]
    for before, slot in zip(run.slots, run.slots[1:]):
        for port, output, level, kind in before.match:
            cell = slot.cells[port]
            assert cell is not None and cell.flow() == (port, level, kind)
            crossed[output].append(Crossed(slot.number, cell))
    assert not run.slots[-1].match
    return crossed


class Outcome(NamedTuple):
    """A run, and for each output the cells that crossed to it and the messages that left it."""

    run: Run
    crossed: List[List[Crossed]]
    delivered: List[List[Delivered]]


def outcome_of(run: Run) -> Outcome:
    """A run with what left in it."""
    crossed = crossings(run)
    return Outcome(run, crossed, [put_together(cells) for cells in crossed])
