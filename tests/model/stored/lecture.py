"""The journals of the viewer's lecture: full load, which no captures make, since on a line one packet comes after
another."""

from __future__ import annotations

from typing import List, Set, Tuple

from ..journals import Journal, JournalSlot, journal_bytes
from ..rounds import Pointers
from ..rows import feed_of, row_of
from ..schedulers import SCHEDULERS

PORTS, ROUNDS, CELLS = 4, 1, 4
Queue = Tuple[int, int]  # An input and an output.


def full_load(name: str) -> bytes:
    """The journal under a scheduler in which each queue of level 0 has some cells from slot 0 on, and none comes
    later."""
    ports, pointers = range(PORTS), Pointers(PORTS)
    waiting: List[Queue] = [(port, output) for port in ports for output in ports] * CELLS
    slots: List[JournalSlot] = []
    while not slots or any(slots[-1].mores):
        asked: Set[Queue] = set(waiting)
        rows = tuple(row_of({0: {output for output in ports if (port, output) in asked}}) for port in ports)
        decision = SCHEDULERS[name](PORTS, ROUNDS, len(slots), rows, pointers)
        pointers = decision.pointers
        mores = tuple(not row.is_empty() for row in rows)
        slots.append(JournalSlot(rows, mores, [feed_of(decision.match, output) for output in ports]))
        for entry in decision.match:
            waiting.remove((entry.input, entry.output))
    return journal_bytes(Journal(PORTS, ROUNDS, slots))
