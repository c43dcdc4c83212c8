"""How long unicast queues wait."""

from __future__ import annotations

from typing import Dict, Iterable, List, Sequence, Tuple

from .ports import LEVELS
from .rows import UNICAST, Match, Row

Waits = Dict[Tuple[int, int, int], int]  # By input, output and level; those that are 0 are left out.


def waits_after(waits: Waits, rows: Sequence[Row], match: Match) -> Waits:
    """The waits in a slot, from those in the slot before: one more where the queue is posted and not matched as
    unicast of its level, else 0."""
    matched = {(entry.input, entry.output, entry.level) for entry in match if entry.kind == UNICAST}
    posted = (
        (port, output, level)
        for port, row in enumerate(rows) for level in range(LEVELS) for output in row.unicast[level]
    )
    return {queue: waits.get(queue, 0) + 1 for queue in posted if queue not in matched}


def longest_waits(slots: Iterable[Tuple[Sequence[Row], Match]]) -> List[int]:
    """The longest wait of each level over some slots."""
    waits: Waits = {}
    longest = [0] * LEVELS
    for rows, match in slots:
        waits = waits_after(waits, rows, match)
        for (_, _, level), wait in waits.items():
            longest[level] = max(longest[level], wait)
    return longest
