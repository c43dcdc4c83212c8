"""What no run of some traffic exceeds, from how it arrives: the theorems of docs/SIZING.md.

They hold of unicast in any order, of any levels and under each scheduler, where a slot has as many rounds as ports or more.
`most` of some cells is the most of them that come in so many slots in a row. A queue waits at an input for an output, and
these two are a pair.

- Delays: where any 2 * wait + 1 slots in a row bring a pair at most wait + 2 cells, those for both counted twice, no
  cell is matched more than `wait` slots after it came.
- Buffers: where for each pair r cells at most come to its input in `window` slots in a row, k for its output, and
  r + 2 * k and 2 * r + k are at most window + 1, no input holds more than its r, nor do more than its k wait for an output.
"""

from __future__ import annotations

from functools import lru_cache
from itertools import cycle
from typing import Any, Callable, Dict, List, NamedTuple, Optional, Sequence, Tuple

import numpy

from launcher.captures import Arrival

from .queue_names import QueueName


class Cells:
    """Cells that come in some slots: to an input, for an output, or to a queue."""

    def __init__(self, slots: Any, counts: Any) -> None:
        order = numpy.argsort(slots, kind="stable")
        self.slots, self.counts = slots[order], counts[order]
        self.sums = numpy.concatenate(([0], numpy.cumsum(self.counts)))
        self.known: Dict[int, int] = {0: 0}

    def most(self, window: int) -> int:
        """The most that come in so many slots in a row."""
        if window not in self.known:
            before = numpy.searchsorted(self.slots, self.slots - window, side="right")
            self.known[window] = int((self.sums[1:] - self.sums[before]).max())
        return self.known[window]


@lru_cache(maxsize=256)
def together(one: Cells, other: Cells) -> Cells:
    """The cells of both."""
    return Cells(numpy.concatenate((one.slots, other.slots)), numpy.concatenate((one.counts, other.counts)))


def most_together(one: Cells, other: Cells, window: int, enough: int) -> int:
    """The most cells of both in so many slots in a row; or more, where that is not over what is enough."""
    apart = one.most(window) + other.most(window)
    return apart if apart <= enough else together(one, other).most(window)


Pair = Tuple[Cells, Cells]  # What comes to an input, and for an output.


class Bounds(NamedTuple):
    """What no run exceeds: the slots from a packet's arrival to its departure, and the cells that wait at each input, for
    each output and in each queue."""

    delay: int
    inputs: Dict[int, int]
    outputs: Dict[int, int]
    queues: Dict[QueueName, int]

    @property
    def depth(self) -> int:
        """The depth with which nothing is dropped."""
        return max(self.queues.values(), default=1)


class Promise(NamedTuple):
    """What no run exceeds that keeps a contract: the slots from a packet's arrival to its departure, and the cells that wait
    at an input, for an output or in a queue."""

    delay: int
    cells: int


def bounds_of(arrivals: Sequence[Arrival]) -> Bounds:
    """The bounds of unicast packets."""
    if not arrivals:
        return Bounds(0, {}, {}, {})
    found = numpy.array([(it.slot, it.cells, it.input, it.outputs[0], it.level) for it in arrivals])
    inputs, outputs, queues = (parted(found, columns) for columns in ([2], [3], [2, 3, 4]))
    pairs = [(inputs[card,], outputs[output,]) for card, output in sorted({key[:2] for key in queues})]
    wait = wait_by_arrivals(pairs)
    held = {it: it.most(wait + 1) for it in (*inputs.values(), *outputs.values())}
    window = window_of_buffers(pairs, wait)
    if window is not None:
        held = {it: min(cells, it.most(window)) for it, cells in held.items()}
        wait = min(wait, wait_by_buffers(pairs, held))
        held = {it: min(cells, it.most(wait + 1)) for it, cells in held.items()}
    waiting = {
        QueueName(card, output, level): min(it.most(wait + 1), held[inputs[card,]], held[outputs[output,]])
        for (card, output, level), it in queues.items()
    }
    return Bounds(
        wait + 1, {card: held[it] for (card,), it in inputs.items()},
        {output: held[it] for (output,), it in outputs.items()}, waiting,
    )


def parted(arrivals: Any, columns: List[int]) -> Dict[Tuple[int, ...], Cells]:
    """The cells of arrivals, parted by what they have in some columns."""
    keys, places = numpy.unique(arrivals[:, columns], axis=0, return_inverse=True)
    order = numpy.argsort(places.reshape(-1), kind="stable")
    ends = numpy.cumsum(numpy.bincount(places.reshape(-1), minlength=len(keys)))
    parts = numpy.split(arrivals[order], ends[:-1]) if len(keys) else []
    return {tuple(map(int, key)): Cells(part[:, 0], part[:, 1]) for key, part in zip(keys, parts)}


def least(pairs: Sequence[Pair], need: Callable[[Cells, Cells, int], int], begin: int = 0, limit: Optional[int] = None) -> int:
    """The least number from `begin` on that each pair needs at most, where it needs no less beside a greater number; one
    beyond the limit where that is over it."""
    found, kept = begin, 0
    for pair in cycle(pairs):
        needed = need(*pair, found)
        kept = kept + 1 if needed <= found else 1
        while needed > found and (limit is None or found <= limit):
            found = needed
            needed = need(*pair, found)
        if kept == len(pairs) or limit is not None and found > limit:
            break
    return found


def wait_by_arrivals(pairs: Sequence[Pair]) -> int:
    """The least wait of which the theorem on delays speaks."""
    return least(pairs, lambda one, other, wait: most_together(one, other, 2 * wait + 1, wait + 2) - 2)


def window_of_buffers(pairs: Sequence[Pair], wait: int) -> Optional[int]:
    """The least window of which the theorem on buffers speaks; None where it is over a wait that no cell exceeds, since it
    then says nothing more than that no more waits than comes in so many slots."""

    def need(one: Cells, other: Cells, window: int) -> int:
        cells = one.most(window), other.most(window)
        return sum(cells) + max(cells) - 1

    found = least(pairs, need, begin=1, limit=wait)
    return found if found <= wait else None


def wait_by_buffers(pairs: Sequence[Pair], held: Dict[Cells, int]) -> int:
    """The least wait for which what is held, and what comes in so many slots, is at most two cells more: no cell waits longer,
    where no line holds more."""

    def need(one: Cells, other: Cells, wait: int) -> int:
        already = held[one] + held[other] - 2
        return already + most_together(one, other, wait, wait - already)

    return least(pairs, need)


def promise_of(cells: int, slots: int) -> Optional[Promise]:
    """What follows where in so many slots in a row so many cells at most come to each input and for each output; None where
    that is too much for the theorems."""
    if slots >= 4 * cells - 3:
        return Promise(2 * cells - 1, cells)
    return Promise(6 * cells - 1, cells) if slots >= 3 * cells - 1 else None


def may_grow(cells: int, slots: int, ports: int) -> bool:
    """Whether traffic of docs/SIZING.md under which a queue of iSLIP grows keeps this contract: in a cycle of 2 * ports - 1
    slots output 0 gets `ports` cells, two of them in its first slot; and now and then, as seldom as one likes, one more."""
    if ports == 1:
        return False
    cycles, rest = divmod(slots, 2 * ports - 1)
    return cycles * ports + (min(rest, ports - 1) + 1 if rest else 0) + 1 <= cells
