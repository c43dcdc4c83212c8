"""An iSLIP of one's own, the exercise of docs/GRADING.md: python3 own_islip.py JOURNAL"""

from __future__ import annotations

import sys
from random import Random

from tiny_tera import write_journal

PORTS, ROUNDS, SLOTS, LOAD = 4, 2, 1000, 0.9
grant, accept = [0] * PORTS, [0] * PORTS  # The pointers of the outputs and those of the inputs.


def first(ports: list[int], pointer: int) -> int:
    return min(ports, key=lambda port: (port - pointer) % PORTS)


def decide(asks: list[int]) -> list[int | None]:
    """For each output the input that feeds it, if any; asks[i] is the set of outputs, as bits, that input i asks."""
    fed: list[int | None] = [None] * PORTS
    grant_before, accept_before = grant.copy(), accept.copy()
    for number in range(ROUNDS):
        granted: dict[int, list[int]] = {}
        for output in range(PORTS):
            asking = [i for i in range(PORTS) if asks[i] >> output & 1 and i not in fed]
            if asking and fed[output] is None:
                source = first(asking, grant_before[output])
                granted.setdefault(source, []).append(output)
        for source, outputs in granted.items():
            output = first(outputs, accept_before[source])
            fed[output] = source
            if number == 0:
                grant[output] = (source + 1) % PORTS
                accept[source] = (output + 1) % PORTS
    return fed


waiting = [[0] * PORTS for _ in range(PORTS)]  # How many cells of each input wait for each output.
numbers = Random(1)
slots: list[tuple[list[int], list[int | None]]] = []
while len(slots) < SLOTS or any(slots[-1][0]):  # The last slot is one in which no input asks.
    for queues in waiting:
        if len(slots) < SLOTS and numbers.random() < LOAD:
            queues[numbers.randrange(PORTS)] += 1
    asks = [sum(1 << output for output in range(PORTS) if queues[output]) for queues in waiting]
    slots.append((asks, decide(asks)))
    for output, source in enumerate(slots[-1][1]):
        if source is not None:
            waiting[source][output] -= 1
write_journal(sys.argv[1], ROUNDS, slots)
