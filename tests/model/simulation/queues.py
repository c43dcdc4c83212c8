"""The queues of a simulation, and what leaves them in a slot."""

from __future__ import annotations

from collections import deque
from typing import Deque, Dict, List, NamedTuple, Set, Tuple, Union

from .arbiters import Random, Rotating
from .words import Job


class Cell(NamedTuple):
    """A cell: the slot in which it came, its input and its output."""

    arrival: int
    input: int
    output: int


class Service(NamedTuple):
    """What leaves in a slot, and how many pairs each round added."""

    cells: List[Cell]
    added: List[int]


def arbiter_of(job: Job) -> Union[Random, Rotating]:
    """The scheduler of a simulation: under fifo one-round iSLIP over the heads."""
    if job.scheduler == "pim":
        return Random(job.ports, job.rounds, job.seed)
    if job.scheduler == "fifo":
        return Rotating("islip", job.ports, 1)
    return Rotating(job.scheduler, job.ports, job.rounds)


class Queues:
    """A queue for each input and output (islip, firm, rrm, pim), for each input (fifo), or for each output (ideal). A
    cell is dropped where its queue is full. The head of a queue of fifo asks alone; each output of ideal is always
    served."""

    def __init__(self, job: Job) -> None:
        self.job, self.arbiter = job, arbiter_of(job)
        self.waiting: Dict[object, Deque[Cell]] = {}
        self.began: Dict[Tuple[int, int], int] = {}  # Since which slot an input asks an output and is not served.
        self.longest = self.peak = 0

    def queue_of(self, port: int, output: int) -> object:
        """The queue that a cell is for."""
        return {"fifo": port, "ideal": output}.get(self.job.scheduler, (port, output))

    def enter(self, slot: int, port: int, output: int) -> bool:
        """A cell comes; says whether it enters."""
        queue = self.waiting.setdefault(self.queue_of(port, output), deque())
        if len(queue) == self.job.depth:
            return False
        queue.append(Cell(slot, port, output))
        self.peak = max(self.peak, len(queue))
        return True

    def serve(self, slot: int) -> Service:
        """What leaves in a slot."""
        ports = range(self.job.ports)
        if self.job.scheduler == "ideal":
            return Service([self.waiting[output].popleft() for output in ports if self.waiting.get(output)], [])
        heads = [queue[0] for queue in self.waiting.values() if queue]
        rows: List[Set[int]] = [{head.output for head in heads if head.input == port} for port in ports]
        match = self.arbiter.decide(rows)
        asked = {(port, output) for port in ports for output in rows[port]}
        self.note_waits(slot, {(port, output) for port, output in asked if match.fed.get(output) != port})
        served = (self.queue_of(port, output) for output, port in sorted(match.fed.items()))
        return Service([self.waiting[queue].popleft() for queue in served], match.added)

    def note_waits(self, slot: int, unserved: Set[Tuple[int, int]]) -> None:
        """A wait is how many slots in a row an input asks an output and is not served."""
        self.began = {pair: self.began.get(pair, slot) for pair in unserved}
        self.longest = max([self.longest, *(slot + 1 - began for began in self.began.values())])

    def count(self) -> int:
        """How many cells wait."""
        return sum(map(len, self.waiting.values()))

    def age(self, slot: int) -> int:
        """For how many slots, taken together, the cells wait that do before a slot."""
        return sum(slot - cell.arrival for queue in self.waiting.values() for cell in queue)
