"""The run of a simulation, what is counted in it, and its text."""

from __future__ import annotations

from collections import Counter
from typing import Iterator, List

from .queues import Queues, Service
from .sources import Source
from .words import Job

SHARES = (5_000, 9_000, 9_900, 9_990, 9_999)  # Of ten thousand: the delays that are printed.


def bucket(delay: int) -> int:
    """Delays below 4,096 are counted each, longer ones by their 12 leading bits."""
    shift = max(delay.bit_length() - 12, 0)
    return delay >> shift << shift


class Tallies:
    """What is counted in the measured slots."""

    def __init__(self, job: Job) -> None:
        self.job = job
        self.arrived, self.dropped, self.left, self.fed = ([0] * job.ports for _ in range(4))
        self.batches = [[0, 0] for _ in range(job.batches)]
        self.counts: Counter = Counter()
        self.before = self.before_age = 0
        self.cell_slots = self.delays = self.longest_delay = self.rounds_used = self.first_pairs = 0

    def is_measured(self, slot: int) -> bool:
        """Whether a slot is counted."""
        return slot >= self.job.warm_up

    def note_arrival(self, slot: int, port: int, is_in: bool) -> None:
        """Counts a cell that came."""
        if self.is_measured(slot):
            self.arrived[port] += 1
            self.dropped[port] += not is_in

    def note_slot(self, slot: int, service: Service, waiting: int) -> None:
        """Counts what left in a slot, and the cells that wait after it."""
        if not self.is_measured(slot):
            return
        self.rounds_used += sum(1 for pairs in service.added if pairs)
        self.first_pairs += sum(service.added[:1])
        self.cell_slots += waiting
        for cell in service.cells:
            self.left[cell.input] += 1
            self.fed[cell.output] += 1
            self.note_delay(slot, slot + 1 - cell.arrival)  # It crosses in the slot after the one that serves it.

    def note_delay(self, slot: int, delay: int) -> None:
        """Counts the delay of a cell that is served in a slot."""
        first = self.job.warm_up
        batch = self.batches[(slot - first) * self.job.batches // (self.job.slots - first)]
        batch[0] += 1
        batch[1] += delay
        self.delays += delay
        self.longest_delay = max(self.longest_delay, delay)
        self.counts[bucket(delay)] += 1

    def percentile(self, share: int) -> int:
        """The least bucket up to which at least so many of ten thousand delays are, 0 where there are none."""
        seen = 0
        for delay in sorted(self.counts):
            seen += self.counts[delay]
            if 10_000 * seen >= share * sum(self.left):
                return delay
        return 0


def simulate(job: Job) -> List[str]:
    """The lines of a run. Two laws hold of the numbers of each: what came in is where it went; and, by Little, the
    slots that cells waited are the delays, but for those that were there before and are there after."""
    sources = [Source(job, port) for port in range(job.ports)]
    queues, tallies, most = Queues(job), Tallies(job), 0
    for slot in range(job.slots):
        if slot == job.warm_up:
            tallies.before, tallies.before_age = queues.count(), queues.age(slot)
        for port, source in enumerate(sources):
            output = source.next()
            if output is not None:
                tallies.note_arrival(slot, port, queues.enter(slot, port, output))
        most = max(most, queues.count())
        service = queues.serve(slot)
        tallies.note_slot(slot, service, queues.count())
    departed = sum(tallies.left)
    assert sum(tallies.arrived) + tallies.before == sum(tallies.dropped) + departed + queues.count()
    assert tallies.cell_slots + tallies.before_age == tallies.delays - departed + queues.age(job.slots)
    return list(lines_of(job, queues, tallies, most))


def lines_of(job: Job, queues: Queues, tallies: Tallies, most: int) -> Iterator[str]:
    """The text of a run."""
    yield f"job {job.seed} {job.slots} {job.ports}"
    yield f"scheduler {job.scheduler} {job.rounds}"
    yield f"traffic {job.pattern} {job.weight} {job.load} {job.burst}"
    yield f"measured {job.warm_up} {job.batches} {job.depth}"
    yield f"arrived {sum(tallies.arrived)}"
    yield f"dropped {sum(tallies.dropped)}"
    yield f"departed {sum(tallies.left)}"
    yield f"before {tallies.before} {tallies.before_age}"
    yield f"waiting {queues.count()} {queues.age(job.slots)}"
    yield f"cell-slots {tallies.cell_slots}"
    yield f"delays {tallies.delays}"
    yield f"delay {' '.join(str(tallies.percentile(share)) for share in SHARES)} {tallies.longest_delay}"
    yield f"rounds {tallies.rounds_used} {tallies.first_pairs}"
    yield f"peak {queues.peak} {most}"
    yield f"longest {queues.longest}"
    for port in range(job.ports):
        yield f"port {port} {tallies.arrived[port]} {tallies.dropped[port]} {tallies.left[port]} {tallies.fed[port]}"
    for number, (cells, delays) in enumerate(tallies.batches):
        yield f"batch {number} {cells} {delays}"
    for delay in sorted(tallies.counts) if job.histogram else ():
        yield f"count {delay} {tallies.counts[delay]}"
