"""What comes: random numbers, and the cells that they bring to each input."""

from __future__ import annotations

from typing import Optional

from .words import MILLION, Job

WORD = 2 ** 64
HALF = 2 ** 32  # Half a word.
ARBITER = 64  # The stream of what the scheduler draws.


class Stream:
    """A stream of random words: SplitMix64, from the first word of the generator that begins at 256 * seed + its
    number. Streams 0 to 63 are the sources of the inputs."""

    def __init__(self, seed: int, number: int) -> None:
        self.state = 256 * seed + number
        self.state = self.next()

    def next(self) -> int:
        """The next word."""
        self.state = (self.state + 0x9E3779B97F4A7C15) % WORD
        word = self.state
        word = (word ^ (word >> 30)) * 0xBF58476D1CE4E5B9 % WORD
        word = (word ^ (word >> 27)) * 0x94D049BB133111EB % WORD
        return word ^ (word >> 31)


class Source:
    """The traffic of an input. Each slot is in a burst or not; in each slot of a burst a cell comes, and all cells of
    a burst go to one output. A burst ends before a slot with probability 1 / burst. Where none goes on, one begins
    with probability p / (p + burst * (1 - p)), p the load: so the mean pause is burst * (1 - p) / p and the mean load
    p. With burst 1 the slots are independent."""

    def __init__(self, job: Job, port: int) -> None:
        self.job, self.port = job, port
        self.stream = Stream(job.seed, port)
        self.output: Optional[int] = None  # Of the burst that goes on, or None.

    def next(self) -> Optional[int]:
        """The output of the cell that comes in the next slot, or None."""
        word = self.stream.next()
        goes_on = self.output is not None and word // HALF * self.job.burst >= HALF
        if not goes_on:
            self.output = destination(self.job, self.port, self.stream.next()) if self.begins(word % HALF) else None
        return self.output

    def begins(self, low: int) -> bool:
        """Whether a burst begins, by half a word."""
        load, pause = self.job.load, MILLION - self.job.load
        return low * (load + self.job.burst * pause) < load * HALF


def destination(job: Job, port: int, word: int) -> int:
    """The output of a burst that begins at an input."""
    ports, high = job.ports, word // HALF
    any_output = word % HALF * ports // HALF
    if job.pattern == "uniform":  # Each with 1 / ports.
        return any_output
    if job.pattern == "diagonal":  # Its own with 2/3, the next one with 1/3.
        return port if high * 3 < 2 * HALF else (port + 1) % ports
    if job.pattern == "log-diagonal":  # The d-th from its own with 2^(ports - 1 - d) / (2^ports - 1).
        return (port + (64 - word.bit_length()) % ports) % ports
    if high * MILLION < job.weight * HALF:
        return 0 if job.pattern == "hot-spot" else port
    return any_output
