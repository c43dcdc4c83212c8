"""The command `simulate`: from words to lines and a status."""

from __future__ import annotations

from typing import List, NamedTuple, Sequence

from .runs import simulate
from .words import Usage, read_words


class Ended(NamedTuple):
    """How it ended: its status, and the lines on standard output and standard error. The line of status 2 is the
    program's own usage line, which the model leaves open."""

    status: int
    output: List[str]
    error: List[str]


def run_words(words: Sequence[str]) -> Ended:
    """Does what the words mean."""
    try:
        if not words or words[0] != "simulate":
            raise Usage
        job = read_words(words[1:])
    except Usage:
        return Ended(2, [], ["usage"])
    if not job.has_room():
        return Ended(4, [], [f"too many cells: {job.queues() * job.depth}"])
    return Ended(0, simulate(job), [])
