"""Rows of the traffic of a simulation."""

from __future__ import annotations

from itertools import groupby
from typing import List, Optional

from ..simulation.sources import Source, Stream
from ..simulation.words import MILLION, PATTERNS, WEIGHED, Job
from . import forms
from .lines import arrowed

STATED_WORDS = 3


def traffic(question: str) -> str:
    """`stream SEED NUMBER`, `traffic PATTERN WEIGHT LOAD BURST PORTS` or `source .. SEED INPUT SLOTS`."""
    kind, *words = question.split()
    if kind == "stream":
        stream = Stream(int(words[0]), int(words[1]))
        return " ".join(str(stream.next()) for _ in range(STATED_WORDS))
    job = job_of(words[:5])
    if kind == "traffic":
        return "none" if job is None else f"{job.pattern} {job.weight} {job.load} {job.burst} {job.ports}"
    assert job is not None
    job.seed = int(words[5])
    return source(job, int(words[6]), int(words[7]))


def job_of(words: List[str]) -> Optional[Job]:
    """The job with such traffic, None where there is none."""
    pattern, weight, *numbers = words
    load, burst, ports = map(int, numbers)
    is_good = load <= MILLION and 1 <= burst <= 4_096 and 1 <= ports <= 64 and pattern in PATTERNS
    if not is_good or (pattern in WEIGHED) != (weight != forms.NONE) or weight != forms.NONE and int(weight) > MILLION:
        return None
    return Job(0, 1, ports, load=load, burst=burst, pattern=pattern, weight=0 if weight == forms.NONE else int(weight))


def source(job: Job, port: int, slots: int) -> str:
    """The outputs of the cells that come to an input in the first slots, each with how many it has one after the
    other."""
    drawn = Source(job, port)
    outputs = [drawn.next() for _ in range(slots)]
    runs = ((output, len(list(same))) for output, same in groupby(outputs))
    return " ".join(f"{forms.NONE if output is None else output}*{count}" for output, count in runs)


REMAKES = {"traffic": arrowed(traffic)}
