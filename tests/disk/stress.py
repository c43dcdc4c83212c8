"""One job of 16 ports again and again, with other numbers of workers: every run writes the same."""

import time
from typing import NamedTuple

from .running import Place, Wrong, expect
from .sixteen_ports import WORDS, job_files

WORKERS = (1, 2, 4, 8, 32)
MOST_RUNS = 1_000
RUN_SECONDS = 120
# Packets for each port. The first job of which all runs fit into the time is taken, else the last.
PACKETS = (12, 6, 3, 1)


class Stress(NamedTuple):
    """How often the job ran with each number of workers, and how many packets it has for each port."""

    counts: dict
    packets: int


def _run(program, files, workers):
    """What a run with so many workers prints, and what stands in its folder after it."""
    with Place(program, files) as place:
        flags = ("--slots", "--journal", "--reference", "--workers", str(workers))
        found = place.run("run", *flags, *WORDS, seconds=RUN_SECONDS)
        expect(found, 0, out=found.out)
        return found.out, place.state()


def _run_once_each(program, files):
    """Runs the job once with each number of workers; answers what one worker wrote, and the seconds of all."""
    begin = time.monotonic()
    expected = _run(program, files, 1)
    for workers in WORKERS[1:]:
        _compare(_run(program, files, workers), expected, workers)
    return expected, time.monotonic() - begin


def _compare(found, expected, workers):
    if found != expected:
        raise Wrong(f"a run with {workers} workers wrote other bytes than the run with one")


def _choose_job(program, seconds):
    """The number of packets and the files of a job of which all runs fit into so many seconds, and what it writes."""
    for packets in PACKETS:
        files = job_files(packets)
        expected, taken = _run_once_each(program, files)
        if taken * MOST_RUNS / len(WORKERS) <= seconds:
            break
    return packets, files, expected


def stress(program, seconds):
    """Runs the job for so many seconds, at most 1,000 times."""
    packets, files, expected = _choose_job(program, seconds)
    counts = dict.fromkeys(WORKERS, 0)
    end = time.monotonic() + seconds
    for number in range(MOST_RUNS):
        if time.monotonic() > end:
            break
        workers = WORKERS[number % len(WORKERS)]
        _compare(_run(program, files, workers), expected, workers)
        counts[workers] += 1
    return Stress(counts, packets)
