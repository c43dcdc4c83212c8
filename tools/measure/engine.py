"""Runs Snakemake: its output goes to a log file, and in its place a progress bar counts the runs."""

import os
import re
import signal
import subprocess
import sys
from typing import NamedTuple

from tqdm import tqdm

LOG = "snakemake.log"
RULE = re.compile(r"(?:local)?(?:rule|checkpoint) (\w+):")
JOB = re.compile(r"    (jobid|output): (.*)")
FINISHED = re.compile(r"Finished job (\d+)\.")
AGAIN = re.compile(r"Trying to restart job (\d+)\.")
FAILED = re.compile(r"Error (?:in (?:rule|group)|submitting jobscript) ")
CAUSE = re.compile(r"(?:tools/\w+|run_result|tiny_tera|hint|sbatch): (.*)")
COUNT = re.compile(r"(run|simulate) +(\d+)\b")
RUNS = ("run", "simulate")  # The jobs that are counted.
PATIENCE = 60  # Seconds in which the jobs under way may end after an interrupt.


class Outcome(NamedTuple):
    """How Snakemake ended: its status, whether it was interrupted, how many of how many runs it made, whether a job failed,
    and what the tools said of jobs that failed."""

    status: int
    interrupted: bool
    done: int
    total: int
    has_failed: bool
    causes: tuple


class Progress:
    """What the lines of Snakemake tell: the runs that are to be made, those done, and the jobs that are tried again."""

    def __init__(self):
        self.counts = {}
        self.done = 0
        self.rule = None
        self.output = None
        self.jobs = {}
        self.has_failed = False
        self.causes = {}  # In the order in which they came.

    @property
    def total(self):
        """How many runs are to be made."""
        return sum(self.counts.values())

    def read(self, line):
        """Takes a line; the output of a job that failed and is tried again, else None."""
        if found := COUNT.match(line):
            self.counts.setdefault(found[1], int(found[2]))
        elif found := RULE.match(line):
            self.rule, self.output = found[1], None
        elif found := JOB.match(line):
            self._job(found[1], found[2])
        elif found := FINISHED.match(line):
            self.done += self.jobs.get(found[1], (None, None))[0] in RUNS
        elif FAILED.match(line):
            self.has_failed = True
        elif found := CAUSE.match(line):
            self.causes[found[1]] = None
        elif found := AGAIN.match(line):
            return self.jobs.get(found[1], (None, "a job"))[1]
        return None

    def _job(self, name, value):
        if name == "output":
            self.output = value.split(", ")[0]
        else:
            self.jobs[value.strip()] = (self.rule, self.output)


def run(command, folder, handle, variables=None):
    """Runs the command of Snakemake with a bar, with these variables in place of one's own; an interrupt, or that nobody reads
    the bar, lets the jobs under way end."""
    progress = Progress()
    with open(folder / LOG, "w") as log:
        # A group of its own, so that an interrupt at the terminal comes to this process alone.
        process = subprocess.Popen(
            command, pass_fds=[handle], stdout=subprocess.PIPE, stderr=subprocess.STDOUT, text=True,
            start_new_session=True, env=variables,
        )
        try:
            _follow(process.stdout, log, progress)
            status, interrupted = process.wait(), False
        except (KeyboardInterrupt, BrokenPipeError):
            status, interrupted = _stop(process), True
    return Outcome(status, interrupted, progress.done, progress.total, progress.has_failed, tuple(progress.causes))


def _follow(lines, log, progress):
    """Keeps the lines of Snakemake in the log, and shows what they tell."""
    with tqdm(unit="run", desc="tools/sweep", disable=None, dynamic_ncols=True) as bar:
        for line in lines:
            log.write(line)
            log.flush()
            _show(bar, progress, progress.read(line))


def _show(bar, progress, again):
    if again:
        tqdm.write(f"tools/sweep: failed, and is tried again: {again}", file=sys.stderr)
    if bar.total != progress.total and progress.total:
        bar.reset(progress.total)
    if progress.done > bar.n:
        bar.update(progress.done - bar.n)


def _stop(process):
    """Interrupts Snakemake and all its jobs, and answers its status."""
    signal.signal(signal.SIGINT, signal.SIG_IGN)
    os.killpg(process.pid, signal.SIGINT)
    try:
        process.communicate(timeout=PATIENCE)
    except subprocess.TimeoutExpired:
        os.killpg(process.pid, signal.SIGKILL)
        process.communicate()
    return process.returncode
