"""How long a simulation takes: the time that is gone, and an estimate of the whole by a short run of the same words."""

import subprocess
import time

from .place import say
from .running import environment
from .simulation_words import shortened, words_of

SHORT = 20_000  # Slots of the short run.
LEAST_SLOTS = 10 * SHORT  # Fewer are over before an estimate is of use.
LEAST_SECONDS = 3
PARTS = 10  # Of the whole; at the end of each a line is told.


class Clock:
    """Tells a line at each tenth of a run that takes some seconds."""

    def __init__(self, seconds, clock=time.monotonic):
        self.seconds, self.clock = seconds, clock
        self.began = clock()
        self.told = 0

    def second(self, _):
        """A second is over."""
        gone = self.clock() - self.began
        if int(gone * PARTS / self.seconds) > self.told:
            self.told = int(gone * PARTS / self.seconds)
            say(f"{time_of(gone)} gone, some {time_of(max(gone, self.seconds))} in all")

    def clear(self):
        """Its lines stay."""


def clock_of(program, job):
    """A clock for a run of a program, which says first how long it may take; None where it is short, or cannot be known."""
    slots = int(job.names[1])
    if slots < LEAST_SLOTS:
        return None
    began = time.monotonic()
    words = [program, *words_of(shortened(job, SHORT))]
    ended = subprocess.run(words, stdout=subprocess.DEVNULL, stderr=subprocess.DEVNULL, env=environment())
    seconds = (time.monotonic() - began) * slots / SHORT
    if ended.returncode or seconds < LEAST_SECONDS:
        return None
    say(f"{slots:,} slots, some {time_of(seconds)}")
    return Clock(seconds)


def time_of(seconds):
    """A time in words."""
    minutes, rest = divmod(round(seconds), 60)
    hours, minutes = divmod(minutes, 60)
    if hours:
        return f"{hours} h {minutes} min"
    return f"{minutes} min {rest} s" if minutes else f"{rest} s"
