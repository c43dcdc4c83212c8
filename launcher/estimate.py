"""How long the rest of a proof takes, by the seconds that the proofs of the crates took before.

data/proof_seconds.md has them, as `dev/proof_times` prints them. `rt ci` proves crates side by side, each
after those below it, those with the longest chain above them first, and one with several jobs where processors idle;
what was measured so far says how fast this machine is.
"""

import os
import re

ROW = re.compile(r"^\| `(\w+)` \| ([\d,]+) \| [\d,]+ \|$", re.M)
MOST_JOBS = 4  # Of one crate.
GAIN = 0.7  # Of a job beyond the first.
# A run by the clock over that time: starts, what is written, and the building at the end.
BY_THE_CLOCK = 1.2
# The part of a proof for which what was measured before counts as much as what is measured now.
TRUSTED = 0.1


def seconds_by_crate():
    """The processor seconds of the proof of each crate."""
    with open(os.path.join(os.path.dirname(__file__), "data", "proof_seconds.md"), encoding="utf-8") as file:
        return {name: int(seconds.replace(",", "")) for name, seconds in ROW.findall(file.read())}


class Estimate:
    """The rest of one run, of these crates with those below each, on so many processors."""

    def __init__(self, below, processors):
        self.below = below
        self.processors = processors
        known = seconds_by_crate()
        mean = sum(known.values()) / max(1, len(known))
        self.seconds = {name: known.get(name, mean) for name in below}
        self.chain = dict(self.seconds)
        for name in reversed(list(below)):
            for other in below[name]:
                self.chain[other] = max(self.chain[other], self.seconds[other] + self.chain[name])

    def left(self, done):
        """The seconds in which what is not done is proved."""
        now, done, running = 0, set(done), {}
        while len(done) < len(self.below):
            ready = [name for name in self.below if name not in done and name not in running and done.issuperset(self.below[name])]
            ready.sort(key=lambda name: -self.chain[name])
            for at, name in enumerate(ready):
                idle = self.processors - sum(jobs for _, jobs in running.values())
                if idle > 0:
                    jobs = max(1, min(MOST_JOBS, idle // (len(ready) - at)))
                    running[name] = now + self.seconds[name] / (1 + GAIN * (jobs - 1)), jobs
            first = min(running, key=running.get)
            now = running.pop(first)[0]
            done.add(first)
        return BY_THE_CLOCK * now

    def minutes_left(self, proved, kept, elapsed):
        """The minutes that are left where some crates were proved and others kept from earlier runs, after so many seconds."""
        expected = self.left(kept)
        left = self.left({*proved, *kept})
        # Before the first crate is proved, all that is known is how long it has been.
        by_now = expected - left if proved else min(elapsed, expected)
        trusted = TRUSTED * expected
        slowness = (elapsed + trusted) / (by_now + trusted) if trusted else 1
        return max(1, round((expected - by_now) * slowness / 60))
