"""Tests of the traffic of a simulation: its load, its bursts and its outputs, beside their probabilities."""

import math
import unittest

from .sources import HALF, Source, Stream, destination
from .words import MILLION, Job


class Streams(unittest.TestCase):
    def test_words(self):
        """The generator from state 0 begins with the words that its authors publish."""
        stream = Stream(0, 0)
        stream.state = 0
        published = [16_294_208_416_658_607_535, 7_960_286_522_194_355_700, 487_617_019_471_545_679]
        self.assertEqual([stream.next() for _ in range(3)], published)

    def test_streams_differ(self):
        first = {Stream(seed, number).next() for seed in range(20) for number in range(65)}
        self.assertEqual(len(first), 20 * 65)


class CountedSource(Source):
    """A source that counts its bursts."""

    bursts = 0

    def begins(self, low):
        begins = super().begins(low)
        self.bursts += begins
        return begins


class Sources(unittest.TestCase):
    def test_load_and_bursts(self):
        slots = 30_000
        for burst, load in ((1, 900_000), (16, 500_000), (16, 950_000), (4, 100_000)):
            source = CountedSource(Job(3, slots, 16, load=load, burst=burst), 3)
            came = sum(source.next() is not None for _ in range(slots))
            self.assertLess(abs(came / slots - load / MILLION), 0.04)
            self.assertLess(abs(came / source.bursts / burst - 1), 0.06)

    def test_edges(self):
        for load, expected in ((0, False), (MILLION, True)):
            source = Source(Job(1, 100, 4, load=load, burst=16), 0)
            self.assertTrue(all((source.next() is not None) == expected for _ in range(200)))

    def test_outputs(self):
        """By chi-square over 20,000 bursts: within four standard deviations of its mean."""
        port, count = 3, 20_000
        for pattern, ports, weight, share in (
            ("uniform", 16, 0, lambda j: 1 / 16), ("diagonal", 16, 0, lambda j: {3: 2 / 3, 4: 1 / 3}.get(j, 0)),
            ("log-diagonal", 8, 0, lambda j: 2 ** (7 - (j - 3) % 8) / 255),
            ("hot-spot", 16, 50_000, lambda j: 0.95 / 16 + (0.05 if j == 0 else 0)),
            ("unbalanced", 16, 400_000, lambda j: 0.6 / 16 + (0.4 if j == 3 else 0)),
        ):
            job, stream, seen = Job(5, 1, ports, pattern=pattern, weight=weight), Stream(5, 0), [0] * ports
            for _ in range(count):
                seen[destination(job, port, stream.next())] += 1
            cells = [(found, count * share(output)) for output, found in enumerate(seen) if share(output)]
            self.assertEqual(sum(found for found, _ in cells), count)
            chi, freedom = sum((found - mean) ** 2 / mean for found, mean in cells), len(cells) - 1
            self.assertLess(abs(chi - freedom), 4 * math.sqrt(2 * freedom), pattern)

    def test_last_words(self):
        job = Job(1, 1, 64)
        self.assertEqual(destination(job, 0, HALF - 1), 63)
        self.assertEqual(destination(Job(1, 1, 5, pattern="diagonal"), 4, 2 ** 64 - 1), 0)
