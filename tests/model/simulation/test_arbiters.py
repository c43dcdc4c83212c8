"""Tests of the schedulers of a simulation: they decide as those of the whole switch do over one level of unicast."""

import random
import unittest

from ..rounds import Pointers
from ..rows import row_of
from ..schedulers import SCHEDULERS
from .arbiters import Random, Rotating
from .queues import Queues
from .words import Job


class Arbiters(unittest.TestCase):
    def test_rotating_as_the_whole_switch(self):
        rng = random.Random(1)
        for _ in range(40):
            ports, rounds, name = rng.randint(1, 6), rng.randint(1, 5), rng.choice(sorted(SCHEDULERS))
            arbiter, pointers = Rotating(name, ports, rounds), Pointers(ports)
            for _ in range(8):
                rows = [{output for output in range(ports) if rng.random() < 0.6} for _ in range(ports)]
                match = arbiter.decide(rows)
                decision = SCHEDULERS[name](ports, rounds, 0, [row_of({0: outputs}) for outputs in rows], pointers)
                pointers = decision.pointers
                self.assertEqual(match.fed, {entry.output: entry.input for entry in decision.match})
                self.assertEqual(sum(1 for added in match.added if added), decision.used)
                self.assertEqual(match.added[0], decision.first)
                for step, table in (("grant", pointers.grant), ("accept", pointers.accept)):
                    self.assertEqual(arbiter.pointers[step], [table[port, 0] for port in range(ports)])

    def test_random_takes_any_with_the_same_probability(self):
        arbiter, taken = Random(3, 1, 5), [0, 0, 0]
        for _ in range(6_000):
            taken[arbiter.choose("grant", 0, {0, 1, 2})] += 1
        self.assertTrue(all(abs(count - 2_000) < 150 for count in taken), taken)

    def test_random_matches_are_lawful(self):
        rng, arbiter = random.Random(2), Random(5, 5, 9)
        for _ in range(100):
            rows = [{output for output in range(5) if rng.random() < 0.4} for _ in range(5)]
            match = arbiter.decide(rows)
            self.assertEqual(len(set(match.fed.values())), len(match.fed))
            self.assertTrue(all(output in rows[port] for output, port in match.fed.items()))
            free = [port for port in range(5) if port not in match.fed.values()]
            self.assertFalse(any(rows[port] - set(match.fed) for port in free))


class Waits(unittest.TestCase):
    def test_wait_is_counted_from_its_first_slot(self):
        """Two inputs ask output 0 in slot 0: one is served then, the other, which has waited one slot, in slot 1."""
        queues = Queues(Job(1, 4, 2, rounds=1))
        for port in (0, 1):
            self.assertTrue(queues.enter(0, port, 0))
        self.assertEqual([cell.input for cell in queues.serve(0).cells], [0])
        self.assertEqual((queues.longest, queues.count(), queues.age(1)), (1, 1, 1))
        self.assertEqual([cell.input for cell in queues.serve(1).cells], [1])
        self.assertEqual((queues.longest, queues.peak), (1, 1))
