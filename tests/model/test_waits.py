"""Tests of waits, and of their bounds in windows of slots, in runs and over all cases of two ports."""

import itertools
import random
import unittest

from .ports import NO_PORTS, distance
from .rounds import Pointers
from .rows import EMPTY_ROW, NO_MATCH, UNICAST, Entry, Row, row_of, served_part
from .samples import entries, header, keeping_row, random_pointers, random_row, raw, record, run
from .schedulers import SCHEDULERS, completes, firm, islip, rrm
from .waits import longest_waits

# In so many slots a request of the best level is served where no multicast of its level is asked for.
BOUNDS = {"islip": lambda ports: ports * ports * (ports + 1) // 2, "firm": lambda ports: ports * ports}


class Waits(unittest.TestCase):
    def test_what_ends_a_wait(self):
        rows = [row_of({1: {0}}, {1: {0, 1}}), EMPTY_ROW]
        unicast, multicast = entries("0>0:1u"), entries("0>0:1m")
        matches = [multicast, multicast, unicast, multicast]
        self.assertEqual(longest_waits((rows, match) for match in matches), [0, 2, 0, 0])
        both = [row_of({0: {0}, 1: {0}}), EMPTY_ROW]
        self.assertEqual(longest_waits([(both, entries("0>0:0u"))] * 3), [0, 3, 0, 0])
        nothing = [EMPTY_ROW] * 2
        self.assertEqual(longest_waits([(rows, multicast), (nothing, NO_MATCH), (rows, multicast)]), [0, 1, 0, 0])
        self.assertEqual(longest_waits([]), [0] * 4)


class Window:
    """Some slots of rows that keep, at random, from any pointers: nothing of a better level than `best` is asked
    for."""

    def __init__(self, rng, name, with_heads=True):
        self.ports, self.rounds = rng.randint(1, 4), rng.randint(1, 4)
        self.begin, self.best, self.with_heads = rng.randrange(2), rng.randrange(4), with_heads
        density, heads = rng.choice((0.02, 0.1, 0.4, 1)), rng.choice((0.3, 1))
        rows = [self.row(rng, rng.choice((0.3, 0.7, 1)), heads) for _ in range(self.ports)]
        pointers = random_pointers(rng, self.ports)
        self.rows, self.decisions, self.pointers = [], [], []
        for slot in range(max(2 * self.ports, BOUNDS.get(name, BOUNDS["islip"])(self.ports))):
            decision = SCHEDULERS[name](self.ports, self.rounds, self.begin + slot, rows, pointers)
            for kept, new in zip((self.rows, self.decisions, self.pointers), (rows, decision, pointers)):
                kept.append(new)
            pointers = decision.pointers
            served = [served_part(decision.match, port) for port in range(self.ports)]
            rows = [keeping_row(row, part, self.row(rng, density, heads)) for row, part in zip(rows, served)]

    def row(self, rng, density, heads):
        row = random_row(rng, self.ports, self.best, density, heads)
        multicast = list(row.multicast)
        multicast[self.best] = multicast[self.best] if self.with_heads else NO_PORTS
        return Row(row.unicast, tuple(multicast))

    def first_served(self, port, output):
        entry = Entry(port, output, self.best, UNICAST)
        return next((slot for slot, it in enumerate(self.decisions) if entry in it.match), None)

    def first_completed(self, port):
        for slot, (rows, decision) in enumerate(zip(self.rows, self.decisions)):
            fan = rows[port].multicast[self.best]
            if fan and completes(fan, decision.match, port, self.best):
                return slot
        return None


class Bounds(unittest.TestCase):
    def test_unicast_is_served_in_time(self):
        """And the number by which the proof counts falls from slot to slot."""
        rng = random.Random(5)
        for _ in range(150):
            name = rng.choice(("islip", "firm"))
            window = Window(rng, name, with_heads=False)
            for port in range(window.ports):
                for output in window.rows[0][port].unicast[window.best]:
                    served = window.first_served(port, output)
                    self.assertIsNotNone(served)
                    self.assertLess(served, BOUNDS[name](window.ports))
                    numbers = [self.number(name, window, slot, port, output) for slot in range(served + 1)]
                    self.assertTrue(all(before > after for before, after in zip(numbers, numbers[1:])), numbers)

    def number(self, name, window, slot, port, output):
        """How far the grant pointer is from the input, and how far the input that is granted is from taking the
        output."""
        ports, level, pointers = window.ports, window.best, window.pointers[slot]
        winner = window.decisions[slot].rounds.first_round.grants[output].input
        pointer = pointers.grant[output, level]
        far, near = distance(ports, pointer, port), distance(ports, pointer, winner)
        turns = distance(ports, pointers.accept[winner, level], output)
        if name == "firm":
            return far * ports + (turns if near == 0 else 0)
        return far * ports * ports + near * ports + turns

    def test_multicast_completes_within_two_slots_a_port(self):
        """Under each scheduler, and the shared pointer comes nearer in each odd slot."""
        rng = random.Random(25)
        for _ in range(150):
            window = Window(rng, rng.choice(sorted(SCHEDULERS)))
            for port in range(window.ports):
                if window.rows[0][port].multicast[window.best]:
                    self.check_multicast(window, port)

    def check_multicast(self, window, port):
        done = window.first_completed(port)
        self.assertIsNotNone(done)
        self.assertLess(done, 2 * window.ports)
        far = [distance(window.ports, it.shared[window.best], port) for it in window.pointers[:done + 1]]
        for slot, (before, after) in enumerate(zip(far, far[1:])):
            self.assertLessEqual(after, before - (window.begin + slot) % 2)

    def test_all_cases_of_two_ports(self):
        for scheduler, most in ((islip, {1: 4, 2: 3}), (firm, {1: 4, 2: 3}), (rrm, {1: 4, 2: 4})):
            for rounds, slots in most.items():
                self.assertEqual(Cases(2, rounds, scheduler).slots_needed(), slots)

    def test_rrm_starves_a_request_of_three_ports(self):
        """From slot 1 on output 0 grants input 0 in each even slot, in which that takes output 2 first."""
        for rounds, slots in ((1, 10), (2, 40), (64, 10)):
            longest = {}
            for name in SCHEDULERS:
                ended = run(*starving(slots), f"--pace-us 1 --rounds {rounds} --scheduler {name}")
                longest[name] = int(ended.summary()["longest"].split()[0])
            self.assertTrue(longest["rrm"] >= 2 * slots and longest["islip"] < 18 and longest["firm"] < 9)


def starving(slots):
    """A table and captures of one-cell packets for a pace of a microsecond."""
    arrivals = [(0, 0, 0), (1, 0, 0), *((1 + slot, 1, 0) for slot in range(2 * slots + 1))]
    arrivals += [(2 + slot, 0, 1 if slot % 2 else 2) for slot in range(2 * slots)]
    table = "".join(f"10.0.{output}.0/24 {output}\n" for output in range(3)).encode()
    inputs = [header()] * 3
    for time, port, output in sorted(arrivals):
        inputs[port] += record(raw(20, f"10.0.{output}.1"), 0, time)
    return table, inputs


class Cases:
    """All pointers and all rows of one level of unicast. The rules know distances alone, so the request of input 0 for
    output 0 stands for each other."""

    def __init__(self, ports, rounds, scheduler):
        self.ports, self.rounds, self.scheduler = ports, rounds, scheduler
        pairs = list(itertools.product(range(ports), repeat=2))
        others = (more for count in range(len(pairs)) for more in itertools.combinations(pairs[1:], count))
        self.asked = [frozenset({(0, 0), *more}) for more in others]
        self.places = list(itertools.product(range(ports), repeat=2 * ports))

    def next_of(self, place, asked):
        """The pointers and what is still asked after a slot, None where the request is served."""
        ports = range(self.ports)
        grant, accept = ({(port, 0): place[part + port] for port in ports} for part in (0, self.ports))
        pointers = Pointers(self.ports, grant, accept)
        rows = [row_of({0: {output for port, output in asked if port == at}}) for at in ports]
        decision = self.scheduler(self.ports, self.rounds, 0, rows, pointers)
        served = {(entry.input, entry.output) for entry in decision.match}
        after = [table[port, 0] for table in (decision.pointers.grant, decision.pointers.accept) for port in ports]
        return None if (0, 0) in served else (tuple(after), asked - served)

    def slots_needed(self):
        """The most slots until the request is served, where any more may be asked in each slot."""
        step = {(place, asked): self.next_of(place, asked) for place in self.places for asked in self.asked}
        needed = dict.fromkeys(step, 1)
        while True:
            most = {
                (place, asked): max(needed[place, more] for more in self.asked if asked <= more)
                for place in self.places for asked in self.asked
            }
            again = {case: 1 if after is None else 1 + most[after] for case, after in step.items()}
            if again == needed:
                return max(needed.values())
            needed = again
