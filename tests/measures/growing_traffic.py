"""Tests of the traffic under which a queue of iSLIP grows for ever: of the example and the jobs that have it."""

import unittest
from collections import Counter

from launcher import captures
from launcher.captures import Arrival
from measure.report import read_report

from .common import TOP, lacks

if not lacks("numpy"):
    from measure.bounds import Cells, may_grow

PERIODS = 10
JOBS = TOP / "tests/jobs"
# Of each folder the ports, and the cycles of a period.
FOLDERS = {JOBS / "growth_2": (2, 2), TOP / "examples/growth": (4, 1), JOBS / "growth_16": (16, 1), JOBS / "growth_64": (64, 1)}


def growing_traffic(ports, cycles, periods):
    """Periods of some cycles of 2 * ports - 1 slots, in the order of slots and then of inputs.

    In a cycle the other inputs get a cell for output 0 one after the other; input 0 gets one for output 0 in the first
    slot, and then one for each other output. In its last slot the last cycle of a period brings input 0 one more for output 0.
    """
    found = []
    for number in range(cycles * periods):
        begin = number * (2 * ports - 1)
        found += [(begin + card - 1, card, 0) for card in range(1, ports)]
        found += [(begin, 0, 0), *((begin + ports - 2 + output, 0, output) for output in range(1, ports))]
        if number % cycles == cycles - 1:
            found.append((begin + 2 * ports - 2, 0, 0))
    return [Arrival(slot, card, (output,), 0, 1) for slot, card, output in sorted(found)]


class Growing(unittest.TestCase):
    def test_captures(self):
        """Those of the example and the jobs have the traffic."""
        for folder, (ports, cycles) in FOLDERS.items():
            files = [path.read_bytes() for path in sorted(folder.glob("*.pcap"))]
            found = captures.arrivals_of((folder / "table.txt").read_text(), files, 1)
            self.assertEqual(found, growing_traffic(ports, cycles, PERIODS))

    def test_queue_grows(self):
        """Each period leaves a cell more in the queue, as the independent model has it, and nothing else waits for long."""
        for folder, (ports, cycles) in FOLDERS.items():
            report = read_report((folder / "expected/out.report").read_text())
            first, *others = report.queues
            told = first.name, first.peak, first.slot
            self.assertEqual(told, ("0>0:0u", PERIODS, PERIODS * cycles * (2 * ports - 1) - 1))
            self.assertEqual({queue.peak for queue in others}, {1})

    def test_load(self):
        """At most one packet comes to an input in a slot, and in a period a line gets cycles * ports + 1 cells at most."""
        for ports, cycles in ((2, 1), (2, 4), (3, 2), (16, 1), (16, 4)):
            arrivals = growing_traffic(ports, cycles, 3)
            self.assertEqual(len({(it.slot, it.input) for it in arrivals}), len(arrivals))
            slots = cycles * (2 * ports - 1)
            for lines in (lambda it: it.input, lambda it: it.outputs[0]):
                counts = Counter((lines(it), it.slot // slots) for it in arrivals)
                self.assertEqual(max(counts.values()), cycles * ports + 1)

    @unittest.skipIf(lacks("numpy"), lacks("numpy"))
    def test_contracts_that_it_keeps(self):
        """Where may_grow says so, traffic with a long period keeps the contract; with one port nothing grows."""
        told = 0
        for ports in (2, 3, 4):
            for slots in range(1, 24):
                most = max(mosts(growing_traffic(ports, slots, 2), slots))
                kept = [cells for cells in range(1, slots + 2) if may_grow(cells, slots, ports)]
                told += len(kept)
                for cells in kept:
                    self.assertLessEqual(most, cells)
                    self.assertGreater(cells / slots, ports / (2 * ports - 1))
        self.assertGreater(told, 100)
        self.assertFalse(may_grow(10, 10, 1))


def mosts(arrivals, slots):
    """The most cells that come to each line in so many slots in a row."""
    import numpy

    for lines in (lambda it: it.input, lambda it: it.outputs[0]):
        for line in {lines(it) for it in arrivals}:
            own = numpy.array([(it.slot, it.cells) for it in arrivals if lines(it) == line])
            yield Cells(own[:, 0], own[:, 1]).most(slots)
