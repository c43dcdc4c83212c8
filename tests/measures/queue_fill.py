"""Tests of how full a queue was in each slot, and of its figure."""

import io
import tempfile
import unittest
from bisect import bisect_right
from pathlib import Path
from unittest import mock

from measure import report
from measure.queue_names import QueueName, read_name

from .common import DATA, PACKETS, QUEUES, REPORT, TOOLS, TOP, lacks, run

# Of the run of `common`: in slots 0 to 6 the packets and the cells of each queue, by hand from its slot lines.
FILLS = {
    "0>*:0m": ([0, 0, 1, 1, 1, 1, 0], [0, 0, 3, 2, 1, 1, 0]),
    "1>0:0u": ([0, 0, 1, 0, 0, 0, 0], [0, 0, 1, 0, 0, 0, 0]),
    "1>2:0u": ([0, 1, 1, 1, 1, 0, 0], [0, 2, 1, 1, 1, 0, 0]),
}


@unittest.skipIf(lacks("pandas"), lacks("pandas"))
class Fills(unittest.TestCase):
    def fill(self, name, text=REPORT, packets=PACKETS):
        from measure.packets import read_packets
        from measure.queue_fill import fill_of

        return fill_of(read_packets(io.StringIO(packets)), report.read_report(text), read_name(name))

    def test_by_hand(self):
        """With slot lines cells too; by them and without them the same packets."""
        bare = REPORT[:REPORT.index("slot 0")]
        for name, (packets, cells) in FILLS.items():
            self.assertEqual(self.fill(name), (packets, cells, [], range(7)))
            self.assertEqual(self.fill(name, bare), (packets, None, [], range(7)))

    def test_long_runs(self):
        """Of these the slots are kept in which the number changes, and by them it is the same in every slot."""
        bare = REPORT[:REPORT.index("slot 0")]
        with mock.patch("measure.queue_fill.MOST_SLOTS", 6):
            for name, (packets, _) in FILLS.items():
                found = self.fill(name, bare)
                self.assertEqual([found.packets[bisect_right(found.slots, slot) - 1] for slot in range(7)], packets)
                self.assertTrue(set(found.slots) >= {0, 6} and len(found.slots) < 6, found)
            long = self.fill("1>0:0", bare.replace("slots 7", "slots 4294967295"))
            self.assertEqual((long.slots, long.packets), ([0, 2, 3, 4294967294], [0, 1, 0, 0]))

    def test_peaks_of_jobs(self):
        """The greatest number of cells, and its first slot, are those that the reports of jobs tell of their queues."""
        from measure.packets import read_packets
        from measure.queue_fill import fill_of

        tried = 0
        for path in sorted(TOP.glob("tests/jobs/*/expected/out.packets.csv")):
            told = report.read_report((path.parent / "out.report").read_text())
            packets = read_packets(path) if told.queues and told.slots else None
            for queue in told.queues if packets is not None else ():
                name = QueueName(queue.input, queue.output, queue.level)
                found = fill_of(packets, told._replace(queues=None), name)
                peak = max(found.cells)
                counted = peak, found.cells.index(peak), len(found.dropped)
                self.assertEqual(counted, (queue.peak, queue.slot, queue.dropped))
                tried += 1
        self.assertGreater(tried, 50)

    def test_dropped(self):
        """A queue that drops all its packets: nothing waits, and the slots are told."""
        rows = "2,0,20,1,dropped,1,u,0,3,,\n2,1,20,1,dropped,1,u,0,4,,\n"
        self.assertEqual(self.fill("2>0:1", packets=PACKETS + rows), ([0] * 7, [0] * 7, [3, 4], range(7)))

    def test_names(self):
        for word, told in (("0>1:2", "0>1:2u"), ("10>63:3u", "10>63:3u"), ("0>*:2", "0>*:2m"), ("0>*:2m", "0>*:2m")):
            self.assertEqual(str(read_name(word)), told)
        for word in ("0", "0>1", "0>1:4", "0>1:2m", "0>*:2u", "a>1:0", "0>1:0 "):
            with self.subTest(word), self.assertRaisesRegex(ValueError, "is no queue; one is named I>J:L"):
                read_name(word)

    def test_files_of_two_runs(self):
        """Slots that serve a packet at other times or more often, and another peak in the report."""
        wrong = {
            "the slots do not serve packet 0 of the queue 1>2:0u so that it departs as told":
                REPORT.replace("0>1:0m 1>2:0u", "0>1:0m"),
            "a slot serves more cells of the queue 1>2:0u than came":
                REPORT.replace("slot 6 used 0 first 0", "slot 6 used 1 first 1 1>2:0u"),
            "the queue 1>2:0u has at most 2 cells in slot 1, and by the report 3 in slot 1":
                REPORT.replace("slot 0", QUEUES.replace("cells 2 peak 2", "cells 2 peak 3") + "slot 0", 1),
        }
        for fault, text in wrong.items():
            with self.subTest(fault), self.assertRaisesRegex(ValueError, fault):
                self.fill("1>2:0", text)
        with self.assertRaisesRegex(ValueError, "no packet came to the queue 2>2:0u"):
            self.fill("2>2:0")


@unittest.skipIf(lacks("pandas", "matplotlib"), lacks("pandas", "matplotlib"))
class Figures(unittest.TestCase):
    def test_figures(self):
        """One for each queue, with its numbers and what it was drawn from."""
        with tempfile.TemporaryDirectory() as name:
            for suffix in ("report", "packets.csv"):
                Path(name, f"out.{suffix}").write_bytes((DATA / f"all_flags_islip.{suffix}").read_bytes())
            status, told = run(TOOLS / "plot", "--queue", "1>1:0", "--queue", "2>*:3", Path(name, "out.report"))
            self.assertEqual((status, told.count("\n")), (0, 4), told)
            drawn = Path(name, "out.queue_1_1_0u.svg").read_text()
            for text in ("cells, at most 8", "dropped packets, 1", "--queue '1&gt;1:0u'", "queue 1&gt;1:0u"):
                self.assertIn(text, drawn)
            self.assertGreater(Path(name, "out.queue_2_all_3m.png").stat().st_size, 1000)

    def test_faults(self):
        with tempfile.TemporaryDirectory() as name:
            report_file = Path(name, "one.report")
            report_file.write_text(REPORT)
            told = f"tools/plot: {name}/one: there is no packets file, from which queues are drawn\n"
            self.assertEqual(run(TOOLS / "plot", "--queue", "1>2:0", report_file), (1, told))
            status, told = run(TOOLS / "plot", "--queue", "1>2:0", "--sweep", report_file)
            self.assertEqual(status, 2, told)
            self.assertEqual(told.splitlines()[-1], "plot: error: --sweep and --queue do not go together")
