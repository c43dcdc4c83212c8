"""Tests of what reads the program's files, and of waiting cells, waits and delays."""

import io
import json
import unittest
from collections import Counter
from pathlib import Path

from measure import journal, report, waits

from .common import DATA, JOURNAL, PACKETS, REPORT, TOP, lacks, run

# Journals of one slot, and the offset of the first field that is wrong or cut.
BAD_JOURNALS = [
    ("", 0),
    ("54544a00020400000000000100000000ff00ff00", 0),
    ("54544a31020400000000000000000000ff00ff00", 8),
    ("54544a31020400000000000100000000ff00ff", 19),
    ("54544a31020400000000000100000000ff00ff0000", 20),
    ("54544a310204000000000001000200", 13),
    ("54544a3102040000000000010101000000000000000400000000ff00", 14),
    ("54544a31020400000000000100000000ff000008", 19),
]

JOBS = TOP / "tests/jobs"
RESULT = TOP / "tools/measure/run_result.py"


class Files(unittest.TestCase):
    def test_report(self):
        found = report.read_report(REPORT)
        self.assertEqual((found.summary["cells"], found.longest), (9, (2, 0, 0, 0)))
        self.assertEqual(found.outputs, [(1, 1), (1, 3), (2, 5)])
        expected = report.Slot(1, 2, [report.Pair(0, 1, 0, True), report.Pair(1, 2, 0, False)])
        self.assertEqual(found.slots[4], expected)
        self.assertEqual(found.reference[1], report.Reference(ends=5, runs=5, lead=0, extra=0))
        bare = report.read_report(REPORT[:REPORT.index("slot 0")])
        self.assertEqual((bare.slots, bare.reference), (None, None))
        last = "reference 2 ends 6 runs 6 lead 0 extra 0\n"
        cut = (REPORT[:40], REPORT.replace(last, ""), REPORT.replace(" extra 0\n", "\n"))
        changed = (REPORT.replace("slot 3", "slot 4"), REPORT.replace("1>2:0u", "1>2:4u"), REPORT + last)
        for wrong in (*cut, *changed, REPORT.replace("reference 1", "reference 2")):
            self.assertRaises(report.BadReport, report.read_report, wrong)

    def test_journal(self):
        found = journal.read_journal(JOURNAL)
        slots = list(found.slots())
        self.assertEqual((found.ports, found.rounds, len(slots)), (3, 2, 7))
        self.assertEqual(slots[2].posts[0], journal.Post((0,) * 4, (6, 0, 0, 0), True))
        fed = [journal.Fed(1, 0, False), journal.Fed(0, 0, True), journal.Fed(0, 0, True)]
        self.assertEqual(slots[2].outputs, fed)
        # The journal and the slot lines tell the same matches.
        told = report.read_report(REPORT).slots
        self.assertEqual([pairs_of(slot) for slot in slots], [slot.pairs for slot in told])

    def test_examples(self):
        """The journals and the slot lines of the examples tell the same matches."""
        journals = sorted(TOP.glob("examples/*/expected/*.journal"))
        self.assertTrue(journals)
        for name in journals:
            with self.subTest(name):
                told = report.read_report(name.with_suffix(".report").read_text())
                found = list(journal.read_journal(name.read_bytes()).slots())
                self.assertEqual([pairs_of(slot) for slot in found], [slot.pairs for slot in told.slots])

    def test_bad_journals(self):
        for text, at in BAD_JOURNALS:
            with self.subTest(text):
                with self.assertRaises(journal.BadJournal) as fault:
                    list(journal.read_journal(bytes.fromhex(text)).slots())
                self.assertEqual(fault.exception.at, at)

    def test_waits(self):
        counts = waits.served_waits(journal.read_journal(JOURNAL))
        self.assertEqual(counts, [Counter({0: 2, 2: 1}), Counter(), Counter(), Counter()])

    def test_queue_lines(self):
        told = (DATA / "all_flags_islip.report").read_text()
        found = report.read_report(told)
        self.assertEqual(len(found.queues), 8)
        self.assertEqual(found.queues[4], report.Queue(1, 1, 0, packets=5, dropped=1, cells=11, peak=8, slot=11))
        self.assertEqual(found.queues[2], report.Queue(0, None, 3, packets=2, dropped=0, cells=2, peak=1, slot=0))
        for wrong in (told.replace("deepest 8\n", ""), told.replace("deepest 8", "deepest 7"), told.replace(">*:3m", ">*:3u")):
            self.assertRaises(report.BadReport, report.read_report, wrong)


def packets_of(text):
    """The packets of a file with this text."""
    from measure import packets

    return packets.read_packets(io.StringIO(text))


def packets_of_job(name):
    """The packets and the report that a job of tests/jobs writes."""
    folder = JOBS / name / "expected"
    return packets_of((folder / "out.packets.csv").read_text()), report.read_report((folder / "out.report").read_text())


@unittest.skipIf(lacks("pandas"), lacks("pandas"))
class Packets(unittest.TestCase):
    def test_cells_waiting(self):
        from measure.waiting import cells_waiting

        self.assertEqual(cells_waiting(packets_of(PACKETS), report.read_report(REPORT)), [0, 1, 3, 2, 1, 0, 0])
        found, told = packets_of_job("packets_of_one_flow_with_other_fan_outs")
        self.assertEqual(cells_waiting(found, told)[-1], 0)

    def test_packets_of_another_run(self):
        """Packets that come earlier or later, depart elsewhere or in other slots, or are missing, are refused."""
        from measure.waiting import Misfit, cells_waiting

        told = report.read_report(REPORT)
        one, two = "1,0,60,2,forwarded,0,u,2,1,5,4\n", "1,1,20,1,forwarded,0,u,0,2,3,1\n"
        wrong = {
            "later": two.replace("0,2,3,1", "0,3,4,1"),
            "elsewhere": two.replace("u,0", "u,1"),
            "other departure": two.replace("3,1\n", "4,2\n"),
            "missing": "",
            "too many": two + two.replace("1,1,20", "1,2,20"),
            "too late": two + "1,2,20,1,forwarded,0,u,0,9,10,1\n",
        }
        for name, rows in wrong.items():
            with self.subTest(name):
                self.assertRaises(Misfit, cells_waiting, packets_of(PACKETS.replace(two, rows)), told)
        self.assertRaises(Misfit, cells_waiting, packets_of(PACKETS.replace(one, one.replace("60,2", "60,1"))), told)

    def test_counts_of_another_run(self):
        """Packets are of a run where its report has as many of each state, at each output, and as many slots."""
        from measure.packets import Misfit, check_run

        told = report.read_report(REPORT)
        check_run(packets_of(PACKETS), told)
        last = "1,1,20,1,forwarded,0,u,0,2,3,1\n"
        wrong = {
            "forwarded 2": "",
            "dropped 1": last + "1,2,20,1,dropped,0,u,0,2,,\n",
            "unrouted 1": last + "1,2,20,1,unrouted,,,,2,,\n",
            "slots 8": last.replace("2,3,1", "2,7,5"),
            "output 0 packets 0 cells 0": last.replace("u,0", "u,1"),
            "output 0 packets 1 cells 2": last.replace("20,1", "60,2"),
        }
        for fault, rows in wrong.items():
            with self.subTest(fault), self.assertRaisesRegex(Misfit, f"^{fault}, and the report has "):
                check_run(packets_of(PACKETS.replace(last, rows)), told)
        for name in sorted(path.parents[1].name for path in Path(JOBS).glob("*/expected/out.packets.csv")):
            with self.subTest(name):
                check_run(*packets_of_job(name))

    def test_delays(self):
        """Delays of all levels and kinds: multicast counts at each output, and dropped packets have none."""
        from measure.packets import delay_counts

        self.assertEqual(delay_counts(packets_of(PACKETS)), {(0, "m"): Counter([3, 4]), (0, "u"): Counter([1, 4])})
        states, _ = packets_of_job("packets_of_all_states")
        self.assertEqual(delay_counts(states), {(0, "m"): Counter({2: 6}), (0, "u"): Counter({1: 1})})
        overtaken, _ = packets_of_job("packets_levels_overtake")
        self.assertEqual(delay_counts(overtaken), {(0, "u"): Counter([1]), (2, "u"): Counter([6, 7])})

    def test_pieces(self):
        """A file in pieces of any size has the same rows, those of a packet in one piece, and the same counts."""
        import pandas

        from measure.packets import counts_of, packet_pieces

        for name in ("packets_multicast_departs_twice", "packets_none", "packets_of_all_states", "random_queues_and_packets_0"):
            path = JOBS / name / "expected/out.packets.csv"
            whole, _ = packets_of_job(name)
            for rows in (1, 2, 7, 1_000_000):
                pieces = list(packet_pieces(path, rows))
                self.assertTrue(pandas.concat(pieces, ignore_index=True).equals(whole), (name, rows))
                ends = [(piece.iloc[place]["input"], piece.iloc[place]["packet"]) for piece in pieces if len(piece) for place in (0, -1)]
                self.assertEqual([pair for pair in zip(ends[1::2], ends[2::2]) if pair[0] == pair[1]], [])
                self.assertEqual(vars(counts_of(pieces)), vars(counts_of([whole])))
        for text, fault in (("a,b\n1,2\n", "no packets file: "), (PACKETS.replace("forwarded", "gone"), "a state is none of")):
            with self.assertRaisesRegex(ValueError, fault):
                list(packet_pieces(io.StringIO(text), 1))

    def test_result_of_a_run(self):
        """Of 17 packets one is dropped; those that come in slots 4 to 14 are measured. The file of another run is refused."""
        words = ["--kind", "trace", "--load", "0.5", "--seed", "1"]
        status, result = run(RESULT, DATA / "all_flags_islip.report", DATA / "all_flags_islip.packets.csv", *words)
        self.assertEqual(status, 0, result)
        found = json.loads(result)
        self.assertEqual((found["dropped"], found["came_load"]), (1, round(38 / (3 * 16), 4)))
        self.assertEqual((found["departed"], found["delays"], found["mean_delay"]), (13, 102, round(102 / 13, 4)))
        self.assertEqual((found["p99_9"], found["longest_delay"]), (19, 19))
        status, told = run(RESULT, DATA / "all_flags_islip.report", DATA / "packets_of_all_states.packets.csv", *words)
        self.assertEqual((status, told.count("\n")), (1, 1))
        self.assertIn("the packets file is of another run", told)

    def test_files_of_jobs(self):
        """The packets files of all jobs are read, and their packets are those of the reports and the queue lines."""
        names = sorted(path.parents[1].name for path in Path(JOBS).glob("*/expected/out.packets.csv"))
        self.assertGreater(len(names), 9)
        for name in names:
            with self.subTest(name):
                found, told = packets_of_job(name)
                states = found.drop_duplicates(["input", "packet"])["state"].value_counts()
                for state in ("oversize", "unrouted", "dropped", "forwarded"):
                    self.assertEqual(states.get(state, 0), told.summary[state])
                self.assertEqual((found["state"] == "forwarded").sum(), told.summary["copies"])
                for queue in told.queues or ():
                    place = (found["input"] == queue.input) & (found["level"] == queue.level)
                    place &= found["kind"] == "m" if queue.output is None else (found["kind"] == "u") & (found["output"] == queue.output)
                    there = found[place].drop_duplicates("packet")
                    self.assertEqual((len(there), (there["state"] == "dropped").sum()), (queue.packets, queue.dropped))

    def test_wrong_files(self):
        wrong = (DATA / "packets_of_all_states.packets.csv").read_text()
        for old, new in ((",delay", ""), ("unrouted", "lost"), ("1178,1", "1178,2"), ("1177", "soon"), ("1177", "1177.5")):
            with self.subTest(new), self.assertRaisesRegex(ValueError, "^no packets file: "):
                packets_of(wrong.replace(old, new))

    def test_numbers_of_a_packets_file(self):
        """They are whole numbers, also in columns with empty fields."""
        kinds = packets_of((DATA / "packets_of_all_states.packets.csv").read_text()).dtypes
        self.assertEqual({name for name in kinds.index if kinds[name] != "Int64"}, {"state", "kind"})


def pairs_of(slot):
    """The matched pairs of a slot of a journal, as a slot line tells them."""
    fed = [(at, feeder) for at, feeder in enumerate(slot.outputs) if feeder]
    return [report.Pair(by.input, at, by.level, by.multicast) for at, by in fed]
