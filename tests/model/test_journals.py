"""Tests of journals: their bytes, each of their faults, and what is lawful."""

import random
import unittest

from .faults import Fault
from .journals import (
    AFTER_END, KEEPS, MORE, NO_END, OUTPUT, Journal, JournalSlot, Verdict, journal_bytes, journal_of, read_journal,
    verdict_of
)
from .plans import plan_files
from .rows import EMPTY_ROW, MULTICAST, UNICAST, Feed, Served, feed_of, keeps, row_of
from .runs import run_plan
from .samples import HEAD, HEAD_TABLE, NEW_REQUEST, TWO_PORTS, do, header, random_job, run, run_of, unhex
from .schedulers import SCHEDULERS, schedule
from .waits import longest_waits

FREE = [None, None, None]


def answer(data):
    """How the command `check` ends: its status and what it printed."""
    ended = do("check f", {"f": data})
    return ended.status, ended.out + ended.err


def changed(data, at, *values):
    """Bytes with other ones from a place on."""
    return data[:at] + bytes(values) + data[at + len(values):]


class Bytes(unittest.TestCase):
    def test_one_slot(self):
        data = run(b"", [header(), header()], "--journal").files["out.journal"]
        self.assertEqual(data, unhex("54544a31 02 04 0000 00000001 0000 0000 ff00 ff00"))
        self.assertEqual(answer(data), (0, "yes\nslots 1\nlongest 0 0 0 0\n"))
        self.assertEqual(answer(changed(data, 13, 1)), (7, "no: slot 0 no end\n"))
        self.assertEqual(answer(changed(data, 16, 0, 0)), (7, "no: slot 0 output 0\n"))
        self.assertEqual(answer(data[:19]), (4, "journal: bad at 19\n"))
        self.assertEqual(answer(data + b"\0"), (4, "journal: bad at 20\n"))

    def test_each_field(self):
        """A field that has none of its values is named by its first byte."""
        data = journal_bytes(journal_of(run_of(TWO_PORTS, NEW_REQUEST, rounds=1)))
        self.assertEqual((data[14:24], data[26:32]), (unhex("01 01 0000000000000001"), unhex("0100 ff00 ff00")))
        for at, value, bad in (
            (0, 0x55, 0), (3, 0, 0), (4, 0, 4), (4, 65, 4), (5, 0, 5), (5, 65, 5), (6, 1, 6), (7, 1, 6), (8, 1, 8),
            (13, 2, 13), (16, 1, 16), (23, 0, 16), (23, 8, 16), (26, 3, 26), (27, 8, 27), (28, 0xFE, 28), (29, 1, 29),
        ):
            self.assertEqual(answer(changed(data, at, value)), (4, f"journal: bad at {bad}\n"), (at, value))
        for length in range(len(data)):
            self.assertEqual(answer(data[:length])[0], 4)

    def test_most_slots(self):
        for ports, most in ((32, 262_145), (33, 131_073), (1, 262_145)):
            for count, at in ((most + 1, 8), (most, 12), (0, 8)):
                with self.assertRaises(Fault) as found:
                    read_journal(unhex("54544a31") + bytes([ports, 1, 0, 0]) + count.to_bytes(4, "big"))
                self.assertEqual(found.exception.numbers["at"], at)

    def test_what_is_written_is_read(self):
        rng = random.Random(7)
        for _ in range(20):
            table, inputs, settings = random_job(rng)
            journal = journal_of(run_plan(plan_files(settings, table, inputs)))
            self.assertEqual(read_journal(journal_bytes(journal)), journal)


class Reasons(unittest.TestCase):
    """Journals that are not lawful, made of one that is by a change of one slot."""

    def setUp(self):
        self.journal = journal_of(run_of(TWO_PORTS, NEW_REQUEST, rounds=1))

    def test_lawful(self):
        self.assertEqual(verdict_of(self.journal), Verdict(7, [3, 0, 0, 0]))

    def verdict(self, number, **changes):
        slots = list(self.journal.slots)
        slots[number] = slots[number]._replace(**changes)
        return verdict_of(self.journal._replace(slots=slots))[2:]

    def test_each(self):
        slots, fourth = self.journal.slots, self.journal.slots[4]
        cut, longer = (verdict_of(self.journal._replace(slots=it))[2:] for it in (slots[:6], slots + slots[-1:]))
        self.assertEqual((cut, longer), ((5, NO_END, None), (7, AFTER_END, None)))
        self.assertEqual(self.verdict(4, mores=(True, False, True)), (4, MORE, 1))
        self.assertEqual(self.verdict(4, rows=(fourth.rows[0], EMPTY_ROW, fourth.rows[2])), (4, KEEPS, 1))
        self.assertEqual(self.verdict(4, fed=FREE), (4, OUTPUT, 0))
        self.assertEqual(self.verdict(6, mores=(True,) * 3), (6, NO_END, None))

    def test_their_order(self):
        full, end = row_of({0: {0}}), JournalSlot((EMPTY_ROW,), (False,), [None])
        good = JournalSlot((full,), (True,), [Feed(0, 0, UNICAST)])
        stopped = JournalSlot((full,), (False,), [None])
        for slots, expected in (
            ([end, stopped], (1, AFTER_END, None)), ([stopped], (0, MORE, 0)), ([good], (0, NO_END, None)),
            ([good._replace(fed=[None]), end], (0, OUTPUT, 0)), ([good, end], (None, None, None)),
            ([good._replace(fed=[Feed(0, 1, UNICAST)])], (0, OUTPUT, 0)),
            ([good._replace(fed=[Feed(0, 0, MULTICAST)])], (0, OUTPUT, 0)),
        ):
            self.assertEqual(verdict_of(Journal(1, 1, slots))[2:], expected)

    def test_rest_of_a_head_is_kept(self):
        journal = journal_of(run_of(HEAD_TABLE, HEAD, rounds=1))
        slot = journal.slots[1]
        self.assertEqual(slot.rows[0].multicast[0], {1})
        for rest in ((), {0, 1}, {0}):
            rows = (row_of(multicast={0: rest}), *slot.rows[1:])
            slots = [journal.slots[0], slot._replace(rows=rows), *journal.slots[2:]]
            self.assertEqual(verdict_of(journal._replace(slots=slots))[2:], (1, KEEPS, 0))


class Keeping(unittest.TestCase):
    OLD = row_of({1: {0, 2}}, {1: {0, 1, 2}, 3: {1}})

    def kept(self, served, unicast, multicast):
        return keeps(self.OLD, served, row_of({1: unicast}, {1: multicast, 3: {1}}))

    def test_nothing_was_served(self):
        self.assertTrue(keeps(self.OLD, None, self.OLD))
        more = row_of({0: {1}, 1: {0, 1, 2}}, {1: {0, 1, 2}, 3: {1}, 2: {0}})
        self.assertTrue(keeps(self.OLD, None, more))
        self.assertFalse(self.kept(None, {0}, {0, 1, 2}) or self.kept(None, {0, 2}, {0, 1}))
        self.assertFalse(keeps(self.OLD, None, row_of({1: {0, 2}}, {1: {0, 1, 2}})))

    def test_unicast_was_served(self):
        served = Served(frozenset({2}), 1, UNICAST)
        self.assertTrue(self.kept(served, {0}, {0, 1, 2}) and self.kept(served, {0, 2}, {0, 1, 2}))
        self.assertFalse(self.kept(served, {2}, {0, 1, 2}))

    def test_multicast_was_served(self):
        part, whole = (Served(frozenset(outputs), 1, MULTICAST) for outputs in ({0, 2}, {0, 1, 2}))
        self.assertTrue(self.kept(part, {0, 2}, {1}))
        self.assertFalse(any(self.kept(part, {0, 2}, rest) for rest in ((), {0}, {0, 1, 2}, {1, 2})))
        self.assertTrue(all(self.kept(whole, {0, 2}, rest) for rest in ((), {0}, {0, 1, 2})))


class AtRandom(unittest.TestCase):
    def test_under_each_scheduler(self):
        """A run's journal is lawful under its scheduler; under another the first match that differs is named."""
        rng = random.Random(23)
        lawful = 0
        for _ in range(15):
            table, inputs, settings = random_job(rng)
            for name, scheduler in SCHEDULERS.items():
                made = run_plan(plan_files(settings, table, inputs), scheduler)
                for other, checking in SCHEDULERS.items():
                    found = verdict_of(read_journal(journal_bytes(journal_of(made))), checking)
                    self.assertEqual(found, self.expected(made, checking))
                    self.assertTrue(found.longest is not None or other != name)
                    lawful += found.longest is not None
        self.assertTrue(45 <= lawful < 135)

    def expected(self, made, scheduler):
        ports, slots = range(made.plan.ports), made.slots
        decisions = schedule(made.plan.ports, made.plan.rounds, [slot.rows for slot in slots], scheduler)
        for number, (decision, slot) in enumerate(zip(decisions, slots)):
            differ = [port for port in ports if feed_of(decision.match, port) != feed_of(slot.match, port)]
            if differ:
                return Verdict(len(slots), None, number, OUTPUT, differ[0])
        return Verdict(len(slots), longest_waits((slot.rows, slot.match) for slot in slots))

    def test_changed_bits(self):
        """A file with another bit is bad, not lawful, or another lawful file."""
        rng, found = random.Random(8), set()
        for _ in range(40):
            table, inputs, settings = random_job(rng)
            data = journal_bytes(journal_of(run_plan(plan_files(settings._replace(pace=None), table, inputs))))
            for _ in range(20):
                at = rng.randrange(len(data))
                try:
                    found.add(verdict_of(read_journal(changed(data, at, data[at] ^ 1 << rng.randrange(8)))).reason)
                except Fault as fault:
                    self.assertLessEqual(fault.numbers["at"], len(data))
                    found.add(fault.name)
        self.assertLessEqual({"bad", MORE, KEEPS, OUTPUT}, found)
