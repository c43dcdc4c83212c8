"""Tests of whole simulations: the laws of their numbers, the literature's figures where these come quickly, and the
same cells through the whole switch."""

import random
import unittest
from collections import Counter
from dataclasses import replace

from ..departures import packet_rows
from ..plans import Settings, plan_files
from ..runs import outcome_of, run_plan
from ..samples import header, raw, record
from ..schedulers import SCHEDULERS
from .command import run_words
from .runs import bucket, simulate
from .sources import Source
from .words import PATTERNS, WEIGHED, Job, Usage, read_words
from .words import SCHEDULERS as NAMES


def numbers_of(job):
    """The lines of a run by their first words: lists of the numbers of each."""
    rows = {}
    for line in simulate(job):
        name, *words = line.split()
        rows.setdefault(name, []).append([int(word) if word.isdigit() else word for word in words])
    return rows


def random_job(rng):
    """A small simulation."""
    ports, pattern = rng.choice((1, 2, 3, 4, 8)), rng.choice(PATTERNS)
    slots = rng.randrange(2, 800 // ports)
    return Job(
        rng.randrange(10 ** 9), slots, ports, rng.choice(NAMES), rng.choice((1, 2, 4)),
        rng.choice((50_000, 300_000, 550_000, 900_000, 1_000_000)), rng.choice((1, 1, 8, 64)), pattern,
        rng.choice((0, 100_000, 500_000, 1_000_000)) if pattern in WEIGHED else 0, rng.choice((3, 20, 4_000)),
        rng.randrange(slots), rng.choice((1, 3, 10)), True,
    )


class Laws(unittest.TestCase):
    """Conservation and Little's law are checked in each run."""

    def test_sums(self):
        rng = random.Random(1)
        for _ in range(60):
            found = numbers_of(random_job(rng))
            arrived, dropped, departed = (found[name][0][0] for name in ("arrived", "dropped", "departed"))
            sums = [sum(port[place] for port in found["port"]) for place in (1, 2, 3, 4)]
            self.assertEqual(sums, [arrived, dropped, departed, departed])
            sums = [sum(batch[place] for batch in found["batch"]) for place in (1, 2)]
            self.assertEqual(sums, [departed, found["delays"][0][0]])
            self.assertEqual(sum(count for _, count in found.get("count", [])), departed)
            self.assertTrue(all(delay <= found["delay"][0][5] for delay, _ in found.get("count", [])))

    def test_traffic_is_the_same_under_all_schedulers(self):
        rng = random.Random(2)
        for _ in range(15):
            job = random_job(rng)
            arrived = {tuple(port[1] for port in numbers_of(replace(job, scheduler=name))["port"]) for name in NAMES}
            self.assertEqual(len(arrived), 1)

    def test_warm_up_is_a_run(self):
        rng = random.Random(3)
        for _ in range(30):
            job = random_job(rng)
            if job.warm_up:
                shorter = numbers_of(replace(job, slots=job.warm_up, warm_up=0))
                self.assertEqual(shorter["waiting"], numbers_of(job)["before"])

    def test_depth_that_a_run_needs(self):
        rng, tried = random.Random(4), 0
        for _ in range(40):
            job = random_job(rng)
            lines = simulate(job)
            peak = numbers_of(job)["peak"][0][0]
            if peak < job.depth:
                tried += 1
                for depth in {max(peak, 1), peak + 7}:
                    other = simulate(replace(job, depth=depth))
                    self.assertEqual(other[:3] + other[4:], lines[:3] + lines[4:])
        self.assertGreater(tried, 9)

    def test_output_queues_are_never_behind(self):
        rng, tried = random.Random(5), 0
        for _ in range(40):
            job = replace(random_job(rng), depth=60_000)
            found, ideal = numbers_of(job), numbers_of(replace(job, scheduler="ideal"))
            for name in ("cell-slots", "waiting", "before"):
                tried += 1
                self.assertLessEqual(ideal[name][0][0], found[name][0][0])
            self.assertLessEqual(ideal["delay"][0][5], max(ideal["peak"][0][0], 1))
        self.assertEqual(tried, 120)

    def test_waits_are_bounded(self):
        """At line rate: iSLIP's and FIRM's waits as docs/WAITING.md says, and no head of fifo waits for more than all
        others."""
        rng = random.Random(6)
        for _ in range(60):
            job = replace(random_job(rng), scheduler=rng.choice(("islip", "firm", "fifo")))
            ports, longest = job.ports, numbers_of(job)["longest"][0][0]
            square = ports * ports
            bound = {
                "fifo": ports - 1, "firm": square - 1 if job.rounds == 1 else None,
                "islip": 2 * square - 3 * ports if job.rounds == 1 else ports * (square - ports + 2) // 2 - 2,
            }[job.scheduler]
            if bound is not None and (ports > 2 or job.scheduler != "islip"):
                self.assertLessEqual(longest, bound)


class Literature(unittest.TestCase):
    def throughput(self, slots, ports, **options):
        """The share of slots in which an output is fed, at full load and uniform destinations."""
        job = Job(1, slots, ports, load=1_000_000, warm_up=slots // 10, **options)
        return numbers_of(job)["departed"][0][0] / (slots - job.warm_up) / ports

    def test_input_queues_without_virtual_output_queues(self):
        for ports, expected in ((1, 1), (2, 0.75), (4, 0.6553)):
            self.assertLess(abs(self.throughput(12_000 // ports, ports, scheduler="fifo", depth=64) - expected), 0.02)

    def test_random_matching_of_one_round(self):
        """1 - (1 - 1/N)^N with all queues full."""
        for ports in (2, 4):
            found = self.throughput(12_000 // ports, ports, scheduler="pim", rounds=1, depth=100)
            self.assertLess(abs(found - (1 - (1 - 1 / ports) ** ports)), 0.02)

    def test_pointers_that_part(self):
        """With full queues RRM's pointers turn together and iSLIP's and FIRM's part."""
        for name, expected in (("islip", 1), ("firm", 1), ("rrm", 0.5)):
            self.assertLess(abs(self.throughput(4_000, 2, scheduler=name, rounds=1, depth=64) - expected), 0.02)

    def test_mean_wait_at_output_queues(self):
        """(N - 1)/N * p / (2 (1 - p))."""
        for ports, load in ((2, 500_000), (4, 500_000)):
            found = numbers_of(Job(1, 40_000 // ports, ports, "ideal", load=load))
            mean, share = found["delays"][0][0] / found["departed"][0][0] - 1, load / 1_000_000
            expected = (ports - 1) / ports * share / (2 * (1 - share))
            self.assertLess(abs(mean / expected - 1), 0.06)


class WholeSwitch(unittest.TestCase):
    def test_the_same_cells(self):
        """Each cell as a packet of one cell at a pace of one slot: the whole switch gives them the same delays."""
        table = "".join(f"10.0.{output}.0/24 {output}\n" for output in range(3)).encode()
        for name, scheduler in SCHEDULERS.items():
            for seed, rounds in ((1, 1), (2, 4)):
                job = Job(seed, 150, 3, name, rounds, load=800_000, burst=3, depth=8, histogram=True)
                inputs = [self.capture(job, port) for port in range(3)]
                plan = plan_files(Settings(rounds, 8, 4, 1), table, inputs)
                rows = list(packet_rows(outcome_of(run_plan(plan, scheduler))))
                last = job.slots - self.first(job)
                delays = Counter(it.delay for it in rows if it.departure is not None and it.departure <= last)
                found = numbers_of(job)
                self.assertEqual(found["count"], [[delay, delays[delay]] for delay in sorted(delays)])
                self.assertEqual(found["dropped"][0][0], sum(row.state == "dropped" for row in rows))

    def first(self, job):
        """The slot of the first cell: slot 0 of the whole switch."""
        sources = [Source(job, port) for port in range(job.ports)]
        return next(slot for slot in range(job.slots) if [it for it in sources if it.next() is not None])

    def capture(self, job, port):
        source, records = Source(job, port), header()
        for slot in range(job.slots):
            output = source.next()
            if output is not None:
                records += record(raw(20, f"10.0.{output}.1"), 0, slot)
        return records


class Words(unittest.TestCase):
    def test_defaults(self):
        self.assertEqual(read_words(["1", "100", "4"]), Job(1, 100, 4, warm_up=10))
        words = "--load-ppm=5 1 --pattern hot-spot --weight-ppm 7 --warm-up 0 20 --histogram 3".split()
        self.assertEqual(read_words(words), Job(1, 20, 3, load=5, pattern="hot-spot", weight=7, histogram=True))
        self.assertEqual(read_words(["--", "1", "20", "3"]).slots, 20)

    def test_refused(self):
        self.assertRaises(Usage, read_words, ["1", "1"])
        for words in ("--load-ppm 0.9", "--pattern hot-spot", "--warm-up 1", "--histogram=1", "--burst 2 --burst 2"):
            self.assertRaises(Usage, read_words, ["1", "1", "1", *words.split()])
        self.assertEqual(run_words("simulate 1 1 9 --depth 1000000".split()), (4, [], ["too many cells: 81000000"]))
        self.assertEqual(run_words(["run"]).status, 2)

    def test_buckets(self):
        found = [bucket(delay) for delay in (1, 4_095, 4_096, 4_097, 8_193, 100_001)]
        self.assertEqual(found, [1, 4_095, 4_096, 4_096, 8_192, 100_000])
