"""Tests of the words of the command line."""

import unittest

from .plans import LONG_DEPTH, MOST_DEPTH, Settings
from .schedulers import SCHEDULERS
from .words import CheckJob, FirmJob, GenJob, RunJob, job_of

USAGE = """
run t out | run | run t | run --rounds 0 t out a | run --rounds 2 --rounds 2 t out a | run --round 2 t out a
run -x t out a | run --rounds +2 t out a | run --workers 33 t out a | gen 1 2 65
Run t p a | --slots run t p a
run --slots= t p a | run --slots --slots t p a
run --=1 t p a | run --- t p a | run --rounds= t p a | run t p a --rounds
run --rounds -- 2 t p a | run --rounds -2 t p a | run --rounds=2=2 t p a | run --rounds 2 --rounds=2 t p a
run --depth 131073 t p a | run --depth 0 t p a | run --pace-us 1000001 t p a | run --pace-us=0 t p a
run --rounds 00000000002 t p a | run --rounds \u0662 t p a | run --rounds 2_0 t p a | run --Rounds 2 t p a
run --pace_us 2 t p a | gen 1 2 | gen 1 2 2 2 | gen -1 2 2 | gen 1000000001 2 2 | gen 1 4001 2 | gen 1 2 0
gen --pace-us 2 1 2 2 | gen --slots 1 2 2 | gen - 2 2 | gen | help | run --help | run -h | --version | check | firm t
check a b | check --slots a | check --rounds 2 a | check -a | run --journal --journal t p a | run --journal=1 t p a
gen --journal 1 2 2 | firm --workers 2 t a | firm --slots t a | run --scheduler t out a | run --scheduler eslip t out a
run --scheduler= t out a | run --scheduler=RRM t out a | run --scheduler=firm --scheduler=firm t out a
run --scheduler firm t out a --scheduler islip | run t out a --scheduler | run --scheduler -- firm t out a
run --scheduler --slots t out a | run --scheduler -firm t out a | run --scheduler=firm= t out a
run --scheduler=firm,rrm t out a | run --schedulers firm t out a | run --queues --queues t out a | run --queues= t out a
run --packets=a t out a | run --queue t out a | gen --queues 1 2 2 | gen --scheduler 1 2 2 | gen --scheduler=x 1 2 2
gen --scheduler rrm --scheduler rrm 1 2 2 | check --packets f | check f --scheduler | check --scheduler f
check --scheduler firm f g | firm --scheduler firm t a | firm --queues t a | run --alone= t p a | gen --alone 1 2 2
run --rounds 65 t p a
run --long=1 t p a | run --long --long t p a | run --long --slots t p a | run t p a --journal --long | gen --long 1 2 2
check --long f | run --long --depth 1073741825 t p a | firm --depth 0 --long t a | firm --depth=131073 t a
run --line-rate 1600001 t p a | run --line-rate=0 t p a | run --line-rate 10.5 t p a | run --line-rate t p a
run --line-rate 7 --line-rate=7 t p a | run --line-rate 512 --pace-us 1 t p a | firm --pace-us=1 t a --line-rate=512
run --pace-us 0 --line-rate 512 t p a | gen --line-rate 512 1 2 2 | check --line-rate 512 f | run --ethernet 10 t p a
"""


def job(text):
    """The job of words parted by blanks."""
    return job_of(text.split())


class Words(unittest.TestCase):
    def test_settings(self):
        self.assertEqual(job("run t out a b"), RunJob(Settings(), set(), "islip", "t", "out", ["a", "b"]))
        self.assertEqual(Settings(), Settings(4, MOST_DEPTH, 4, None))
        self.assertEqual(job("run --rounds=2 t out a").settings.rounds, 2)
        self.assertEqual(job("run t --rounds 002 out a").settings.rounds, 2)
        self.assertEqual(job("run --rounds 0000000002 t out a").settings.rounds, 2)
        most = job("run --pace-us=1000000 --depth=1 --workers 32 --rounds 64 t p a").settings
        self.assertEqual(most, Settings(64, 1, 32, 1_000_000))
        self.assertEqual(job("firm t --pace-us 3 a b"), FirmJob(Settings(pace=3), "t", ["a", "b"]))
        for rate in (1, 1_600_000):
            self.assertEqual(job(f"run --line-rate {rate} t p a").settings, Settings(rate=rate))
            self.assertEqual(job(f"firm t a --line-rate={rate}"), FirmJob(Settings(rate=rate), "t", ["a"]))

    def test_long(self):
        self.assertEqual(job("run --long t p a"), RunJob(Settings(depth=LONG_DEPTH, is_long=True), set(), "islip", "t", "p", ["a"]))
        for words in ("firm t a --depth 131073 --long", "firm --long --depth=131073 t a"):
            self.assertEqual(job(words), FirmJob(Settings(depth=131_073, is_long=True), "t", ["a"]))

    def test_flags(self):
        names = {"slots", "journal", "reference", "queues", "packets", "alone"}
        words = " ".join(f"--{name}" for name in sorted(names))
        self.assertEqual(job(f"run t p a {words}").flags, names)
        self.assertEqual(job("run --queues t out --packets a").flags, {"queues", "packets"})

    def test_schedulers(self):
        for name in SCHEDULERS:
            for words in (
                "run --scheduler {} t out a", "run --scheduler={} t out a", "run t out a --scheduler {}",
                "gen --scheduler {} 1 2 2", "gen 1 --scheduler={} 2 2", "check --scheduler {} f",
                "check f --scheduler={} --",
            ):
                self.assertEqual(job(words.format(name)).scheduler, name)
        self.assertEqual(job("check --scheduler=rrm -- --scheduler=firm"), CheckJob("rrm", "--scheduler=firm"))
        self.assertEqual(job("run --scheduler rrm islip firm rrm").inputs, ["rrm"])

    def test_names(self):
        self.assertEqual(job("run -- t out --a").inputs, ["--a"])
        self.assertEqual(job("run -- -- -x --slots").inputs, ["--slots"])
        self.assertEqual(job("run t -- p a -- b").inputs, ["a", "--", "b"])
        self.assertEqual(job_of(["run", "", "-", "a"]).table, "")
        self.assertEqual((job("check -- -a").file, job("check -").file), ("-a", "-"))
        self.assertEqual(job("gen -- 0 0000 01"), GenJob(Settings(), "islip", 0, 0, 1))
        self.assertEqual(job("gen 1000000000 4000 64").packets, 4_000)
        for words, most in (("run t p", 64), ("firm t", 64)):
            self.assertIsNotNone(job(words + " a" * most))
            self.assertIsNone(job(words + " a" * (most + 1)))

    def test_usage(self):
        for text in USAGE.replace("\n", "|").split("|"):
            self.assertIsNone(job(text.strip()), text)
        for value in ("", " 2"):
            self.assertIsNone(job_of(["run", "--rounds", value, "t", "p", "a"]))
        self.assertTrue(job_of([]) is None and job_of(["gen", "", "2", "2"]) is None)
