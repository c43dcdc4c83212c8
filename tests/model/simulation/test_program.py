"""Compares the program `simulate` with the model on random simulations, and with those that are stored. It is the one that
the variable SIMULATE names, as `tests/run_model` sets it, else the one that was built here; without one this is skipped. The
variable SIMULATIONS says how many random ones there are, where it is set."""

import os
import random
import subprocess
import unittest
from pathlib import Path

from .command import run_words
from .words import PATTERNS, SCHEDULERS, WEIGHED

TOP = Path(__file__).resolve().parents[3]
VARIABLE, BUILT = "SIMULATE", TOP / "crates/simulate/out/simulate"
JOBS = int(os.environ.get("SIMULATIONS", 60))
STORED, REFUSED = TOP / "tests/simulations", TOP / "tests/simulations/refused_words.txt"
USAGE = "usage: tiny_tera simulate [options] SEED SLOTS PORTS"


def program():
    """The program, None where there is none."""
    found = Path(os.environ.get(VARIABLE) or BUILT)
    return found if found.is_file() and os.access(found, os.X_OK) else None


def random_words(rng):
    """The words of a small simulation."""
    ports, pattern = rng.choice((1, 2, 2, 3, 4, 4, 5, 8, 16, 17, 33, 64)), rng.choice(PATTERNS)
    slots = rng.randrange(1, 12) if rng.random() < 0.1 else rng.randrange(1, max(2, 1_600 // ports))
    words = ["simulate", str(rng.randrange(10 ** 9 + 1)), str(slots), str(ports), "--pattern", pattern]
    if pattern in WEIGHED:
        words += ["--weight-ppm", str(rng.choice((0, 50_000, 500_000, 1_000_000)))]
    for name, values, chance in (
        ("scheduler", SCHEDULERS, 0.95), ("rounds", (1, 1, 2, 3, 4, 64), 0.7), ("burst", (1, 2, 16, 100, 4_096), 0.7),
        ("load-ppm", (0, 1, 100_000, 500_000, 800_000, 950_000, 999_999, 1_000_000), 0.7),
        ("depth", (1, 2, 3, 10, 1_000), 0.5), ("warm-up", (rng.randrange(slots),), 0.7),
        ("batches", (1, 2, 3, 7, 1_000), 0.7),
    ):
        if rng.random() < chance:
            value = str(rng.choice(values))
            words += [f"--{name}", value] if rng.random() < 0.5 else [f"--{name}={value}"]
    return words + (["--histogram"] if rng.random() < 0.5 else [])


def run_program(words):
    """How the program ends."""
    return subprocess.run([str(program()), *words], stdout=subprocess.PIPE, stderr=subprocess.PIPE, universal_newlines=True)


@unittest.skipUnless(program(), "there is no program simulate, named by SIMULATE, built here or stored")
class Program(unittest.TestCase):
    def test_random_simulations(self):
        rng = random.Random(1)
        for _ in range(JOBS):
            words = random_words(rng)
            expected, ended = run_words(words), run_program(words)
            with self.subTest(words=" ".join(words)):
                self.assertEqual(ended.returncode, expected.status)
                self.assertEqual(ended.stdout.splitlines(), expected.output)
                if expected.status != 2:
                    self.assertEqual(ended.stderr.splitlines(), expected.error)

    def test_stored_simulations(self):
        for args in sorted(STORED.glob("*/args")):
            ended = run_program(args.read_text().split("\n")[:-1])
            for name, found in (("status", f"{ended.returncode}\n"), ("stdout", ended.stdout), ("stderr", ended.stderr)):
                with self.subTest(simulation=args.parent.name, of=name):
                    self.assertEqual(found, (args.parent / "expected" / name).read_text())

    def test_refused_words(self):
        rows = [line.split(" => ") for line in REFUSED.read_text().splitlines() if line.startswith("simulate ")]
        self.assertTrue(rows)
        for words, answer in rows:
            status, told = answer.split(" ", 1)
            ended = run_program(words.split())
            with self.subTest(words=words):
                self.assertEqual((str(ended.returncode), ended.stdout), (status, ""))
                self.assertEqual(ended.stderr, f"{USAGE if told == 'usage' else told}\n")


class Words(unittest.TestCase):
    def test_random_words_mean_simulations(self):
        """Of the words that the comparison makes few are refused, and none has the usage line."""
        rng = random.Random(1)
        for _ in range(20):
            self.assertIn(run_words(random_words(rng)).status, (0, 4))
