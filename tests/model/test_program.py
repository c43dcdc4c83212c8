"""Compares the program with the model on random jobs of `run` and `firm`, with few slots and over long gaps in which
nothing comes. It is the one that the variable TINY_TERA names, as `tests/run_model` sets it; without one this is skipped.
The variable RUNS says how many there are, where it is set, and RUNS_SEED what they are drawn from."""

import os
import random
import subprocess
import tempfile
import unittest
from pathlib import Path

from .captures import ETHERNET, RAW_IP
from .files import MemoryFiles
from .jobs import run_words
from .samples import header, raw, record
from .schedulers import SCHEDULERS

VARIABLE = "TINY_TERA"
RUNS, SEED = int(os.environ.get("RUNS", 40)), int(os.environ.get("RUNS_SEED", 1))
WORK = 2_000  # Of a job, in slots of one port: a slot of the model takes as long for three ports more as for none.
LONG = 16  # Times as much has one job of so many.
PORTS = (1, 2, 2, 3, 3, 4, 4, 5, 8, 9, 16, 31, 32, 33, 63, 64)
LENGTHS = (1, 19, 20, 20, 20, 40, 41, 60, 96, 97, 200, 1_500)
LONGEST = (9_000, 65_535, 65_536)
FLAGS = ("slots", "journal", "reference", "queues", "packets")
NANOS = 1_000_000_000


def program():
    """The program, None where there is none."""
    found = os.environ.get(VARIABLE)
    return Path(found).resolve() if found and os.access(found, os.X_OK) and Path(found).is_file() else None


class Drawn:
    """A random job: its words, its table and its captures. `times` makes it so many times as long."""

    def __init__(self, rng, times=1):
        self.rng, self.ports = rng, rng.choice(PORTS)
        self.slots = max(30, times * WORK // (3 + self.ports) * 3)
        self.routes = rng.randint(1, 8)
        self.slot_nanos, self.words = self.drawn_words()
        self.is_nano, self.link = rng.random() < 0.5, rng.choice((RAW_IP, RAW_IP, ETHERNET))
        fewest = rng.choice((0, 0, 1, self.ports // 2))
        silent = set(rng.sample(range(self.ports), fewest))
        self.moments = sorted(rng.randrange(self.slots) for _ in range(rng.randint(1, 4)))
        names = [f"in{port}" for port in range(self.ports)]
        self.files = {"table": self.table()}
        self.files.update((name, self.capture(port in silent)) for port, name in enumerate(names))
        outputs = ["out"] if self.words[0] == "run" else []
        self.words += ["table", *outputs, *names]

    def drawn_words(self):
        """How long a slot lasts, None where packets come at line pace, and the words up to the names."""
        rng = self.rng
        command = "firm" if rng.random() < 0.15 else "run"
        options, slot = [], None
        if rng.random() < 0.5:
            pace = rng.choice((1, 1, 3, 7, 1_000, 1_000_000))
            slot, options = 1_000 * pace, ["--pace-us", str(pace)]
        elif rng.random() < 0.8:
            rate = rng.choice((1, 7, 159, 400, 512, 1_587, 15_868, 400_000, 1_600_000))
            slot, options = 512_000 / rate, ["--line-rate", str(rate)]
        if rng.random() < 0.6:
            options += ["--rounds", str(rng.choice((1, 1, 2, 3, 64)))]
        if rng.random() < 0.6:
            options += ["--depth", str(rng.choice((1, 1, 2, 3, 4, 6, 27, 1_171)))]
        if command == "run":
            options += self.run_words()
        return slot, [command, *options]

    def run_words(self):
        """The flags of a run, and its scheduler."""
        rng = self.rng
        words = ["--scheduler", rng.choice(sorted(SCHEDULERS))] if rng.random() < 0.9 else []
        if rng.random() < 0.95:
            words.append("--alone")
        # What a slot adds to is wanted of fewer jobs.
        chances = dict(slots=0.25, journal=0.25, reference=0.5, queues=0.5, packets=0.5)
        return words + [f"--{flag}" for flag in FLAGS if rng.random() < chances[flag]]

    def table(self):
        """A table of all levels, with unicast and multicast."""
        rng, lines = self.rng, []
        share = rng.choice((0, 0.3, 0.7))
        outputs = rng.sample(range(self.ports), rng.choice((1, self.ports, self.ports)))
        for number in range(self.routes):
            most = min(len(outputs), rng.choice((2, 3, 64)))
            fan = rng.sample(outputs, rng.randint(1, most) if rng.random() < share else 1)
            lines.append(f"10.0.{number}.0/24 {','.join(map(str, fan))} {rng.choice((0, 0, 1, 2, 3))}\n")
        if rng.random() < 0.3:
            lines.append(f"* {rng.randrange(self.ports)} 3\n")
        return "".join(lines).encode()

    def packet(self):
        """A packet: some have no route, some no address."""
        rng = self.rng
        length = rng.choice(LONGEST) if rng.random() < 0.01 else rng.choice(LENGTHS)
        data = raw(max(20, length), f"10.0.{rng.randrange(self.routes)}.1" if rng.random() < 0.85 else "192.0.2.1")
        if self.link == ETHERNET:
            data = bytes(12) + b"\x08\x00" + data
        return data[:length]

    def capture(self, is_silent):
        """A capture whose packets come around the moments of the job, with gaps between; `is_silent` has none."""
        rng = self.rng
        data = header(self.link)
        if self.is_nano:
            data = bytes.fromhex("4d3cb2a1") + data[4:]
        if is_silent:
            return data
        most = max(1, 24 // self.ports) + 1
        for moment in self.moments:
            slot = moment + rng.choice((0, 0, 0, 1, 5))
            for _ in range(rng.randint(0, rng.choice((1, 2, most)))):
                data += self.record(slot)
                slot += rng.choice((0, 0, 0, 1, 2, 30))
        if rng.random() < 0.05:  # It has no route, and comes last.
            data += self.record(self.slots - 1, raw(20, "192.0.2.1"))
        return data

    def record(self, slot, packet=None):
        """The record of a packet within a slot."""
        length = self.slot_nanos or 1_000
        nanos = int(slot * length) + self.rng.randrange(max(1, int(length)))
        data = self.packet() if packet is None else packet
        fraction = nanos % NANOS if self.is_nano else nanos % NANOS // 1_000
        return record(data, nanos // NANOS, fraction, len(data) + self.rng.choice((0, 4)))


def drawn(rng):
    """A random job."""
    return Drawn(rng, LONG if rng.randrange(LONG) == 0 else 1)


def by_model(job):
    """What the model makes of a job: the status, what it prints, and the files after it."""
    files = MemoryFiles(job.files)
    status = run_words(job.words, files)
    return {"status": status, **files.printed, **files.files}


def by_program(which, job):
    """What a program makes of a job, in a folder of its own."""
    with tempfile.TemporaryDirectory(prefix="test_program.") as name:
        folder = Path(name)
        for path, data in job.files.items():
            (folder / path).write_bytes(data)
        printed = dict(stdout=subprocess.PIPE, stderr=subprocess.PIPE)
        ended = subprocess.run([str(which), *job.words], cwd=name, stdin=subprocess.DEVNULL, **printed)
        made = {path.name: path.read_bytes() for path in folder.iterdir()}
    return {"status": ended.returncode, "stdout": ended.stdout, "stderr": ended.stderr, **made}


def differing(expected, found):
    """The names of what differs."""
    return sorted(name for name in {*expected, *found} if expected.get(name) != found.get(name))


@unittest.skipUnless(program(), "the variable TINY_TERA names no program")
class Program(unittest.TestCase):
    def test_random_jobs(self):
        rng = random.Random(SEED)
        for _ in range(RUNS):
            job = drawn(rng)
            with self.subTest(words=" ".join(job.words)):
                self.assertEqual(differing(by_model(job), by_program(program(), job)), [])


class Jobs(unittest.TestCase):
    def test_random_jobs_have_gaps(self):
        """Most of the jobs that the comparison makes run, and many have more slots than packets and cells."""
        rng = random.Random(SEED)
        ended = [by_model(Drawn(rng)) for _ in range(30)]
        self.assertLessEqual({it["status"] for it in ended}, {0, 4})
        ran = [map(str.split, it["stdout"].decode().splitlines()) for it in ended if it["status"] == 0]
        self.assertGreater(len(ran), 25)
        numbers = [{name: int(first) for name, first, *_ in lines} for lines in ran]
        self.assertGreater(sum(it["slots"] > 10 * (1 + it["cells"]) for it in numbers), 8)
        for name in ("unrouted", "dropped", "forwarded"):
            self.assertTrue(any(it[name] for it in numbers))
