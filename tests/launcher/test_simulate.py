"""The command `simulate`: its words beside those of the model, the program that does it, and what is told meanwhile."""

import os
import pty
import random
import re
import shutil
import unittest
from pathlib import Path
from unittest import mock

from launcher import run_clock
from launcher.builds import SIMULATION
from launcher.options import Fault
from launcher.page import blocks_of, cells_of, section, synopsis
from launcher.run_clock import Clock, clock_of, time_of
from launcher.simulation_words import MOST_SLOTS, OPTIONS, shortened, words_of
from launcher.there import program
from launcher.words import read_words
from tests.model.simulation import words as model
from tests.model.simulation.command import run_words
from tests.model.simulation.test_program import random_words

from .scene import KIT, TOP, Scene

WORDS = ("simulate", "1", "1000", "2")
TEXT = (TOP / "docs/SIMULATE.md").read_text()
BLOCKS = blocks_of(TEXT)[1]
# Words that the model refuses too, behind `1 100 4`.
BAD = (
    "1", "--load-ppm 1000001", "--load-ppm", "--load-ppm 1 --load-ppm 1", "--burst 0", "--burst 4097", "--rounds 65",
    "--depth 0", "--depth 1048577", "--warm-up 100", "--batches 0", "--batches 1001", "--pattern hot-spot", "--weight-ppm 1",
    "--pattern none", "--scheduler wave", "--histogram=1", "--slots 5", "--rounds 00000000001", "--load-ppm 0.9", "--warm-up -1",
)
SHARES = {"0.95": "950000", "0": "0", "1": "1000000", ".5": "500000", "0.000001": "1", "0.999999": "999999", "1.000000": "1000000", "0.1": "100000"}
NO_SHARES = ("1.000001", "2", "0.1234567", "0.9500000", "", ".", "1.", "0,5", "5e-1", "-1", "+0.5", "00.5", "٠", "nan", "1/2")


def fields_of(words):
    """What words mean by the launcher, as the fields of the model's job."""
    job = read_words(words)
    return model.read_words(words_of(job)[1:])


class Words(unittest.TestCase):
    def test_model(self):
        """Both read the same simulation from words at random, and refuse the same."""
        rng = random.Random(2)
        for _ in range(400):
            words = random_words(rng)
            with self.subTest(words=" ".join(words)):
                self.assertEqual(fields_of(words), model.read_words(words[1:]))
        for more in BAD:
            words = ["simulate", "1", "100", "4", *more.split()]
            self.assertRaises(Fault, read_words, words)
            self.assertRaises(model.Usage, model.read_words, words[1:])
        more, most = (["simulate", "1", str(slots), "4"] for slots in (MOST_SLOTS + 1, MOST_SLOTS))
        self.assertRaises(Fault, read_words, more)
        self.assertRaises(model.Usage, model.read_words, more[1:])
        self.assertEqual(fields_of(most), model.read_words(most[1:]))

    def test_shares(self):
        """They become millionths, exactly; others are refused."""
        for word, number in SHARES.items():
            for words in (["--load", word], [f"--load={word}"]):
                self.assertEqual(words_of(read_words([*WORDS, *words])), ["simulate", f"--load-ppm={number}", *WORDS[1:]])
            found = words_of(read_words([*WORDS, "--weight", word, "--pattern", "hot-spot"]))
            self.assertEqual(found[1], f"--weight-ppm={number}")
        for word in NO_SHARES:
            self.assertRaises(Fault, read_words, [*WORDS, f"--load={word}"])

    def test_shares_as_the_model_reads_them(self):
        """Each number of six places is itself."""
        for number in (*range(0, 1_000_001, 9_973), 1_000_000):
            words = [*WORDS, "--load", f"{number // 1_000_000}.{number % 1_000_000:06}"]
            self.assertEqual(fields_of(words).load, number)

    def test_shortened(self):
        job = read_words(["simulate", "--warm-up", "500000", "--load", "0.5", "7", "1000000", "4"])
        self.assertEqual(words_of(shortened(job, 20_000)), ["simulate", "--warm-up=10000", "--load-ppm=500000", "7", "20000", "4"])
        self.assertEqual(job.options["--warm-up"], "500000")

    def test_page(self):
        """docs/SIMULATE.md has the options with their ranges, and the synopsis names them all."""
        rows = [cells_of(row) for lines in section(BLOCKS, "Options") if lines[0].startswith("|") for row in lines[2:]]
        self.assertEqual([row[0] for row in rows], [f"`{name} {it.letter}`".replace(" `", "`") for name, it in OPTIONS.items()])
        self.assertEqual(re.findall(r"--[a-z-]+", " ".join(synopsis(BLOCKS))), list(OPTIONS))
        for (_, said), option in zip(rows, OPTIONS.values()):
            for choice in option.choices:
                self.assertIn(f"`{choice}`", said)
            if option.high:
                self.assertIn(f", {option.low:,} to {option.high:,}", said)
        self.assertIn(f"SLOTS 1 to {MOST_SLOTS:,}", TEXT)

    def test_page_shows_an_answer(self):
        """The example is what the model prints, and its mean delay that of its lines."""
        found = re.search(r"of which the mean delay is ([\d,]+) / ([\d,]+) = ([\d.]+) slots.*?\$ tiny_tera (.*?)\n(.*?)```", TEXT, re.S)
        words = words_of(read_words(found[4].split()))
        self.assertEqual(run_words(words).output, found[5].splitlines())
        delays, departed = (int(it.replace(",", "")) for it in found.groups()[:2])
        self.assertIn(f"departed {departed}\n", found[5])
        self.assertIn(f"delays {delays}\n", found[5])
        self.assertEqual(f"{delays / departed:.2f}", found[3])

    def test_page_has_what_is_printed(self):
        """Its table has each line that the model prints, in order."""
        job = model.Job(1, 5, 1, load=900_000, histogram=True)
        from tests.model.simulation.runs import simulate
        printed = list(dict.fromkeys(line.split(" ")[0] for line in simulate(job)))
        rows = [cells_of(row) for lines in section(BLOCKS, "What it prints") if lines[0].startswith("| line") for row in lines[2:]]
        self.assertEqual([row[0].strip("`").split(" ")[0] for row in rows], printed)


class Started(Scene):
    def test_program(self):
        """It is proved at its first use, and the words come to it with whole numbers."""
        notes = self.room / "notes"
        first = self.launch("simulate", "--load=0.95", *WORDS[1:], "--histogram", NOTES=str(notes))
        self.assertEqual((first.returncode, first.stdout), (0, "summary\n"))
        self.assertIn("the program is proved first: 2 crates", first.stderr)
        self.assertEqual(notes.read_text().splitlines()[:-1], ["simulate", "--load-ppm=950000", "--histogram", *WORDS[1:]])
        self.assertTrue((self.top / "crates/simulate/out/simulate").is_file())
        self.assertFalse((self.top / "crates/tiny_tera/out").exists())
        self.calls()
        self.assertEqual(self.launch(*WORDS).stderr, "")
        self.assertEqual(self.calls(), [])
        (self.top / "crates/lower/src/lib.rt").write_text("// changed\n")
        self.assertIn("crates/lower/src/lib.rt changed since the program was proved", self.launch(*WORDS).stderr)

    def test_wrong_words_prove_nothing(self):
        told = self.launch("simulate", "1", "1000")
        self.assertEqual((told.returncode, self.calls()), (2, []))

    def test_hints(self):
        self.launch(*WORDS)
        for words, said, hint in (
            ((*WORDS, "--load-ppm", "0.9"), "usage: ..", "--load-ppm 0.9: P is a number from 0 to 1,000,000, written without commas; "
             "0.9 is --load-ppm 900000, or --load 0.9"),
            (("simulate", "1", "9", "9", "--depth", "1000000"), "too many cells: 81000000", "81 queues hold at most 67,108,864 cells together: "
             "--depth 828504 is the most"),
            (("simulate", "1", "9", "64", "--scheduler=ideal", "--depth=1048576"), "too many cells: 67108865", "64 queues hold at most 67,108,864 "
             "cells together: --depth 1048576 is the most"),
            (WORDS, "write fault: standard output", "standard output is closed or full, or its reader has ended, as head does"),
        ):
            status = {"usage": "2", "too m": "4", "write": "6"}[said[:5]]
            told = self.launch(*words, SAID=said, STATUS=status)
            self.assertEqual((told.returncode, told.stderr), (int(status), f"{said}\nhint: {hint}\n"))

    def test_dry_run(self):
        told = self.launch("--dry-run", *WORDS)
        self.assertEqual((told.returncode, told.stdout), (0, "no file is read or written\nnot looked at: whether there is room in memory\n"))
        told = self.launch("--dry-run", "simulate", "1", "1", "9", "--depth", "1000000")
        self.assertEqual((told.returncode, told.stderr.splitlines()[0]), (4, "too many cells: 81000000"))
        self.assertEqual(self.calls(), [])

    def test_terminal(self):
        """A run of 20,000 slots goes before one that takes some seconds, whose time is told, and no other."""
        self.launch(*WORDS)
        notes = self.room / "notes"
        for slots, runs in (("1000000", 2), ("100000", 1)):
            told = self.on_terminal("simulate", "--load=0.5", "1", slots, "2", CODE=f"sleep 0.2; echo $4 >>'{notes}'")
            self.assertEqual(re.findall(r"tiny_tera: 1,000,000 slots, some \d", told) != [], runs == 2, told)
            self.assertEqual(len(notes.read_text().split()), runs)
            notes.unlink()

    def on_terminal(self, *words, **more):
        """What a run says where standard error is a terminal."""
        ours, theirs = pty.openpty()
        ended = self.launch(*words, preexec_fn=lambda: os.dup2(theirs, 2), **more)
        self.assertEqual((ended.returncode, ended.stdout), (0, "summary\n"))
        os.write(theirs, b"the end\n")
        lines = b""
        while not lines.endswith(b"the end\r\n"):
            lines += os.read(ours, 4096)
        os.close(theirs)
        os.close(ours)
        return lines.decode()

    def test_version(self):
        self.launch(*WORDS)
        lines = self.launch("--version").stdout.splitlines()
        self.assertEqual(lines[-2], f"simulate: proved and built here with {KIT}")
        self.assertRegex(lines[-1], r"^simulate: sha256 [0-9a-f]{64}  .*/crates/simulate/out/simulate$")


class Clocks(unittest.TestCase):
    def test_lines(self):
        """A line at each tenth; beyond the estimate the whole is what is gone."""
        said, now = [], [0.0]
        with mock.patch.object(run_clock, "say", said.append):
            clock = Clock(30, lambda: now[0])
            for second in range(1, 40):
                now[0] = second
                clock.second(0)
        self.assertEqual(said[0], "3 s gone, some 30 s in all")
        self.assertEqual([int(line.split()[0]) for line in said], list(range(3, 40, 3)))
        self.assertEqual(said[-1], "39 s gone, some 39 s in all")

    def test_short_runs_have_none(self):
        job = read_words(["simulate", "1", "199999", "4"])
        self.assertIsNone(clock_of("/no/program", job))

    def test_estimate(self):
        """A program whose run of 20,000 slots takes a while; one that fails gives none."""
        said, job = [], read_words(["simulate", "1", "1000000", "4", "--load", "0.5"])
        with mock.patch.object(run_clock, "say", said.append), mock.patch.object(run_clock.subprocess, "run") as ran:
            with mock.patch.object(run_clock.time, "monotonic", side_effect=[0, 2, 2]):
                ran.return_value.returncode = 0
                self.assertEqual(clock_of("program", job).seconds, 100)
            self.assertEqual(ran.call_args[0][0], ["program", "simulate", "--load-ppm=500000", "1", "20000", "4"])
            ran.return_value.returncode = 4
            self.assertIsNone(clock_of("program", job))
        self.assertEqual(said, ["1,000,000 slots, some 1 min 40 s"])

    def test_times(self):
        self.assertEqual([time_of(it) for it in (3, 59.6, 3_600, 4_000)], ["3 s", "1 min 0 s", "1 h 0 min", "1 h 6 min"])


PROGRAM = program(TOP, SIMULATION)


@unittest.skipUnless(PROGRAM.is_file(), "no program simulate is there")
class OfProgram(Scene):
    def test_it_takes_what_the_launcher_hands_on(self):
        """The program itself, in the place of the made-up one, with shares."""
        self.launch(*WORDS)
        shutil.copyfile(PROGRAM, self.top / "crates/simulate/out/simulate")
        self.assertEqual(self.launch("--record-build", self.sums()).returncode, 0)
        for words in (["--load", "0.9"], ["--load-ppm=900000"], ["--load-ppm", "900000", "--histogram"]):
            ended = self.launch("simulate", *words, "3", "200", "4")
            self.assertEqual((ended.returncode, ended.stderr), (0, ""))
            self.assertIn("traffic uniform 0 900000 1\n", ended.stdout)

    def sums(self):
        """A file with the sums of the sources."""
        path = Path(self.jobs, "sums")
        path.write_text(self.launch("--sums-of-sources").stdout)
        self.build()
        return path
