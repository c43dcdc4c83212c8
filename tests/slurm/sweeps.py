"""Sweeps whose jobs Slurm runs: their bytes, a job that Slurm ends, and an interrupt."""

import signal
import subprocess
import sys
import tempfile
import time
import unittest
from contextlib import contextmanager
from pathlib import Path

from launcher.builds import SIMULATION
from launcher.there import program
from tests.measures.common import TOOLS, TOP

from .cluster import asked, with_parent

MODULES = ("snakemake", "pandas", "scipy", "matplotlib", "tqdm")
PATIENCE = 300  # Seconds until something is told.
CAPTURES = [TOP / "examples/two_inputs/a.pcap", TOP / "examples/two_inputs/b.pcap"]
SMALL = ["--kinds", "bursty", "--loads", "0.5", "--rounds", "1,2", "--schedulers", "islip", "--seeds", "1", "--ports", "4", "--slots", "200"]
OF_TRACE = ["--kinds", "uniform", "trace", "--loads", "0.5", "--rounds", "1", "--seeds", "1,2", "--ports", "2", "--slots", "500", "--trace", *CAPTURES]
BY_SLURM = ["--", "--profile", TOOLS / "profiles/slurm"]
# The program, but for runs of two rounds, which are slow while the file `slow` is there.
SCRIPT = """\
#!/bin/sh
case " $* " in *" --rounds 2 "*) [ -e "{room}/slow" ] && exec sleep 300;; esac
exec "{program}" "$@"
"""
# What a sweep leaves beside its results, in which two sweeps differ.
LEFT = (".snakemake", "slurm", "snakemake.log", "lock")


class Sweeps(unittest.TestCase):
    def setUp(self):
        room = tempfile.TemporaryDirectory(prefix="sweeps of slurm.")
        self.addCleanup(room.cleanup)
        self.room = Path(room.name)
        self.folder = self.room / "with Slurm"
        script = self.room / "the program"
        script.write_text(SCRIPT.format(room=self.room, program=program(TOP, SIMULATION)))
        script.chmod(0o755)
        self.words = ["--program", script, *SMALL]

    def sweep(self, words, folder):
        """Makes a sweep."""
        with started(words, folder) as process:
            told = process.communicate()[0]
        self.assertEqual(process.returncode, 0, told + log_of(folder))

    def check_same(self, words):
        """The folder has the results that the same words make without Slurm."""
        plain = self.room / "without Slurm"
        self.sweep(words, plain)
        found, expected = results(self.folder), results(plain)
        self.assertEqual(sorted(found), sorted(expected))
        self.assertEqual([name for name in expected if found[name] != expected[name]], [])

    def wait_for(self, is_there, told):
        until = time.monotonic() + PATIENCE
        while not is_there() and time.monotonic() < until:
            time.sleep(0.2)
        self.assertTrue(is_there(), told)

    def running(self, rounds):
        """The number of the job in which a simulation of so many rounds runs, empty where none does yet."""
        jobs = asked("squeue", "--noheader", "--states=running", "--format=%i").split()
        logs = {job: self.folder / f"slurm/{job}.log" for job in jobs}
        return next((job for job, log in logs.items() if log.exists() and f"rounds={rounds}," in log.read_text()), "")

    def test_same_bytes(self):
        """Simulations and runs of a trace, in folders whose names have spaces."""
        self.sweep([*OF_TRACE, *BY_SLURM], self.folder)
        jobs = {path.stem for path in (self.folder / "slurm").glob("*.log")}
        # For each of two seeds a simulation, the captures of the trace, and a run of them.
        self.assertEqual(len(jobs), 6)
        self.check_same(OF_TRACE)

    def test_job_that_slurm_ends(self):
        """It is told and tried again, with more time and memory."""
        (self.room / "slow").touch()
        with started([*self.words, *BY_SLURM], self.folder) as process:
            self.wait_for(lambda: self.running(2), "no job runs")
            job = self.running(2)
            (self.room / "slow").unlink()
            asked("scancel", job)
            told = process.communicate()[0]
        log = log_of(self.folder)
        self.assertEqual(process.returncode, 0, told + log)
        self.assertIn("tools/sweep: failed, and is tried again: bursty-ports-4-load-0.5-burst-16-weight-0/islip-rounds-2-seed-1.txt", told)
        self.assertIn(f"tools/sweep: Slurm ended its job {job}: CANCELLED", log)
        again = asked("squeue", "--noheader", "--states=all", "--sort=-i", "--format=%m %l").splitlines()[0]
        self.assertEqual(again, "600M 4:00")
        self.check_same(self.words)

    def test_interrupt(self):
        """No job is left in Slurm, and the same words go on."""
        (self.room / "slow").touch()
        with started([*self.words, *BY_SLURM], self.folder) as process:
            self.wait_for(lambda: "Finished job" in log_of(self.folder) and self.running(2), "no job runs")
            process.send_signal(signal.SIGINT)
            told = process.communicate()[0]
        self.assertEqual((process.returncode, told.count("\n")), (130, 1), told)
        self.assertIn("stopped with 1 of 2 runs done; the same command goes on", told)
        self.wait_for(lambda: not asked("squeue", "--noheader"), "a job is left")
        (self.room / "slow").unlink()
        self.sweep([*self.words, *BY_SLURM], self.folder)
        self.check_same(self.words)


@contextmanager
def started(words, folder):
    """A sweep that has begun, as a context that has it end its jobs where it still runs."""
    command = [sys.executable, TOOLS / "sweep", "--to", folder, *words]
    process = subprocess.Popen(
        list(map(str, command)), stdout=subprocess.PIPE, stderr=subprocess.STDOUT, text=True, preexec_fn=with_parent(signal.SIGINT),
    )
    try:
        yield process
    finally:
        if process.poll() is None:
            process.send_signal(signal.SIGINT)
            process.communicate()


def log_of(folder):
    """What Snakemake has told of the sweep in a folder."""
    path = folder / "snakemake.log"
    return path.read_text() if path.exists() else ""


def results(folder):
    """The bytes of the results of a sweep, by the names of their files."""
    files = (path for path in folder.rglob("*") if path.is_file())
    named = {str(path.relative_to(folder)): path for path in files}
    return {name: path.read_bytes() for name, path in named.items() if Path(name).parts[0] not in LEFT}
