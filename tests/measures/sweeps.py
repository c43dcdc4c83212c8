"""Tests of tools/sweep: its words, its folder, its tables, and how it fails, stops and goes on."""

import argparse
import io
import os
import runpy
import signal
import subprocess
import sys
import tempfile
import time
import unittest
from contextlib import redirect_stderr
from pathlib import Path

from launcher.builds import SIMULATION
from launcher.there import program
from measure import report, simulations, traffic
from tiny_tera import read_simulation

from .common import PROGRAM, TOOLS, TOP, lacks, run

MODULES = ("snakemake", "pandas", "scipy", "matplotlib", "tqdm")
SMALL = ["--kinds", "bursty", "--loads", "0.5", "--rounds", "1,2", "--schedulers", "islip", "--seeds", "1", "--ports", "4", "--slots", "200"]
TEXT = "bursty-ports-4-load-0.5-burst-16-weight-0/islip-rounds-{}-seed-{}.txt"
CAPTURES = [TOP / "examples/two_inputs/a.pcap", TOP / "examples/two_inputs/b.pcap"]
OF_TRACE = ["--kinds", "trace", "--ports", "2", "--rounds", "2", "--trace", *CAPTURES]
SIMULATE = program(TOP, SIMULATION)
# In its place where it is not there.
MODEL = f'#!/bin/sh\nPYTHONPATH="{TOP}" exec "{sys.executable}" -m tests.model.simulation "$@"\n'
# Words that no job can have, and what is told of them.
BAD_WORDS = [
    (["--loads", "1.5"], "'1.5' is not a number over 0 and at most 1"),
    (["--loads", "0"], "'0' is not a number over 0 and at most 1"),
    (["--rounds", "65"], "'65' is not a whole number from 1 to 64"),
    (["--seeds", "3-1"], "'3-1' falls"),
    (["--ports", "0"], "'0' is not a whole number from 1 to 64"),
    (["--slots", "4000000001"], "'4000000001' is not a whole number from 3 to 4000000000"),
    (["--burst", "0"], "'0' is not a whole number from 1"),
    (["--burst", "4097"], "'4097' is not a whole number from 1 to 4096"),
    (["--cores", "0"], "'0' is not a whole number from 1"),
    (["--schedulers", "islip,"], "'islip,' is no list of names"),
    (["--schedulers", "islip,wave"], "--schedulers: wave is none of islip, firm, rrm, pim, fifo, ideal"),
    (["--slots", "2"], "'2' is not a whole number from 3 to 4000000000"),
    (["--loads", "0.0000001"], "--loads: 0.0000001 has more than 6 places"),
    (["--kinds", "unbalanced", "--weights", "0.0000001"], "--weights: 0.0000001 has more than 6 places"),
    (["--kinds", "unbalanced", "--weights", "0", "1.1"], "argument --weights: '1.1' is not a number from 0 to 1"),
    (["--kinds", "hot-spot", "--hot", "none"], "argument --hot: 'none' is not a number from 0 to 1"),
    (["--journals"], "--reports and --journals go with --kinds trace"),
    (["--kinds", "trace"], "--kinds trace and --trace go together"),
    (["--kinds", "trace", "--trace", "/none"], "--trace: [Errno 2] No such file or directory: '/none'"),
    (["--kinds", "trace", "--trace", "/dev/null"], "--trace: "),
]
# The programs, but for runs of two rounds, which fail while the file `broken` is there, are slow while `slow` is, and kill
# their process group, so Snakemake with all its jobs, while `killed` is. Without --alone while `old` is there. It takes
# that word and, for a run, the name of a scheduler, and keeps the words in `words`.
SCRIPT = """\
#!/bin/sh
echo "$*" >>{folder}/words
case "$*" in *--alone*) [ -e {folder}/old ] && exit 2;; esac
program={program}
case "$1" in
simulate) program={simulate};;
*) set -- $(echo "$*" | sed 's/--scheduler [a-z]*//; s/--alone//');;
esac
case " $* " in *" --rounds 2 "*)
    [ -e {folder}/broken ] && exit 9
    [ -e {folder}/killed ] && kill -9 0
    [ -e {folder}/slow ] && sleep 200;;
esac
mkdir {folder}/busy 2>/dev/null || touch {folder}/overlap
$program "$@"
status=$?
rmdir {folder}/busy 2>/dev/null
exit $status
"""
# In the place of Slurm's commands: each job runs while it is submitted, and its state is kept.
SLURM = {
    "sbatch": """\
echo "$*" >>{room}/asked
job=$(wc -l <{room}/asked)
for script; do :; done
if sh "$script" >slurm/$job.log 2>&1; then state=COMPLETED; else state=FAILED; fi
echo $state >{room}/$job.state
echo $job
""",
    "squeue": 'for word; do :; done\ncat {room}/"${{word#--jobs=}}".state\n',
    "scancel": "exit 0\n",
}


def put_commands(folder, texts):
    """Writes commands for a shell into a folder, by their names."""
    folder.mkdir(exist_ok=True)
    for name, text in texts.items():
        (folder / name).write_text("#!/bin/sh\n" + text)
        (folder / name).chmod(0o755)


def with_commands(folder):
    """The variables under which the commands of a folder come before all others."""
    return {**os.environ, "PATH": f"{folder}{os.pathsep}{os.environ['PATH']}"}


class Words(unittest.TestCase):
    @unittest.skipIf(lacks(*MODULES), lacks(*MODULES))
    def test_words_are_tested_before_a_job_begins(self):
        with tempfile.TemporaryDirectory() as name:
            folder = Path(name, "sweep")
            for words, told in BAD_WORDS:
                with self.subTest(words=words):
                    status, said = run(TOOLS / "sweep", "--to", folder, "--program", "/bin/false", *words)
                    self.assertEqual(status, 2)
                    self.assertIn(told, said.splitlines()[-1])
            # What the program tells before it runs, as the launcher does while it proves, is seen.
            program = Path(name, "program")
            program.write_text("#!/bin/sh\necho proved first >&2\nexit 1\n")
            program.chmod(0o755)
            status, said = run(TOOLS / "sweep", "--to", folder, "--program", program)
            self.assertEqual((status, said), (1, f"proved first\ntools/sweep: {program} simulate 0 1 1 ends with status 1\n"))
            self.assertFalse(folder.exists())

    @unittest.skipIf(lacks("tqdm"), lacks("tqdm"))
    def test_progress_counts_runs(self):
        """Of the jobs that Snakemake tells, only the runs count, and one that is tried again is named."""
        from measure.engine import Progress

        progress = Progress()
        lines = ["run  2  1  1", "simulate  3  1  1", "traffic  1  1  1", "rule traffic:", "    output: a/traffic, b", "    jobid: 4", "Finished job 4."]
        lines += ["rule run:", "    output: a/x.json, a/x.report", "    jobid: 1", "rule run:", "    output: a/y.json", "    jobid: 2"]
        lines += ["Finished job 2.", "rule simulate:", "    output: b/z.txt", "    jobid: 7", "Finished job 7."]
        self.assertEqual([progress.read(line) for line in lines], [None] * len(lines))
        self.assertEqual((progress.done, progress.total), (2, 5))
        self.assertEqual(progress.read("Trying to restart job 1."), "a/x.json")
        self.assertEqual((progress.has_failed, progress.causes), (False, {}))
        causes = ["run_result: a/x.report: no packet came\n", "tools/traffic: b/traffic is not empty\n", "tiny_tera: it is not built\n"]
        causes.append("sbatch: error: there is no such partition\n")
        for line in (*causes, "Error in rule run:", *causes):
            self.assertIsNone(progress.read(line))
        self.assertEqual((progress.has_failed, list(progress.causes)), (True, [it.partition(": ")[2].rstrip("\n") for it in causes]))

    @unittest.skipIf(lacks("tqdm"), lacks("tqdm"))
    def test_failures(self):
        """A job that fails, one of a group, and one that a cluster does not take."""
        from measure.engine import Progress

        for line in ("Error in rule run:", "Error in group job simulate:", "Error submitting jobscript (exit code 1):"):
            progress = Progress()
            progress.read(line)
            self.assertTrue(progress.has_failed, line)

    @unittest.skipIf(lacks("tqdm"), lacks("tqdm"))
    def test_end_without_a_failed_job_is_that_of_snakemake(self):
        from measure.engine import Outcome

        with redirect_stderr(io.StringIO()) as told:
            sweep = runpy.run_path(str(TOOLS / "sweep"))
            self.assertEqual(sweep["tell_failure"](Outcome(7, False, 1, 2, False, ()), "its/log"), 1)
        self.assertEqual(told.getvalue(), "tools/sweep: Snakemake ended with status 7: its/log\n")


@unittest.skipIf(lacks(*MODULES), lacks(*MODULES))
@unittest.skipUnless(PROGRAM.exists(), "no program is there")
class Sweeps(unittest.TestCase):
    def setUp(self):
        room = tempfile.TemporaryDirectory()
        self.addCleanup(room.cleanup)
        self.room = Path(room.name)
        self.folder = self.room / "sweep"
        script = self.room / "program"
        model = self.room / "model"
        model.write_text(MODEL)
        simulate = SIMULATE if os.access(SIMULATE, os.X_OK) else model
        script.write_text(SCRIPT.format(folder=self.room, program=PROGRAM, simulate=simulate))
        for path in (script, model):
            path.chmod(0o755)
        self.words = [TOOLS / "sweep", "--to", self.folder, "--program", script, *SMALL]

    def rows(self, name="runs"):
        from measure.tables import read_table

        return read_table(self.folder / f"{name}.csv")

    def test_fails_goes_on_and_grows(self):
        """A job that fails is tried again and told; the same words go on; other words add runs to the same tables."""
        (self.room / "broken").touch()
        status, told = run(*self.words, "--cores", "1")
        again = f"tools/sweep: failed, and is tried again: {TEXT.format(2, 1)}"
        self.assertEqual((status, told.splitlines()[0]), (1, again))
        self.assertEqual(len(told.splitlines()), 2, told)
        self.assertIn("Error in rule simulate", (self.folder / "snakemake.log").read_text())
        first = self.folder / TEXT.format(1, 1)
        # The other run of this traffic has its text, and it stays.
        self.assertEqual([path.name for path in first.parent.glob("*.txt")], [first.name])
        self.assertFalse((self.folder / "runs.csv").exists())
        kept = times(first)
        (self.room / "broken").unlink()
        status, told = run(*self.words, "--cores", "1")
        self.assertEqual(status, 0, told)
        self.assertEqual((times(first), (self.room / "overlap").exists()), (kept, False))
        # Another seed, which leaves the first in the tables.
        status, told = run(*self.words, "--seeds", "5")
        self.assertEqual((status, times(first)), (0, kept), told)
        runs, provenance = self.rows()
        self.assertEqual(runs[["rounds", "seed"]].values.tolist(), [[1, 1], [1, 5], [2, 1], [2, 5]])
        self.assertEqual((len(provenance.commands), provenance.notes[0]), (2, "seeds 1,5"))
        points, same = self.rows("points")
        self.assertEqual((points["seeds"].tolist(), same), (["1,5", "1,5"], provenance))
        self.assertTrue(points["half_width"].gt(0).all())
        self.assertEqual(runs["delays"].iloc[0], read_simulation(first).delays)
        self.check_refusals()

    def test_causes_of_the_user_are_told(self):
        """One packet comes, at a load that is written with an exponent elsewhere: the screen says so, and names the log."""
        capture = self.room / "one.pcap"
        capture.write_bytes(traffic.capture_bytes(traffic.LINK_RAW_IP, [(0, traffic.ip_header(0, bytes([10, 0, 1, 1]), 20))]))
        few = [*OF_TRACE[:-2], capture, "--loads", "0.00001", "--rounds", "1", "--seeds", "1-5", "--slots", "20", "--cores", "2"]
        status, told = run(*self.words, *few)
        lines = [line for line in told.splitlines() if "is tried again" not in line]
        cause = "tools/sweep: a job failed: trace-ports-2-load-0.00001-seed-{}/islip-rounds-1.report: no packet came in the measured slots"
        self.assertEqual((status, len(lines)), (1, 5), told)
        self.assertTrue(set(lines[:3]) <= {cause.format(seed) for seed in range(1, 6)}, told)
        last = f"tools/sweep: 0 of 5 runs are done, and a job failed twice: {self.folder / 'snakemake.log'}; the same command goes on"
        self.assertEqual(lines[3:], ["tools/sweep: so did 2 more", last])

    def check_refusals(self):
        """Runs that cannot stand in the folder's tables are refused, and a scheduler that the program does not have."""
        status, told = run(*self.words, "--slots", "300")
        self.assertEqual((status, told.count("\n")), (1, 1))
        self.assertIn("have --slots 200, not 300", told)
        (self.room / "program").write_text('#!/bin/sh\n[ "$2" = --scheduler ] && exit 3\nexit 0\n')
        status, told = run(*self.words, *OF_TRACE, "--schedulers", "islip,rrm")
        self.assertEqual((status, told.count("\n")), (1, 1))
        self.assertIn("--schedulers: the program's command `run` does not have rrm", told)

    def check_journal(self, report_file):
        """The journal that the program wrote beside a report is lawful, and its waits are drawn."""
        words = [PROGRAM, "check", report_file.with_suffix(".journal")]
        checked = subprocess.run(words, stdout=subprocess.PIPE, text=True)
        slots = report.read_report(report_file.read_text()).summary["slots"]
        self.assertEqual((checked.returncode, checked.stdout.splitlines()[:2]), (0, ["yes", f"slots {slots}"]))
        status, told = run(TOOLS / "plot", report_file)
        self.assertEqual(status, 0, told)
        for figure in ("delays", "waits", "waiting", "reference"):
            self.assertTrue(report_file.with_suffix(f".{figure}.png").exists(), told)

    def test_interrupt_ends_in_one_line(self):
        """Of a traffic's two runs one is done when the sweep is stopped; it stays when the sweep goes on."""
        (self.room / "slow").touch()
        # A shell in the background ignores the interrupt, and what it starts inherits that.
        def heed_interrupt():
            signal.signal(signal.SIGINT, signal.SIG_DFL)

        words = [sys.executable, *map(str, self.words), "--cores", "2"]
        process = subprocess.Popen(words, stderr=subprocess.PIPE, text=True, preexec_fn=heed_interrupt)
        # The run of one round is done.
        self.wait_for("1 of 3 steps")
        process.send_signal(signal.SIGINT)
        told = process.communicate(timeout=300)[1]
        line = f"tools/sweep: stopped with 1 of 2 runs done; the same command goes on in {self.folder}\n"
        self.assertEqual((process.returncode, told), (130, line))
        first = self.folder / TEXT.format(1, 1)
        kept = times(first)
        (self.room / "slow").unlink()
        # The same words, and another scheduler, whose rounds change nothing.
        status, told = run(*self.words, "--schedulers", "islip,ideal")
        self.assertEqual((status, times(first)), (0, kept), told)
        self.assertEqual(self.rows("points")[0]["scheduler"].tolist(), ["ideal", "islip", "islip"])

    def test_killed_run_leaves_no_text(self):
        """Another command makes its tables beside a run that was killed, and the same words make the run again."""
        (self.room / "killed").touch()
        status, told = run(*self.words)
        self.assertEqual((status, told), (1, f"tools/sweep: Snakemake ended with status -9: {self.folder / 'snakemake.log'}\n"))
        (self.room / "killed").unlink()
        for words, rounds in ((["--rounds", "1"], [1]), ([], [1, 2])):
            status, told = run(*self.words, *words)
            self.assertEqual(status, 0, told)
            self.assertEqual(self.rows()[0]["rounds"].tolist(), rounds)

    def wait_for(self, text):
        """Waits until Snakemake has told this."""
        log = self.folder / "snakemake.log"
        until = time.monotonic() + 300
        while not (log.exists() and text in log.read_text()) and time.monotonic() < until:
            time.sleep(0.1)
        self.assertIn(text, log.read_text())

    def test_one_thread(self):
        """Runs are made without the board where the program can, and else with one worker."""
        for is_old in (False, True):
            if is_old:
                (self.room / "old").touch()
            status, told = run(*self.words, *OF_TRACE, "--to", self.room / f"old_{is_old}")
            self.assertEqual(status, 0, told)
            made = [line for line in (self.room / "words").read_text().splitlines() if "--slots" in line]
            (self.room / "words").unlink()
            self.assertEqual([("--alone" in line, "--workers 1" in line) for line in made], [(not is_old, is_old)])

    def test_profile_and_trace(self):
        """The profile of two hosts runs a sweep of made traffic and of a trace, which is split into ports."""
        words = [*self.words, *OF_TRACE, "--kinds", "uniform", "trace", "--journals"]
        status, told = run(*words, "--", "--profile", os.path.relpath(TOOLS / "profiles/hosts"))
        log = self.folder / "hosts.log"
        self.assertEqual(status, 0, told + (log.read_text() if log.exists() else ""))
        self.assertIn("rule run", log.read_text())
        runs, provenance = self.rows()
        self.assertEqual((runs["kind"].tolist(), runs["ports"].tolist()), (["trace", "uniform"], [2, 2]))
        self.assertIn("--program program --trace a.pcap b.pcap", provenance.commands[0])
        self.check_journal(self.folder / "trace-ports-2-load-0.5-seed-1/islip-rounds-2.report")


    def test_profile_of_slurm(self):
        """Commands in the place of Slurm's run each job at once: what they are asked for, and that a failed job tells why."""
        self.folder = self.room / "a sweep"
        put_commands(self.room / "bin", {name: text.format(room=self.room) for name, text in SLURM.items()})
        (self.room / "broken").touch()
        words = [*self.words, "--to", self.folder, "--rounds", "2", "--", f"--profile={os.path.relpath(TOOLS / 'profiles/slurm')}"]
        variables = with_commands(self.room / "bin")
        status, told = run(*words, env=variables)
        log = (self.folder / "snakemake.log").read_text()
        self.assertEqual((status, told.splitlines()[0]), (1, f"tools/sweep: failed, and is tried again: {TEXT.format(2, 1)}"), log)
        self.assertIn("\n| Error in rule simulate:", log)
        asked = (self.room / "asked").read_text().splitlines()
        self.assertEqual(
            [line.rpartition(" --cpus-per-task=1 ")[2].split(" /")[0] for line in asked], ["--mem=300 --time=2", "--mem=600 --time=4"],
        )
        (self.room / "broken").unlink()
        status, told = run(*words, env=variables)
        self.assertEqual((status, len(self.rows()[0])), (0, 1), told)


class Profile(unittest.TestCase):
    """What the profile of Slurm says of a job, by what Slurm says."""

    # What `squeue` and `sacct` print, with their statuses, the word for Snakemake, and what is told beside it.
    STATES = [
        (("COMPLETED", 0), ("", 1), "success", ""),
        (("PENDING", 0), ("", 1), "running", ""),
        (("COMPLETING", 0), ("", 1), "running", ""),
        (("FAILED", 0), ("", 1), "failed", "| a line\ntiny_tera: a cause\n"),
        (("TIMEOUT", 0), ("", 1), "failed", "| a line\ntiny_tera: a cause\ntools/sweep: Slurm ended its job 7: TIMEOUT\n"),
        (("slurm_load_jobs error: Unable to contact slurm controller", 1), ("FAILED", 0), "running", ""),
        (("slurm_load_jobs error: Invalid job id specified", 1), ("COMPLETED", 0), "success", ""),
        (("", 0), ("CANCELLED by 0", 0), "failed", "| a line\ntiny_tera: a cause\ntools/sweep: Slurm ended its job 7: CANCELLED by 0\n"),
        (("slurm_load_jobs error: Invalid job id specified", 1), ("", 1), "failed",
         "| a line\ntiny_tera: a cause\ntools/sweep: Slurm ended its job 7: no state is known\n"),
    ]

    def test_states(self):
        with tempfile.TemporaryDirectory() as name:
            room = Path(name)
            (room / "slurm").mkdir()
            (room / "slurm/7.log").write_text("a line\ntiny_tera: a cause\n")
            for squeue, sacct, word, told in self.STATES:
                answers = {"squeue": squeue, "sacct": sacct}
                put_commands(room / "bin", {name: f"echo '{text}'\nexit {status}\n" for name, (text, status) in answers.items()})
                ended = subprocess.run(
                    [TOOLS / "profiles/slurm/status", "7"], cwd=room, env=with_commands(room / "bin"), capture_output=True, text=True,
                )
                with self.subTest(squeue=squeue, sacct=sacct):
                    self.assertEqual((ended.returncode, ended.stdout, ended.stderr), (0, f"{word}\n", told))


class Simulations(unittest.TestCase):
    """Which simulations a sweep makes, by its settings."""

    SETTINGS = {
        "kinds": ["bursty", "unbalanced", "trace"], "weights": {"unbalanced": ["0.1", "0.5"]}, "burst": 9, "ports": [2], "loads": ["0.5"],
        "schedulers": ["fifo", "islip"], "rounds": [1, 2], "seeds": [3],
    }

    def test_files(self):
        """FIFO and the ideal switch have one number of rounds, unbalanced traffic each weight, and a trace none."""
        found = [f"{scheduler}-rounds-{rounds}-seed-3.txt" for scheduler, rounds in (("fifo", 1), ("islip", 1), ("islip", 2))]
        folders = ["bursty-ports-2-load-0.5-burst-9-weight-0", *(f"unbalanced-ports-2-load-0.5-burst-1-weight-{weight}" for weight in ("0.1", "0.5"))]
        self.assertEqual(simulations.files(self.SETTINGS), [f"{folder}/{name}" for folder in folders for name in found])

    def test_words(self):
        parts = dict(kind="hot-spot", load="0.95", burst="1", weight="0.05", scheduler="firm", rounds="2")
        told = "--scheduler firm --rounds 2 --load-ppm 950000 --burst 1 --pattern {} --weight-ppm 50000"
        self.assertEqual(simulations.words(argparse.Namespace(**parts)), told.format("hot-spot"))
        parts.update(kind="bursty", burst="16", weight="0")
        self.assertIn("--burst 16 --pattern uniform", simulations.words(argparse.Namespace(**parts)))

    def test_minutes(self):
        self.assertEqual([simulations.minutes(1_000_000, ports) for ports in (1, 16, 64)], [2, 2, 3])


def times(path):
    """When a file was written."""
    return path.stat().st_mtime_ns
