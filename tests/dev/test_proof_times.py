"""The tables of what proofs cost: how they are read, written and compared, and how a gate tells them."""

import subprocess
import sys
import tempfile
import unittest
from importlib.machinery import SourceFileLoader
from importlib.util import module_from_spec, spec_from_loader
from pathlib import Path

import proof_tables as tables
from launcher.estimate import seconds_by_crate

from tests import TOP

# A prover that is none: a shell under its name, which is busy for some seconds.
BUSY = "end=$((SECONDS+3)); while [ $SECONDS -lt $end ]; do :; done"


def tool(name):
    """A tool as a module."""
    spec = spec_from_loader(name, SourceFileLoader(name, str(TOP / "dev" / name)))
    made = module_from_spec(spec)
    spec.loader.exec_module(made)
    return made


class Tables(unittest.TestCase):
    CRATES = {"high": (120, 9), "low": (1234, 1070)}
    FUNCTIONS = {("low", "places::put"): 40, ("low", tables.FIRST): 30, ("high", "main"): 20}

    def test_are_read_as_written(self):
        with tempfile.TemporaryDirectory() as room:
            crates, functions = Path(room) / "crates.md", Path(room) / "functions.md"
            self.assertEqual((tables.read_crates(crates), tables.read_functions(functions)), ({}, {}))
            crates.write_text(tables.crates_text(self.CRATES))
            functions.write_text(tables.functions_text(self.FUNCTIONS))
            self.assertEqual((tables.read_crates(crates), tables.read_functions(functions)), (self.CRATES, self.FUNCTIONS))
            self.assertIn("| all | 1,354 | 1,079 |\n", crates.read_text())

    def test_kept_table(self):
        """The launcher reads what the tool wrote."""
        self.assertEqual(seconds_by_crate(), {name: seconds for name, (seconds, _) in tables.read_crates().items()})

    def test_order_and_length(self):
        self.assertLess(tables.crates_text(self.CRATES).index("low"), tables.crates_text(self.CRATES).index("high"))
        many = {("low", f"f{k}"): k for k in range(3 * tables.DEAREST)}
        rows = tables.functions_text(many).splitlines()[2:]
        self.assertEqual((len(rows), rows[0]), (tables.DEAREST, f"| `low` | `f{3 * tables.DEAREST - 1}` | {3 * tables.DEAREST - 1} |"))

    def test_joined(self):
        """What was measured takes the place of what was before; what crates.txt does not name goes."""
        self.assertEqual(tables.joined(self.CRATES, {"low": (9, 2), "new": (1, 1)}, {"low", "new"}), {"low": (9, 2), "new": (1, 1)})
        measured = {("low", "places::put"): 10}
        found = tables.joined_functions(self.FUNCTIONS, measured, {"low"}, {"low", "high"})
        self.assertEqual(found, {("low", "places::put"): 10, ("high", "main"): 20})
        self.assertEqual(tables.joined_functions(self.FUNCTIONS, measured, {"low"}, {"low"}), measured)


class Comparison(unittest.TestCase):
    def test_limits(self):
        """Over a fifth, and over five seconds."""
        before = {"a": (100, 3), "b": (10, 3), "c": (100, 3), "d": (10, 3), "e": (50, 3)}
        measured = {"a": (120, 3), "b": (15, 3), "c": (121, 4), "d": (16, 3), "e": (40, 3), "new": (500, 3)}
        lines = tables.grown_crates(before, measured)
        self.assertEqual([line.split(":")[0] for line in lines], ["`c`", "`d`"])
        self.assertEqual(lines[0], "`c`: 100 seconds before, 121 now; 3 functions before, 4 now")
        self.assertEqual(tables.comparison(before, measured), "Crates that were measured before: 5; 270 seconds then, 312 now, 1.16 times")

    def test_chain(self):
        libraries = {"a": [], "b": ["a", "hex"], "c": ["a"], "d": ["b", "c"], "e": []}
        crates = {"a": (1, 1), "b": (9, 1), "c": (10, 1), "d": (2, 1), "e": (12, 1)}
        self.assertEqual(tables.longest_chain(libraries, crates), (13, ["a", "c", "d"]))

    def test_functions(self):
        """What was not among the dearest took at most what the last of these did; what is new has nothing to grow from."""
        before = {("a", "f"): 40, ("a", tables.FIRST): 30, ("a", "g"): 20}
        measured = {("a", "f"): 60.4, ("a", tables.FIRST): 31, ("a", "h"): 30, ("a", "i"): 24, ("new", "j"): 90}
        self.assertEqual(
            tables.grown_functions(before, measured, {"a": (100, 3)}),
            ["`a`, f: 40 seconds before, 60 now", "`a`, h: 20 or less seconds before, 30 now"],
        )
        self.assertEqual(tables.grown_functions({}, measured, {"a": (100, 3)}), [])


class Measuring(unittest.TestCase):
    def test_order(self):
        libraries = {"top": ["low", "middle", "std"], "middle": ["low"], "low": [], "beside": []}
        self.assertEqual(tool("proof_times").in_order(libraries, ["top"]), ["low", "middle", "top"])

    def test_crates_of_tests(self):
        times = tool("proof_times")
        found = {name for name in tables.libraries_of(TOP) if times.has_tests_alone(TOP / "crates" / name)}
        self.assertEqual({it for it in found if not it.endswith("_tests")}, set())
        self.assertIn("switch_tests", found)

    def test_lines_of_a_check(self):
        """The first function is listed as that, and names are those below the crate."""
        said = "checked low::places::put, 1 of 3\nchecked low::<T as Take>::take, 2 of 3\nlogic=proved functions=3 sum=0\n"
        ran = subprocess.Popen(["printf", said], stdout=subprocess.PIPE, universal_newlines=True)
        text, functions = tool("proof_times").follow(ran, "low")
        ran.wait()
        ran.stdout.close()
        self.assertEqual((text, list(functions)), (said, [("low", tables.FIRST), ("low", "<T as Take>::take")]))


class Gate(unittest.TestCase):
    OK = "rt: ok; handles allowed: none; must-fail edits: 4 refused; "

    def test_what_was_done(self):
        times = tool("gate_times")
        kept = "the others are kept from earlier runs of the same files on this machine"
        lines = {
            "done in this run: 2 of the 134 proofs (of crates and of their tests) and 3 of the 425 must-fail edits; ": "2 of 134 proofs and 3 of 425 edits",
            "done in this run: 0 of the 2 proofs (of crates and of their tests); ": "0 of 2 proofs",
        }
        for line, done in lines.items():
            said = times.Said()
            said.read(self.OK + line + kept)
            self.assertEqual(said.done, done)
        for line in (self.OK + "every proof and must-fail edit was done in this run", "rt: ok; handles allowed: Threads, Wait"):
            said = times.Said()
            self.assertEqual(said.done, "-")
            said.read(line)
            self.assertEqual(said.done, "all")

    def test_table(self):
        """The seconds of crates by what a process was for, as dev/proof_times reads them in the log."""
        times = tool("gate_times")
        said = times.Said()
        for line in ("== low", "logic=proved functions=7 sum=0", "== low: its tests", "logic=proved tests=2 functions=9 sum=0"):
            said.read(line)
        for line in ("== some_tests: its tests", "logic=proved tests=4 functions=5 sum=0"):
            said.read(line)
        seen = {1: ("low", "proofs", 1500.4), 2: ("low", "edits", 3), 3: ("low", "edits", 4), 4: ("low", "tests", 2), 5: ("some_tests", "tests", 8)}
        seen[6] = "kept", "tests", 5
        rows = times.table(seen, said.functions)
        self.assertEqual(rows[2:4], ["| `low` | 1,500 | 2 | 7 | 7 | 9 |", "| `some_tests` | 0 | 8 | 0 | 0 | 5 |"])
        log = "\n".join(["| `low` | 1 | 2 |", *rows, ""])
        self.assertEqual(tool("proof_times").of_gate(log, {"some_tests"}), {"low": (1500, 7), "some_tests": (8, 5)})

    def test_run(self):
        """What the command prints is passed on, its status too; what looks like a prover of a crate is seen."""
        with tempfile.TemporaryDirectory(prefix="gate-") as room:
            edits = Path(room) / "rt-edit-1"
            edits.mkdir()
            prover = f"exec -a rattle bash -c '{BUSY}' rattle"
            script = f"echo '== low'; (cd '{edits}'; {prover} check --crate-name low); ({prover} fmt); echo 'logic=proved functions=7 sum=0'; exit 3"
            words = [sys.executable, str(TOP / "dev/gate_times"), "bash", "-c", script]
            ended = subprocess.run(words, stdout=subprocess.PIPE, universal_newlines=True, cwd=room)
        lines = ended.stdout.splitlines()
        self.assertEqual((ended.returncode, len(lines), lines[:2]), (3, 7, ["== low", "logic=proved functions=7 sum=0"]))
        self.assertRegex(lines[-3], r"^\| `low` \| 0 \| 0 \| \d+ \| 7 \| 0 \|$")
        self.assertRegex(lines[-2], r"^dev/gate_times: processor minutes: proofs 0.0, tests 0.0, edits \d.*, the rest \d.*; \d.* minutes by the clock$")
        self.assertRegex(lines[-1], r"^dev/gate_times: \| `bash -c .*`, \w.* \| \d.* \| 0.0 \| 0.0 \| \d.* \| \d.* \| - \| .* \| \d+, at most \d+ \|$")
