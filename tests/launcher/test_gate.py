"""The gate, with a toolchain and tests that are made up; and how tests/run tells of its parts."""

import importlib.util
import os
import shutil
import unittest
from importlib.machinery import SourceFileLoader

from .scene import LIBRARY, TOP, Stored, run_here

SAYS = "#!/bin/sh\necho {}: $*\nexit ${{{}:-0}}\n"


class Gate(Stored):
    """What .ci/run calls, in which order, and where it stops."""

    def setUp(self):
        super().setUp()
        for name in (".ci/run", "dev/gate_times"):
            (self.top / name).parent.mkdir(exist_ok=True)
            shutil.copy(TOP / name, self.top / name)
        self.executable(self.top / "dev/make_module", SAYS.format("module", "MODULE_STATUS"))
        self.executable(self.top / "tests/run", SAYS.format("tests", "TESTS_STATUS"))

    def gate(self, **variables):
        """The status of the gate, and the lines that tell what it came to."""
        ended = run_here([self.top / ".ci/run"], cwd=self.top, env={**self.variables, **variables})
        words = "9 passed", "dev/make_release", "module", "tests", ".ci/run"
        return ended.returncode, [line for line in ended.stdout.splitlines() if line.startswith(words)]

    def test_passes(self):
        status, lines = self.gate()
        compared = [f"dev/make_release: as stored: {names}" for names in ("tiny_tera", "simulate", ", ".join(LIBRARY))]
        self.assertEqual(lines[:4], ["9 passed, 0 failed", *compared])
        self.assertRegex(lines[4], "^module: --check --since ")
        self.assertEqual((status, lines[5:]), (0, ["tests:", ".ci/run: passed"]))
        self.assertEqual(self.calls()[0], "ci")
        self.assertIn("proved and built here", self.launch("--version").stdout)

    def test_changed_byte(self):
        file = self.top / "release/tiny_tera.xz"
        data = file.read_bytes()
        file.write_bytes(data[:30] + bytes([data[30] ^ 1]) + data[31:])
        status, lines = self.gate()
        self.assertEqual((status, len(lines)), (1, 2))
        self.assertIn("dev/make_release: FAILED: release/tiny_tera.xz ", lines[1])

    def test_changed_source(self):
        self.append("crates/lower/src/lib.rt")
        status, lines = self.gate()
        self.assertEqual((status, len(lines)), (1, 2))
        self.assertIn("dev/make_release: FAILED: other sources than those that are stated: crates/lower: ", lines[1])

    def test_stops(self):
        for name, code in (("RT_CODE", "exit 7"), ("MODULE_STATUS", "8"), ("TESTS_STATUS", "9")):
            status, lines = self.gate(**{name: code})
            self.assertEqual(status, int(code[-1]))
            self.assertNotIn(".ci/run: passed", lines)


class Parts(unittest.TestCase):
    """How tests/run counts."""

    @classmethod
    def setUpClass(cls):
        spec = importlib.util.spec_from_loader("tests_run", SourceFileLoader("tests_run", str(TOP / "tests/run")))
        cls.tests = importlib.util.module_from_spec(spec)
        spec.loader.exec_module(cls.tests)

    def ended(self, said, status=0, cases=r"^Ran (\d+) tests? in "):
        part = self.tests.Part("made up", ("sh", "-c", f"echo '{said}'; exit {status}"), cases)
        ended = self.tests.run(part, "/tmp", os.environ)
        return ended.passed, ended.is_failed, ended.skips

    def test_counts(self):
        self.assertEqual(self.ended("Ran 12 tests in 3 s\n\nOK"), (12, False, []))
        self.assertEqual(self.ended("Ran 12 tests in 3 s\n\nOK (skipped=2)\nx: skipped y: no z"), (10, False, ["x: skipped y: no z"]))
        self.assertEqual(self.ended("Ran 12 tests in 3 s\nRan 1 test in 1 s", 1), (13, True, []))
        self.assertEqual(self.ended("ok a\nok b\nskipped c: no d", cases="^(ok) "), (2, False, ["skipped c: no d"]))

    def test_what_runs_nothing(self):
        self.assertEqual(self.ended("nothing"), (0, True, []))
        self.assertEqual(self.ended("skipped, there is no browser"), (0, False, ["skipped, there is no browser"]))

    def test_each_part(self):
        """Every part calls what is there, and each example that states what it writes is one."""
        names = {part.name for part in self.tests.PARTS}
        self.assertEqual(len(names), len(self.tests.PARTS))
        for path in TOP.glob("examples/*/expected"):
            self.assertIn(f"example {path.parent.name}", names)
        for part in self.tests.PARTS:
            for word in part.words:
                self.assertTrue(not word.startswith(("tools/", "examples/")) or (TOP / word).is_file(), word)
