"""Tests of the command tests/remake: what it tells, what it writes, and how it ends."""

import contextlib
import importlib.machinery
import importlib.util
import io
import subprocess
import sys
import tempfile
import unittest
from pathlib import Path

from .stored.kept import TOP, Kept

SCRIPT = str(TOP / "tests/remake")


def load_script():
    """The script as a module."""
    loader = importlib.machinery.SourceFileLoader("remake", SCRIPT)
    module = importlib.util.module_from_spec(importlib.util.spec_from_loader("remake", loader))
    path = sys.path[0]
    loader.exec_module(module)
    sys.path[0] = path
    return module


def call(*words):
    """How a run of the command ended."""
    words = [sys.executable, SCRIPT, *words]
    return subprocess.run(words, stdout=subprocess.PIPE, stderr=subprocess.PIPE, universal_newlines=True)


class Command(unittest.TestCase):
    def test_same(self):
        ended = call("--check", "one_p*", "known_queues/banks")
        self.assertEqual((ended.returncode, ended.stderr), (0, ""))
        lines = ["5 jobs are as the model makes them", "1 files of rows are as the model makes them"]
        self.assertEqual(ended.stdout.splitlines()[-2:], lines)

    def test_unknown_name(self):
        ended = call("--check", "no_such_job")
        self.assertEqual((ended.returncode, ended.stdout), (2, ""))
        self.assertEqual(ended.stderr, "tests/remake: nothing that the model makes is named no_such_job\n")


class Differences(unittest.TestCase):
    """Over a folder in which one file is as it is made, one differs, one is missing and one is not made."""

    def setUp(self):
        self.script = load_script()
        folder = tempfile.TemporaryDirectory()
        self.addCleanup(folder.cleanup)
        self.script.TOP = self.top = Path(folder.name)
        for name, data in (("same", b"a\n"), ("differs", b"old\n"), ("bytes", b"\0\1"), ("left", b"x")):
            (self.top / name).write_bytes(data)
        self.made = {"same": b"a\n", "differs": b"new\n", "bytes": b"\0\2\3", "new/file": b"n"}
        self.kept = Kept("jobs", "some", False, self.there, lambda: self.made)

    def there(self):
        files = (path for path in self.top.rglob("*") if path.is_file())
        return {path.relative_to(self.top).as_posix(): path.read_bytes() for path in files}

    def remake(self, is_check):
        with contextlib.redirect_stdout(io.StringIO()) as printed:
            same, differing = self.script.remake([self.kept], is_check)
        return dict(same), sorted(differing), printed.getvalue().splitlines()

    def test_check_writes_nothing(self):
        before = self.there()
        same, differing, lines = self.remake(True)
        self.assertEqual((same, differing), ({"jobs": 0}, ["bytes", "differs", "left", "new/file"]))
        self.assertEqual(self.there(), before)
        for line in (
            "bytes: differs from byte 1 on; 2 bytes are there, 3 are made", "differs: differs (- there, + made)",
            "    -old", "    +new", "left: is not made by the model", "new/file: is missing",
        ):
            self.assertIn(line, lines)

    def test_files_are_made_anew(self):
        self.remake(False)
        self.assertEqual(self.there(), self.made)
        self.assertEqual(self.remake(True)[:2], ({"jobs": 1}, []))

    def test_copies_are_made_anew(self):
        """A copy goes with its file, where all files that were like it became alike."""
        self.script.COPIES = ("copies",)
        (self.top / "copies").mkdir()
        for name, data in (("clear", b"old\n"), ("same", b"a\n"), ("doubtful", b"twice")):
            (self.top / "copies" / name).write_bytes(data)
        for name, data in (("one", b"1"), ("two", b"2")):
            (self.top / name).write_bytes(b"twice")
            self.made[name] = data
        before = {"copies/clear": b"new\n", "copies/same": b"a\n", "copies/doubtful": b"twice"}
        self.kept = self.kept._replace(there=lambda: {path: it for path, it in self.there().items() if "/" not in path})
        _, differing, lines = self.remake(False)
        self.assertTrue("copies/clear" in differing and "copies/same" not in differing)
        self.assertEqual({path: data for path, data in self.there().items() if path in before}, before)
        self.assertIn("copies/doubtful: is a copy of files that differ now; copy the one that is meant", lines)
