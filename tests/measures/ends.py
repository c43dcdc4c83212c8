"""Tests of how the tools end where nobody reads what they say, or where it cannot be written."""

import os
import subprocess
import sys
import tempfile
import unittest
from pathlib import Path

from .common import JOURNAL, REPORT, TOOLS, run_here

NAMES = sorted(path.name for path in TOOLS.iterdir() if path.is_file() and os.access(path, os.X_OK))
READER_WENT = 141


def run_into(stream, number, *words):
    """The status of a tool with an open file as its standard output (1) or error (2), and what it said on the other."""
    streams = {"stdout": subprocess.PIPE, "stderr": subprocess.PIPE, ("stdout", "stderr")[number - 1]: stream}
    ended = subprocess.run([sys.executable, *map(str, words)], text=True, **streams)
    return ended.returncode, (ended.stdout or "") + (ended.stderr or "")


class Ends(unittest.TestCase):
    def setUp(self):
        room = tempfile.TemporaryDirectory()
        self.addCleanup(room.cleanup)
        self.report = Path(room.name, "one.report")
        self.report.write_text(REPORT)
        self.journal = self.report.with_suffix(".journal")
        self.journal.write_bytes(JOURNAL)
        ours, self.unread = os.pipe()
        os.close(ours)
        self.addCleanup(os.close, self.unread)

    def test_reader_that_goes_away(self):
        """As `head` does: nothing is said. Some versions of Python end with 0 where help is not read."""
        self.assertIn("plot", NAMES)
        for name in NAMES:
            status, said = run_into(self.unread, 1, TOOLS / name, "--help")
            self.assertIn((status, said), ((0, ""), (READER_WENT, "")), name)
        self.assertEqual(run_into(self.unread, 1, TOOLS / "journal", "show", self.journal), (READER_WENT, ""))
        self.assertEqual(run_into(self.unread, 2, TOOLS / "journal", "show", self.report), (1, ""))

    def test_full_disk(self):
        with open("/dev/full", "w") as full:
            status, said = run_into(full, 1, TOOLS / "journal", "show", self.journal)
        self.assertEqual((status, said.count("\n")), (1, 1), said)
        self.assertEqual(said, "tools/journal: No space left on device\n")
        missing = self.report.with_name("none")
        self.assertEqual(run_here("journal", "show", missing), (1, f"tools/journal: {missing}: No such file or directory\n"))

    def test_what_is_no_journal(self):
        """The file is named, and what it is."""
        self.journal.write_bytes(JOURNAL[:-1])
        end = len(JOURNAL) - 1
        for path, at, what in (
            (self.report, 0, "is a report; a journal is what run --journal writes"),
            (self.journal, end, f"ends at byte {end}, before its last slot does"),
        ):
            told = f"tools/journal: {path}: bad at {at}; hint: {path} {what}\n"
            status, said = run_here("journal", "show", path)
            self.assertEqual((status, said[said.index("tools/"):]), (1, told))
