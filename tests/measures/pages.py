"""Tests of the pages of the tools: their commands print what stands below them."""

import re
import shutil
import subprocess
import tempfile
import unittest

from .common import PROGRAM, TOP, lacks

LACKING = lacks("pandas")
if not PROGRAM or not shutil.which("mergecap"):
    LACKING = "there is no mergecap" if PROGRAM else "there is no program"


class Pages(unittest.TestCase):
    @unittest.skipIf(LACKING, LACKING)
    def test_commands_of_sweeps(self):
        self.check("SWEEPS")

    @unittest.skipIf(lacks("numpy", "pandas"), lacks("numpy", "pandas"))
    def test_commands_of_sizing(self):
        self.check("SIZING")

    def check(self, page):
        """At the top of the repository, with a fresh folder for /tmp."""
        blocks = re.findall(r"^```text\n(\$ .*?)^```$", (TOP / f"docs/{page}.md").read_text(), re.M | re.S)
        self.assertGreater(len(blocks), 1)
        for block in blocks:
            with self.subTest(block), tempfile.TemporaryDirectory() as room:
                lines = block.replace("/tmp/", f"{room}/").splitlines(True)
                commands = "".join(line[2:] for line in lines if line.startswith("$ "))
                ended = subprocess.run(["sh", "-e"], input=commands, cwd=TOP, stdout=subprocess.PIPE, text=True)
                told = "".join(line for line in lines if not line.startswith("$ "))
                self.assertEqual((ended.returncode, ended.stdout), (0, told))
