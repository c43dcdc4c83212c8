"""The tarball of a version: what is in it, that its check finds what is wrong, and that the same commit gives the same."""

import os
import shutil
import subprocess
import sys
import tempfile
import unittest
from importlib.util import find_spec
from pathlib import Path
from unittest import mock

from launcher import there

from tests import TOP

from .test_proof_times import tool

LACKING = None if there.program(TOP) else "no program of these sources is there"
if not all(find_spec(name) for name in ("pip", "setuptools", "wheel")):
    LACKING = "pip, setuptools or wheel is not there (Debian's python3-pip, python3-setuptools, python3-wheel)"


@unittest.skipIf(LACKING, LACKING)
class Tarball(unittest.TestCase):
    @classmethod
    def setUpClass(cls):
        cls.tool = tool("make_tarball")
        cls.room = tempfile.TemporaryDirectory(prefix="test-tarball-")
        cls.path = cls.tool.make(Path(cls.room.name))
        cls.folder = Path(cls.room.name, "first", cls.tool.NAME)
        cls.folder.parent.mkdir()
        subprocess.run(["tar", "-C", cls.folder.parent, "-xf", cls.path], check=True)

    @classmethod
    def tearDownClass(cls):
        cls.room.cleanup()

    def fault(self, change):
        """What the check says of a tarball in which something was changed."""
        with tempfile.TemporaryDirectory(prefix="test-tarball-") as room:
            folder = Path(room, self.tool.NAME)
            shutil.copytree(self.folder, folder, symlinks=True)
            change(folder)
            with mock.patch.object(self.tool, "PRESET", 0):
                self.tool.pack(folder, Path(room, "changed.tar.xz"), "0")
            with self.assertRaises(self.tool.Fault) as told:
                self.tool.check(Path(room, "changed.tar.xz"))
            return str(told.exception)

    def test_runs(self):
        self.assertEqual(self.tool.check(self.path), sorted(it.parent.name for it in TOP.glob("examples/*/expected")))

    def test_same_bytes(self):
        with tempfile.TemporaryDirectory(prefix="test-tarball-") as room:
            self.assertEqual(self.tool.make(Path(room)).read_bytes(), self.path.read_bytes())

    def test_content(self):
        """By a list of its own: what a user is to find there, and nothing that is for maintainers."""
        names = {str(it.relative_to(self.folder)) for it in self.folder.rglob("*")}
        self.assertLessEqual(
            {"bin/tiny_tera", "lib/tiny_tera/program", "lib/tiny_tera/launcher/main.py", "share/man/man1/tiny_tera.1", "LICENSE", "README",
             "share/tiny_tera/viewer/index.html", "include/tiny_tera.h", "lib/libtiny_tera.a", "lib/libtiny_tera.so",
             "lib/pkgconfig/tiny_tera.pc", "share/tiny_tera/examples/run"}, names)  # fmt: skip
        self.assertEqual([it for it in names if "tests" in Path(it).parts or "__pycache__" in it], [])
        self.assertEqual(len([it for it in names if it.endswith("-py3-none-linux_x86_64.whl")]), 1)
        ended = subprocess.run(["sha256sum", "--quiet", "-c", "SHA256SUMS"], cwd=self.folder, stdout=subprocess.PIPE, text=True)
        self.assertEqual((ended.returncode, ended.stdout), (0, ""))

    def test_library_is_found(self):
        """As a user who has nothing but the unpacked folder: the page's program in C where there is a compiler, and ctypes."""
        ways = ["ctypes", *(["c"] if shutil.which("cc") and shutil.which("pkg-config") else [])]
        for way in ways:
            words = [sys.executable, TOP / "tests/library/installed.py", self.folder, way]
            ended = subprocess.run(words, stdout=subprocess.PIPE, stderr=subprocess.STDOUT, text=True)
            self.assertEqual(ended.returncode, 0, ended.stdout)

    def test_changed(self):
        def write(name, text):
            return lambda folder: (folder / name).write_text(text)

        self.assertEqual(self.fault(write("lib/tiny_tera/program", "another")), "lib/tiny_tera/program has another sum")
        self.assertEqual(self.fault(write("more", "")), "more has no sum")
        self.assertEqual(self.fault(lambda folder: (folder / "LICENSE").unlink()), "LICENSE is not there")

    def test_wrong_with_right_sums(self):
        """What is wrong is found too where the sums are made for it."""
        def summed(change):
            def done(folder):
                change(folder)
                sums = "".join(f"{found}  {name}\n" for name, found in self.tool.sums_of(folder).items())
                (folder / "SHA256SUMS").write_text(sums)

            return done

        expected = "share/tiny_tera/examples/two_inputs/expected/out.report"
        self.assertIn("run ended with status 1", self.fault(summed(lambda folder: (folder / expected).write_text("another\n"))))
        self.assertIn("has another library", self.fault(summed(lambda folder: (folder / self.tool.LIBRARY).write_text("another"))))
        version = "lib/tiny_tera/launcher/version.py"
        old = (self.folder / version).read_text()
        told = self.fault(summed(lambda folder: (folder / version).write_text(old.replace(self.tool.VERSION, "0.9"))))
        self.assertIn("--version says tiny_tera 0.9", told)

    def test_command(self):
        words = [TOP / "dev/make_tarball", "--check", self.path]
        ended = subprocess.run(words, stdout=subprocess.PIPE, stderr=subprocess.STDOUT, text=True)
        self.assertEqual(ended.returncode, 0, ended.stdout)
        self.assertIn("the sums are right", ended.stdout)
        ended = subprocess.run([*words[:2], os.devnull], stdout=subprocess.PIPE, stderr=subprocess.STDOUT, text=True)
        self.assertEqual(ended.returncode, 1)
        self.assertTrue(ended.stdout.startswith("dev/make_tarball: "), ended.stdout)

    def test_failing_command(self):
        """What a command said is told, and nothing is left."""
        with tempfile.TemporaryDirectory(prefix="test-tarball-") as room, mock.patch.object(self.tool, "put_library", side_effect=self.tool.Fault("x")):
            with self.assertRaises(self.tool.Fault):
                self.tool.make(Path(room))
            self.assertEqual(list(Path(room).iterdir()), [])
        with self.assertRaisesRegex(self.tool.Fault, "false ended with status 1"):
            self.tool.run(["false"])


if __name__ == "__main__":
    unittest.main()
