"""What is installed runs without a toolchain, and is the proved program."""

import hashlib
import os
import re
import shlex
import shutil
import subprocess
import sys
from pathlib import Path

from launcher.version import VERSION

from .scene import KIT, LIBRARY, NO_TOOLCHAIN, TOP, Scene, python, run_here


class Install(Scene):
    PATH = NO_TOOLCHAIN

    def setUp(self):
        super().setUp()
        self.prefix = self.room / "pre fix"

    def in_git(self, folder, tag):
        """Has all of a folder in a repository of its own, with a tag."""
        name = ("-c", "user.name=x", "-c", "user.email=x@y")
        for words in (["init", "-q"], ["add", "-A"], [*name, "commit", "-qm", "x"], ["tag", tag]):
            subprocess.run(["git", "-C", folder, *words], check=True)

    def copy_all(self):
        """Has in the clone what is installed beside the program."""
        ignored = shutil.ignore_patterns("__pycache__")
        for name in ("tools", "python", "examples"):
            shutil.copytree(TOP / name, self.top / name, ignore=ignored, dirs_exist_ok=True)

    def run_tool(self, name, *words):
        """An installed tool, by its name in bin, without a toolchain, in another folder."""
        variables = {**self.variables, "PATH": self.PATH}
        ended = run_here([self.prefix / f"bin/tiny_tera-{name}", *words], cwd=self.jobs, env=variables)
        self.assertEqual((ended.returncode, ended.stderr), (0, ""))
        return ended.stdout

    def installed_files(self):
        """The names of all that is in the prefix but folders."""
        return {str(it.relative_to(self.prefix)) for it in self.prefix.rglob("*") if it.is_symlink() or not it.is_dir()}

    def install(self, **variables):
        return python(self.top / "tools/install", self.prefix, env={**self.variables, **variables})

    def started(self, *words):
        """The installed launcher, without a toolchain, in another folder."""
        words = [str(self.prefix / "bin/tiny_tera"), *words]
        variables = {**self.variables, "PATH": self.PATH}
        return subprocess.run(words, cwd=self.jobs, env=variables, stdout=subprocess.PIPE, stderr=subprocess.PIPE, universal_newlines=True)

    def test_installed(self):
        self.build()
        proved = hashlib.sha256((self.room / "fake").read_bytes()).hexdigest()
        self.assertEqual(self.launch("simulate", "1", "1", "1").returncode, 0)
        installed = self.install()
        self.assertEqual((installed.returncode, installed.stderr), (0, ""))
        self.assertEqual(installed.stdout, "".join(f"{proved}  {self.prefix}/lib/tiny_tera/{name}\n" for name in ("program", "simulate")))
        shutil.rmtree(self.top)
        for words in (("gen", "1", "2", "2"), ("simulate", "--load", "0.9", "1", "2", "2")):
            ended = self.started(*words)
            self.assertEqual((ended.returncode, ended.stdout, ended.stderr), (0, "summary\n", ""))
        notes = self.room / "notes"
        self.variables["NOTES"] = str(notes)
        self.assertRegex(self.started("run", "--ethernet", "100", "t", "out", "a").stderr, "^note: --ethernet 100 is --line-rate 159, .*\n")
        self.assertEqual(notes.read_text().splitlines()[:2], ["run", "--line-rate=159"])
        version = self.started("--version").stdout.splitlines()
        self.assertEqual(version[1:3], [f"proved with {KIT}", f"sha256 {proved}  {self.prefix}/lib/tiny_tera/program"])
        self.assertEqual(version[3:], [f"simulate: proved with {KIT}", f"simulate: sha256 {proved}  {self.prefix}/lib/tiny_tera/simulate"])
        told = self.started("--help").stdout
        self.assertIn("usage:\n  tiny_tera run", told)
        self.assertTrue(os.path.isfile(told.rstrip("\n").partition("man ")[2]), told)
        self.assertIn("--rounds R", self.started("run", "--help").stdout)
        self.assertIn("--load SHARE", self.started("simulate", "--help").stdout)
        for name in ("share/man/man1/tiny_tera.1", "share/tiny_tera/viewer/index.html", "share/tiny_tera/viewer/lib/LICENSE", "share/tiny_tera/LICENSE"):
            self.assertTrue((self.prefix / name).is_file(), name)
        self.assertFalse((self.prefix / "share/tiny_tera/viewer/tests").exists())

    def test_stored_program(self):
        """Where nothing is built, the stored program is installed, without a toolchain."""
        self.store()
        self.assertEqual(self.install(PATH=self.PATH).returncode, 0)
        shutil.rmtree(self.top)
        self.assertEqual(self.started("gen", "1", "2", "2").stdout, "summary\n")
        self.assertEqual(self.started("--version").stdout.splitlines()[1], f"proved with {KIT}")
        for word in ("--prove", "--library"):
            self.assertEqual(self.started(word).returncode, 2)

    def test_tools(self):
        """The tools for users are there by names of their own, and find their modules through the links."""
        self.build()
        self.copy_all()
        self.assertEqual(self.install().returncode, 0)
        tools = {it.name for it in (TOP / "tools").iterdir() if it.is_file()} - {"install", "README.md"}
        shutil.rmtree(self.top)
        programs = self.prefix / "bin"
        names = {"tiny_tera", *(f"tiny_tera-{name}" for name in tools)}
        self.assertEqual({it.name for it in programs.iterdir()}, names)
        for link in programs.iterdir():
            self.assertTrue(os.access(link, os.X_OK) and not os.path.isabs(os.readlink(link)), link)
        self.run_tool("traffic", "made", "--ports", "2", "--slots", "4", "--load", "1")
        told = self.run_tool("unrouted", "made/table.txt", "made/00.pcap", "made/01.pcap")
        self.assertEqual(told, "unrouted 0 of 8 packets\n")
        told = self.run_tool("split", "made/00.pcap", "parts", "10.1.0.0/24").splitlines()
        self.assertEqual(told[0], "port 0: 4 packets, 10.1.0.0/24: parts/00.pcap")
        self.assertIn(f"{self.prefix}/lib/tiny_tera/tiny_tera' run --ethernet E parts/table.txt", told[-1])

    def test_provenance(self):
        """What the installed tools make is of the version that was installed, also within a repository of the user's own."""
        self.build()
        self.copy_all()
        self.in_git(self.top, "v7")
        self.install()
        self.in_git(self.prefix, "v8")
        words = [sys.executable, "-c", "from measure.provenance import commit; print(commit())"]
        told = run_here(words, env={**self.variables, "PYTHONPATH": str(self.prefix / "lib/tiny_tera/tools")})
        self.assertEqual(told.stdout, "v7\n")

    def test_package_and_examples(self):
        """The package has the library beside it where one is there, and the examples run the program there."""
        self.store()
        self.copy_all()
        self.assertEqual(self.install(PATH=self.PATH).returncode, 0)
        shutil.rmtree(self.top)
        package = self.prefix / "lib/tiny_tera/python"
        words = [sys.executable, "-c", "import tiny_tera.report; print(tiny_tera.report.__file__)"]
        told = run_here(words, cwd=self.jobs, env={**self.variables, "PYTHONPATH": str(package)}).stdout
        self.assertEqual(told, f"{package}/tiny_tera/report.py\n")
        self.assertEqual((package / "tiny_tera/libtiny_tera.so").read_bytes(), LIBRARY["libtiny_tera.so"])
        examples = self.prefix / "share/tiny_tera/examples"
        self.assertTrue(os.access(examples / "run", os.X_OK))
        name = "small_network/a.pcap"
        self.assertEqual((examples / name).read_bytes(), (TOP / "examples" / name).read_bytes())
        variables = {**self.variables, "PATH": self.PATH}
        ended = run_here([examples / "small_network/../../tiny_tera", "gen", "1", "2", "2"], env=variables)
        self.assertEqual((ended.returncode, ended.stdout), (0, "summary\n"))
        self.assertFalse([name for name in self.installed_files() if "tests" in Path(name).parts])

    def test_again_and_removed(self):
        """What an older version left goes, other files stay; the page's command removes all, which is below 3 MB."""
        self.build()
        self.copy_all()
        self.install()
        known = self.installed_files()
        self.write_there("lib/tiny_tera/tools/old", "lib/tiny_tera/python/tiny_tera/old.py")
        self.write_there("share/tiny_tera/examples/old/a.pcap", "bin/tiny_tera-mine")
        (self.prefix / "bin/tiny_tera-old").symlink_to("../lib/tiny_tera/tools/old")
        self.install()
        self.assertEqual(self.installed_files(), {*known, "bin/tiny_tera-mine"})
        (self.prefix / "bin/tiny_tera-mine").unlink()
        self.assertLess(sum((self.prefix / name).lstat().st_size for name in known), 3_000_000)
        command = re.search(r"`(rm -r PREFIX/.*?)`", (TOP / "docs/USAGE.md").read_text())[1]
        quoted = command.replace("PREFIX", shlex.quote(str(self.prefix)))
        self.assertEqual(subprocess.run(["sh", "-c", quoted]).returncode, 0)
        self.assertEqual(self.installed_files(), set())

    def write_there(self, *names):
        """Files that are not of this installation."""
        for name in names:
            (self.prefix / name).parent.mkdir(parents=True, exist_ok=True)
            (self.prefix / name).write_text("another\n")

    def test_copied(self):
        """The installed folder is copied to another place, with new times."""
        self.build()
        self.install()
        self.prefix.rename(self.room / "first")
        shutil.copytree(self.room / "first", self.prefix, symlinks=True, copy_function=shutil.copyfile)
        for name in ("program", "tiny_tera"):
            (self.prefix / "lib/tiny_tera" / name).chmod(0o755)
        self.assertEqual(self.started("gen", "1", "2", "2").stdout, "summary\n")

    def test_another_program_is_not_started(self):
        self.build()
        self.install()
        program = self.prefix / "lib/tiny_tera/program"
        program.write_text("#!/bin/sh\necho another\n")
        ended = self.started("gen", "1", "2", "2")
        self.assertEqual((ended.returncode, ended.stdout), (1, ""))
        why = f"{program} is not the program that was installed, so it is not started"
        self.assertEqual(ended.stderr, f"tiny_tera: {why}\n")
        told = self.started("--version")
        self.assertEqual((told.returncode, told.stdout.splitlines()[1]), (1, why))
        program.unlink()
        told = self.started("--version")
        self.assertEqual((told.returncode, told.stdout.splitlines()[1]), (1, f"{program} is not there, so it is not started"))

    def test_clone_of_another_user(self):
        """The version is that of the clone, whoever owns it."""
        self.build()
        self.launch("simulate", "1", "1", "1")
        self.in_git(self.top, "v7")
        other = {"GIT_TEST_ASSUME_DIFFERENT_OWNER": "1"}
        told = subprocess.run(["git", "-C", self.top, "describe"], env={**self.variables, **other}, stdout=subprocess.PIPE, stderr=subprocess.PIPE)
        self.assertIn(b"dubious ownership", told.stderr)
        self.assertEqual(self.launch("--version", **other).stdout.splitlines()[0], f"tiny_tera {VERSION} (v7)")
        self.assertEqual((self.install(**other).stderr, self.started("--version").stdout.splitlines()[0]), ("", f"tiny_tera {VERSION} (v7)"))

    def test_what_is_not_proved_is_not_installed(self):
        told = self.install()
        self.assertEqual((told.returncode, told.stderr), (1, "tools/install: nothing is stored in release/: run ./tiny_tera --prove first\n"))
        self.build()
        (self.top / "crates/lower/src/lib.rt").write_text("// changed\n")
        told = self.install()
        self.assertEqual((told.returncode, self.prefix.exists()), (1, False))
        self.assertIn("crates/lower/src/lib.rt changed since the program was proved", told.stderr)

    def test_without_simulate(self):
        """Where the program of that command is not there, the other is installed, and it is told."""
        self.build()
        told = self.install()
        why = "tools/install: without simulate: nothing is stored in release/: run ./tiny_tera --prove simulate first\n"
        self.assertEqual((told.returncode, told.stderr), (0, why))
        ended = self.started("simulate", "1", "2", "2")
        why = f"tiny_tera: {self.prefix}/lib/tiny_tera/simulate is not there, so it is not started\n"
        self.assertEqual((ended.returncode, ended.stderr), (1, why))

    def test_staged(self):
        self.build()
        staged = self.room / "staged"
        self.assertEqual(self.install(DESTDIR=str(staged)).returncode, 0)
        self.assertFalse(self.prefix.exists())
        shutil.move(str(staged) + str(self.prefix), str(self.prefix))
        self.assertEqual(self.started("gen", "1", "2", "2").stdout, "summary\n")
