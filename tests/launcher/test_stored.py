"""The stored program and library: when they are started or given, what they are compared with, and what is said of them."""

import lzma
import os
import shutil
import stat
import subprocess
import unittest

from .scene import FAKE_PROGRAM, KIT, LIBRARY, NO_TOOLCHAIN, Stored

STORED = "release/tiny_tera.xz"
STATED = "release/made_from.txt"


class Launcher(Stored):
    def test_fresh_clone(self):
        """It is unpacked once, and is executable."""
        self.assertEqual(self.started(), "")
        unpacked = self.top / "out/stored/tiny_tera"
        self.assertEqual(unpacked.read_text(), FAKE_PROGRAM)
        before = unpacked.stat()
        self.assertEqual(stat.S_IMODE(before.st_mode), 0o755)
        self.assertEqual(self.started(), "")
        self.assertEqual((unpacked.stat().st_ino, unpacked.stat().st_mtime_ns), (before.st_ino, before.st_mtime_ns))
        self.assertEqual(sorted(it.name for it in unpacked.parent.iterdir()), ["launcher.json", "tiny_tera"])
        self.assertFalse((self.room / "home").exists())

    def test_copy_without_times(self):
        self.started()
        copy = self.room / "copy"
        shutil.copytree(self.top, copy, copy_function=shutil.copyfile)
        (copy / "tiny_tera").chmod(0o755)
        self.assertEqual(self.launch("gen", "1", "2", "2", top=copy, PATH=NO_TOOLCHAIN).stdout, "summary\n")

    def test_changed_source_is_proved(self):
        for told in ("release/ was made from other sources of lower\n", "crates/upper/src/lib.rt changed"):
            ended = self.change(told.partition(" changed")[0] if "changed" in told else "crates/lower/src/lib.rt")
            self.assertEqual((ended.returncode, ended.stdout), (0, "summary\n"))
            self.assertIn(told, ended.stderr)
            self.assertIn("the program is proved first: 3 crates", ended.stderr)
            self.assertEqual(self.calls(), ["ci"])

    def change(self, name):
        self.append(name)
        without = self.launch("gen", "1", "2", "2", PATH=NO_TOOLCHAIN)
        self.assertEqual((without.returncode, without.stdout), (1, ""))
        self.assertIn("the toolchain's rt is not in the path", without.stderr)
        return self.launch("gen", "1", "2", "2")

    def test_other_sources_change_nothing(self):
        for name in ("crates/beside/src/lib.rt", "crates/scheduler_c/src/lib.rt", "crates/lower/must-fail/wrong.edit", "docs/USAGE.md"):
            self.append(name)
        self.append("crates.txt", "another:\n")
        self.assertEqual(self.started(), "")

    def test_built_here_comes_first(self):
        self.assertEqual(self.launch("--prove").returncode, 0)
        self.executable(self.top / "out/stored/tiny_tera", "#!/bin/sh\necho not this\n")
        (self.top / STORED).write_bytes(b"")
        self.assertEqual(self.started(), "")
        self.assertFalse((self.top / "out/stored/launcher.json").exists())

    def test_changed_byte(self):
        """A stored program that is not as stated is not started; without a toolchain nothing is, and with one it is proved."""
        packed = (self.top / STORED).read_bytes()
        others = packed[:-9] + bytes([packed[-9] ^ 1]) + packed[-8:], lzma.compress(FAKE_PROGRAM.replace("summary", "another").encode()), packed[:40]
        for data in others:
            (self.top / STORED).write_bytes(data)
            ended = self.launch("gen", "1", "2", "2", PATH=NO_TOOLCHAIN)
            self.assertEqual((ended.returncode, ended.stdout), (1, ""))
            self.assertRegex(ended.stderr, f"^tiny_tera: {STORED} (cannot be unpacked: .*|is not what {STATED} states)\n")
        self.assertFalse((self.top / "out/stored/launcher.json").exists())
        self.assertIn("is proved first", self.launch("gen", "1", "2", "2").stderr)

    def test_changed_after_it_was_unpacked(self):
        self.started()
        self.executable(self.top / "out/stored/tiny_tera", "#!/bin/sh\necho not this\n")
        self.assertEqual(self.started(), "")

    def test_another_release(self):
        """A pulled clone has other sources and another program: the unpacked one is replaced."""
        self.started()
        self.append("crates/lower/src/lib.rt")
        self.executable(self.room / "fake", FAKE_PROGRAM.replace("echo summary", "echo a later summary"))
        self.store()
        self.assertEqual(self.launch("gen", "1", "2", "2", PATH=NO_TOOLCHAIN).stdout, "a later summary\n")

    def test_clone_that_cannot_be_written(self):
        home = self.room / "home"
        home.mkdir(exist_ok=True)
        home.chmod(0o777)
        self.room.chmod(0o755)
        self.write("none", "")
        for path in (self.top, *self.top.rglob("*")):
            path.chmod(path.stat().st_mode & 0o555 | 0o444)
        drop = ["setpriv", "--reuid=65534", "--regid=65534", "--clear-groups"] if os.geteuid() == 0 else []
        if drop and not shutil.which("setpriv"):
            self.skipTest("root can write everywhere, and there is no setpriv here")
        words = [*drop, str(self.top / "tiny_tera"), "gen", "1", "2", "2"]
        for _ in range(2):
            ended = subprocess.run(words, cwd="/", env={**self.variables, "PATH": NO_TOOLCHAIN}, stdout=subprocess.PIPE, stderr=subprocess.STDOUT)
            self.assertEqual((ended.returncode, ended.stdout), (0, b"summary\n"))
        self.assertFalse((self.top / "out").exists())
        self.assertEqual(len(list(home.glob(".cache/nakufisi/a clone-*/stored/tiny_tera"))), 1)

    def test_program_that_cannot_be_started(self):
        (self.top / "out/stored").mkdir(parents=True)
        for text, why in (("#!/no/loader\n", "No such file or directory"), ("no program\n", "Exec format error")):
            self.executable(self.room / "fake", text)
            self.store_again()
            ended = self.launch("gen", "1", "2", "2", PATH=NO_TOOLCHAIN)
            self.assertEqual((ended.returncode, ended.stdout), (1, ""))
            needs = "it needs Linux on x86-64 with GNU's C library 2.34 or later, and here is Linux on "
            self.assertRegex(ended.stderr, rf"^tiny_tera: the program cannot be started here \({why}\): {needs}.*\n$")

    def store_again(self):
        shutil.rmtree(self.top / "release")
        self.store()

    def test_older_library(self):
        said = "tiny_tera: /lib/libc.so.6: version `GLIBC_2.34' not found (required by tiny_tera)"
        ended = self.launch("gen", "1", "2", "2", STATUS="1", SAID=said)
        self.assertEqual(ended.returncode, 1)
        self.assertIn("(its C library is older): it needs Linux on x86-64 with GNU's C library 2.34 or later", ended.stderr.splitlines()[1])

    def test_version(self):
        told = self.launch("--version", PATH=NO_TOOLCHAIN).stdout.splitlines()
        self.assertEqual(told[1], f"stored in release/, proved elsewhere with {KIT} from these sources; to prove it here: ./tiny_tera --prove")
        self.assertRegex(told[2], r"^sha256 [0-9a-f]{64}  .*/out/stored/tiny_tera$")
        self.append("crates/lower/src/lib.rt")
        told = self.launch("--version").stdout.splitlines()[1:2]
        self.assertEqual(told, ["no program is there of these sources: release/ was made from other sources of lower; it is proved before it runs"])


class Prove(Stored):
    def test_compares(self):
        told = self.launch("--prove")
        self.assertEqual((told.returncode, told.stdout), (0, ""))
        self.assertIn("the program is proved: 3 crates", told.stderr)
        self.assertTrue(told.stderr.endswith("tiny_tera: tiny_tera is, byte for byte, the one that is stored in release/\n"), told.stderr)
        self.assertEqual(self.calls(), ["ci"])
        self.assertEqual(sorted(it.name for it in self.room.glob("home/.cache/nakufisi/*")), ["proving.lock", "proving.log"])
        self.assertIn("proved and built here with " + KIT, self.launch("--version").stdout)

    def test_another_program(self):
        self.executable(self.room / "fake", FAKE_PROGRAM + "# Other bytes.\n")
        told = self.launch("--prove")
        self.assertEqual(told.returncode, 1)
        self.assertIn("tiny_tera is NOT the one that is stored in release/", told.stderr)

    def test_another_kit(self):
        told = self.launch("--prove", RT_KIT="another kit")
        self.assertEqual(told.returncode, 0)
        self.assertIn(f"not compared with what is stored: release/ was made with {KIT}, and here is another kit", told.stderr)

    def test_all(self):
        """All crates but those of tests, and the library over them."""
        told = self.launch("--prove", "all")
        self.assertEqual(told.returncode, 0, told.stderr)
        self.assertIn("all programs and libraries are proved: 7 crates", told.stderr)
        for name in ("tiny_tera", "simulate", *LIBRARY):
            self.assertIn(f"{name} is, byte for byte, the one that is stored in release/", told.stderr)
        self.assertNotIn("all_tests", self.room.joinpath("files").read_text())
        first, second = self.calls()
        proving = self.room / "home/.cache/nakufisi/proving"
        self.assertEqual((first, second), ("ci", f"--since {proving}/.git/sums --top {proving}"))


class Simulate(Stored):
    def test_stored(self):
        """Without a toolchain the stored program is unpacked and started, beside the other."""
        for words in (("simulate", "1", "9", "2"), ("gen", "1", "2", "2")):
            ended = self.launch(*words, PATH=NO_TOOLCHAIN)
            self.assertEqual((ended.returncode, ended.stdout, ended.stderr), (0, "summary\n", ""))
        names = sorted(it.name for it in (self.top / "out/stored").iterdir())
        self.assertEqual(names, ["launcher.json", "simulate", "simulate.json", "tiny_tera"])

    def test_prove(self):
        told = self.launch("--prove", "simulate")
        self.assertEqual(told.returncode, 0, told.stderr)
        self.assertIn("the program is proved: 2 crates", told.stderr)
        self.assertTrue(told.stderr.endswith("tiny_tera: simulate is, byte for byte, the one that is stored in release/\n"), told.stderr)
        self.assertEqual(self.calls(), ["ci"])


class Library(Stored):
    def test_where_it_is(self):
        told = self.launch("--library", PATH=NO_TOOLCHAIN)
        self.assertEqual((told.returncode, told.stdout), (0, f"{self.top}/out/stored\n"))
        for name, data in LIBRARY.items():
            self.assertEqual((self.top / "out/stored" / name).read_bytes(), data)
        self.append("crates/tiny_tera/src/main.rt")
        self.assertEqual(self.launch("--library").returncode, 0)
        self.append("crates/journal_c/src/lib.rt")
        told = self.launch("--library")
        self.assertEqual((told.returncode, told.stdout), (1, ""))
        self.assertIn("release/ was made from other sources of journal_c: dev/make_library builds it", told.stderr)

    def test_built_here_comes_first(self):
        self.assertEqual(self.launch("--prove", "all").returncode, 0)
        self.assertEqual(self.launch("--library").stdout, f"{self.top}/out\n")

    @unittest.skipUnless(shutil.which("make"), "there is no make here")
    def test_install(self):
        words = ["make", "-s", "install-library", "LIBRARY=release", f"PREFIX={self.room}/prefix"]
        variables = {**self.variables, "PATH": NO_TOOLCHAIN}
        made = subprocess.run(words, cwd=self.top, env=variables, stdout=subprocess.PIPE, stderr=subprocess.STDOUT, universal_newlines=True)
        self.assertEqual((made.returncode, made.stdout), (0, ""))
        self.assertEqual((self.room / "prefix/lib/libtiny_tera.so").read_bytes(), LIBRARY["libtiny_tera.so"])
        self.append("crates/lower/src/lib.rt")
        made = subprocess.run(words, cwd=self.top, env=variables, stdout=subprocess.PIPE, stderr=subprocess.STDOUT, universal_newlines=True)
        self.assertNotEqual(made.returncode, 0)
