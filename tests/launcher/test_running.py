"""How the program is started: its words, variables, files and streams, and how it ends."""

import os
import re
import resource
import shutil
import signal
import subprocess
import time
import unittest
from pathlib import Path

from launcher.running import LARGE_PAGES

from .scene import PROGRAM, Scene

LOADER = Path("/lib64/ld-linux-x86-64.so.2")


class Running(Scene):
    def setUp(self):
        super().setUp()
        self.build()
        self.notes = self.room / "notes"

    def noted(self, *words, **more):
        self.assertEqual(self.launch(*words, NOTES=str(self.notes), **more).returncode, 0)
        return self.notes.read_text().splitlines()

    def test_words(self):
        words = ["run", "--rounds=2", "two words", "pre fix", "--", "-x", "é", "*"]
        self.assertEqual(self.noted(*words)[:-1], words)
        self.assertEqual(self.noted("check", "--", "--help")[:-1], ["check", "--", "--help"])

    def test_ethernet(self):
        """The program is given a line rate, and standard error a line on it; without the option the words stay."""
        names = ["-t", "out", "a b", "--ethernet", "7"]
        for words, handed in (
            (["run", "--ethernet", "10000", "--slots", "--rounds", "2", "--", *names], ["run", "--slots", "--rounds=2", "--line-rate=15868", "--", *names]),
            (["firm", "t", "a", "--ethernet=1"], ["firm", "--line-rate=2", "--", "t", "a"]),
        ):
            ended = self.launch(*words, NOTES=str(self.notes), STATUS="5", SAID="out of memory")
            self.assertEqual(self.notes.read_text().splitlines()[:-1], handed)
            number, rate = ("10000", "15868") if words[0] == "run" else ("1", "2")
            note = f"note: --ethernet {number} is --line-rate {rate}, the least that keeps up with any frames of this Ethernet\n"
            self.assertEqual((ended.returncode, ended.stderr), (5, note + "out of memory\n"))
        for words in (["run", "--line-rate", "10000", "t", "out", "--", "--ethernet"], ["run", "--ethernet", "0", "t", "out", "a"]):
            ended = self.launch(*words, NOTES=str(self.notes))
            self.assertEqual(self.notes.read_text().splitlines()[:-1], words)
            self.assertNotIn("note:", ended.stderr)

    def test_word_that_is_no_text(self):
        variables = {**self.variables, "CODE": 'printf %s "$2"'}
        ended = subprocess.run([bytes(self.top / "tiny_tera"), b"check", b"\xff\xfe"], env=variables, stdout=subprocess.PIPE)
        self.assertEqual(ended.stdout, b"\xff\xfesummary\n")

    def test_word_that_the_program_does_not_take(self):
        """A name that is not UTF-8 ends with status 1, of which the program says nothing."""
        self.write("a.pcap", "")
        name = os.fsdecode(b"b'\xff\\d.pcap")
        told = (
            "tiny_tera: $'b\\x27\\xff\\x5cd.pcap' is not UTF-8, and the program takes no such word\n"
            "hint: give the file another name, as by: ln -s -- $'b\\x27\\xff\\x5cd.pcap' NAME\n"
        )
        words = ("firm", "t", "a.pcap", name)
        for more in ((), ("--dry-run",)):
            ended = self.launch(*more, *words, STATUS="1")
            self.assertEqual((ended.returncode, ended.stderr), (1, told))
        self.assertEqual(self.launch("firm", "t", "a.pcap", STATUS="1").stderr, "")
        self.assertEqual(self.launch(*words, STATUS="1", SAID="killed").stderr, "killed\n")
        # The command makes a file of the other name, in a shell that has such words.
        self.write(name, "its bytes")
        if shutil.which("bash"):
            subprocess.run(["bash", "-c", told.rstrip("\n").rpartition(": ")[2]], cwd=self.jobs, check=True)
            self.assertEqual((self.jobs / "NAME").read_text(), "its bytes")

    @unittest.skipUnless(PROGRAM.is_file(), "no program is there")
    def test_program_says_nothing_of_such_a_word(self):
        ended = subprocess.run([PROGRAM, b"check", b"\xff"], stdout=subprocess.PIPE, stderr=subprocess.PIPE)
        self.assertEqual((ended.returncode, ended.stdout, ended.stderr), (1, b"", b""))

    def test_link_and_folder(self):
        os.symlink(self.top / "tiny_tera", self.jobs / "switch")
        ended = subprocess.run(["./switch", "gen", "1", "2", "2"], cwd=self.jobs, env=self.variables, stdout=subprocess.PIPE, stderr=subprocess.STDOUT)
        self.assertEqual((ended.returncode, ended.stdout), (0, b"summary\n"))
        self.assertEqual(self.launch("gen", "1", "2", "2", cwd="/").stdout, "summary\n")

    def test_large_pages(self):
        own = "glibc.malloc.check=1:glibc.malloc.arena_max=8"
        for users, expected in ((None, LARGE_PAGES), (own, f"{LARGE_PAGES}:{own}"), ("", "")):
            more = {} if users is None else {"GLIBC_TUNABLES": users}
            self.assertEqual(self.noted("gen", "1", "2", "2", **more)[-1], f"tunables {expected}")

    @unittest.skipUnless(LOADER.is_file(), "no loader of GNU's C library 2.33 or later is there")
    def test_large_pages_are_taken(self):
        """The C library knows each name, and takes the later of two values, so that of the user."""
        loader = f"{LOADER} --list-tunables >'{self.notes}'"
        for own, heaps in ((None, 1), ("glibc.malloc.arena_max=8", 8)):
            more = {} if own is None else {"GLIBC_TUNABLES": own}
            self.launch("gen", "1", "2", "2", CODE=loader, **more)
            found = dict(re.findall(r"(glibc\.malloc\.\w+): (\w+)", self.notes.read_text()))
            wanted = {name: int(value) for name, value in (it.split("=") for it in LARGE_PAGES.split(":"))}
            wanted["glibc.malloc.arena_max"] = heaps
            self.assertEqual({name: int(found[name], 0) for name in wanted}, wanted)

    def test_files_that_the_shell_has_opened(self):
        """As <(zcat IN.gz) gives them."""
        ours, theirs = os.pipe()
        os.write(theirs, b"a capture\n")
        os.close(theirs)
        ended = self.launch("run", "t", "out", f"/dev/fd/{ours}", CODE='cat "$4"', pass_fds=[ours])
        os.close(ours)
        self.assertEqual(ended.stdout, "a capture\nsummary\n")

    def test_status_and_line(self):
        for status in ("1", "5", "7"):
            ended = self.launch("check", "j", STATUS=status, SAID="no: slot 4 keeps of card 1")
            self.assertEqual((ended.returncode, ended.stderr), (int(status), "no: slot 4 keeps of card 1\n"))

    def test_signals(self):
        self.assertEqual(self.launch("gen", "1", "2", "2", CODE="kill -9 $$").returncode, -signal.SIGKILL)
        started = self.room / "started"
        words = [str(self.top / "tiny_tera"), "gen", "1", "2", "2"]
        ran = subprocess.Popen(words, env={**self.variables, "CODE": f"touch '{started}'; exec sleep 30"}, stdout=subprocess.PIPE)
        until = time.monotonic() + 20
        while not started.exists() and time.monotonic() < until:
            time.sleep(0.02)
        time.sleep(0.1)
        ran.terminate()
        self.assertEqual(ran.wait(20), -signal.SIGTERM)
        ran.stdout.close()

    def test_files_that_may_not_be_longer(self):
        """Under a limit on the bytes of a file a write is told, and no signal ends the program; the hint has the limit."""
        few = lambda: resource.setrlimit(resource.RLIMIT_FSIZE, (20_000, 20_000))
        self.write("a.pcap", "")
        code = "head -c 30000 /dev/zero 2>/dev/null >out.0.pcap; SAID='write fault: out.0.pcap' STATUS=6"
        ended = self.launch("run", "t", "out", "a.pcap", CODE=code, preexec_fn=few)
        hint = "hint: no file may have more than 20,000 bytes here (ulimit -f); PREFIX is out"
        self.assertEqual((ended.returncode, ended.stderr.splitlines()[-1]), (6, hint))
        self.assertEqual((self.jobs / "out.0.pcap").stat().st_size, 20_000)

    def test_closed_streams(self):
        """What is closed is closed for the program too, and no other file takes its number."""
        code = f"for n in 0 1; do [ -e /proc/self/fd/$n ] && echo open $n >>'{self.notes}'; done"
        self.launch("gen", "1", "2", "2", CODE=code, preexec_fn=lambda: os.close(1))
        self.assertEqual(self.notes.read_text(), "open 0\n")
        self.assertEqual(self.launch("gen", "1", "2", "2", SAID="x", STATUS="6", preexec_fn=lambda: os.close(2)).returncode, 6)
