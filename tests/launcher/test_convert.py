"""Captures of other forms, converted before a run; and what is shown while a run of captures goes on."""

import gzip
import os
import pty
import shutil
import signal
import struct
import subprocess
import time
import unittest
import unittest.mock
from pathlib import Path
from types import SimpleNamespace

from launcher import converting
from launcher.byte_clock import ByteClock, bytes_of
from launcher.capture_hints import converted, is_nano
from launcher.captures import read_file
from launcher.converting import Failed
from launcher.given import converted_from

from .scene import Scene, capture, frame

# In the place of editcap: the second file is the first without its first four bytes.
FAKE_EDITCAP = """#!/bin/sh
echo "$*" >>"$EDITCAP_CALLS"
[ -z "$EDITCAP_FAILS" ] || { echo "editcap: no packets" >&2; exit 2; }
[ -z "$EDITCAP_WAITS" ] || { touch "$EDITCAP_WAITS"; sleep 60; }
tail -c +5 "$3" >"$4"
"""
NEXT = b"\x0a\x0d\x0d\x0a"
CLASSIC = capture(frame())
# Two seconds of a run or more, on a busy machine some before all is read; then the line goes.
SECONDS_SHOWN = rb"(\r\x1b\[K\d+ s: \d of 4 MB read, \d MB written)+\r\x1b\[K\d+ s: 4 of 4 MB read, 4 MB written\r\x1b\[K"


def next_generation(order, resolution):
    """The first two blocks of a pcapng file, whose interface has time stamps of so many places, or says nothing of it."""
    section = struct.pack(order + "IIIHHqI", 0x0A0D0D0A, 28, 0x1A2B3C4D, 1, 0, -1, 28)
    options = struct.pack(order + "HH4sHHBxxxI", 2, 3, b"eth\0", 9, 1, resolution, 0) if resolution else b""
    size = 20 + len(options)
    return section + struct.pack(order + "IIHHI", 1, size, 1, 0, 0) + options + struct.pack(order + "I", size)


class Convert(Scene):
    def setUp(self):
        super().setUp()
        self.build()
        self.executable(self.room / "bin/editcap", FAKE_EDITCAP)
        self.notes, self.seen = self.room / "notes", self.room / "seen"
        self.variables.update(TMPDIR=str(self.room / "tmp"), EDITCAP_CALLS=str(self.room / "editcaps"), NOTES=str(self.notes))
        (self.room / "tmp").mkdir()
        self.files(table_txt="* 0\n", a_pcapng=NEXT + CLASSIC, b_pcap=CLASSIC, c_gz=gzip.compress(NEXT + CLASSIC, mtime=0))

    def left(self):
        return os.listdir(self.room / "tmp")

    def test_run(self):
        """The program is given classic captures, which are gone afterwards; one that is classic stays as it is."""
        copies = 'for name in "$@"; do case "$name" in */tiny_tera.*) cat "$name" >>"$SEEN";; esac; done'
        words = ["run", "--rounds", "2", "table.txt", "out", "a.pcapng", "b.pcap", "c.gz"]
        ended = self.launch("--convert", *words, CODE=copies, SEEN=str(self.seen))
        self.assertEqual((ended.returncode, ended.stdout), (0, "summary\n"))
        told = ended.stderr.splitlines()
        steps = ["a.pcapng is a pcapng file", "c.gz is compressed by gzip", "c.gz is a pcapng file"]
        self.assertEqual([line.split(": ")[1] for line in told], steps)
        self.assertRegex(told[1], r": zcat c\.gz > \S+/2\.0\.pcap$")
        words = self.notes.read_text().splitlines()[:-1]
        self.assertEqual(words[:5] + words[6:7], ["run", "--rounds=2", "--", "table.txt", "out", "b.pcap"])
        self.assertEqual(self.seen.read_bytes(), 2 * CLASSIC)
        self.assertEqual(self.left(), [])

    def test_names_with_words_of_commands(self):
        """A name may have the letters that stand for files in a command."""
        self.write("OUT of INDIA.pcapng", NEXT + CLASSIC)
        ended = self.launch("--convert", "firm", "table.txt", "OUT of INDIA.pcapng")
        self.assertEqual((ended.returncode, ended.stdout), (0, "summary\n"), ended.stderr)

    def test_nothing_to_convert(self):
        words = ["firm", "--rounds", "2", "table.txt", "b.pcap"]
        ended = self.launch("--convert", *words)
        self.assertEqual((ended.returncode, ended.stderr), (0, ""))
        self.assertEqual(self.notes.read_text().splitlines()[:-1], words)

    def test_dry_run(self):
        ended = self.launch("--convert", "--dry-run", "run", "table.txt", "out", "a.pcapng")
        self.assertEqual(ended.returncode, 0, ended.stderr)
        self.assertIn("port 0: a.pcapng, 1 packet\n", ended.stdout)
        self.assertEqual(self.left(), [])

    def test_names_that_are_told(self):
        """They are those that were given, and the command of a hint begins with what was given."""
        late = gzip.compress(capture(frame(), frame(), frame(), times=[0, 5, 10]), mtime=0)
        self.files(late_gz=late, cut_gz=gzip.compress(capture(frame(), frame())[:-1], mtime=0), raw_pcap=capture(link=101))
        telling = "late: port 0 (late.gz): 1 of 3 packets came late, by 2 slots (10 us) at most"
        self.assertIn(telling, self.launch("--convert", "firm", "--pace-us", "5", "table.txt", "late.gz").stderr.splitlines())
        for name, said, hint in (
            ("cut.gz", f"capture 0: cut record at {24 + 76}",
             "cut.gz, the capture of port 0, ends within a packet, as one that is still written; to keep the whole packets:"
             " zcat cut.gz | tcpdump -r - -w cut"),
            ("a.pcapng", "link types 1 and 101",
             "a.pcapng is Ethernet (1) and raw.pcap raw IP (101), and all captures are of one type; of each that is Ethernet:"
             " editcap -F pcap -L -C 14 -T rawip a.pcapng a.classic.pcap"),
        ):
            ended = self.launch("--convert", "firm", "table.txt", name, "raw.pcap", SAID=said, STATUS="4")
            self.assertEqual(ended.stderr.splitlines()[1:], [said, f"hint: {hint}"])

    @unittest.skipUnless(shutil.which("tcpdump"), "tcpdump is not there")
    def test_command_of_a_hint(self):
        """It reads what was unpacked before."""
        self.files(cut_gz=gzip.compress(capture(frame(), frame())[:-1], mtime=0))
        command = converted("tcpdump -r IN -w OUT", converted_from("unpacked.pcap", str(self.jobs / "cut.gz")))
        subprocess.run(["sh", "-c", command], cwd=self.jobs, stderr=subprocess.DEVNULL)
        self.assertEqual(len(read_file(self.jobs / "cut").packets), 1)

    def test_tool_fails(self):
        ended = self.launch("--convert", "run", "table.txt", "out", "a.pcapng", EDITCAP_FAILS="1")
        told = "tiny_tera: --convert: editcap ended with status 2: editcap: no packets"
        self.assertEqual((ended.returncode, ended.stderr.splitlines()[1]), (4, told))
        self.assertFalse(self.notes.exists())
        self.assertEqual(self.left(), [])

    def test_no_room(self):
        """Of a full disk it is told which variable names another."""
        full = unittest.mock.patch("os.statvfs", lambda _: SimpleNamespace(f_bavail=0))
        with full, unittest.mock.patch("launcher.converting.say"), self.assertRaises(Failed) as why:
            converting.run_command("a.gz is compressed by gzip", "zcat IN > OUT", str(self.room / "gone"), str(self.room / "tmp/0.pcap"))
        self.assertTrue(str(why.exception).endswith(f"; the disk of {self.room / 'tmp'} is full, and the variable TMPDIR names a folder on another"))

    def test_tool_is_missing(self):
        (self.room / "bin/editcap").unlink()
        if shutil.which("editcap"):
            self.variables["PATH"] = f"{self.room / 'bin'}:{self.only('python3', 'sh', 'git', 'env', 'readlink', 'dirname')}"
        ended = self.launch("--convert", "run", "table.txt", "out", "a.pcapng")
        told = "tiny_tera: --convert: editcap is not there; Debian's package wireshark-common has it"
        self.assertEqual((ended.returncode, ended.stderr.splitlines()[1:]), (4, [told]), ended.stderr)

    def only(self, *names):
        """A folder with these commands alone."""
        folder = self.room / "only"
        folder.mkdir()
        for name in names:
            (folder / name).symlink_to(shutil.which(name))
        return folder

    def test_interrupted(self):
        """A signal that comes while a capture is converted ends the launcher, and the folder goes."""
        for number in (signal.SIGTERM, signal.SIGINT):
            waits = self.room / f"waits.{number}"
            words = [self.top / "tiny_tera", "--convert", "run", "table.txt", "out", "a.pcapng"]
            variables = {**self.variables, "EDITCAP_WAITS": str(waits)}
            # Who runs tests in the background may have this signal ignored.
            heeds = lambda: signal.signal(signal.SIGINT, signal.SIG_DFL)
            ran = subprocess.Popen(words, cwd=self.jobs, env=variables, stderr=subprocess.DEVNULL, preexec_fn=heeds)
            while not waits.exists():
                time.sleep(0.01)
            ran.send_signal(number)
            self.assertEqual(ran.wait(), -number)
            self.assertEqual(self.left(), [])

    def test_nanoseconds(self):
        for order in "<>":
            for resolution, is_fine in ((None, False), (6, False), (9, True)):
                self.write("n.pcapng", next_generation(order, resolution))
                self.assertEqual(is_nano(str(self.jobs / "n.pcapng")), is_fine, (order, resolution))

    @unittest.skipUnless(shutil.which("editcap"), "editcap is not there")
    def test_nanoseconds_of_editcap(self):
        (self.room / "bin/editcap").unlink()
        for form, is_fine in (("pcap", False), ("nsecpcap", True)):
            self.write("b.pcap", CLASSIC)
            subprocess.run(["editcap", "-F", form, "b.pcap", "c.pcap"], cwd=self.jobs, check=True)
            subprocess.run(["editcap", "-F", "pcapng", "c.pcap", "c.pcapng"], cwd=self.jobs, check=True)
            self.assertEqual(is_nano(str(self.jobs / "c.pcapng")), is_fine)


def all_of(terminal):
    """What came to a terminal whose other end is closed. One read may give a part of it."""
    came = b""
    while True:
        try:
            came += os.read(terminal, 4096)
        except OSError:
            return came


class Shown(Scene):
    def run_on_terminal(self, **streams):
        """Runs some seconds with what is shown going to a terminal; the words that end it, and what the terminal had."""
        self.build()
        self.files(table_txt="* 0\n", a_pcap=bytes(4_000_000))
        ours, theirs = pty.openpty()
        self.addCleanup(os.close, ours)
        words = [self.top / "tiny_tera", "run", "table.txt", "out", "a.pcap"]
        variables = {**self.variables, "CODE": "cat a.pcap >b.pcap; sleep 2.5"}
        ran = subprocess.run(words, cwd=self.jobs, env=variables, stderr=theirs, **{"stdout": theirs, **streams})
        os.close(theirs)
        self.assertEqual(ran.returncode, 0)
        return ran, all_of(ours)

    def test_terminal(self):
        """Each second of a run a line of the terminal has what was read and written; what the program writes is the same."""
        ran, shown = self.run_on_terminal(stdout=subprocess.PIPE)
        self.assertEqual(ran.stdout, b"summary\n")
        self.assertRegex(shown, SECONDS_SHOWN + rb"$")

    def test_terminal_with_the_output(self):
        """Where the summary comes to the same terminal, the line goes first."""
        shown = self.run_on_terminal()[1]
        self.assertRegex(shown, SECONDS_SHOWN + rb"summary\r\n$")

    def test_bytes(self):
        moved = bytes_of(os.getpid())
        Path("/dev/zero").open("rb").read(1_000_000)
        self.assertGreaterEqual(bytes_of(os.getpid())[0] - moved[0], 1_000_000)
        self.assertIsNone(bytes_of(0))
        self.assertEqual([ByteClock(names).size for names in ([], ["/dev/null"], ["gone"])], [0, 0, 0])
