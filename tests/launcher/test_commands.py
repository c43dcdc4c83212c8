"""The commands that hints give make captures that the switch takes, with the same packets."""

import bz2
import gzip
import lzma
import shlex
import shutil
import struct
import subprocess
import unittest
import unittest.mock
from pathlib import Path

from launcher.capture_hints import converted
from launcher.captures import destination, read_file

from .scene import PROGRAM, Scene, capture, frame

TO = "10.0.0.9"
ETHERNET = frame(TO)
PACKET = ETHERNET[14:]
NUMBER = int.from_bytes(bytes(map(int, TO.split("."))), "big")
GOOD = capture(ETHERNET, ETHERNET, ETHERNET)
HALF = b"\xa1\xb2\xc3\xd4" + GOOD[4:]
SWAPPED = b"".join(GOOD[at:at + 2][::-1] for at in range(0, len(GOOD), 2))


def with_longer_headers():
    """A capture of the variant of pcap whose records have eight bytes more."""
    record = struct.pack("<IIIIIHBB", 0, 0, 60, 60, 1, 8, 0, 0) + ETHERNET
    return struct.pack("<IHHIIII", 0xA1B2CD34, 2, 4, 0, 0, 262_144, 1) + record * 3


def of_link(link, before):
    return capture(*[before + PACKET] * 3, link=link)


# What the program says, the bytes, and how many packets are left.
JOBS = [
    ("bad magic 1f8b0800", gzip.compress(GOOD, mtime=0), 3),
    ("bad magic fd377a58", lzma.compress(GOOD), 3),
    ("bad magic 425a6839", bz2.compress(GOOD), 3),
    ("bad magic c3d4a1b2", SWAPPED, 3),
    ("version 512.1024", HALF, 3),
    ("bad magic 34cdb2a1", with_longer_headers(), 3),
    ("version 2.3", capture(*[ETHERNET] * 3, version=(2, 3)), 3),
    ("link type 0", of_link(0, b"\x02\0\0\0"), 3),
    ("link type 108", of_link(108, b"\0\0\0\x02"), 3),
    ("link type 12", of_link(12, b""), 3),
    ("link type 228", of_link(228, b""), 3),
    ("link type 113", of_link(113, bytes(14) + b"\x08\x00"), 3),
    ("link type 276", of_link(276, b"\x08\x00" + bytes(18)), 3),
    ("link type 335544321", capture(*[ETHERNET] * 3, link=0x14000001), 3),
    (f"cut record at {24 + 2 * 76}", GOOD[:-1], 2),
]


def first_word(command):
    return command.split()[0].lstrip("(")


class Commands(Scene):
    def setUp(self):
        super().setUp()
        self.build()

    def convert(self, command):
        """Runs the command of a hint, and answers what it made."""
        if not shutil.which(first_word(command)):
            self.skipTest(f"there is no {first_word(command)} here")
        subprocess.run(["sh", "-c", command], cwd=self.jobs, stdout=subprocess.DEVNULL, stderr=subprocess.DEVNULL)
        made = Path(self.jobs, "a.classic.pcap")
        link, _, packets = read_file(made)
        if PROGRAM.is_file():
            words = [PROGRAM, "firm", "table.txt", made]
            self.assertEqual(subprocess.run(words, cwd=self.jobs, stdout=subprocess.DEVNULL, stderr=subprocess.PIPE).stderr, b"")
        made.unlink()
        return link, packets

    def check(self, said, data, count):
        self.files(table_txt="* 0\n", a_pcap=data)
        told = self.launch("firm", "table.txt", "a.pcap", SAID=f"capture 0: {said}", STATUS="4").stderr.splitlines()[1]
        link, packets = self.convert(told.rsplit(": ", 1)[1])
        self.assertEqual([destination(link, it.frame) for it in packets], [NUMBER] * count)

    def test_refused_captures(self):
        for said, data, count in JOBS:
            with self.subTest(said):
                self.check(said, data, count)

    def test_no_file_is_replaced(self):
        """The command makes a new file, whatever files are there, also of a name that begins with -."""
        self.files(table_txt="* 0\n")
        for name, (said, data, count), there in (
            ("-m.pcap", JOBS[-1], ["-m.classic.pcap", "-m.classic.2.pcap"]), ("a b.pcap", JOBS[5], ["a b.classic.pcap"]),
            ("-c.pcap.gz", JOBS[0], ["-c.pcap"]), ("d.pcapng", JOBS[4], ["d.classic.pcap"]), ("-e.pcap", JOBS[3], []),
        ):
            with self.subTest(name):
                for one in there:
                    self.write(one, "my own")
                self.write(name, data)
                told = self.launch("firm", "table.txt", "--", name, SAID=f"capture 0: {said}", STATUS="4").stderr.splitlines()[1]
                self.check_new_file(told.rsplit(": ", 1)[1], count)

    def check_new_file(self, command, count):
        if not shutil.which(first_word(command)):
            self.skipTest(f"there is no {first_word(command)} here")
        before = {path: path.read_bytes() for path in self.jobs.iterdir()}
        ended = subprocess.run(["sh", "-c", command], cwd=self.jobs, stdout=subprocess.PIPE, stderr=subprocess.STDOUT)
        after = {path: path.read_bytes() for path in self.jobs.iterdir()}
        self.assertEqual({path: after[path] for path in before}, before)
        self.assertEqual(len(set(after) - set(before)), 1, (command, ended.stdout))
        (made,) = set(after) - set(before)
        self.assertEqual(len(read_file(made).packets), count, command)

    def test_folders_that_may_not_be_written(self):
        """What is made goes to the current folder or to that for temporary files."""
        for writable, made in (("/in", "/in/x y.classic.pcap"), (".", "x y.classic.pcap"), ("/tmp", "/tmp/x y.classic.pcap"), ("", "/in/x y.classic.pcap")):
            with unittest.mock.patch("os.access", lambda path, mode, writable=writable: path == writable):
                self.assertEqual(converted("editcap IN OUT", "/in/x y.pcap"), f"editcap '/in/x y.pcap' {shlex.quote(made)}")

    @unittest.skipUnless(shutil.which("editcap"), "there is no editcap here")
    def test_pcapng(self):
        self.files(a_pcap=GOOD)
        subprocess.run(["editcap", "-F", "pcapng", "a.pcap", "b.pcap"], cwd=self.jobs, check=True)
        self.check("bad magic 0a0d0d0a", Path(self.jobs, "b.pcap").read_bytes(), 3)

    def test_ethernet_to_raw_ip(self):
        self.files(table_txt="* 0\n", a_pcap=GOOD, b_pcap=of_link(101, b""))
        told = self.launch("firm", "table.txt", "a.pcap", "b.pcap", SAID="link types 1 and 101", STATUS="4").stderr
        link, packets = self.convert(told.rstrip("\n").rsplit(": ", 1)[1])
        self.assertEqual((link, [it.frame for it in packets]), (101, [PACKET] * 3))

    def test_nanoseconds(self):
        """Commands keep the nanoseconds of a capture that has them."""
        nano = {"magic": 0xA1B23C4D, "times": [1, 1_001, 1_002]}
        cut = capture(*[ETHERNET] * 3, **nano)[:-1]
        for said, data in (("cut record at 176", cut), ("link type 113", capture(*[bytes(14) + b"\x08\x00" + PACKET] * 2, link=113, **nano))):
            self.files(table_txt="* 0\n", a_pcap=data)
            told = self.launch("firm", "table.txt", "a.pcap", SAID=f"capture 0: {said}", STATUS="4").stderr
            self.assertEqual([it.time for it in self.convert(told.rstrip("\n").rsplit(": ", 1)[1])[1]], [1, 1_001])

    def test_captures_of_different_days(self):
        """The second is moved to begin with the first."""
        for magic, step in ((0xA1B2C3D4, 1_000), (0xA1B23C4D, 1)):
            later = capture(ETHERNET, ETHERNET, times=[86_400_000_000, 86_400_000_007], magic=magic)
            self.files(table_txt="* 0\n", b_pcap=capture(ETHERNET, times=[0], magic=magic), a_pcap=later)
            said = "too many slots: port 0 has 999999"
            told = self.launch("firm", "--line-rate", "1000", "table.txt", "a.pcap", "b.pcap", SAID=said, STATUS="4").stderr
            packets = self.convert(told.rstrip("\n").rsplit(": ", 1)[1])[1]
            self.assertEqual([it.time for it in packets], [0, 7 * step])

    def test_first_packets(self):
        self.files(table_txt="* 0\n", a_pcap=capture(*[bytes(65_520)] * 112))
        told = self.launch("firm", "table.txt", "a.pcap", SAID="too many slots: port 0 has 131152", STATUS="4").stderr
        self.assertEqual(len(self.convert(told.rstrip("\n").rsplit(": ", 1)[1])[1]), 111)
