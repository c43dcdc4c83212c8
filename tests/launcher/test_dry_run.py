"""What --dry-run sees of a job without a run: on the jobs of an independent model it says what a run would."""

import os
import re
import shutil
import tempfile
import unittest
from pathlib import Path

from launcher.dry_run import bad_field, look
from launcher.words import Fault, read_words

from .scene import TOP, Scene, capture, frame

JOBS = sorted(path.parent for path in TOP.glob("tests/jobs/*/args"))
# What it does not look at: what a journal says, a device as a file, and standard output.
NOT_SEEN = re.compile(r"no: |journal: bad at (1[2-9]|[2-9].|.{3})|too long: /dev/zero|write fault: standard output")


def look_at(job):
    """What is seen of a job of tests/jobs, in a copy of its folder."""
    here = os.getcwd()
    with tempfile.TemporaryDirectory() as room:
        folder = shutil.copytree(job, Path(room, "job"), ignore=shutil.ignore_patterns("expected"), symlinks=True)
        os.chdir(folder)
        try:
            return look(read_words((job / "args").read_text().splitlines()))
        finally:
            os.chdir(here)


class Jobs(unittest.TestCase):
    def test_jobs(self):
        """Each status and line of the table, the captures, their slots and cells, and of files that cannot be read or begun."""
        seen = set()
        for job in JOBS:
            status, said = (int((job / "expected/status").read_text()), (job / "expected/stderr").read_text().rstrip("\n"))
            with self.subTest(job.name):
                if status == 2:
                    self.assertRaises(Fault, look_at, job)
                    continue
                found = look_at(job)
                self.assertEqual((found.status, found.said), (0, "") if NOT_SEEN.match(said) else (status, said))
                seen.add(re.sub("[0-9a-f]*[0-9][0-9a-f]*", "N", found.said))
        for text in ("read fault: ", "table line N: host bits", "capture N: cut record at N", "too many slots: port N has N",
                     "too many cells: N", "link types N and N", "journal: bad at N", "write fault: to.report"):
            self.assertTrue(any(it.startswith(text) for it in seen), (text, seen))

    def test_header_of_a_journal(self):
        good = bytes.fromhex("54544a31 02 04 0000 00000001")
        self.assertIsNone(bad_field(good))
        for at, byte in ((0, 0), (4, 0), (4, 65), (5, 0), (5, 65), (6, 1), (7, 1), (8, 1), (11, 0)):
            wrong = good[:at] + bytes([byte]) + good[at + 1:]
            self.assertEqual(bad_field(wrong), {7: 6, 11: 8}.get(at, at))
        for count, at in ((0, 0), (3, 0), (4, 4), (7, 6), (11, 8)):
            self.assertEqual(bad_field(good[:count]), at)
        for ports, slots in ((32, 262_145), (33, 131_073)):
            for more, at in ((0, None), (1, 8)):
                self.assertEqual(bad_field(good[:4] + bytes([ports]) + good[5:8] + (slots + more).to_bytes(4, "big")), at)


class DryRun(Scene):
    def test_statuses(self):
        """The program's line with its hint, its status, and the lines of the job; nothing is started."""
        self.files(table_txt="* 0\n", bad_txt="* 1\n", a_pcap=capture(frame()), cut_pcap=capture(frame())[:-1])
        none = "not looked at: whether there is room in memory and on the disk\n"
        for words, status, said in (
            (["none.txt", "folder/out", "none.pcap"], 3, "read fault: none.txt\nhint: TABLE: there is no file none.txt\n"),
            (["bad.txt", "out", "a.pcap"], 4, "table line 1: port 1\nhint: line 1 of bad.txt: with 1 capture the only port is 0\n"),
            (["table.txt", "out", "cut.pcap"], 4, "capture 0: cut record at 24\nhint: cut.pcap, the capture of port 0, ends within a packet"),
            (["table.txt", "folder/out", "a.pcap"], 6, "write fault: folder/out.0.pcap\nhint: there is no folder folder; PREFIX is folder/out\n"),
            (["table.txt", "out", "a.pcap"], 0, ""),
        ):
            ended = self.launch("--dry-run", "run", *words)
            self.assertEqual((ended.returncode, ended.stdout.endswith(none), bool(ended.stderr)), (status, True, status > 0))
            self.assertTrue(ended.stderr.startswith(said), ended.stderr)
        self.assertEqual(sorted(path.name for path in self.jobs.iterdir()), ["a.pcap", "bad.txt", "cut.pcap", "table.txt"])
        self.assertEqual(self.calls(), [])

    def test_what_is_not_looked_at(self):
        """Of what the shell has opened nothing is taken, and what hangs on it is said not to be looked at."""
        self.files(table_txt="* 0\n", a_pcap=capture(frame()))
        ours, theirs = os.pipe()
        os.write(theirs, b"a capture\n")
        os.close(theirs)
        name = f"/dev/fd/{ours}"
        ended = self.launch("--dry-run", "run", "--packets", "--pace-us", "1", "table.txt", "out", "a.pcap", name, pass_fds=[ours])
        self.assertEqual(os.read(ours, 99), b"a capture\n")
        os.close(ours)
        self.assertEqual((ended.returncode, [line for line in ended.stdout.splitlines() if line.startswith("not ")]), (0, [
            f"not looked at: {name}, which is no file that can be read twice", "not looked at: how many slots and cells the packets have",
            "not looked at: whether the packets file would be too long", "not looked at: whether there is room in memory and on the disk",
        ]))
        self.assertEqual(ended.stderr, f"late: not looked for: {name}, the capture of port 1, is no file that can be read again\n")

    def test_packets_of_large_captures(self):
        """They are told of captures of any size, since they are counted in any case, here in 5 MB."""
        self.files(table_txt="* 0\n", a_pcap=capture(*[bytes(65_014)] * 80), b_pcap=capture(frame()))
        told = self.launch("--dry-run", "run", "--long", "table.txt", "out", "a.pcap", "b.pcap").stdout.splitlines()
        self.assertEqual(told[1:3], ["port 0: a.pcap, 80 packets", "port 1: b.pcap, 1 packet"])

    def test_ethernet(self):
        """The line rate is told first, and slots are those of this rate: 3,050 microseconds have 94,526 at 15,868 Mb/s."""
        self.files(table_txt="* 0\n", a_pcap=capture(frame(), frame(), times=[0, 3_050]), b_pcap=capture(frame(), frame(), times=[0, 4_300]))
        note = "note: --ethernet 10000 is --line-rate 15868, the least that keeps up with any frames of this Ethernet\n"
        ended = self.launch("--dry-run", "run", "--ethernet=10000", "table.txt", "out", "a.pcap")
        self.assertEqual((ended.returncode, ended.stderr), (0, note))
        ended = self.launch("--dry-run", "firm", "table.txt", "a.pcap", "b.pcap", "--ethernet", "10000")
        self.assertEqual((ended.returncode, ended.stderr.splitlines()[:2]), (4, [note[:-1], "too many slots: port 1 has 133268"]))
        for words in (["--ethernet", "0"], ["--ethernet", "10", "--pace-us", "1"]):
            ended = self.launch("--dry-run", "run", *words, "table.txt", "out", "a.pcap")
            self.assertEqual((ended.returncode, ended.stdout), (2, ""))

    def test_other_commands(self):
        self.files(j=b"ports 2\n")
        told = "j is a report; a journal is what run --journal writes"
        for words, status, said in (
            (["check", "none"], 3, "read fault: none\nhint: the journal: there is no file none\n"),
            (["check", "j"], 4, f"journal: bad at 0\nhint: {told}\n"),
            (["gen", "1", "1996", "4"], 0, ""),
            (["gen", "1", "1997", "4"], 4, "too many cells: 131137\nhint: with SEED 1 and PORTS 4 the largest COUNT is 1996\n"),
        ):
            ended = self.launch("--dry-run", *words)
            self.assertEqual((ended.returncode, ended.stderr), (status, said))


if __name__ == "__main__":
    unittest.main()
