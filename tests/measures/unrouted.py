"""Tests of what is told of packets that no line of a table serves."""

import tempfile
import unittest
from pathlib import Path

from launcher.captures import ETHERNET, RAW_IP
from launcher.words import Fault, read_words
from measure import unrouted
from measure.traffic import capture_bytes

from .common import TOP, run_here
from .flows import MACS, ethernet, ipv4, ipv6

JOBS = TOP / "tests/jobs"
# What each frame is that has no destination for the switch.
KINDS = {
    ethernet([0x86DD], ipv6()): "IPv6",
    ethernet([0x8100, 0x86DD], ipv6()): "IPv6",
    ethernet([0x0806], bytes(28)): "ARP",
    ethernet([0x8847], bytes(4) + ipv4()): "MPLS",
    ethernet([0x8863], bytes(20)): "PPPoE",
    ethernet([0x8864], bytes(8) + ipv4()): "PPPoE",
    ethernet([0x8100, 0x8100, 0x0800], ipv4()): "two tags",
    ethernet([0x8100, 0x88A8, 0x0800], ipv4()): "two tags",
    ethernet([0x88A8, 0x0800], ipv4()): "tag of 802.1ad",
    ethernet([0x88A8, 0x8100, 0x0800], ipv4()): "tag of 802.1ad",
    ethernet([0x0026], bytes(38)): "LLC",
    ethernet([0x88CC], bytes(38)): "LLDP",
    ethernet([0x1234], bytes(38)): "type 0x1234",
    ethernet([0x0800], ipv6()): "IPv4 by its type, and not by its version",
    ethernet([0x0800], ipv4()[:19]): "IPv4 header cut off",
    ethernet([0x8100, 0x0800], ipv4()[:19]): "IPv4 header cut off",
    MACS: "Ethernet header cut off",
    ethernet([0x8100], b"\0\1\x08"): "Ethernet header cut off",
}
NEITHER = "neither version 4 nor 6"
RAW_KINDS = {ipv6(): "IPv6", ipv4()[:19]: "IPv4 header cut off", b"": NEITHER, bytes(40): NEITHER}


class Unrouted(unittest.TestCase):
    def setUp(self):
        room = tempfile.TemporaryDirectory()
        self.addCleanup(room.cleanup)
        self.folder = Path(room.name)

    def files(self, link, frames, table="10.0.1.0/24 0\n"):
        """The names of a table and of a capture of these frames."""
        capture = self.folder / "a.pcap"
        capture.write_bytes(capture_bytes(link, enumerate(frames)))
        (self.folder / "table.txt").write_text(table)
        return self.folder / "table.txt", capture

    def test_kinds(self):
        for link, kinds in ((ETHERNET, KINDS), (RAW_IP, RAW_KINDS)):
            table, capture = self.files(link, kinds)
            found = unrouted.unrouted(table, [capture]).found
            self.assertEqual([packet.kind for packet in found], list(kinds.values()))
            self.assertEqual([packet.frame for packet in found], list(range(1, len(kinds) + 1)))

    def test_what_is_routed(self):
        """Packets with an address in the table, behind a tag too, and oversize ones; with a line * all packets."""
        frames = [ethernet([0x0800], ipv4()), ethernet([0x8100, 0x0800], ipv4()), ethernet([0x0806], bytes(65_522))]
        table, capture = self.files(ETHERNET, frames)
        self.assertEqual(unrouted.unrouted(table, [capture]), unrouted.Counts([], 3))
        table, capture = self.files(ETHERNET, KINDS, "* 0\n")
        self.assertEqual(unrouted.unrouted(table, [capture]).found, [])

    def test_jobs(self):
        """In all jobs there are as many as the summary says, which an independent model has made."""
        tried = 0
        for path in sorted(JOBS.glob("*/args")):
            folder = path.parent
            job = job_of(folder)
            if job is None:
                continue
            said = dict(line.split(" ", 1) for line in (folder / "expected/stdout").read_text().splitlines())
            found = unrouted.unrouted(folder / job.table, [folder / name for name in job.inputs])
            told = int(said["unrouted"]), int(said["packets"])
            self.assertEqual((len(found.found), found.packets), told, folder.name)
            tried += 1
        self.assertGreater(tried, 100)

    def test_text(self):
        """Kinds and addresses with most packets first, and the first frame of each kind."""
        away = [ipv4()[:19] + bytes([last]) for last in (7, 9, 9)]
        table, capture = self.files(RAW_IP, [ipv6(), ipv4(), *away, ipv6()], "10.0.1.2/32 0\n")
        status, told = run_here("unrouted", table, capture)
        self.assertEqual((status, told), (0, f"""\
unrouted 5 of 6 packets

packets  kind                     first
      3  no line for the address  frame 3 of {capture}
      2  IPv6                     frame 1 of {capture}

packets  address without a line
      2  10.0.1.9
      1  10.0.1.7
"""))
        status, told = run_here("unrouted", "--most", 1, table, capture)
        self.assertEqual(told.splitlines()[-2:], ["      2  10.0.1.9", "and 1 addresses more"])
        status, told = run_here("unrouted", *self.files(RAW_IP, [ipv4()]))
        self.assertEqual((status, told), (0, "unrouted 0 of 1 packets\n"))

    def test_faults(self):
        table, capture = self.files(ETHERNET, [], "10.0.0.0/24\n")
        told = f"tools/unrouted: {table}: table line 1: bad line\n"
        self.assertEqual(run_here("unrouted", table, capture), (1, told))
        self.assertEqual(run_here("unrouted", capture, table), (1, f"tools/unrouted: {capture} is a capture: the words are TABLE INPUT..\n"))
        status, told = run_here("unrouted", self.folder / "none.txt", capture)
        self.assertEqual((status, told.count("\n")), (1, 1), told)


def job_of(folder):
    """The job of a folder where it is one that ends well and reads captures, else None."""
    try:
        job = read_words((folder / "args").read_text().split("\n")[:-1])
    except Fault:
        return None
    ends_well = (folder / "expected/status").read_text().strip() == "0"
    return job if ends_well and job.command in ("run", "firm") else None
