"""Tests of the flows of packets, and of the packets of a run beside its captures."""

import csv
import io
import struct
import tempfile
import unittest
from pathlib import Path

from launcher.captures import ETHERNET, RAW_IP
from measure.frame_headers import Flow, flow_of

from .common import PACKETS, REPORT, TOP, lacks, run_here

EXAMPLE = TOP / "examples/small_network"
INPUTS = [EXAMPLE / name for name in ("a.pcap", "b.pcap", "c.pcap")]
MACS = bytes.fromhex("020000000001020000000002")
UDP = struct.pack(">HHHH", 5000, 5001, 8, 0)
# The rows of the example's packets file that are no ARP, as Wireshark shows their frames.
SHOWN = [
    ("0", "2", "1732700000.000412", "10.0.0.10", "", "10.0.1.20", "", "ICMP"),
    ("0", "3", "1732700000.031877", "10.0.0.10", "41714", "10.0.2.30", "53", "UDP"),
    ("0", "4", "1732700000.064020", "10.0.0.10", "50312", "10.0.1.20", "80", "TCP"),
    ("0", "5", "1732700000.064911", "10.0.0.10", "50312", "10.0.1.20", "80", "TCP"),
    ("1", "1", "1732700000.000630", "10.0.1.20", "", "10.0.0.10", "", "ICMP"),
    ("1", "2", "1732700000.064405", "10.0.1.20", "80", "10.0.0.10", "50312", "TCP"),
    ("2", "2", "1732700000.032544", "10.0.2.30", "53", "10.0.0.10", "41714", "UDP"),
]


def ipv4(protocol=17, rest=UDP, fragment=0, words=5):
    """An IPv4 packet from 10.0.0.1 to 10.0.1.2."""
    head = struct.pack(">BBHHHBBH", 0x40 + words, 0, 4 * words + len(rest), 0, fragment, 64, protocol, 0)
    return head + bytes([10, 0, 0, 1, 10, 0, 1, 2]) + bytes(max(0, 4 * (words - 5))) + rest


def ipv6(following=17, rest=UDP):
    """An IPv6 packet from fe80::1 to 2001:db8::2."""
    ends = bytes.fromhex("fe80" + "0" * 27 + "1" + "20010db8" + "0" * 23 + "2")
    return struct.pack(">IHBB", 6 << 28, len(rest), following, 64) + ends + rest


def ethernet(kinds, rest):
    """A frame with one type, or tags and their types."""
    return MACS + b"\0\1".join(struct.pack(">H", kind) for kind in kinds) + rest


class Flows(unittest.TestCase):
    def test_frames(self):
        """The flow of each kind of frame, worked out from the layouts of the headers."""
        four = Flow("10.0.0.1", 5000, "10.0.1.2", 5001, "UDP")
        six = Flow("fe80::1", 5000, "2001:db8::2", 5001, "UDP")
        no_ports = {"source_port": None, "destination_port": None}
        bare = four._replace(**no_ports)
        labels = struct.pack(">II", 16 << 12, 17 << 12 | 0x100)
        session = struct.pack(">BBHHH", 0x11, 0, 1, len(ipv4()) + 2, 0x21)
        expected = {
            ethernet([0x0800], ipv4()): four,
            ethernet([0x8100, 0x0800], ipv4()): four,
            ethernet([0x88A8, 0x8100, 0x0800], ipv4()): four,
            ethernet([0x8847], labels + ipv4()): four,
            ethernet([0x8864], session + ipv4()): four,
            ethernet([0x0800], ipv4(words=6)): four,
            ethernet([0x0800], ipv4(fragment=0x2000)): four,
            ethernet([0x0800], ipv4(fragment=1)): bare,
            ethernet([0x0800], ipv4(words=4)): bare,
            ethernet([0x0800], ipv4()[:23]): bare,
            ethernet([0x0800], ipv4(protocol=1)): bare._replace(protocol="ICMP"),
            ethernet([0x0800], ipv4(protocol=253)): bare._replace(protocol="protocol 253"),
            ethernet([0x86DD], ipv6()): six,
            ethernet([0x86DD], ipv6(0, bytes([17, 0, 1, 4, 0, 0, 0, 0]) + UDP)): six,
            ethernet([0x86DD], ipv6(44, bytes([17, 0, 0, 8, 0, 0, 0, 0]) + UDP)): six._replace(**no_ports),
            ethernet([0x0800], ipv4()[:19]): Flow(protocol="IPv4"),
            ethernet([0x0806], bytes(28)): Flow(protocol="ARP"),
            ethernet([0x0026], bytes(38)): Flow(protocol="LLC"),
            ethernet([0x1234], bytes(38)): Flow(protocol="type 0x1234"),
            MACS: Flow(),
        }
        for frame, flow in expected.items():
            with self.subTest(frame.hex()):
                self.assertEqual(flow_of(ETHERNET, frame), flow)
        raw = {ipv4(): four, ipv6(): six, b"": Flow(), bytes(40): Flow()}
        self.assertEqual({packet: flow_of(RAW_IP, packet) for packet in raw}, raw)

    def test_names(self):
        named = {
            "TCP 10.0.0.1:80 > 10.0.1.2:5001": Flow("10.0.0.1", 80, "10.0.1.2", 5001, "TCP"),
            "UDP [fe80::1]:1 > [fe80::2]:2": Flow("fe80::1", 1, "fe80::2", 2, "UDP"),
            "ICMP 10.0.0.1 > 10.0.1.2": Flow("10.0.0.1", None, "10.0.1.2", None, "ICMP"),
            "ARP": Flow(protocol="ARP"),
        }
        self.assertEqual({flow.name: flow for flow in named.values()}, named)


@unittest.skipIf(lacks("pandas"), lacks("pandas"))
class Tables(unittest.TestCase):
    def setUp(self):
        room = tempfile.TemporaryDirectory()
        self.addCleanup(room.cleanup)
        self.prefix = Path(room.name, "out")
        lengths = ((60, 98, 71, 60, 124), (98, 60), (60, 87))
        rows = [
            f"{card},{at},{length},2,forwarded,0,u,1,{at},{at + 3},3\n"
            for card, found in enumerate(lengths) for at, length in enumerate(found)
        ]
        self.packets = PACKETS.split("\n")[0] + "\n" + "".join(rows)
        self.write(self.packets)

    def write(self, packets):
        Path(f"{self.prefix}.packets.csv").write_text(packets)

    def rows(self, *words):
        """What the tool prints, as rows."""
        status, told = run_here("flows", *words)
        self.assertEqual(status, 0, told)
        return list(csv.DictReader(io.StringIO(told)))

    def test_example(self):
        """Each row of the packets file is there unchanged, with the number, the time and the flow of its frame."""
        rows = self.rows(self.prefix, *INPUTS)
        told = list(csv.DictReader(io.StringIO(self.packets)))
        self.assertEqual([{name: row[name] for name in told[0]} for row in rows], told)
        names = ("input", "frame", "time", "source", "source_port", "destination", "destination_port", "protocol")
        self.assertEqual([tuple(row[name] for name in names) for row in rows if row["protocol"] != "ARP"], SHOWN)

    def test_times(self):
        """A slot at 1,000 Mbit/s has 0.512 us, one at pace 7 has 7, and one for an Ethernet of 10 has 512 / 16."""
        for words, delay in ((("--line-rate", "1000"), "1.536"), (("--pace-us", "7"), "21.0"), (("--ethernet", "10"), "96.0")):
            self.assertEqual({row["delay_us"] for row in self.rows(*words, self.prefix, *INPUTS)}, {delay})

    def test_jobs(self):
        """The captures of jobs are those of their packets files, with packets of all states and of several outputs."""
        for name in ("packets_of_all_states", "packets_multicast_departs_twice", "packets_none"):
            folder = TOP / "tests/jobs" / name
            inputs = [folder / word for word in (folder / "args").read_text().split() if word.endswith(".pcap")]
            rows = self.rows(folder / "expected/out", *inputs)
            lines = (folder / "expected/out.packets.csv").read_text().count("\n") - 1
            self.assertEqual(len(rows), lines, name)
            self.assertTrue(all(int(row["frame"]) == int(row["packet"]) + 1 for row in rows), name)

    def test_captures_of_another_run(self):
        """Captures in another order, too few and too many are refused, and a packets file of another run."""
        wrong = {
            "the run has packets of 3 captures, and here are 2": INPUTS[:2],
            f"{INPUTS[1]} has 2 packets, and the packets file 5 of input 0": [INPUTS[1], INPUTS[0], INPUTS[2]],
            f"packet 0 of {INPUTS[2]} has 60 bytes, and the packets file 98 of input 1": INPUTS[::2] + INPUTS[1:2],
            f"{INPUTS[0]} has 5 packets, and the packets file 0 of input 3": [*INPUTS, INPUTS[0]],
        }
        for fault, inputs in wrong.items():
            self.assertEqual(run_here("flows", self.prefix, *inputs), (1, f"tools/flows: {fault}\n"))

    def test_faults(self):
        """A run without a packets file, and one whose report is of another run."""
        report = Path(f"{self.prefix}.report")
        report.write_text(REPORT)
        told = f"{self.prefix}.packets.csv: not the packets of {report}: forwarded 9, and the report has 3\n"
        told = f"tools/flows: {told}"
        self.assertEqual(run_here("flows", self.prefix, *INPUTS), (1, told))
        Path(f"{self.prefix}.packets.csv").unlink()
        told = f"tools/flows: there is no {self.prefix}.packets.csv: give the run the option --packets\n"
        self.assertEqual(run_here("flows", report, *INPUTS), (1, told))
