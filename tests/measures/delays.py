"""Tests of the delays of packets by queue and by flow."""

import csv
import io
import tempfile
import unittest
from pathlib import Path

from .common import PACKETS, REPORT, TOP, lacks, run_here

HEADER = PACKETS.split("\n")[0] + "\n"
# Input 0 has the delays 1 to 1,000 in one queue, but not in this order; of input 1 all packets are dropped, one of
# them of multicast, or go nowhere.
MANY = [f"0,{at},20,1,forwarded,2,u,10,{at},{at + 1 + at * 7 % 1000},{1 + at * 7 % 1000}\n" for at in range(1000)]
DROPPED = [
    "1,0,20,1,dropped,0,m,0,0,,\n", "1,0,20,1,dropped,0,m,2,0,,\n", "1,1,20,1,dropped,0,u,9,1,,\n",
    "1,2,20,1,unrouted,,,,2,,\n",
]
# The queues of `common`: of delays 1, 3, 4 and 4 all, 4 and 3 of multicast, and one each of unicast.
TOLD = """\
queue  packets dropped mean p50 p99 p99.9 max
all          4       0  3.0   3   4     4   4
0>*:0m       2       0  3.5   3   4     4   4
1>0:0u       1       0  1.0   1   1     1   1
1>2:0u       1       0  4.0   4   4     4   4
"""


def row_of(card, at, length, delay):
    """The row of a packet with a delay, or of one that has none."""
    if delay is None:
        return f"{card},{at},{length},2,unrouted,,,,{at},,\n"
    ends = "dropped,0,u,1,0,," if delay == "dropped" else f"forwarded,0,u,1,{at},{at + delay},{delay}"
    return f"{card},{at},{length},2,{ends}\n"


@unittest.skipIf(lacks("pandas"), lacks("pandas"))
class Delays(unittest.TestCase):
    def setUp(self):
        room = tempfile.TemporaryDirectory()
        self.addCleanup(room.cleanup)
        self.prefix = Path(room.name, "out")

    def write(self, packets):
        Path(f"{self.prefix}.packets.csv").write_text(packets)

    def rows(self, *words):
        """The rows that the tool prints, by what they are of and by name."""
        status, told = run_here("delays", "--csv", *words)
        self.assertEqual(status, 0, told)
        return {(row.pop("by"), row.pop("name")): row for row in csv.DictReader(io.StringIO(told))}

    def test_text(self):
        self.write(PACKETS)
        Path(f"{self.prefix}.report").write_text(REPORT)
        for name in (self.prefix, f"{self.prefix}.report", f"{self.prefix}.packets.csv"):
            self.assertEqual(run_here("delays", name), (0, TOLD))
        Path(f"{self.prefix}.report.packets.csv").write_text(PACKETS[:PACKETS.index("1,0")])
        self.assertIn("all          2 ", run_here("delays", f"{self.prefix}.report")[1])

    def test_shares(self):
        """Of the delays 1 to 1,000 half are at most 500, and 99 and 99.9 per cent at most 990 and 999."""
        self.write(HEADER + "".join(MANY + DROPPED))
        found = self.rows("--line-rate", "10000", self.prefix)
        expected = {
            "packets": "1000", "dropped": "0",
            "mean": "500.5", "p50": "500", "p99": "990", "p99.9": "999", "max": "1000",
            "mean_us": "25.6256", "p50_us": "25.6", "p99_us": "50.688", "p99.9_us": "51.1488", "max_us": "51.2",
        }
        self.assertEqual(found["queue", "0>10:2u"], expected)
        self.assertEqual(found["queue", "all"], {**expected, "dropped": "2"})
        self.assertEqual([name for _, name in found], ["all", "0>10:2u", "1>9:0u", "1>*:0m"])
        lost = {**dict.fromkeys(expected, ""), "packets": "0", "dropped": "1"}
        self.assertEqual((found["queue", "1>9:0u"], found["queue", "1>*:0m"]), (lost, lost))

    def test_few(self):
        """With a packet more the share falls on another delay: half of 3 are two, 99 per cent of 101 are 100."""
        from measure.delays import summary
        from measure.packets import read_packets

        known = {3: [2, 3, 3, 3], 4: [2, 4, 4, 4], 100: [50, 99, 100, 100], 101: [51, 100, 101, 101]}
        for count, told in known.items():
            rows = "".join(f"0,{at},20,1,forwarded,0,u,0,0,{at + 1},{at + 1}\n" for at in range(count))
            packets = read_packets(io.StringIO(HEADER + rows))
            found = summary(packets, packets["kind"]).loc["u"]
            self.assertEqual([int(found[name]) for name in ("p50", "p99", "p99.9", "max")], told)

    def test_flows(self):
        """Six flows, one of two packets and one that is dropped, and ARP beside, in the captures of an example."""
        delays = (None, 4, 3, 3, 9), (5, "dropped"), (None, 2)
        lengths = (60, 98, 71, 60, 124), (98, 60), (60, 87)
        places = [(card, at) for card in range(3) for at in range(len(lengths[card]))]
        self.write(HEADER + "".join(row_of(card, at, lengths[card][at], delays[card][at]) for card, at in places))
        names = [TOP / f"examples/small_network/{name}.pcap" for name in "abc"]
        found = {name: row for (by, name), row in self.rows(self.prefix, *names).items() if by == "flow"}
        told = {name: (row["packets"], row["dropped"], row["mean"], row["max"]) for name, row in found.items()}
        self.assertEqual(told, {
            "TCP 10.0.0.10:50312 > 10.0.1.20:80": ("2", "0", "6.0", "9"),
            "ICMP 10.0.0.10 > 10.0.1.20": ("1", "0", "4.0", "4"),
            "UDP 10.0.0.10:41714 > 10.0.2.30:53": ("1", "0", "3.0", "3"),
            "ICMP 10.0.1.20 > 10.0.0.10": ("1", "0", "5.0", "5"),
            "UDP 10.0.2.30:53 > 10.0.0.10:41714": ("1", "0", "2.0", "2"),
            "TCP 10.0.1.20:80 > 10.0.0.10:50312": ("0", "1", "", ""),
        })
        self.assertEqual(next(iter(found)), "TCP 10.0.0.10:50312 > 10.0.1.20:80")
        status, text = run_here("delays", "--most", 2, self.prefix, *names)
        self.assertEqual((status, text.count("10.0.1.20"), text.splitlines()[-1]), (0, 2, "and 4 flows more"), text)

    def test_no_packet(self):
        """A run without packets has no delays."""
        self.write(HEADER)
        self.assertEqual(self.rows(self.prefix), {})
        self.assertEqual(run_here("delays", self.prefix)[0], 0)

    def test_no_run(self):
        """Captures may be left out, and a run is asked for alone."""
        status, told = run_here("delays")
        self.assertEqual((status, told.splitlines()[-1].split("error: ")[1]), (2, "the following arguments are required: PREFIX"))

    def test_faults(self):
        told = f"tools/delays: there is no {self.prefix}.packets.csv: give the run the option --packets\n"
        self.assertEqual(run_here("delays", self.prefix), (1, told))
        self.write(PACKETS)
        Path(f"{self.prefix}.report").write_text(REPORT.replace("dropped 0", "dropped 1"))
        told = f"{self.prefix}.packets.csv: not the packets of {self.prefix}.report: dropped 0, and the report has 1\n"
        self.assertEqual(run_here("delays", self.prefix), (1, f"tools/delays: {told}"))
        self.write("no\n")
        status, told = run_here("delays", self.prefix)
        self.assertEqual((status, told.count("\n")), (1, 1), told)
        self.assertIn(f"{self.prefix}.packets.csv: no packets file", told)
