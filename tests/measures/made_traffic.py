"""Tests of the traffic that is made: its loads, its bursts, where it goes, and the captures that have it."""

import struct
import subprocess
import tempfile
import unittest
from collections import Counter
from pathlib import Path

from launcher import captures
from measure import trace, traffic

from .common import PROGRAM, TOOLS, TOP, run


class Traffic(unittest.TestCase):
    def test_load_and_bursts(self):
        for kind, burst in (("uniform", 1), ("bursty", 16)):
            with self.subTest(kind):
                made = traffic.make_arrivals(kind, 0.5, 16, 0.05, 16, 2000, 1)
                self.assertEqual(made, traffic.make_arrivals(kind, 0.5, 16, 0.05, 16, 2000, 1))
                self.assertNotEqual(made, traffic.make_arrivals(kind, 0.5, 16, 0.05, 16, 2000, 2))
                self.assertAlmostEqual(len(made) / (16 * 2000), 0.5, delta=0.05)
                self.assertAlmostEqual(mean_run(made), burst, delta=burst / 5)

    def test_captures_have_the_arrivals(self):
        made = traffic.make_arrivals("bursty", 0.7, 4, 0.05, 5, 200, 3)
        with tempfile.TemporaryDirectory() as folder:
            traffic.write_traffic(folder, made, 5)
            read = [Path(folder, name).read_bytes() for name in traffic.capture_names(5)]
            table = Path(folder, "table.txt").read_text()
            self.assertEqual(captures.arrivals_of(table, read, traffic.PACE_US), made)

    def test_where_packets_go(self):
        """The shares of the outputs, worked by hand for four ports, and how often packets go there."""
        expected = {
            ("diagonal", 3): [1 / 3, 0, 0, 2 / 3],
            ("log-diagonal", 0): [8 / 15, 4 / 15, 2 / 15, 1 / 15],
            ("log-diagonal", 2): [2 / 15, 1 / 15, 8 / 15, 4 / 15],
            ("hot-spot", 1): [0.4, 0.2, 0.2, 0.2],
        }
        for (kind, card), shares in expected.items():
            with self.subTest(kind):
                for found, share in zip(traffic.shares(kind, card, 0.2, 4), shares):
                    self.assertAlmostEqual(found, share)
                made = traffic.make_arrivals(kind, 0.5, 1, 0.2, 4, 4000, 1)
                self.assertAlmostEqual(len(made) / (4 * 4000), 0.5, delta=0.02)
                own = Counter(packet.outputs[0] for packet in made if packet.input == card)
                for output, share in enumerate(shares):
                    self.assertAlmostEqual(own[output] / own.total(), share, delta=0.05)

    def test_one_port(self):
        for kind in traffic.KINDS:
            made = traffic.make_arrivals(kind, 0.5, 4, 0.2, 1, 50, 1)
            self.assertEqual({packet.outputs for packet in made}, {(0,)})

    def test_trace(self):
        """The packets of a trace keep their bytes and their order, and each address has one port."""
        example = TOP / "examples/two_inputs"
        names = [example / "a.pcap", example / "b.pcap"]
        link, frames = trace.read_trace(names)
        with tempfile.TemporaryDirectory() as name:
            folder = Path(name, "made")
            words = [folder, "--kind", "trace", "--ports", "2", "--load", "0.5", "--trace", *names]
            self.assertEqual(run(TOOLS / "traffic", *words), (0, ""))
            read = [captures.read_file(folder / f"0{card}.pcap") for card in range(2)]
            self.assertEqual(sorted(packet.frame for found in read for packet in found.packets), sorted(frame.data for frame in frames))
            ports = trace.ports_of(frames, 2, 1)
            for card, found in enumerate(read):
                self.assertEqual(found.link, link)
                for packet in found.packets:
                    self.assertEqual(ports[captures.addresses(link, packet.frame)[0]], card)
            files = [path.read_bytes() for path in sorted(folder.glob("*.pcap"))]
            listed = captures.arrivals_of((folder / "table.txt").read_text(), files, traffic.PACE_US)
            self.assertEqual(len(listed), len(frames))
            self.assertEqual(sum(packet.cells for packet in listed), sum(captures.cells_of(len(frame.data)) for frame in frames))

    def test_stretched(self):
        """Four packets of one cell, two ports, half load: four slots; the times keep their proportions."""
        frames = [trace.Frame(time, 1, 2, bytes(40)) for time in (100, 200, 300, 500)]
        self.assertEqual([slot for slot, _ in trace.stretched(frames, 0.5, 2)], [0, 1, 2, 4])

    def test_traces_that_are_refused(self):
        """A capture is refused by the program's text, with what helps; no packet is made of what is left of one."""
        two = traffic.capture_bytes(101, [(0, bytes(20)), (1, bytes(20))])
        longer = two[:60] + struct.pack("<4I", 0, 0, 2**31, 20) + two[76:]
        refused = {
            "short header, 5 bytes": (b"short", "ends within its header of 24 bytes"),
            "short header, 0 bytes": (b"", "is empty; a capture without packets has a header of 24 bytes"),
            "bad magic 0a0d0d0a": (b"\x0a\x0d\x0d\x0a" + bytes(28), "is a pcapng file: editcap -F pcap "),
            "version 1.4": (two[:4] + b"\1" + two[5:], "is not of version 2.4: editcap -F pcap "),
            "link type 228": (two[:20] + struct.pack("<I", 228) + two[24:], "is of link type 228 (raw IPv4), "),
            "cut record at 60": (two[:-1], "ends within a packet, "),
            "cut record at 96": (two + bytes(15), "ends within a packet, "),
            "long record at 60, 2147483648 bytes": (longer, "has a packet of more than 262,144 bytes at byte 60; "),
        }
        with tempfile.TemporaryDirectory() as name:
            folder, bad = Path(name), Path(name, "bad.pcap")
            for said, (data, hint) in refused.items():
                with self.subTest(said):
                    bad.write_bytes(data)
                    self.check_program(bad, said)
                    status, told = run(TOOLS / "traffic", folder / "made", "--kind", "trace", "--trace", bad)
                    self.assertEqual((status, told.count("\n"), (folder / "made").exists()), (1, 1, False))
                    self.assertTrue(told.startswith(f"tools/traffic: {bad}: {said}; hint: {bad} {hint}"), told)

    def check_program(self, bad, said):
        """That the program refuses the capture by the same text, where it is there."""
        if PROGRAM.exists():
            ended = subprocess.run([PROGRAM, "firm", "/dev/null", bad], stdout=subprocess.PIPE, stderr=subprocess.PIPE, text=True)
            self.assertEqual((ended.returncode, ended.stderr), (4, f"capture 0: {said}\n"))

    def test_traces_without_packets_of_use(self):
        with tempfile.TemporaryDirectory() as name:
            raw, ethernet = Path(name, "raw.pcap"), TOP / "examples/two_inputs/a.pcap"
            raw.write_bytes(traffic.capture_bytes(101, []))
            for names, told in (([raw], "the trace has no packet with IPv4 addresses"), ([raw, ethernet], f"link types 101 and 1: {raw} and {ethernet}")):
                said = run(TOOLS / "traffic", Path(name, "made"), "--kind", "trace", "--trace", *names)
                self.assertEqual(said, (1, f"tools/traffic: {told}\n"))
            self.assertEqual(run(TOOLS / "traffic", "--kind", "trace", Path(name, "made"))[0], 2)

    def test_files_of_the_user_stay(self):
        """A folder that is not empty is refused, as a file is, and one that is there and empty is taken."""
        example = TOP / "examples/two_inputs"
        with tempfile.TemporaryDirectory() as name:
            folder, table, empty = Path(name, "mine"), Path(name, "mine/table.txt"), Path(name, "empty")
            folder.mkdir()
            empty.mkdir()
            table.write_text("my own")
            for words in ((), ("--kind", "trace", "--trace", example / "a.pcap", example / "b.pcap")):
                words = ("--ports", 2, "--slots", 10, *words)
                self.assertEqual(run(TOOLS / "traffic", folder, *words), (1, f"tools/traffic: {folder} is not empty\n"))
                status, told = run(TOOLS / "traffic", table, *words)
                self.assertEqual((status, told.count("\n"), list(folder.iterdir()), table.read_text()), (1, 1, [table], "my own"))
            self.assertEqual(run(TOOLS / "traffic", empty, *words), (0, ""))

    def test_folder_behind_the_captures(self):
        """The folder is the last word wherever --trace stands, and a capture is never taken for it."""
        example = TOP / "examples/two_inputs"
        names = [example / "a.pcap", example / "b.pcap"]
        with tempfile.TemporaryDirectory() as name:
            rest = ["--kind", "trace", "--ports", "2"]
            for number, words in enumerate((["--trace", *names], ["--trace", *names, "--seed", "1"], ["--trace", *names, "--"], ["--trace", names[0]])):
                folder = Path(name, str(number))
                self.assertEqual(run(TOOLS / "traffic", *rest, *words, folder), (0, ""), words)
                self.assertEqual(len(list(folder.iterdir())), 3)
            for words in (names, names[:1], [Path(name, "alone")]):
                status, told = run(TOOLS / "traffic", *rest, "--trace", *words)
                self.assertEqual((status, told.splitlines()[-1]), (2, "traffic: error: the following arguments are required: folder"))

    def test_words_of_traffic(self):
        for words, told in ((["--load", "1.5"], "over 0 and at most 1"), (["--ports", "65"], "from 1 to 64"), (["--slots", "9000"], "1 to 8192")):
            status, said = run(TOOLS / "traffic", *words, "made")
            self.assertEqual(status, 2)
            self.assertIn(told, said)

    def test_arrivals_of_an_example(self):
        folder = TOP / "examples/two_inputs"
        read = [(folder / name).read_bytes() for name in ("a.pcap", "b.pcap")]
        found = captures.arrivals_of((folder / "table.txt").read_text(), read, None)
        self.assertEqual([(packet.slot, packet.input, packet.cells) for packet in found], [(2, 0, 3), (2, 1, 3), (4, 0, 2)])


def mean_run(made):
    """The mean number of packets that come in slots in a row to an input for one output."""
    seen = {(packet.slot, packet.input): packet.outputs for packet in made}
    starts = sum(seen.get((slot - 1, card)) != outputs for (slot, card), outputs in seen.items())
    return len(made) / starts
