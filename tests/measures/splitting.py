"""Tests of the split of a capture of a network into captures of ports."""

import random
import struct
import tempfile
import unittest
from collections import Counter
from pathlib import Path

from launcher.captures import BadCapture, read_capture, read_file
from launcher.tables import read_table, route
from measure import network_ports, pcapng, splitting, traffic

from .common import TOP, run_here
from .flows import ethernet, ipv4, ipv6

EXAMPLE = TOP / "examples/small_network"
ORIGINALS = [(EXAMPLE / name).read_bytes() for name in ("a.pcap", "b.pcap", "c.pcap")]
HOSTS = ("10.0.0.10", "10.0.1.20", "10.0.2.30")


def block(kind, body, order="<"):
    """A block of a pcapng file."""
    body += bytes(-len(body) % 4)
    return struct.pack(order + "II", kind, len(body) + 12) + body + struct.pack(order + "I", len(body) + 12)


def section(order="<"):
    return block(pcapng.SECTION, struct.pack(order + "IHHq", 0x1A2B3C4D, 1, 0, -1), order)


def interface(link=1, options=(), order="<"):
    """An interface with options, each a code and its bytes."""
    texts = [struct.pack(order + "HH", code, len(value)) + value + bytes(-len(value) % 4) for code, value in options]
    return block(pcapng.INTERFACE, struct.pack(order + "HHI", link, 0, 0) + b"".join(texts), order)


def packet(number, time, frame, original=None, order="<"):
    words = struct.pack(order + "IIIII", number, time >> 32, time & 0xFFFFFFFF, len(frame), original or len(frame))
    return block(pcapng.PACKET, words + frame, order)


def network_of(captures):
    """A pcapng file with an interface for each of these captures, whose packets are in the order of their times."""
    read = [read_capture(data).packets for data in captures]
    found = sorted((it.time, number, it.frame) for number, packets in enumerate(read) for it in packets)
    names = [interface(options=[(pcapng.NAME, f"eth{number}".encode())]) for number in range(len(captures))]
    return section() + b"".join(names) + b"".join(packet(number, time // 1000, frame) for time, number, frame in found)


def coming_from(*octets):
    """An IPv4 packet from an address."""
    return ipv4()[:12] + bytes(octets) + ipv4()[16:]


class Files(unittest.TestCase):
    """What is read of pcapng files."""

    def test_times(self):
        """Of each resolution, in both byte orders, with an offset; sections have interfaces of their own."""
        cases = (
            ([], 1_500_000, 1_500_000_000), ([(9, b"\x09")], 1_500_000_001, 1_500_000_001),
            ([(9, b"\x03")], 1500, 1_500_000_000), ([(9, b"\x8a")], 1536, 1_500_000_000),
            ([(9, b"\x00")], 2, 2_000_000_000), ([(9, b"\x0c")], 1_500_000_000_999, 1_500_000_000),
        )
        for order in "<>":
            parts = []
            for options, time, _ in cases:
                parts += [section(order), interface(101, options, order), packet(0, time, b"abc", 9, order)]
            data = b"".join(parts)
            found = pcapng.read(data)
            self.assertEqual([it.interface for it in found.packets], list(range(len(cases))))
            self.assertEqual([it.record.time for it in found.packets], [time for _, _, time in cases])
            records = {(it.record.original, data[it.record.start:][:it.record.length]) for it in found.packets}
            self.assertEqual(records, {(9, b"abc")})
            self.assertEqual({it.link for it in found.interfaces}, {101})
        offset = section() + interface(options=[(2, b"eth0"), (14, struct.pack("<q", -1))]) + packet(0, 1_500_000, b"")
        found = pcapng.read(offset)
        self.assertEqual((found.packets[0].record.time, found.is_nano), (500_000_000, False))
        self.assertEqual(found.interfaces[0].name, "eth0")
        self.assertTrue(pcapng.read(section() + interface(options=[(9, b"\x09")])).is_nano)

    def test_other_blocks(self):
        """Blocks of other types are passed over, and a packet of the older type is read."""
        old = struct.pack("<HHIIII", 0, 5, 0, 7, 2, 2) + b"ab"
        data = section() + interface() + block(4, b"names") + block(pcapng.OLD_PACKET, old) + block(0xBAD, b"")
        self.assertEqual([it.record[:2] for it in pcapng.read(data).packets], [(7000, 2)])

    def test_faults(self):
        good = section() + interface() + packet(0, 1, b"abcd")
        for cut in {*range(1, len(good))} - {len(section()), len(section() + interface())}:
            with self.subTest(cut), self.assertRaises(BadCapture):
                pcapng.read(good[:cut])
        simple, short = block(pcapng.SIMPLE_PACKET, bytes(8)), block(pcapng.PACKET, bytes(16))
        for wrong in (packet(1, 1, b""), simple, short, bytes(12), block(pcapng.INTERFACE, b"")):
            with self.subTest(wrong), self.assertRaises(BadCapture):
                pcapng.read(section() + interface() + wrong)


class Splits(unittest.TestCase):
    def setUp(self):
        room = tempfile.TemporaryDirectory()
        self.addCleanup(room.cleanup)
        self.room = Path(room.name)
        self.whole = self.room / "all.pcapng"
        self.whole.write_bytes(network_of(ORIGINALS))

    def split(self, frames, words, link=1):
        """The frames of each port, the others and the table, of a capture of these frames."""
        name = self.room / "frames.pcap"
        name.write_bytes(traffic.capture_bytes(link, enumerate(frames)))
        network = splitting.read_network(name)
        found = splitting.split(network, words)
        ports = [[network.data[it.start:it.start + it.length] for it in records] for records in found.records]
        return ports, dict(found.others), found.lines

    def test_interfaces(self):
        """The captures of an example, put together and split again, are the same bytes."""
        for number, words in enumerate(([], ["interface=eth0", "interface=eth1", "interface=2"])):
            folder = self.room / f"mine {number}"
            status, told = run_here("split", self.whole, folder, *words)
            self.assertEqual(status, 0, told)
            self.assertEqual([(folder / f"0{port}.pcap").read_bytes() for port in range(3)], ORIGINALS)
            table = (folder / "table.txt").read_text().splitlines()
            lines = [f"{host}/32 {port}" for port, host in enumerate(HOSTS)]
            self.assertEqual((table[0], table[3:]), ("# port 0: interface=eth0", lines))

    def test_nanoseconds(self):
        """Times in nanoseconds stay, and so do the lengths on the line."""
        nano = section() + interface(options=[(9, b"\x09")]) + packet(0, 1_000_000_001, bytes(60), 1500)
        self.whole.write_bytes(nano)
        self.assertEqual(run_here("split", self.whole, self.room / "mine")[0], 0)
        found = read_file(self.room / "mine/00.pcap")
        self.assertEqual((found.is_nano, found.packets[0][:2]), (True, (1_000_000_001, 1500)))

    def test_networks(self):
        """The longest network decides, * takes the rest, and packets without one are told."""
        inner, outer = ethernet([0x0800], ipv4()), ethernet([0x8100, 0x0800], coming_from(10, 7, 0, 1))
        away, arp = ethernet([0x0800], coming_from(192, 0, 2, 1)), ethernet([0x0806], bytes(28))
        frames, words = [inner, outer, away, arp, inner], ["10.0.0.0/8", "172.16.0.0/12,10.0.0.1"]
        lines = ["10.0.0.0/8 0", "172.16.0.0/12 1", "10.0.0.1/32 1"]
        others = {"from 192.0.2.1": 1, "without IPv4 addresses: ARP": 1}
        self.assertEqual(self.split(frames, words), ([[outer], [inner, inner]], others, lines))
        ports = [[outer], [inner, inner], [away, arp]]
        self.assertEqual(self.split(frames, [*words, "*"]), (ports, {}, [*lines, "* 2"]))

    def test_addresses_and_tags(self):
        """By MAC addresses and by VLANs; the table has the addresses from which packets came in."""
        plain, ten, six = ethernet([0x0800], ipv4()), ethernet([0x8100, 0x0800], ipv4()), ethernet([0x86DD], ipv6())
        ten = ten[:14] + b"\xa0\x0a" + ten[16:]
        other = plain[:6] + bytes(6) + plain[12:]
        table = ["10.0.0.1/32 0"]
        by_mac = self.split([plain, ten, other], ["02-00-00-00-00-02", "00:00:00:00:00:00"])
        self.assertEqual(by_mac, ([[plain, ten], [other]], {}, table))
        others = {"from 00:00:00:00:00:00": 1, "from 02:00:00:00:00:02": 1}
        self.assertEqual(self.split([other, six], ["02:00:00:00:00:01"]), ([[]], others, []))
        by_tag = self.split([plain, ten, six, six], ["vlan=10", "vlan=untagged"])
        self.assertEqual(by_tag, ([[ten], [plain, six, six]], {}, table))
        others = {"without a tag": 1, "of VLAN 10": 1}
        self.assertEqual(self.split([plain, ten], ["vlan=11"]), ([[]], others, []))

    def test_raw_ip(self):
        found = self.split([ipv4(), ipv6()], ["10.0.0.0/8", "*"], 101)
        self.assertEqual(found, ([[ipv4()], [ipv6()]], {}, ["10.0.0.0/8 0", "* 1"]))
        for word in ("vlan=1", "02:00:00:00:00:01", "interface=0"):
            with self.assertRaises(ValueError):
                self.split([ipv4()], [word], 101)

    def test_command_of_a_run(self):
        """With more than 131,072 cells it is one of a long job; packets of full size have 28."""
        for packets, word in ((4681, ""), (4682, "--long ")):
            self.whole.write_bytes(traffic.capture_bytes(101, enumerate([ipv4() + bytes(1500 - len(ipv4()))] * packets)))
            folder = self.room / str(packets)
            told = run_here("split", self.whole, folder, "*")[1].splitlines()[-1].partition("tiny_tera ")[2]
            self.assertEqual(told, f"run {word}--ethernet E {folder}/table.txt PREFIX {folder}/[0-6][0-9].pcap")

    def test_nothing_is_replaced(self):
        """Of a folder in which one of the names is there nothing is written; other files do not matter."""
        for name in ("01.pcap", "table.txt"):
            folder = self.room / f"with {name}"
            folder.mkdir()
            (folder / "mine.txt").write_text("mine")
            (folder / name).symlink_to("nowhere")
            told = f"tools/split: {folder / name} is there, and is not replaced; give another folder\n"
            self.assertEqual(run_here("split", self.whole, folder), (1, told))
            self.assertEqual(sorted(it.name for it in folder.iterdir()), sorted([name, "mine.txt"]))
            (folder / name).unlink()
            self.assertEqual(run_here("split", self.whole, folder)[0], 0)

    def test_words(self):
        wrong = {
            "10.0.0.1/8": "'10.0.0.1/8' has bits beyond its length; its network is 10.0.0.0/8",
            "fd00::/64": "'fd00::/64' is IPv6, which the switch does not route",
            "vlan=x": "'vlan=x' is no VLAN; vlan= takes a number from 0 to 4,095 or untagged",
            "vlan=4096": "'vlan=4096' is no VLAN", "vlan=": "'vlan=' is no VLAN", "interface=": "'interface=' names no interface",
            "eth0": "'eth0' is no IPv4 network, MAC address, vlan=NUMBER or interface=NAME", "10.0.0.0/33": "is no IPv4 network",
            "10.0.0.0/24 10.0.1.0/24,10.0.0.0/24": "10.0.0.0/24 stands for two ports, 0 and 1",
            "10.0.0.0/24 vlan=1": "ports are of one kind, and here are VLAN and network",
            "* *": "stands twice",
            " ".join(f"vlan={number}" for number in range(65)): "here are 65 ports, and a switch has at most 64",
        }
        for words, fault in wrong.items():
            with self.subTest(words), self.assertRaisesRegex(ValueError, fault.replace("*", r"\*")):
                network_ports.read_ports(words.split())

    def test_words_of_a_file(self):
        (self.room / "ports").write_text("# my ports\n10.0.0.0/24   # the office\n10.0.1.0/24,10.0.2.0/24\n")
        status, told = run_here("split", self.whole, self.room / "mine", f"@{self.room / 'ports'}")
        self.assertEqual((status, told.splitlines()[:4]), (0, [
            f"port 0: 4 packets, 10.0.0.0/24: {self.room}/mine/00.pcap",
            f"port 1: 3 packets, 10.0.1.0/24,10.0.2.0/24: {self.room}/mine/01.pcap",
            "no port: 2 of 9 packets", "  2 without IPv4 addresses: ARP",
        ]))

    def test_no_folder(self):
        """Ports may be left out, and a folder is asked for alone."""
        status, told = run_here("split", self.whole)
        self.assertEqual((status, told.splitlines()[-1].split("error: ")[1]), (2, "the following arguments are required: FOLDER"))

    def test_faults(self):
        two = section() + interface() + interface(101) + packet(0, 1, b"") + packet(1, 1, b"")
        for data, fault in (
            (self.whole.read_bytes()[:-1], "cut block at "), (b"\x1f\x8b" + bytes(30), "bad magic 1f8b0000; hint: "),
            (section() + interface(113) + packet(0, 1, b""), "link type 113; hint: "),
            (ORIGINALS[0][:-1], "cut record at "), (two, "its interfaces have the link types 1, 101"),
        ):
            self.whole.write_bytes(data)
            status, told = run_here("split", self.whole, self.room / "mine", "*")
            self.assertEqual((status, told.count("\n"), (self.room / "mine").exists()), (1, 1, False), told)
            self.assertIn(f"{self.whole}: {fault}", told)


class Tables(unittest.TestCase):
    def test_together(self):
        """Of 6,000 addresses at three ports each has a line of its own port; neighbours have one together."""
        numbers = random.Random(1)
        routes = {(10 << 24) + (at << 12) + numbers.randrange(4096): at // 700 % 3 for at in range(6000)}
        ports = network_ports.Ports(["interface=0"] * 3, network_ports.INTERFACE, {}, None)
        lines = splitting.table_lines(ports, Counter({place: 1 for place in routes.items()}))
        self.assertLess(len(lines), 200)
        found = read_table("\n".join(lines), 3)
        for address, port in routes.items():
            self.assertEqual(route(found, address), ((port,), 0))

    def test_most_packets(self):
        """An address at two ports goes to that with most of its packets; the port * needs no lines of its own."""
        sources = Counter({(1, 0): 2, (1, 1): 5, (2, 0): 1, (3, 1): 9})
        ports = network_ports.Ports(["a", "b"], network_ports.MAC, {}, None)
        self.assertEqual(splitting.table_lines(ports, sources), ["0.0.0.1/32 1", "0.0.0.2/32 0", "0.0.0.3/32 1"])
        self.assertEqual(splitting.table_lines(ports._replace(rest=1), sources), ["0.0.0.2/32 0", "* 1"])
