"""Tests of captures, of the table and destinations, of messages, cells and arrival slots."""

import random
import unittest

from .captures import ETHERNET, RAW_IP, Packet, capture_bytes, read_capture
from .faults import Fault
from .messages import cell_bytes, cells_of, cut, message_of, put_together, read_cell
from .plans import arrivals_of
from .rows import MULTICAST, UNICAST
from .samples import (
    BIG_ENDIAN_NANO, FRAME, NANO_HEADER, ONE_FRAME, address, capture, header, plan_of, raw, record, unhex
)
from .table import Prefix, Route, destination, read_table, route_of


def fault_of(call, *arguments):
    """The fault of a call, as its name and its numbers; None where there is none."""
    try:
        call(*arguments)
    except Fault as fault:
        return fault.name, fault.numbers
    return None


def changed(data, at, *values):
    """Bytes with other ones from a place on."""
    return data[:at] + bytes(values) + data[at + len(values):]


class Captures(unittest.TestCase):
    def test_faults(self):
        two = capture(raw(20, "10.0.0.1"), raw(20, "10.0.0.1"))
        self.assertEqual(fault_of(read_capture, header() + bytes(10)), ("cut_record", {"at": 24}))
        self.assertEqual(fault_of(read_capture, two[:-1]), ("cut_record", {"at": 60}))
        self.assertEqual(fault_of(read_capture, b""), ("short_header", {"length": 0}))
        pcapng = unhex("0a0d0d0a") + bytes(20)
        self.assertEqual(fault_of(read_capture, pcapng), ("bad_magic", {"found": 0x0A0D0D0A}))

    def test_each_truncation(self):
        for length in range(len(BIG_ENDIAN_NANO) + 1):
            expected = ("cut_record", {"at": 24})
            if length < 24:
                expected = "short_header", {"length": length}
            elif length in (24, len(BIG_ENDIAN_NANO)):
                expected = None
            self.assertEqual(fault_of(read_capture, BIG_ENDIAN_NANO[:length]), expected)

    def test_changed_bytes(self):
        for at, value, expected in (
            (0, 0xA0, ("bad_magic", {"found": 0xA0B23C4D})), (5, 3, ("bad_version", {"major": 3, "minor": 4})),
            (7, 3, ("bad_version", {"major": 2, "minor": 3})), (8, 1, None), (23, 0x64, ("bad_link", {"found": 100})),
            (32, 1, ("long_record", {"at": 24, "length": 16_777_236})),
            (33, 4, ("long_record", {"at": 24, "length": 262_164})), (33, 1, ("cut_record", {"at": 24})),
            (35, 0x15, ("cut_record", {"at": 24})),
        ):
            self.assertEqual(fault_of(read_capture, changed(BIG_ENDIAN_NANO, at, value)), expected)

    def test_fractions_beyond_the_second(self):
        packet = raw(20, "10.0.0.1")
        (found,) = read_capture(header() + record(packet, 7, 1_000_000)).packets
        self.assertEqual((found.seconds, found.nanos), (7, 999_999_000))
        (found,) = read_capture(NANO_HEADER + record(packet, 7, 0xFFFFFFFF, 99)).packets
        self.assertEqual((found.nanos, found.original), (999_999_999, 99))

    def test_what_is_read_is_written(self):
        for data in (ONE_FRAME, capture(raw(20, "10.0.0.1"), b""), NANO_HEADER + record(b"\x45", 1, 5)):
            read = read_capture(data)
            messages = map(message_of, read.packets)
            self.assertEqual(capture_bytes(messages, read.is_nano, read.link), data)


class Tables(unittest.TestCase):
    def test_longest_prefix(self):
        table = read_table(b"0.0.0.0/0 0\n10.0.0.1/32 1\n", 2)
        number = int.from_bytes(address("10.0.0.1"), "big")
        routes = [route_of(table, to) for to in (number, number + 1, None)]
        self.assertEqual(routes, [Route(frozenset({1}), 0), Route(frozenset({0}), 0), None])
        table = read_table(b"10.0.0.0/8 0,1 3\r\n* 1\r\n", 2)
        routes = [route_of(table, to) for to in (number, None)]
        self.assertEqual(routes, [Route(frozenset({0, 1}), 3), Route(frozenset({1}), 0)])
        self.assertIsNone(route_of(read_table(b"", 2), number))

    def test_faults_and_their_order(self):
        for text, expected in (
            (b"10.0.0.1/24 0\n", ("host_bits", {"line": 1})), (b"10.0.0.0/8 2\n", ("bad_port", {"line": 1, "port": 2})),
            (b"10.0.0.0/8 0\n\n10.0.0.0/8 1\n", ("repeated", {"line": 3, "first": 1})),
            (b"10.0.0.0/8 0 4\n", ("bad_level", {"line": 1})), (b"10.0.0.0 0\n", ("bad_line", {"line": 1})),
            (b"* 0\n" * 4_097, ("too_many_lines", {"count": 4_097})), (b"x\n" * 4_096, ("bad_line", {"line": 1})),
            (b"10.0.0.1/8 9 9\n", ("host_bits", {"line": 1})),
            (b"10.0.0.0/8 9 9\n", ("bad_port", {"line": 1, "port": 9})),
            (b"10.0.0.0/8 0 9\nx\n", ("bad_level", {"line": 1})),
            (b"* 1\n10.0.0.0/8 0\n* 0\n10.0.0.0/8 1\n", ("repeated", {"line": 3, "first": 1})),
        ):
            for whole in (text, text[:-1]):
                self.assertEqual(fault_of(read_table, whole, 2), expected)

    def test_forms(self):
        for text in (
            b"10.0.0.0/8 0", b" \t10.0.0.0/8\t \t0\t1 \r\n", b"# x\n#\n\n \n\r\n \r\n10.0.0.0/8 0,0,0 3\n",
            b"* 1 0\n0.0.0.0/0 0\n255.255.255.255/32 1", b"  # a\n* 0", b"10.0.0.0/8 0\n10.0.0.0/9 0\n",
        ):
            self.assertTrue(read_table(text, 2), text)
        for text in (
            b"10.0.0.0/8  ", b"10.0.0.0/8 0,", b"10.0.0.0/8 ,0", b"10.0.0.0/8 0 ,1", b"10.0.0.0/08 0", b"10.0.0.0/33 0",
            b"10.0.0.0/8/8 0", b"10.0.0/8 0", b"10.0.0.256/32 0", b"10.0.0.00/8 0", b"10.0.0.0/8 00",
            b"10.0.0.0/8 0001",
            b"10.0.0.0/8 0 0 0", b"10.0.0.0/8 0\r\r\n", b"\r \n", b"10.0.0.0/8 0 x", b"** 0", b"*0", b"10.0.0.0 /8 0",
            b"10.0.0.0/8\x0b0", b"10.0.0.0/8 0 # x", b"10.0.0.0/ 0", b"/8 0", b"10.0.0.0/8 1000", b"\xff", b"*/0 0",
        ):
            self.assertEqual(fault_of(read_table, text, 2), ("bad_line", {"line": 1}), text)

    def test_destinations(self):
        tag = unhex("81000005")
        tagged = FRAME[:12] + tag + FRAME[12:]
        for frame in (FRAME, tagged, FRAME[:34]):
            self.assertEqual(destination(ETHERNET, frame), 0x0A000101)
        arp = FRAME[:12] + unhex("0806") + FRAME[14:]
        for frame in (FRAME[:12] + tag + tagged[12:], arp, FRAME[:33], FRAME[:13], tagged[:17], tagged[:37], b""):
            self.assertIsNone(destination(ETHERNET, frame))
        packet = raw(20, "10.0.0.1")
        self.assertEqual(destination(RAW_IP, packet), 0x0A000001)
        self.assertIsNone(destination(RAW_IP, b"\x60" + packet[1:]))

    def test_prefixes(self):
        self.assertTrue(Prefix(0x0A000000, 8).covers(0x0AFFFFFF) and not Prefix(0x0A000000, 8).covers(0x0B000000))
        self.assertTrue(Prefix(0, 0).covers(0xFFFFFFFF) and not Prefix(0, 0).covers(None))


class Messages(unittest.TestCase):
    def test_numbers_of_cells(self):
        self.assertEqual(list(map(cells_of, (0, 40, 41, 65_535, 262_144))), [1, 1, 2, 1_171, 4_682])

    def test_cells_of_a_frame(self):
        (packet,) = read_capture(ONE_FRAME).packets
        message = message_of(packet)
        self.assertEqual((message[:16], len(message)), (unhex("00000001 000007d0 0000003c 0000003c"), 76))
        first, second = (cut(packet, 0, 0, UNICAST, number) for number in range(2))
        self.assertEqual(cell_bytes(first), unhex("0000000038000000") + message[:56])
        self.assertEqual(cell_bytes(second), unhex("0000000114000001") + message[56:] + bytes(36))
        self.assertEqual(read_cell(cell_bytes(second)), second)
        for at, value in ((4, 0), (4, 57), (5, 1), (63, 1), (0, 64), (1, 4), (2, 2), (3, 2), (6, 5)):
            self.assertIsNone(read_cell(changed(cell_bytes(second), at, value)))

    def test_flows_are_put_together_apart(self):
        packet = Packet(0, 0, 60, bytes(range(60)))
        flows = [(0, UNICAST), (2, UNICAST), (2, MULTICAST)]
        cells = [cut(packet, 0, level, kind, number) for number in range(2) for level, kind in flows]
        found = [(it.slot, it.level, it.kind, it.message) for it in put_together(enumerate(cells))]
        self.assertEqual(found, [(3 + k, *flow, message_of(packet)) for k, flow in enumerate(flows)])


class Arrivals(unittest.TestCase):
    def test_paces(self):
        self.assertEqual(arrivals_of([(0, 2), (0, 1), (0, 3)]), [1, 2, 5])
        self.assertEqual(arrivals_of([(0, 2), (5_000, 1), (45_000, 3)], 10), [1, 2, 6])
        self.assertEqual(arrivals_of([(1_310_710_000, 1)], 10), [131_071])

    def test_line_rates(self):
        """A cell of 512 bits takes 51.2 ns at 10,000 Mb/s, 0.32 ns at 1,600,000, and 73,142 and 6 / 7 ns at 7."""
        for rate, times, arrivals in (
            (10_000, [51, 52, 102, 103], [0, 1, 2, 3]), (400_000, [1, 2, 32, 33], [0, 1, 25, 26]),
            (1_600_000, [1, 2, 8, 16], [3, 6, 25, 50]), (1, [511_999, 512_000], [0, 1]),
            (7, [73_142, 73_143, 585_142_857, 585_142_858], [0, 1, 7_999, 8_000]),
            (1_600_000, [4_294_967_295_999_999_999], [13_421_772_799_999_999_996]),
        ):
            self.assertEqual(arrivals_of([(time, 1) for time in times], rate=rate), arrivals)
        later = 10**18
        stamps = [(later + 51, 1), (later + 52, 2), (later + 52, 1)]
        self.assertEqual(arrivals_of(stamps, base=later, rate=10_000), [0, 2, 3])

    def test_paces_are_line_rates(self):
        """A slot of K microseconds is a cell at 512 / K Mb/s."""
        rng = random.Random(6)
        stamps = [(rng.randrange(10_000_000), rng.randint(1, 5)) for _ in range(50)]
        for power in range(10):
            self.assertEqual(arrivals_of(stamps, pace=2**power), arrivals_of(stamps, rate=512 // 2**power))

    def test_base_is_the_earliest_time_of_all_captures(self):
        """Times may fall within a capture."""
        times = [(5, 30), (5, 10), (5, 29)]
        one = header() + b"".join(record(raw(20, "10.0.0.1"), *time) for time in times)
        two = header() + record(raw(20, "10.0.0.1"), 4, 999_999)
        plan = plan_of(b"* 0\n", [one, two], pace=10)
        self.assertEqual([[packet.arrival for packet in card] for card in plan.cards], [[3, 4, 5], [0]])

    def test_later_packets_begin_later(self):
        rng = random.Random(5)
        for _ in range(100):
            stamps = [(rng.randrange(100_000), rng.randint(1, 5)) for _ in range(6)]
            for pace in (None, 1, 10):
                arrivals = arrivals_of(stamps, pace)
                begins = [slot - cells + 1 for slot, (_, cells) in zip(arrivals, stamps)]
                self.assertTrue(all(begin > before for begin, before in zip(begins, [-1, *arrivals])))
                if pace is not None:
                    slots = [time // (1_000 * pace) for time, _ in stamps]
                    self.assertTrue(all(begin >= slot for begin, slot in zip(begins, slots)))
