"""Tests of whole jobs by hand: what they print and write, and how they end."""

import itertools
import re
import unittest

from .captures import ETHERNET, read_capture
from .rows import NO_MATCH
from .runs import crossings, outcome_of
from .samples import (
    BIG_ENDIAN_NANO, FILLING, HEAD, HEAD_TABLE, HEADS, HEADS_TABLE, NANO_HEADER, NEW_REQUEST, ONE_FRAME, TO_0, TO_1,
    TWO_PORTS, address, capture, do, entries, header, pairs, plan_of, raw, record, run, run_of, summary_text, unhex
)
from .schedulers import SCHEDULERS, firm, islip, schedule
from .texts import slot_lines
from .words import USAGE


def packets_of(data):
    """The packets of a capture."""
    return [packet.data for packet in read_capture(data).packets]


def shared_of(made, scheduler=islip):
    """The shared pointers of level 0 after each slot of a run."""
    plan = made.plan
    decisions = schedule(plan.ports, plan.rounds, [slot.rows for slot in made.slots], scheduler)
    return [decision.pointers.shared[0] for decision in decisions]


class OnePacket(unittest.TestCase):
    def test_crosses(self):
        ended = run(TWO_PORTS, [ONE_FRAME, header(ETHERNET)])
        text = summary_text(slots=4, packets=1, forwarded=1, copies=1, cells=2)
        self.assertEqual((ended.status, ended.out, ended.err), (0, text, ""))
        self.assertEqual((ended.files["out.0.pcap"], ended.files["out.1.pcap"]), (header(ETHERNET), ONE_FRAME))
        self.assertEqual(ended.report(), ["output 0 packets 0 cells 0", "output 1 packets 1 cells 2"])
        self.assertEqual(set(ended.files), {"table", "in0", "in1", "out.0.pcap", "out.1.pcap", "out.report"})
        made = run_of(TWO_PORTS, [ONE_FRAME, header(ETHERNET)])
        self.assertEqual([pairs(slot.match) for slot in made.slots], [set(), {(0, 1)}, {(0, 1)}, set()])
        self.assertEqual([crossed.slot for crossed in crossings(made)[1]], [2, 3])

    def test_no_packets_and_one_port(self):
        ended = run(b"", [header(), header()])
        self.assertEqual((ended.status, ended.out), (0, summary_text(slots=1)))
        self.assertEqual((ended.files["out.0.pcap"], ended.files["out.1.pcap"]), (header(), header()))
        ended = run(b"* 0\n", [capture(TO_0)])
        self.assertEqual((ended.summary()["slots"], ended.files["out.0.pcap"]), ("2", capture(TO_0)))

    def test_units(self):
        little = header() + unhex("01000000 07000000 14000000 14000000") + TO_0
        ended = run(TWO_PORTS, [BIG_ENDIAN_NANO, little])
        self.assertEqual(ended.files["out.0.pcap"], NANO_HEADER + unhex("01000000 581b0000 14000000 14000000") + TO_0)
        self.assertEqual(ended.files["out.1.pcap"][24:40], unhex("01000000 05000000 14000000 14000000"))
        ended = run(b"* 0\n", [header() + record(TO_0, fraction=1_000_000)])
        self.assertEqual(ended.files["out.0.pcap"], header() + record(TO_0, fraction=999_999))

    def test_oversize(self):
        for length, slots in ((65_536, "1171"), (262_144, "4682")):
            ended = run(b"* 0\n", [capture(raw(length, "10.0.0.1"))])
            found = ended.summary()
            self.assertEqual((found["oversize"], found["forwarded"], found["slots"]), ("1", "0", slots))
            self.assertEqual(ended.files["out.0.pcap"], header())
        ended = run(b"* 0\n", [capture(raw(262_145, "10.0.0.1"))])
        self.assertEqual((ended.status, ended.err), (4, "capture 0: long record at 24, 262145 bytes\n"))


class ManyPackets(unittest.TestCase):
    def test_better_level_goes_between(self):
        """A cell of level 0 goes between the first two cells of a packet of level 2."""
        table = b"10.0.1.0/24 1 2\n10.0.2.0/24 1 0\n"
        inputs = [capture(raw(100, "10.0.1.1"), raw(20, "10.0.2.1")), capture()]
        made = run_of(table, inputs)
        self.assertEqual([(it.cells, it.level, it.arrival) for it in made.plan.cards[0]], [(3, 2, 2), (1, 0, 3)])
        worse, better = entries("0>1:2u"), entries("0>1:0u")
        self.assertEqual([slot.match for slot in made.slots], [NO_MATCH] * 2 + [worse, better, worse, worse, NO_MATCH])
        ended = run(table, inputs)
        self.assertEqual(packets_of(ended.files["out.1.pcap"]), [raw(20, "10.0.2.1"), raw(100, "10.0.1.1")])
        self.assertEqual((ended.summary()["slots"], ended.summary()["longest"]), ("7", "0 0 1 0"))

    def test_multicast_waits_for_both_outputs(self):
        ended = run(HEAD_TABLE, HEAD, "--rounds 1 --slots")
        lines = (
            "0 used 1 first 3 0>0:0m 1>1:0u 0>2:0m", "1 used 1 first 1 0>1:0m", "2 used 1 first 1 1>1:0u",
            "3 used 0 first 0",
        )
        self.assertEqual(ended.report()[3:], [f"slot {line}" for line in lines])
        self.assertEqual(packets_of(ended.files["out.1.pcap"]), [TO_1, raw(20, "10.0.9.1"), TO_1])
        self.assertEqual(ended.summary()["longest"], "1 0 0 0")
        self.assertEqual(shared_of(run_of(HEAD_TABLE, HEAD, rounds=1))[:2], [0, 1])

    def test_two_heads_complete_in_turn(self):
        made = run_of(HEADS_TABLE, HEADS, rounds=1)
        lines = "0 used 1 first 3 0>0:0m 0>1:0m 1>2:0m", "1 used 1 first 1 1>1:0m", "2 used 0 first 0"
        self.assertEqual(slot_lines(made.slots), [f"slot {line}" for line in lines])
        self.assertEqual(shared_of(made)[:2], [1, 2])

    def test_multicast_goes_on_in_later_rounds(self):
        table = b"10.0.9.0/24 1,2\n10.0.0.0/24 0\n10.0.2.0/24 2\n"
        inputs = [capture(raw(100, "10.0.9.1")), capture(raw(60, "10.0.2.1"), raw(20, "10.0.0.1")), capture()]
        lines = slot_lines(run_of(table, inputs, rounds=2).slots)
        expected = "0 used 0 first 0", "1 used 1 first 1 1>2:0u", "2 used 2 first 2 1>0:0u 0>1:0m 0>2:0m"
        self.assertEqual(lines[:3], [f"slot {line}" for line in expected])

    def test_queue_is_full(self):
        for depth, forwarded, dropped, slots in ((4, "3", "0", "11"), (3, "2", "1", "9")):
            found = run(b"* 0\n", FILLING, f"--depth {depth}").summary()
            numbers = found["forwarded"], found["dropped"], found["slots"], found["longest"]
            self.assertEqual(numbers, (forwarded, dropped, slots, "1 0 0 0"))
            messages = outcome_of(run_of(b"* 0\n", FILLING, depth=depth)).delivered[0]
            order = [(it.input, len(it.message) - 16) for it in messages]
            self.assertEqual(order, [(0, 100), (1, 100), (0, 60)][:int(forwarded)])

    def test_new_request_takes_the_grant(self):
        """In slot 3 output 0 grants port 1 no longer, but port 0, which asks for the first time."""
        made = run_of(TWO_PORTS, NEW_REQUEST, rounds=1)
        turns = [{(1, 0)}, {(2, 0)}, {(1, 1)}, {(0, 0)}, {(1, 0)}, {(2, 0)}, set()]
        self.assertEqual([pairs(slot.match) for slot in made.slots], turns)
        numbers = dict(ports=3, rounds=1, slots=7, packets=10, unrouted=4, forwarded=6, copies=6, cells=6)
        self.assertEqual(run(TWO_PORTS, NEW_REQUEST, "--rounds 1").out, summary_text(**numbers, longest="3 0 0 0"))
        grants = [it.rounds.first_round.grants for it in schedule(3, 1, [slot.rows for slot in made.slots])]
        self.assertEqual([grants[slot][0].input for slot in (2, 3)], [1, 0])

    def test_firm_keeps_the_grant(self):
        made = run_of(TWO_PORTS, NEW_REQUEST, firm, rounds=1)
        turns = [{(1, 0)}, {(2, 0)}, {(1, 1)}, {(1, 0)}, {(2, 0)}, {(0, 0)}, set()]
        self.assertEqual([pairs(slot.match) for slot in made.slots], turns)
        numbers = dict(ports=3, rounds=1, slots=7, packets=10, unrouted=4, forwarded=6, copies=6, cells=6)
        ended = run(TWO_PORTS, NEW_REQUEST, "--rounds 1", "firm")
        self.assertEqual((ended.out, ended.begun), (summary_text(**numbers, longest="2 0 0 0"), set()))


class FourCaptures(unittest.TestCase):
    TABLE = b"10.0.0.0/24 0\n10.0.1.0/24 1\n10.0.2.0/24 2\n10.0.3.0/24 3\n* 0,1,2,3 3\n"

    def inputs(self):
        """For each port a tagged frame, a plain one and one without an address."""
        macs = unhex("020000000001 020000000002")
        for port in range(4):
            head = unhex("4500 05dc 0000 0000 40fd 0000 0a000009") + address(f"10.0.{(port + 1) % 4}.7")
            frames = ((macs + unhex("8100 0005 0800") + head, 1_518), (macs + unhex("0800") + head, 1_514))
            full = [frame + bytes([port]) * (length - len(frame)) for frame, length in frames]
            arp = macs + unhex("0806") + bytes([port])
            yield capture(*full, arp + bytes(60 - len(arp)), link=ETHERNET)

    def test_workers_change_nothing(self):
        inputs = list(self.inputs())
        ended = [run(self.TABLE, inputs, f"--workers {workers}") for workers in (4, 1, 32)]
        self.assertTrue(all((it.files, it.out) == (ended[0].files, ended[0].out) for it in ended))
        self.assertEqual(ended[0].out, summary_text(ports=4, slots=92, packets=12, forwarded=12, copies=24, cells=256))
        self.assertEqual(ended[0].report(), [f"output {output} packets 6 cells 64" for output in range(4)])
        for output in range(4):
            lengths = list(map(len, packets_of(ended[0].files[f"out.{output}.pcap"])))
            self.assertEqual(lengths, [1_518, 1_514, 60, 60, 60, 60])


class Made(unittest.TestCase):
    def test_gen(self):
        numbers = dict(slots=47, packets=4, forwarded=4, copies=4, cells=41)
        ended = do("gen 1 2 2")
        self.assertEqual((ended.out, ended.files), (summary_text(**numbers, longest="0 0 0 19"), {}))
        self.assertRegex(do("gen 1 600 17").err, r"^too many cells: \d+\n$")
        found = do("gen 3 1 33").summary()
        self.assertEqual((found["packets"], found["forwarded"]), ("33", "33"))
        texts = {do(f"gen --rounds 1 9 20 4 --scheduler {name}").out for name in SCHEDULERS}
        self.assertEqual((len(texts), do("gen --rounds 1 9 20 4").out in texts), (3, True))


class Refusals(unittest.TestCase):
    def test_each_line_of_status_4(self):
        one, big = [header()], capture(*[bytes(65_535)] * 56)
        other_version = header()[:4] + b"\x02\x00\x05\x00" + header()[8:]
        for table, inputs, line in (
            (b"x\n", one, "table line 1: bad line"), (b"\n10.0.0.1/24 0\n", one, "table line 2: host bits"),
            (b"* 0,7,9\n", one, "table line 1: port 7"), (b"* 0 4\n", one, "table line 1: level"),
            (b"* 0\n#\n* 0\n", one, "table line 3: repeats line 1"), (b"*\n" * 4_097, one, "table: 4097 lines"),
            (b"", [b"123"], "capture 0: short header, 3 bytes"),
            (b"", [header(), b"\x0a" * 24], "capture 1: bad magic 0a0a0a0a"),
            (b"", [other_version], "capture 0: version 2.5"),
            (b"", [header(0x10000001)], "capture 0: link type 268435457"),
            (b"", [header() + b"1"], "capture 0: cut record at 24"),
            (b"", [capture(bytes(262_145))], "capture 0: long record at 24, 262145 bytes"),
            (b"", [header(), header(ETHERNET)], "link types 101 and 1"),
            (b"", [header(), capture(*[bytes(262_144)] * 28)], "too many slots: port 1 has 131096"),
            (b"* 0,1\n", [big, header()], "too many cells: 131152"),
            (b"x" * 16_777_216, one, "table line 1: bad line"), (b"x" * 16_777_217, one, "too long: table"),
            (b"", [header(), bytes(16_777_217)], "too long: in1"),
        ):
            ended = run(table, inputs)
            self.assertEqual((ended.status, ended.out, ended.err, ended.begun), (4, "", line + "\n", set()))

    def test_limits_are_halved_over_32_ports(self):
        data = capture(*[bytes(262_144)] * 14)
        self.assertEqual(plan_of(b"", [data] + [header()] * 31).slots, 65_548)
        self.assertEqual(run(b"", [data] + [header()] * 32).err, "too many slots: port 0 has 65548\n")
        fan = ",".join(map(str, range(33))).encode()
        inputs = [capture(bytes(65_535), bytes(814 * 56 - 16))] + [header()] * 32
        self.assertEqual(plan_of(b"* " + fan + b"\n", inputs).cells, 65_505)
        inputs[0] += record(b"x")
        self.assertEqual(run(b"* " + fan + b"\n", inputs).err, "too many cells: 65538\n")

    def test_other_endings(self):
        self.assertEqual((do("run").status, do("run").err), (2, USAGE + "\n"))
        ended = do("run table out a", {"table": b""})
        self.assertEqual((ended.status, ended.err), (3, "read fault: a\n"))
        ended = run(b"", [header()], fails={("begin", 2)})
        self.assertEqual((ended.status, ended.err), (6, "write fault: out.report\n"))
        ended = run(b"", [header()], fails={("stdout", 1)})
        self.assertEqual((ended.status, ended.err), (6, "write fault: standard output\n"))
        ended = do("run", fails={("stderr", 1)})
        self.assertEqual((ended.status, ended.err), (2, ""))

    def test_names_that_coincide(self):
        ended = do("run table out out.0.pcap out.0.pcap", {"table": TWO_PORTS, "out.0.pcap": ONE_FRAME})
        self.assertEqual(packets_of(ended.files["out.1.pcap"]), [read_capture(ONE_FRAME).packets[0].data] * 2)

    def test_each_call_fails_in_turn(self):
        """What was written before the call that fails is whole, and nothing is begun after it."""
        options = "--journal --packets --queues --slots --reference"
        whole = run(TWO_PORTS, [ONE_FRAME, header(ETHERNET)], options, piece=40)
        names = ["out.0.pcap", "out.1.pcap", "out.report", "out.journal", "out.packets.csv"]
        self.assertEqual([name for name in whole.files if name.startswith("out")], names)
        for call in ("read", "begin", "write", "stdout"):
            for number in itertools.count(1):
                ended = run(TWO_PORTS, [ONE_FRAME, header(ETHERNET)], options, piece=40, fails={(call, number)})
                if ended.status == 0:
                    break
                self.check_failed(call, ended, whole, names)
            self.assertGreater(number, 3)

    def check_failed(self, call, ended, whole, names):
        made = [name for name in names if name in ended.files]
        if call == "read":
            self.assertTrue(ended.status == 3 and not made and re.match("read fault: (table|in0|in1)\n$", ended.err))
            return
        self.assertTrue(ended.status == 6 and whole.out.startswith(ended.out))
        if call == "stdout":
            self.assertEqual((made, ended.err), (names, "write fault: standard output\n"))
            return
        failed = names[len(made) - (call == "write")]
        self.assertEqual((ended.out, ended.err), ("", f"write fault: {failed}\n"))
        before = names[:names.index(failed)]
        self.assertEqual([ended.files[name] for name in before], [whole.files[name] for name in before])
        self.assertTrue(whole.files[failed].startswith(ended.files.get(failed, b"")))
