"""Packets that a line brings later than their time stamps."""

import os
import struct

from launcher.captures import Record, Records, Unseen, first_time, on_line
from launcher.late import allowed_slots, late_ports, lines_of_late, told_unseen
from launcher.slot_lengths import of_pace, of_rate, rate_for

from .scene import TOP, Scene, capture, frame

TABLE = "10.0.0.0/24 0\n"
# Frames of two cells at 0, 5 and 10 microseconds: at a pace of 5 they begin in slots 0, 2 and 4, and their times are
# in slots 0, 1 and 2. So the last is two slots late.
LATE = "port 0 (a.pcap): 1 of 3 packets came late, by 2 slots (10 us) at most"


def line(megabits, captured, count, stamp=1):
    """The packets of a full Ethernet line, of frames without their check sequence, with stamps of so many nanoseconds."""
    each = (captured + 24) * 8 * 1000
    return [Record(each * at // megabits // stamp * stamp, captured, 0, captured) for at in range(count)]


def is_late(megabits, captured, rate, stamp):
    """Whether packets of a full Ethernet come late at a line rate."""
    slot = of_rate(rate)
    return late_ports([line(megabits, captured, 5_000, stamp)], slot, allowed=[allowed_slots(slot, stamp)]) != []


class Late(Scene):
    def setUp(self):
        super().setUp()
        self.build()
        self.files(table_txt=TABLE, a_pcap=capture(*[frame()] * 3, times=[0, 5, 10]), b_pcap=capture(frame(), times=[7]))

    def test_after_a_run(self):
        for words in (("run", "--pace-us", "5", "table.txt", "out"), ("firm", "--pace-us=5", "table.txt")):
            ended = self.launch(*words, "a.pcap", "b.pcap")
            self.assertEqual((ended.returncode, ended.stderr.splitlines()[0]), (0, f"late: {LATE}"))
            self.assertEqual(len(ended.stderr.splitlines()), 2)
            self.assertIn("--pace-us 5 is a slower line than that of the captures", ended.stderr)

    def test_no_line(self):
        """At the pace of the line, at line pace, and after a failure."""
        for words in (["--pace-us", "2"], []):
            self.assertEqual(self.launch("run", *words, "table.txt", "out", "a.pcap", "b.pcap").stderr, "")
        failed = self.launch("run", "--pace-us", "5", "table.txt", "out", "a.pcap", STATUS="5", SAID="out of memory")
        self.assertEqual(failed.stderr, "out of memory\n")

    def test_not_looked_for(self):
        """Where a file cannot be read again, or is another by then, a line says that late packets are not looked for."""
        write, (ours, theirs) = "printf x >a.pcap", os.pipe()
        os.close(theirs)
        for name, why, more in (
            ("/dev/null", "/dev/null, the capture of port 1, is no file that can be read again", {}),
            (f"/dev/fd/{ours}", f"/dev/fd/{ours}, the capture of port 1, is no file that can be read again", {"pass_fds": [ours]}),
            ("gone", "gone, the capture of port 1, is no file that can be read again", {}),
            ("b.pcap", "a.pcap, the capture of port 0, is not as it was: short header, 1 bytes", {"CODE": write}),
        ):
            ended = self.launch("run", "--pace-us", "5", "table.txt", "out", "a.pcap", name, **more)
            self.assertEqual((ended.returncode, ended.stderr), (0, f"late: not looked for: {why}\n"))
        os.close(ours)

    def test_long_captures(self):
        """Captures of 70 MB together, of 107 packets of 1,162 cells each; packet k comes at k microseconds, and late by 1,161 k."""
        self.files(long_pcap=capture(*[bytes(65_014)] * 107))
        told = self.launch("run", "--pace-us", "1", "table.txt", "out", *["long.pcap"] * 10).stderr.splitlines()
        line = "late: port {} (long.pcap): 106 of 107 packets came late, by 123,066 slots (123,066 us) at most"
        self.assertEqual(told[:-1], [line.format(port) for port in range(10)])

    def test_too_many_packets(self):
        """A run looks at so many packets at most; without a run all are looked at."""
        names = [str(self.jobs / name) for name in ("a.pcap", "b.pcap")]
        with self.assertRaises(Unseen) as why:
            lines_of_late(names, of_pace(5), 3)
        told = "the captures have more than 3 packets; --dry-run before the command looks at all of them"
        self.assertEqual(str(why.exception), told)
        self.assertEqual([len(lines_of_late(names, of_pace(5), most)) for most in (4, None)], [1, 1])
        self.assertEqual(told_unseen(why.exception, names), f"not looked for: {told}")
        self.files(long_pcap=capture(*[bytes(65_014)] * 107))
        text = "not looked at, over 64 MiB (--dry-run looks)"
        self.assertEqual(told_unseen(why.exception, [str(self.jobs / "long.pcap")] * 10), text)

    def test_first_cells(self):
        """They come in the slots of captures.on_line."""
        count = 20_000
        record = struct.Struct("<IIII").pack
        times = (3 * at + (at % 7) ** 2 for at in range(count))  # Not in order, and with bursts.
        data = capture() + b"".join(record(*divmod(time, 10**6), 0, 60) for time in times)
        self.files(many_pcap=data)
        records = Records(0, str(self.jobs / "many.pcap"))
        for slot in (of_pace(3), of_rate(171), of_rate(512)):
            waits = [it.first - it.due for it in on_line(records, first_time([records]), slot)]
            self.assertEqual(late_ports([records.fields()], slot, count), [(0, sum(wait > 1 for wait in waits), count, max(waits))])

    def test_without_a_run(self):
        names = ("table.txt", "out", "a.pcap", "b.pcap")
        told = self.launch("--dry-run", "run", "--pace-us", "5", *names).stderr.splitlines()
        self.assertEqual((told[0], len(told), self.calls()), (f"late: {LATE}", 2, []))
        for words in (["--pace-us", "2"], []):
            self.assertEqual(self.launch("--dry-run", "run", *words, *names).stderr, "")

    def test_ethernet(self):
        """The rate for an Ethernet keeps up with frames of each size, with either kind of stamps, and a lower one not."""
        for megabits in (10, 100, 1_000, 10_000, 100_000, 400_000):
            rate = rate_for(megabits)
            for stamp in (1, 1_000):
                for captured in (60, 97, 153, 1514):
                    self.assertFalse(is_late(megabits, captured, rate, stamp), (megabits, captured, stamp))
                self.assertTrue(is_late(megabits, 97, rate * 9 // 10, stamp), (megabits, stamp))
        for captured, is_enough in ((1514, True), (1400, False)):
            self.assertNotEqual(is_late(10_000, captured, 11_660, 1), is_enough)

    def test_packets_of_one_stamp(self):
        """At 10,000 Mb/s a microsecond has 19.5 slots, and a nanosecond less than one: so 21 and 2 slots are not late."""
        frames, words = [frame()] * 12, ("run", "--line-rate", "10000", "table.txt", "out")
        for magic, count, told in (
            (0xA1B2C3D4, 11, []), (0xA1B2C3D4, 12, ["1 of 12 packets came late, by 22 slots (1.126 us) at most"]),
            (0xA1B23C4D, 2, []), (0xA1B23C4D, 3, ["1 of 3 packets came late, by 4 slots (204.8 ns) at most"]),
        ):
            self.files(c_pcap=capture(*frames[:count], times=[7] * count, magic=magic))
            lines = self.launch(*words, "c.pcap").stderr.splitlines()
            self.assertEqual(lines[:1], [f"late: port 0 (c.pcap): {it}" for it in told])
            self.assertEqual(len(lines), 2 * len(told))
        self.assertIn("late: --line-rate 10000 is a slower line than that of the captures", lines[1])
        others = self.launch("firm", "--ethernet", "6302", "table.txt", "c.pcap").stderr.splitlines()
        self.assertEqual((others[0].split(",")[0], others[1]), ("note: --ethernet 6302 is --line-rate 10000", lines[0]))
        self.assertIn("late: --ethernet 6302 is a slower line than that of the captures", others[2])

    def test_line_rates(self):
        """The paces of docs/USAGE.md: 3 keeps up with 100 Mbit/s of any frames, 4 with frames of full size, 5 with neither."""
        for captured, slowest in ((60, 3), (97, 3), (1514, 4)):
            for pace in (3, 4, 5):
                with self.subTest(captured=captured, pace=pace):
                    self.assertEqual(late_ports([line(100, captured, 2000)], of_pace(pace)) == [], pace <= slowest)
        self.assertEqual(late_ports([line(10, 97, 2000)], of_pace(32)), [])
        self.assertNotEqual(late_ports([line(10, 97, 2000)], of_pace(33)), [])
        self.assertNotEqual(late_ports([line(1000, 1514, 2000)], of_pace(1)), [])

    def test_example_of_the_page(self):
        """Frames of 64 bytes at 10 Gbit/s, one every 67.2 ns, of two slots of 51.2 ns each; two slots are allowed."""
        slot = of_rate(10_000)
        found = late_ports([line(10_000, 60, 1_000)], slot, allowed=[allowed_slots(slot, 1)])[0]
        told = f"late: port 0 (a.pcap): {found.late:,} of 1,000 packets came late, by {found.slots:,} slots ({slot.told(found.slots)}) at most"
        self.assertIn(told, (TOP / "docs/LINE_RATES.md").read_text())
        self.assertEqual((found.late, found.slots), (997, 1998 - 999 * 672 // 512))
