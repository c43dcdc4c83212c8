"""Captures are read as the switch reads them: rows of an independent model, which the program is proved to answer too."""

import struct
import tempfile
import unittest
from pathlib import Path

from launcher.captures import CELL_PAYLOAD, MESSAGE_HEADER, BadCapture, Packet, Record, addresses, on_line, read_capture, read_file, read_header, records_of
from launcher.made import MAX_CELLS
from launcher.slot_lengths import MOST_ETHERNET, MOST_RATE, of_pace, of_rate, rate_for

from .scene import TOP, capture, frame

ROWS = TOP / "crates/known_answers/data"
# An answer's first word, and what the program says.
SAID = {
    "short_header": "short header, {} bytes", "bad_magic": "bad magic {}", "bad_version": "version {}", "bad_link": "link type {}",
    "cut_record": "cut record at {}", "long_record": "long record at {}, {} bytes",
}


def rows_of(name):
    lines = (ROWS / name).read_text().splitlines()
    return [line.split(" ") for line in lines if line and not line.startswith("#")]


def bytes_of(word):
    return b"" if word == "-" else bytes.fromhex(word)


def answer_of(data):
    """What is read of a file, in the form of the rows."""
    header, records = read_header(data), list(records_of(data))
    told = ["{}.{:09}:{}:{}:{}".format(*divmod(it.time, 10**9), *it[1:]) for it in records]
    return ["ok", "nano" if header.is_nano else "micro", str(header.link), ",".join(told) or "-"]


class Captures(unittest.TestCase):
    def test_rows(self):
        """Each good file, each fault with its place, every cut of two files, and every byte of one changed."""
        counts = {"ok": 0}
        for name, data, *answer in [*rows_of("captures.txt"), *rows_of("captures_changed.txt")]:
            with self.subTest(name):
                counts[answer[0]] = counts.get(answer[0], 0) + 1
                if answer[0] == "ok":
                    self.assertEqual(answer_of(bytes_of(data)), answer)
                    continue
                with self.assertRaises(BadCapture) as fault:
                    read_capture(bytes_of(data))
                self.assertEqual(str(fault.exception), SAID[answer[0]].format(*answer[1:]))
        self.assertEqual(set(counts), {"ok", *SAID})
        self.assertGreater(sum(counts.values()), 400)

    def test_packets(self):
        """The bytes of a packet are those of its record, and its length on the line is told."""
        data = capture(b"abc", b"", b"defg", times=[1, 2, 1_000_003], magic=0xA1B23C4D, order=">", link=101)
        data = data[:24 + 12] + struct.pack(">I", 99) + data[24 + 16:]
        found = read_capture(data)
        self.assertEqual((found.link, found.is_nano), (101, True))
        self.assertEqual(found.packets, [Packet(1, 99, b"abc"), Packet(2, 0, b""), Packet(10**9 + 3, 4, b"defg")])

    def test_records_of_a_file_that_is_not_in_memory(self):
        """What is mapped is read without a copy."""
        import mmap
        with tempfile.TemporaryFile() as file:
            file.write(capture(frame(), frame(length=99)))
            file.flush()
            with mmap.mmap(file.fileno(), 0, access=mmap.ACCESS_READ) as data:
                self.assertEqual([record.length for record in records_of(data)], [60, 99])

    def test_file_that_is_refused(self):
        with tempfile.TemporaryDirectory() as folder:
            name = Path(folder, "a.pcap")
            for data, said in (
                (capture()[:20], "short header, 20 bytes; hint: {} ends within its header of 24 bytes"),
                (bytes(24), "bad magic 00000000; hint: {} is no capture"),
            ):
                name.write_bytes(data)
                with self.assertRaises(BadCapture) as fault:
                    read_file(name)
                self.assertEqual(str(fault.exception), f"{name}: {said.format(name)}")

    def test_destinations(self):
        for name, link, answer, data in rows_of("destinations.txt"):
            with self.subTest(name):
                found = addresses(int(link), bytes_of(data))
                self.assertEqual(".".join(map(str, found[1].to_bytes(4, "big"))) if found else "-", answer)

    def test_arrivals(self):
        """By line pace, paces and line rates."""
        count = 0
        for name in ("arrivals.txt", "arrivals_at_line_rate.txt"):
            for title, pace, packets, _, *answer in rows_of(name):
                count += 1
                with self.subTest(title):
                    self.assertEqual(arrivals_of_row(pace, packets), answer)
        self.assertGreater(count, 180)

    def test_rates_for_ethernet(self):
        """192 / 121 of it, rounded up, and the greatest is that of the greatest rate."""
        for ethernet, rate in ((1, 2), (10, 16), (100, 159), (1_000, 1_587), (10_000, 15_868), (100_000, 158_678), (400_000, 634_711)):
            self.assertEqual(rate_for(ethernet), rate)
        self.assertEqual((rate_for(MOST_ETHERNET), rate_for(MOST_ETHERNET + 1) > MOST_RATE), (MOST_RATE, True))


def arrivals_of_row(pace, packets):
    """The arrival slots of a row, in its form."""
    kind, _, number = pace.partition(":")[0].rpartition("=")
    slot = None if number == "line" else of_rate(int(number)) if kind else of_pace(int(number))
    stamps = [tuple(map(int, it.split(":"))) for it in packets.split(",")] if packets != "-" else []
    records = [Record(time, 0, 0, CELL_PAYLOAD * cells - MESSAGE_HEADER) for time, cells in stamps]
    base = int(pace.partition(":")[2] or 0)
    slots = [it.first + it.cells - 1 for it in on_line(records, base, slot)]
    if slots and slots[-1] >= MAX_CELLS:
        return ["too_long", str(slots[-1] + 1)]
    return [",".join(map(str, slots)) or "-"]


if __name__ == "__main__":
    unittest.main()
