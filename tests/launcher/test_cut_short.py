"""After a run, and without one: packets of which a part alone was captured."""

import struct

from .scene import Scene, capture, frame

TOLD = "cut: %s are not whole%s: a packet has cells for its captured bytes alone; tcpdump -s 0 captures all\n"


def longer(data, *records):
    """A capture of frames of 60 bytes in which so many of its records had more bytes on the line."""
    data = bytearray(data)
    for record in records:
        struct.pack_into("<I", data, 24 + 76 * record + 12, 1514)
    return bytes(data)


class CutShort(Scene):
    def setUp(self):
        super().setUp()
        self.build()
        two = capture(frame(), frame())
        self.files(table_txt="* 0\n", a_pcap=two, b_pcap=longer(two, 1), c_pcap=longer(capture(frame()), 0))

    def told(self, *words, **more):
        return [line + "\n" for line in self.launch(*words, **more).stderr.splitlines() if line.startswith("cut: ")]

    def test_ports(self):
        for words in (["run"], ["--dry-run", "run"]):
            with self.subTest(words):
                self.assertEqual(self.told(*words, "table.txt", "out", "a.pcap"), [])
                one = TOLD % ("1 of the first 2 packets of port 1 (b.pcap)", "")
                self.assertEqual(self.told(*words, "table.txt", "out", "a.pcap", "b.pcap"), [one])
                three = TOLD % ("1 of the first 1 packets of port 0 (c.pcap)", ", and so are some of 1 ports more")
                self.assertEqual(self.told(*words, "table.txt", "out", "c.pcap", "a.pcap", "b.pcap"), [three])

    def test_nothing_is_told(self):
        """After a failure, of a device, and of packets behind the first thousand."""
        self.assertEqual(self.told("run", "table.txt", "out", "c.pcap", STATUS="5", SAID="out of memory"), [])
        self.assertEqual(self.told("run", "table.txt", "out", "/dev/null"), [])
        for last, lines in ((999, 1), (1000, 0)):
            self.write("long.pcap", longer(capture(*[frame()] * 1001), last))
            self.assertEqual(len(self.told("run", "table.txt", "out", "long.pcap")), lines)
