"""After a run with unrouted packets: the command that says what they are, where standard error is a terminal."""

import gzip
import os
import pty

from .scene import Scene, capture, frame

WRITES_REPORT = "printf 'ports 2\\nunrouted %s\\ndropped 7\\n' >out.report"


class Unrouted(Scene):
    def setUp(self):
        super().setUp()
        self.build()
        self.files(table_txt="10.0.0.0/24 0\n", a_pcap=capture(frame()))
        self.write("-b c.pcap", capture())
        self.executable(self.top / "tools/unrouted", "#!/bin/sh\necho \"$@\"\n")

    def told(self, *words, is_terminal=True, own=(), **more):
        """The hint that a run of these words gives, None where it gives none."""
        ours, theirs = pty.openpty()
        on_terminal = {"preexec_fn": lambda: os.dup2(theirs, 2)} if is_terminal else {}
        ended = self.launch(*own, "run", *words, **{"CODE": WRITES_REPORT % 2, **more, **on_terminal})
        os.write(theirs, (ended.stderr or "").encode() + b"the end\n")
        lines = b""
        while not lines.endswith(b"the end\r\n"):
            lines += os.read(ours, 4096)
        os.close(theirs)
        os.close(ours)
        return next((line[6:] for line in lines.decode().splitlines() if line.startswith("hint: ")), None)

    def test_command(self):
        tool = f"'{self.top}/tools/unrouted'"
        told = self.told("table.txt", "out", "a.pcap")
        self.assertEqual(told, f"2 packets are unrouted; to see why: {tool} table.txt a.pcap")
        told = self.told("--", "table.txt", "out", "a.pcap", "-b c.pcap", CODE=WRITES_REPORT % 1)
        self.assertEqual(told, f"1 packet is unrouted; to see why: {tool} -- table.txt a.pcap '-b c.pcap'")
        words = (f"../jobs/{name}" for name in ("table.txt", "out", "a.pcap"))
        code = WRITES_REPORT.replace("out.report", "../jobs/out.report") % 3
        told = self.told(*words, cwd=self.top, CODE=code)
        self.assertEqual(told, "3 packets are unrouted; to see why: tools/unrouted ../jobs/table.txt ../jobs/a.pcap")

    def test_converted(self):
        """Captures that were converted are gone by then."""
        self.write("c.gz", gzip.compress(capture(frame()), mtime=0))
        told = "2 packets are unrouted; to see why, give tools/unrouted captures that are classic ones"
        self.assertEqual(self.told("table.txt", "out", "a.pcap", "c.gz", own=["--convert"]), told)

    def test_none(self):
        """Where all packets have a line, on no terminal, after a failure, of a device, and where the tool is not there."""
        words = ("table.txt", "out", "a.pcap")
        self.assertIsNone(self.told(*words, CODE=WRITES_REPORT % 0))
        self.assertIsNone(self.told(*words, is_terminal=False))
        self.assertIsNone(self.told(*words, STATUS="5", SAID="out of memory"))
        self.assertIsNone(self.told("table.txt", "out", "/dev/null"))
        self.assertIsNone(self.told("table.txt", "other", "a.pcap"))
        (self.top / "tools/unrouted").unlink()
        self.assertIsNone(self.told(*words))
