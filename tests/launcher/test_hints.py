"""One case for each hint: what the program says of the job, and what the launcher adds.

Where the program is built it is run on the same files, and must say what is stated here.
"""

import gzip
import os
import struct
import subprocess
import tempfile
import unittest
from pathlib import Path

from .scene import PROGRAM, USAGE_LINE, Scene, capture, frame

GOOD = {"table.txt": "* 0\n", "a.pcap": capture(frame()), "b.pcap": capture()}
RUN = ["run", "table.txt", "out", "a.pcap", "b.pcap"]
ORDER = "tiny_tera run [options] TABLE PREFIX INPUT.."
TOO_LONG = "a port may have at most 131,072 arrival slots, and b.pcap lasts longer than so many slots of"
AFTER = "after the first packet of all captures"
FIRST = "; to keep its first packets that fit: editcap -F pcap -r b.pcap b.classic.pcap 1-1"
# Of how many bytes, slots and cells a long job takes.
LONG_BYTES, LONG_SLOTS, LONG_CELLS = (f"; with --long up to {most}" for most in ("4,294,967,295", "2,147,483,648", "1,073,741,824"))

# The words, and the hint.
USAGE = [
    ([], "the first word is the command: run, gen, check, firm or simulate"),
    (["rum", "t"], "'rum' is no command; is run meant?"),
    (["table.txt", "out"], "'table.txt' is no command: the first word is run, gen, check, firm or simulate"),
    (["--rounds", "2", "run"], "the command comes before --rounds: run, gen, check, firm or simulate"),
    (["run", "--rounds", "65", "t", "out", "a"], "--rounds 65: R is a number from 1 to 64"),
    (["run", "--depth=131073", "t", "out", "a"], f"--depth 131073: D is a number from 1 to 131,072, written without commas{LONG_CELLS}"),
    (["gen", "--depth=131073", "1", "2", "3"], "--depth 131073: D is a number from 1 to 131,072, written without commas"),
    (["firm", "--depth", "1073741825", "--long", "t", "a"], f"--depth 1073741825: D is a number from 1 to 131,072, written without commas{LONG_CELLS}"),
    (["run", "--long", "--slots", "t", "out", "a"], "--long and --slots do not go together: a long run has slots too many to be written one by one"),
    (["run", "--journal", "t", "out", "a", "--long"], "--long and --journal do not go together: a long run has slots too many to be written one by one"),
    (["gen", "--long", "1", "2", "3"], "gen does not take --long; it takes --rounds, --depth, --workers or --scheduler"),
    (["run", "--long=1", "t", "out", "a"], "--long has no value: leave out =1"),
    (["run", "--workers", "33", "t", "out", "a"], "--workers 33: W is a number from 1 to 32"),
    (["firm", "--pace-us", "0.5", "t", "a"], "--pace-us 0.5: K is a number from 1 to 1,000,000, written without commas"),
    (["run", "--line-rate", "10G", "t", "out", "a"], "--line-rate 10G: MBPS is a number of Mbit/s from 1 to 1,600,000, written without commas"),
    (["run", "--ethernet", "1008334", "t", "out", "a"], "--ethernet 1008334: E is a number of Mbit/s from 1 to 1,008,333, written without commas"),
    (["firm", "--ethernet=0", "t", "a"], "--ethernet 0: E is a number of Mbit/s from 1 to 1,008,333, written without commas"),
    (["firm", "t", "a", "--ethernet"], "behind --ethernet comes a number of Mbit/s from 1 to 1,008,333, written without commas"),
    (["run", "--pace-us", "1", "t", "out", "a", "--line-rate=512"], "--pace-us and --line-rate both say how long a slot lasts: give one of them"),
    (["run", "--ethernet", "10", "--line-rate", "16", "t", "out", "a"], "--ethernet and --line-rate both say how long a slot lasts: give one of them"),
    (["firm", "--pace-us=1", "--ethernet=10", "t", "a"], "--pace-us and --ethernet both say how long a slot lasts: give one of them"),
    (["run", "--ethernet", "10", "--ethernet", "10", "t", "out", "a"], "--ethernet stands twice"),
    (["gen", "--ethernet", "10", "1", "2", "3"], "gen does not take --ethernet; it takes --rounds, --depth, --workers or --scheduler"),
    (["check", "--line-rate", "10", "j"], "check does not take --line-rate; it takes --scheduler"),
    (["run", "t", "out", "a", "--rounds"], "behind --rounds comes a number from 1 to 64"),
    (["run", "--slots=1", "t", "out", "a"], "--slots has no value: leave out =1"),
    (["run", "--slots", "--slots", "t", "out", "a"], "--slots stands twice"),
    (["run", "--round", "2", "t", "out", "a"], "--round is no option; is --rounds meant?"),
    (["gen", "--xyz", "1", "2", "3"], "--xyz is no option: the options of gen are --rounds, --depth, --workers or --scheduler"),
    (["check", "--xyz", "j"], "--xyz is no option: the option of check is --scheduler"),
    (["gen", "--slots", "1", "2", "3"], "gen does not take --slots; it takes --rounds, --depth, --workers or --scheduler"),
    (["check", "--rounds", "2", "j"], "check does not take --rounds; it takes --scheduler"),
    (["run", "--scheduler", "wfq", "t", "out", "a"], "--scheduler wfq: NAME is islip, firm or rrm"),
    (["gen", "--scheduler=eslip", "1", "2", "3"], "--scheduler eslip: NAME is islip, firm or rrm; is islip meant?"),
    (["check", "--scheduler", "FIRM", "j"], "--scheduler FIRM: NAME is islip, firm or rrm; is firm meant?"),
    (["run", "t", "out", "a", "--scheduler"], "behind --scheduler comes islip, firm or rrm"),
    (["firm", "--scheduler", "rrm", "t", "a"], "firm has its own scheduler: to choose one, tiny_tera run --scheduler NAME TABLE PREFIX INPUT.."),
    (["gen", "--alone", "1", "2", "3"], "gen does not take --alone; it takes --rounds, --depth, --workers or --scheduler"),
    (["run", "-x", "t", "out", "a"], "-x is no option; a file whose name begins with - is given after a word --"),
    (["run", "--dry-run", "t", "out", "a"], "--dry-run is a word of the launcher, and comes before the command: tiny_tera --dry-run run .."),
    (["run", "t", "out"], f"a name is missing: {ORDER}, and the names here are t, out"),
    (["run", "t", "out"] + ["a"] * 65, f"here are 65 captures, and a switch has at most 64 ports: {ORDER}"),
    (["firm", "t"], "a name is missing: tiny_tera firm [options] TABLE INPUT.., and the names here are t"),
    (["gen", "1", "2"], "gen has three numbers, and here are 2: tiny_tera gen [options] SEED COUNT PORTS"),
    (["gen", "-", "2", "2"], "SEED -: it is a number from 0 to 1,000,000,000, written without commas"),
    (["gen", "1", "4001", "2"], "COUNT 4001: it is a number from 0 to 4,000, written without commas"),
    (["gen", "1", "2", "65"], "PORTS 65: it is a number from 1 to 64"),
    (["check"], "check has one file, and here are 0: tiny_tera check [options] FILE"),
    (["check", "--scheduler", "j"], "--scheduler j: NAME is islip, firm or rrm"),
]

# A line of the table, what the program says of it, and the hint.
FORM = "a line is NETWORK/LENGTH PORTS [LEVEL], as 10.0.1.0/24 1,2 0"
TABLE = [
    ("2001:db8::/32 0", "bad line",
     "2001:db8::/32 is an IPv6 prefix, and only IPv4 is switched; packets without an IPv4 destination go where the line * says"),
    ("10.0.0.0/24 0 # servers", "bad line", "a comment has a line of its own, which begins with #"),
    ("10.0.0.0/24 0, 1", "bad line", "ports are joined by commas without blanks: 0,1"),
    ("10.0.0.0/24 0 ,1", "bad line", "ports are joined by commas without blanks: 0,1"),
    ("10.0.0.0/24 0 1 1", "bad line", f"behind the ports comes at most the level; several ports are joined by commas; {FORM}"),
    ("10.0.0.0/24 00", "bad line", "00 has a leading zero"),
    ("10.0.0.0/24 0-1", "bad line", "'0-1' is no number; ports are listed one by one, as 1,2,3"),
    ("10.0.0.0/24 eth0", "bad line", "'eth0' is no number of 1 to 3 digits"),
    ("10.0.0.0/24", "bad line", f"behind the prefix come its ports; {FORM}"),
    ("10.0.0.1 0", "bad line", "10.0.0.1 has no length: one address is 10.0.0.1/32"),
    ("10.0.0.0/255.255.255.0 0", "bad line", "10.0.0.0/255.255.255.0 has a mask, and the length is a number from 0 to 32"),
    ("10.0.0.0/33 0", "bad line", "the length in 10.0.0.0/33 is a number from 0 to 32"),
    ("10.0.0.0/08 0", "bad line", "08 in 10.0.0.0/08 has a leading zero"),
    ("10.0.0.256/32 0", "bad line", "10.0.0.256 is no IPv4 address"),
    ("default 0", "bad line", f"'default' is no IPv4 prefix; {FORM}"),
    ("10.0.0.0/24 0\r\r", "bad line", "it has a carriage return or another letter that is not shown; end lines with LF or CR LF"),
    ("10.0.0.0/24\u00a00", "bad line", "it has a carriage return or another letter that is not shown; end lines with LF or CR LF"),
    ("10.0.0.1/24 0", "host bits", "bits beyond the length are 0: 10.0.0.0/24"),
    ("10.0.0.0/24 2", "port 2", "with 2 captures ports are 0 to 1"),
    ("10.0.0.0/24 0 4", "level", "the level is a number from 0, the best, to 3; several ports are joined by commas"),
]

# The first capture, what the program says of it, and the hint behind the file's name and port.
SWAPPED = b"".join(capture(frame())[at:at + 2][::-1] for at in range(0, 100, 2))
HALF = b"\xa1\xb2\xc3\xd4" + capture(frame())[4:]
LINK = "and the switch takes Ethernet (1) and raw IP (101)"
BY_WORD, RAW = "--convert before the command takes it, or", "capture on one interface, or make raw IP of it"
CAPTURES = [
    (b"", "short header, 0 bytes", "is empty; a capture without packets has a header of 24 bytes"),
    (capture()[:20], "short header, 20 bytes", "ends within its header of 24 bytes"),
    (b"\x0a\x0d\x0d\x0a" + bytes(28), "bad magic 0a0d0d0a", f"is a pcapng file; {BY_WORD}: editcap -F pcap a.pcap a.classic.pcap"),
    (gzip.compress(capture(frame()), mtime=0), "bad magic 1f8b0800", f"is compressed by gzip; {BY_WORD}: zcat a.pcap > a.classic.pcap"),
    (b"\xfd7zXZ\x00" + bytes(26), "bad magic fd377a58", f"is compressed by xz; {BY_WORD}: xzcat a.pcap > a.classic.pcap"),
    (b"\x28\xb5\x2f\xfd" + bytes(28), "bad magic 28b52ffd", f"is compressed by zstd; {BY_WORD}: zstdcat a.pcap > a.classic.pcap"),
    (b"BZh9" + bytes(28), "bad magic 425a6839", f"is compressed by bzip2; {BY_WORD}: bzcat a.pcap > a.classic.pcap"),
    (SWAPPED, "bad magic c3d4a1b2", f"has the bytes of each pair in the wrong order; {BY_WORD}: dd conv=swab if=a.pcap of=a.classic.pcap"),
    (capture(magic=0xA1B2CD34), "bad magic 34cdb2a1", f"is of a variant of pcap with longer headers; {BY_WORD}: editcap -F pcap a.pcap a.classic.pcap"),
    (bytes(24), "bad magic 00000000", "is no capture"),
    (capture(version=(2, 3)), "version 2.3", "is not of version 2.4: editcap -F pcap a.pcap a.classic.pcap"),
    (HALF, "version 512.1024",
     r"has its magic in one byte order and the rest in the other: (printf '\324\303\262\241'; tail -c +5 a.pcap) > a.classic.pcap"),
    (b"\xa1\xb2\x3c\x4d" + HALF[4:], "version 512.1024",
     r"has its magic in one byte order and the rest in the other: (printf '\115\074\262\241'; tail -c +5 a.pcap) > a.classic.pcap"),
    (capture(link=113), "link type 113",
     f"is of link type 113 (tcpdump -i any), {LINK}; {RAW}: editcap -F pcap -L -C 16 -T rawip a.pcap a.classic.pcap"),
    (capture(link=276), "link type 276",
     f"is of link type 276 (tcpdump -i any), {LINK}; {RAW}: editcap -F pcap -L -C 20 -T rawip a.pcap a.classic.pcap"),
    (capture(link=228), "link type 228", f"is of link type 228 (raw IPv4), {LINK}: editcap -F pcap -T rawip a.pcap a.classic.pcap"),
    (capture(link=127), "link type 127", f"is of link type 127 (802.11 with radio headers), {LINK}"),
    (capture(link=0x14000001), "link type 335544321",
     "has more in the field of its link type than link type 1 (Ethernet): editcap -F pcap a.pcap a.classic.pcap"),
    (capture(frame())[:-1], "cut record at 24",
     "ends within a packet, as one that is still written; to keep the whole packets: tcpdump -r a.pcap -w a.classic.pcap"),
    (capture() + struct.pack("<IIII", 0, 0, 300_000, 300_000), "long record at 24, 300000 bytes",
     "has a packet of more than 262,144 bytes at byte 24; the file may be damaged there"),
    (capture() + struct.pack("<IIII", 0, 0, 60 << 24, 60 << 24), "long record at 24, 1006632960 bytes",
     "has a packet of more than 262,144 bytes at byte 24; its length may be in the wrong byte order"),
]


class Hints(Scene):
    def setUp(self):
        super().setUp()
        self.build()

    def check(self, words, status, said, hint, files=GOOD):
        """That the launcher adds this hint to this line of the program, and that the program says that line."""
        with self.subTest(words=words[:8], said=said), tempfile.TemporaryDirectory(dir=self.room) as folder:
            self.jobs = Path(folder)
            for name, data in files.items():
                self.write(name, data)
            if PROGRAM.is_file():
                ended = subprocess.run([PROGRAM, *words], cwd=folder, stdin=subprocess.DEVNULL, stdout=subprocess.DEVNULL, stderr=subprocess.PIPE)
                self.assertEqual((ended.returncode, ended.stderr.decode()), (status, said + "\n"))
            told = self.launch(*words, SAID=said, STATUS=str(status))
            self.assertEqual(told.returncode, status)
            self.assertEqual(told.stderr, f"{said}\nhint: {hint}\n" if hint else f"{said}\n")

    def test_words(self):
        for words, hint in USAGE:
            self.check(words, 2, USAGE_LINE, hint)

    def test_lines_of_the_table(self):
        for line, said, hint in TABLE:
            files = {**GOOD, "table.txt": f"# a comment\n{line}\n"}
            self.check(RUN, 4, f"table line 2: {said}", f"line 2 of table.txt: {hint}", files)

    def test_captures(self):
        for data, said, hint in CAPTURES:
            self.check(RUN, 4, f"capture 0: {said}", f"a.pcap, the capture of port 0, {hint}", {**GOOD, "a.pcap": data})

    def test_names_of_captures(self):
        """The name is that of the port, a command can be copied whatever the name is, and the new name is another."""
        files = {"table.txt": "", "x.pcap": capture(), "my file.pcap.gz": gzip.compress(capture(), mtime=0)}
        said = "capture 1: bad magic 1f8b0800"
        hint = f"my file.pcap.gz, the capture of port 1, is compressed by gzip; {BY_WORD}: zcat 'my file.pcap.gz' > 'my file.pcap'"
        self.check(["firm", "table.txt", "x.pcap", "my file.pcap.gz"], 4, said, hint, files)
        files = {"table.txt": "", "OUT.pcap": b"\x0a\x0d\x0d\x0a" + bytes(28)}
        hint = f"OUT.pcap, the capture of port 0, is a pcapng file; {BY_WORD}: editcap -F pcap OUT.pcap OUT.classic.pcap"
        self.check(["firm", "table.txt", "OUT.pcap"], 4, "capture 0: bad magic 0a0d0d0a", hint, files)

    def test_repeated_and_too_many_lines(self):
        files = {**GOOD, "table.txt": "10.0.0.0/24 0\n\n10.0.0.0/24 1\n"}
        hint = "lines 1 and 3 of table.txt have the same prefix: give all its ports in one line, joined by commas"
        self.check(RUN, 4, "table line 3: repeats line 1", hint, files)
        lines = "".join(f"10.{at // 256}.{at % 256}.0/24 0\n" for at in range(4097))
        self.check(RUN, 4, "table: 4097 lines", "table.txt may have at most 4,096 lines with routes", {**GOOD, "table.txt": lines})

    def test_names_that_are_missing(self):
        """A capture stands where TABLE or PREFIX is expected."""
        hint = "a.pcap is a capture, and stands where the table is expected: the words are TABLE PREFIX INPUT.."
        self.check(["run", "a.pcap", "out", "b.pcap"], 4, "table line 1: bad line", hint)
        self.check(["run", "a.pcap", "out", "b.pcap"], 4, "table: 5000 lines", hint, {**GOOD, "a.pcap": capture(b"x\n" * 5000)})
        self.check(["run", "--long", "a.pcap", "out", "a.pcap"], 4, "too long: a.pcap", hint, {**GOOD, "a.pcap": capture() + bytes(1 << 24)})
        files = {**GOOD, "table.txt": "* 1\n"}
        hint = "a.pcap is a capture, and stands where PREFIX is expected: the words are TABLE PREFIX INPUT.."
        self.check(["run", "table.txt", "a.pcap", "b.pcap"], 4, "table line 1: port 1", hint, files)
        self.check(["firm", "table.txt", "a.pcap"], 4, "table line 1: port 1", "line 1 of table.txt: with 1 capture the only port is 0", files)

    def test_link_types(self):
        files = {**GOOD, "b.pcap": capture(link=101)}
        hint = (
            "a.pcap is Ethernet (1) and b.pcap raw IP (101), and all captures are of one type; of each that is Ethernet:"
            " editcap -F pcap -L -C 14 -T rawip a.pcap a.classic.pcap"
        )
        self.check(RUN, 4, "link types 1 and 101", hint, files)

    def test_files_that_cannot_be_read(self):
        folder = {**GOOD, "folder/x": ""}
        self.check(["run", "t", "out", "a.pcap"], 3, "read fault: t", "TABLE: there is no file t")
        self.check(["run", "table.txt", "out", "a.pcap", "no/b.pcap"], 3, "read fault: no/b.pcap", "the capture of port 1: there is no folder no")
        self.check(["run", "table.txt", "out", "folder"], 3, "read fault: folder", "the capture of port 0: folder is a folder", folder)
        self.check(["run", "table.txt", "out", "lan*.pcap"], 3, "read fault: lan*.pcap", "the capture of port 0: no file fits the pattern lan*.pcap")
        self.check(["check", "j"], 3, "read fault: j", "the journal: there is no file j")

    def test_link_to_nothing_and_a_file_without_permission(self):
        self.files(table_txt="")
        os.symlink("gone", self.jobs / "link.pcap")
        told = self.launch("firm", "table.txt", "link.pcap", SAID="read fault: link.pcap", STATUS="3").stderr
        self.assertIn("hint: the capture of port 0: link.pcap is a link to a file that is not there\n", told)
        if os.geteuid():
            self.jobs.joinpath("table.txt").chmod(0)
            told = self.launch("firm", "table.txt", "x", SAID="read fault: table.txt", STATUS="3").stderr
            self.assertIn("hint: TABLE: this user may not read table.txt\n", told)

    def test_files_that_cannot_be_written(self):
        hint = "there is no folder none; PREFIX is none/out"
        self.check(["run", "table.txt", "none/out", "a.pcap"], 6, "write fault: none/out.0.pcap", hint)
        files = {**GOOD, "out.report/x": ""}
        self.check(["run", "table.txt", "out", "a.pcap"], 6, "write fault: out.report", "out.report is a folder; PREFIX is out", files)

    def test_standard_output(self):
        told = self.launch("gen", "1", "2", "2", SAID="write fault: standard output", STATUS="6").stderr
        self.assertEqual(told.splitlines()[1], "hint: standard output is closed or full, or its reader has ended, as head does")
        told = self.launch("run", "t", "out", "a", SAID="write fault: standard output", STATUS="6").stderr
        self.assertEqual(told.splitlines()[1], "hint: standard output is closed or full, or its reader has ended, as head does; all files are written")

    def test_too_long(self):
        """The hint on a capture says how many packets fit, and not how many bytes are read."""
        zeros, most = bytes(16_777_216 - 23), "may have at most 131,072 cells, so at most 7,340,056 bytes"
        large = [bytes(65_520)] * 260  # 111 of 1,171 cells fit.
        for data, fix in (
            (capture() + zeros, "its first packets that fit: editcap -F pcap -r a.pcap a.classic.pcap 1-131072"),
            (capture(*large), "its first packets that fit: editcap -F pcap -r a.pcap a.classic.pcap 1-111"),
            (b"\x0a\x0d\x0d\x0a" + bytes(20) + zeros, "its first 1,000 packets: editcap -F pcap -r a.pcap a.classic.pcap 1-1000"),
        ):
            hint = f"the capture of port 0 {most}; to keep {fix}{LONG_BYTES}"
            self.check(RUN, 4, "too long: a.pcap", hint, {**GOOD, "a.pcap": data})
        # Three packets of one cell, of which the last comes after the last slot.
        files = {**GOOD, "a.pcap": capture(bytes(9), bytes(9), bytes(9), times=[0, 131_071, 131_072]) + zeros}
        hint = f"the capture of port 0 {most}; to keep its first packets that fit: editcap -F pcap -r a.pcap a.classic.pcap 1-2{LONG_BYTES}"
        self.check(["run", "--pace-us", "1", *RUN[1:]], 4, "too long: a.pcap", hint, files)
        self.check(RUN, 4, "too long: table.txt", "TABLE may have at most 16,777,216 bytes", {**GOOD, "table.txt": b"#" * 16_777_217})

    def test_too_many_slots(self):
        # 112 packets of 65,520 bytes have 1,171 cells each; 111 of them have 129,981, and 112 of them 131,152.
        files = {**GOOD, "a.pcap": capture(*[bytes(65_520)] * 112)}
        hint = (
            "a port may have at most 131,072 arrival slots, and the packets of a.pcap have 131,152 cells;"
            f" to keep the first that fit: editcap -F pcap -r a.pcap a.classic.pcap 1-111{LONG_SLOTS}"
        )
        self.check(RUN, 4, "too many slots: port 0 has 131152", hint, files)
        # The last of two packets of two cells comes after 400,000 microseconds: in slot 130,718 at most at a pace of 4.
        files = {**GOOD, "b.pcap": capture(frame(), frame(), times=[0, 400_000])}
        hint = f"{TOO_LONG} 2 us, to 0.4 s {AFTER}: at --pace-us 4 the packets fit{FIRST}{LONG_SLOTS}"
        words = ["run", "--pace-us", "2", "table.txt", "out", "a.pcap", "b.pcap"]
        self.check(words, 4, "too many slots: port 1 has 200002", hint, files)

    def test_too_many_slots_at_a_line_rate(self):
        """A rate at which they fit, with all cells behind the last time stamp; for a day a pace, for more nothing."""
        for rate, apart, slots, told in (
            (16_000, 5_000, 156_252, f"32 ns, to 0.005 s {AFTER}: at --line-rate 13421 the packets fit"),
            (7, 10_000_000, 136_720, f"73.143 us, to 10 s {AFTER}: at --line-rate 6 the packets fit"),
            (1, 100_000_000_000, 195_312_502, f"512 us, to 100,000 s {AFTER}: at --pace-us 762957 the packets fit"),
            (1, 400_000_000_000, 781_250_002, f"512 us, to 400,000 s {AFTER}: its packets are too far apart in time"),
        ):
            files = {**GOOD, "b.pcap": capture(frame(), frame(), times=[0, apart])}
            words = ["run", "--line-rate", str(rate), "table.txt", "out", "a.pcap", "b.pcap"]
            self.check(words, 4, f"too many slots: port 1 has {slots}", f"{TOO_LONG} {told}{FIRST}{LONG_SLOTS}", files)
        self.files(table_txt="* 0\n", b_pcap=capture(frame(), frame(), times=[0, 5_000]), a_pcap=capture())
        said = "too many slots: port 1 has 154962"
        told = self.launch("run", "--ethernet", "10000", "table.txt", "out", "a.pcap", "b.pcap", SAID=said, STATUS="4").stderr.splitlines()
        self.assertEqual(told[1:], [said, f"hint: {TOO_LONG} 32.266 ns, to 0.005 s {AFTER}: at --line-rate 13421 the packets fit{FIRST}{LONG_SLOTS}"])

    def test_captures_of_different_days(self):
        """A capture that fits alone is to be moved in time; the name of what is made of it is new."""
        text = TOO_LONG + " 3.22 us, to 86,400.{} s " + AFTER + ": at --pace-us {} the packets fit"
        moved = "; to begin it with the first packet of all: editcap -F pcap -t -86400 b.pcap b.classic.pcap"
        words = ["run", "--line-rate", "159", "table.txt", "out", "a.pcap", "b.pcap"]
        for last, slots, hint in (
            (250_000, 26_831_327_638, text.format(25, 659_197) + moved), (500_000, 26_831_405_275, text.format(5, 659_199)),
        ):
            times = [86_400_000_000, 86_400_000_000 + last]
            files = {**GOOD, "a.pcap": capture(frame(), times=[0]), "b.pcap": capture(frame(), frame(), times=times)}
            self.check(words, 4, f"too many slots: port 1 has {slots}", hint, files)

    def test_too_many_slots_of_large_captures(self):
        """The hint comes whatever size the captures have together, here 73 MB."""
        self.files(table_txt="* 0\n", a_pcap=capture(*[bytes(65_520)] * 112))
        told = self.launch("run", "table.txt", "out", *["a.pcap"] * 10, SAID="too many slots: port 7 has 131152", STATUS="4").stderr
        self.assertTrue(told.endswith(f"; to keep the first that fit: editcap -F pcap -r a.pcap a.classic.pcap 1-111{LONG_SLOTS}\n"), told)
        files = {**GOOD, "b.pcap": capture(frame(), frame(), times=[0, 400_000]), "a.pcap": capture()}
        hint = f"{TOO_LONG} 2 us, to 0.4 s {AFTER}: at --pace-us 4 the packets fit{FIRST}{LONG_SLOTS}"
        words = ["run", "--pace-us", "2", "table.txt", "out", "a.pcap", "b.pcap"]
        self.check(words, 4, "too many slots: port 1 has 200002", hint, files)

    def test_too_many_cells(self):
        # Twice 111 packets of 1,171 cells.
        files = {"table.txt": "* 0\n", "a.pcap": capture(*[bytes(65_520)] * 111)}
        hint = (
            "all packets may have at most 131,072 cells, a multicast one counted at each output: 50 per cent of them fit,"
            f" and editcap -F pcap -r IN OUT 1-K keeps the first K of a capture{LONG_CELLS}"
        )
        self.check(["run", "table.txt", "out", "a.pcap", "a.pcap"], 4, "too many cells: 259962", hint, files)

    def test_too_many_packets(self):
        self.files(table_txt="* 0\n", a_pcap=capture())
        told = self.launch("run", "--long", "table.txt", "out", "a.pcap", SAID="too many packets: 2147483648", STATUS="4").stderr
        hint = "all captures together may have at most 1,073,741,824 packets: 50 per cent of them fit, and editcap -F pcap -r IN OUT 1-K keeps"
        self.assertEqual(told.splitlines()[1], f"hint: {hint} the first K of a capture")

    def test_long_jobs(self):
        """What a long job has too much of, and where a job would be a long one without a word that it has."""
        self.files(table_txt="* 0\n", a_pcap=capture(frame(), frame(), times=[0, 3_000_000_000]))
        for words, said, hint in (
            (["--long", "--pace-us=1"], "too many slots: port 0 has 3000000002",
             f"a port may have at most 2,147,483,648 arrival slots, and a.pcap lasts longer than so many slots of 1 us, to 3,000 s {AFTER}:"
             " at --pace-us 2 the packets fit; to keep its first packets that fit: editcap -F pcap -r a.pcap a.classic.pcap 1-1"),
            (["--long"], "too long: a.pcap",
             "the capture of port 0 may have at most 4,294,967,295 bytes; editcap -F pcap -r IN OUT 1-K keeps the first K of a capture"),
            (["--slots", "--journal"], "too many cells: 262144",
             "all packets may have at most 131,072 cells, a multicast one counted at each output: 50 per cent of them fit, and editcap -F pcap"
             " -r IN OUT 1-K keeps the first K of a capture; with --long and without --slots and --journal up to 1,073,741,824"),
        ):
            told = self.launch("run", *words, "table.txt", "out", "a.pcap", SAID=said, STATUS="4").stderr
            self.assertEqual(told.splitlines(), [said, f"hint: {hint}"])

    def test_largest_count(self):
        for count, said in (("4000", "too many cells: 263219"), ("1997", "too many cells: 131137")):
            self.check(["gen", "1", count, "4"], 4, said, "with SEED 1 and PORTS 4 the largest COUNT is 1996")

    def test_outputs_too_long(self):
        for what in ("journal", "packets"):
            told = self.launch("run", "t", "out", "a", SAID=f"{what} too long: 134217729", STATUS="4").stderr
            more = "; with --long it may have any number" if what == "packets" else ""
            hint = f"hint: leave out --{what}, or run fewer packets: what it writes may have at most 134,217,728 bytes{more}"
            self.assertEqual(told.splitlines()[1], hint)

    def test_journals(self):
        journal = bytes.fromhex("54544a31020400000000000100000000ff00ff00")
        other = "a journal is what run --journal writes"
        for data, at, hint in (
            (b"", 0, "j is empty"),
            (journal[:-1], 19, "j ends at byte 19, before its last slot does"),
            (capture(), 0, f"j is a capture; {other}"),
            (b"ports 2\nrounds 4\n", 0, f"j is a report; {other}"),
            (b"input,packet,bytes,cells,state\n", 0, f"j is a packets file; {other}"),
            (b"journal ports 2 rounds 4\n", 0, "j is the text of a journal; tools/journal make TEXT JOURNAL makes the journal of it"),
            (b"TTJ2", 0, f"j does not begin with the bytes TTJ1; {other}"),
            (gzip.compress(journal, mtime=0), 0, "j is compressed by gzip: zcat j > j.unpacked.journal"),
            (journal[:13] + b"\x02" + journal[14:], 13, None),
        ):
            self.check(["check", "j"], 4, f"journal: bad at {at}", hint, {"j": data})
        hint = "my.journal is compressed by gzip: zcat my.journal > my.unpacked.journal"
        self.check(["check", "my.journal"], 4, "journal: bad at 0", hint, {"my.journal": gzip.compress(journal, mtime=0)})

    def test_captures_that_cannot_be_read_again(self):
        """No command is given for what the shell has opened."""
        self.files(table_txt="* 0\n")
        for said, hint in (
            ("cut record at 24", "ends within a packet, as one that is still written"),
            ("version 2.3", "is not of version 2.4"),
            ("link type 113", f"is of link type 113 (tcpdump -i any), {LINK}; capture on one interface"),
        ):
            told = self.launch("firm", "table.txt", "/dev/null", SAID=f"capture 0: {said}", STATUS="4").stderr
            self.assertEqual(told, f"capture 0: {said}\nhint: /dev/null, the capture of port 0, {hint}\n")

    def test_no_hint(self):
        """Where nothing is known, nothing is said: pipes are not read, and other statuses have no hint."""
        self.files(table_txt="* 0\n", a_pcap=capture())
        for words, status, said in (
            (["firm", "/dev/null", "a.pcap"], "4", "table line 1: bad line"),
            (["firm", "table.txt", "a.pcap"], "3", "read fault: a.pcap"),
            (["firm", "table.txt", "a.pcap"], "5", "out of memory"),
            (["firm", "table.txt", "a.pcap"], "4", "something else"),
        ):
            self.assertEqual(self.launch(*words, SAID=said, STATUS=status).stderr, said + "\n")


class Letters(Scene):
    def test_names_stay_in_one_line(self):
        self.build()
        told = self.launch("check", "a\nhint: no\x1bA", SAID="read fault: a\nhint: no\x1bA", STATUS="3").stderr
        self.assertTrue(told.endswith("hint: the journal: there is no file a\\nhint: no\\x1bA\n"), told)


if __name__ == "__main__":
    unittest.main()
