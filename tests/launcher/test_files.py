"""No file is lost by accident, and each port's capture is told."""

import os
import pty
import re
import subprocess

from .scene import Scene, capture, frame

TABLE = "* 0\n"


class LostFiles(Scene):
    def setUp(self):
        super().setUp()
        self.build()
        self.files(table_txt=TABLE, a_pcap=capture(frame()), b_pcap=capture())

    def refused(self, *words):
        """What is said where the run is refused; no file changed, and the program was not started."""
        before = {path: path.read_bytes() for path in self.jobs.rglob("*") if path.is_file()}
        notes = self.room / "notes"
        ended = self.launch(*words, NOTES=str(notes))
        self.assertEqual((ended.returncode, ended.stdout, notes.exists()), (2, "", False), ended.stderr)
        self.assertEqual(before, {path: path.read_bytes() for path in self.jobs.rglob("*") if path.is_file()})
        return ended.stderr

    def started(self, *words):
        notes = self.room / "notes"
        ended = self.launch(*words, NOTES=str(notes))
        self.assertEqual((ended.returncode, ended.stderr), (0, ""))
        return notes.read_text().splitlines()[:-1]

    def test_inputs_that_a_pattern_caught(self):
        for name in ("lan.0.pcap", "lan.1.pcap"):
            self.write(name, capture())
        told = self.refused("run", "table.txt", "lan", "lan.0.pcap", "lan.1.pcap")
        self.assertEqual(told, (
            "tiny_tera: lan.0.pcap is the capture of port 0, and would be replaced by output 0 of PREFIX lan; nothing was run."
            " Give another PREFIX, or --overwrite-inputs before the command\n"
        ))

    def test_outputs_of_an_earlier_run(self):
        for name in ("out.0.pcap", "out.1.pcap", "out.report"):
            self.write(name, capture())
        told = self.refused("run", "table.txt", "out", "a.pcap", "b.pcap", "./out.0.pcap", "out.1.pcap")
        self.assertEqual(told, (
            "tiny_tera: ./out.0.pcap, the capture of port 2, is an output of an earlier run with PREFIX out, which a pattern may"
            " have caught, and would be replaced; nothing was run. Give another PREFIX, or --overwrite-inputs before the command\n"
        ))

    def test_table_that_is_the_report(self):
        self.write("out.report", TABLE)
        self.assertIn("out.report is the table, and would be replaced by the report of PREFIX out", self.refused("run", "out.report", "out", "a.pcap"))

    def test_input_that_is_the_journal(self):
        self.write("out.journal", capture())
        words = ("table.txt", "out", "out.journal")
        self.assertIn("out.journal is the capture of port 0, and would be replaced by what --journal writes", self.refused("run", "--journal", *words))
        self.assertEqual(self.started("run", *words), ["run", *words])

    def test_input_that_is_the_packets_file(self):
        self.write("out.packets.csv", TABLE)
        words = ("out.packets.csv", "out", "a.pcap")
        self.assertIn("out.packets.csv is the table, and would be replaced by what --packets writes", self.refused("run", "--packets", *words))
        self.assertEqual(self.started("run", "--queues", *words), ["run", "--queues", *words])

    def test_links(self):
        os.link(self.jobs / "a.pcap", self.jobs / "hard.1.pcap")
        os.symlink("table.txt", self.jobs / "soft.report")
        self.assertIn("a.pcap is the capture of port 0, and is the same file as hard.1.pcap", self.refused("run", "table.txt", "hard", "a.pcap", "b.pcap"))
        self.assertIn("table.txt is the table, and is the same file as soft.report", self.refused("run", "table.txt", "soft", "a.pcap"))

    def test_overwrite_inputs(self):
        self.write("a.0.pcap", capture())
        words = ["run", "table.txt", "a", "a.0.pcap"]
        self.assertEqual(self.started("--overwrite-inputs", *words), words)

    def test_hidden_outputs(self):
        self.jobs.joinpath("folder").mkdir()
        told = self.refused("run", "table.txt", "", "a.pcap")
        self.assertEqual(told, "tiny_tera: PREFIX is empty, so the outputs would be hidden files, as .0.pcap; give a name\n")
        told = self.refused("--overwrite-inputs", "run", "table.txt", "folder/", "a.pcap")
        self.assertEqual(told, (
            "tiny_tera: PREFIX folder/ is a folder, so the outputs would be hidden files in it, as folder/.0.pcap;"
            " give a name in it: folder/out\n"
        ))

    def test_capture_as_prefix(self):
        """A run without PREFIX takes the first capture for it: that is told where nothing else is wrong."""
        note = "note: PREFIX a.pcap is a capture, which comes in at no port: the words are TABLE PREFIX INPUT..\n"
        for own in ([], ["--dry-run"]):
            ended = self.launch(*own, "run", "table.txt", "a.pcap", "b.pcap")
            self.assertEqual((ended.returncode, ended.stderr), (0, note))

    def test_no_file_is_lost(self):
        """Outputs of other runs and special files are no inputs of this one."""
        self.write("out.2.pcap", capture())
        os.symlink("/dev/null", self.jobs / "null.0.pcap")
        for words in (["table.txt", "out", "a.pcap", "out.2.pcap"], ["table.txt", "null", "/dev/null"], ["table.txt", "folder/out", "missing"]):
            self.assertEqual(self.started("run", *words), ["run", *words])


class Ports(Scene):
    def setUp(self):
        super().setUp()
        self.files(table_txt=TABLE, a_pcap=capture(frame(), frame()), b_pcap=capture(frame(), order=">"))
        self.write("two words.pcap", capture())

    def test_dry_run(self):
        self.write("out.report", "old\n")
        names = ("a.pcap", "b.pcap", "two words.pcap")
        for last, status, said in (((), 0, ""), (("missing",), 3, "read fault: missing\nhint: the capture of port 3: there is no file missing\n")):
            ended = self.launch("--dry-run", "run", "--packets", "--journal", "table.txt", "out", *names, *last)
            self.assertEqual((ended.returncode, ended.stderr), (status, said))
            ports = ["port 0: a.pcap, 2 packets", "port 1: b.pcap, 1 packet", "port 2: two words.pcap, 0 packets", "port 3: missing"]
            self.assertEqual(ended.stdout.splitlines(), [
                "table: table.txt", *ports[:3 + len(last)], *(f"writes out.{port}.pcap" for port in range(3 + len(last))),
                "writes out.report, which is there", "writes out.journal", "writes out.packets.csv",
                "not looked at: whether the journal file would be too long", "not looked at: whether the packets file would be too long",
                "not looked at: whether there is room in memory and on the disk",
            ])
        self.assertEqual(self.calls(), [])

    def test_numbers_that_sort(self):
        """The ways of docs/USAGE.md to name captures so that they come in the order of ports."""
        for number in range(12):
            self.write(f"out.{number}.pcap", "")
            self.write(f"lan.{number:02}.pcap", "")
        text = (self.top / "docs/USAGE.md").read_text()
        command = re.search(r"^tiny_tera --dry-run run .*$", text, re.M)[0]
        for words, name in ((command, "out.{}.pcap"), ("tiny_tera --dry-run run table.txt next lan.*.pcap", "lan.{:02}.pcap")):
            path = f"{self.top}:{self.variables['PATH']}"
            told = subprocess.run(
                ["sh", "-c", words], cwd=self.jobs, env={**self.variables, "PATH": path},
                stdout=subprocess.PIPE, stderr=subprocess.PIPE, universal_newlines=True,
            )
            found = [line for line in told.stdout.splitlines() if line.startswith("port ")]
            self.assertEqual(found, [f"port {port}: {name.format(port)}" for port in range(12)])

    def test_dry_run_refuses_what_a_run_would(self):
        for words in (["run", "table.txt", "a", "a.pcap", "--slots=1"], ["run", "table.txt", "", "a.pcap"]):
            self.assertEqual(self.launch("--dry-run", *words).returncode, 2)
        room = "whether there is room in memory\n"
        self.assertEqual(self.launch("--dry-run", "gen", "1", "2", "3").stdout, f"no file is read or written\nnot looked at: {room}")
        told = f"journal: j\nnot looked at: what the journal has behind its header, and {room}"
        self.assertEqual(self.launch("--dry-run", "check", "j").stdout, told)

    def test_terminal(self):
        """Ports are told where standard error is a terminal, and nowhere else."""
        self.build()
        words = ("firm", "table.txt", "a.pcap", "two words.pcap")
        self.assertEqual(self.launch(*words).stderr, "")
        ours, theirs = pty.openpty()
        self.launch_on(theirs, words)
        os.close(theirs)
        told = os.read(ours, 4096).decode().splitlines()
        os.close(ours)
        self.assertEqual(told, ["port 0: a.pcap, 2 packets", "port 1: two words.pcap, 0 packets"])

    def launch_on(self, terminal, words):
        self.assertEqual(self.launch(*words, preexec_fn=lambda: os.dup2(terminal, 2)).returncode, 0)
