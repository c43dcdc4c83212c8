"""Tests of tools/longest_wait: by a small model of the scheduler, by jobs of tests/jobs, and by the built program.

The program is that of the variable TINY_TERA, else the one that is there. A test says so where it is skipped.
"""

import subprocess
import sys
import tempfile
import unittest
from collections import Counter
from itertools import product
from pathlib import Path

from launcher import captures
from measure import long_waits

from .common import PROGRAM, TOOLS, TOP, with_program

JOBS = TOP / "tests/jobs"

KINDS = [(1, False), (2, False), (3, False), (1, True), (2, True), (3, True)]  # Rounds, and whether FIRM.


class Model:
    """A switch of one level with unicast alone: its queues, its pointers, and how long each queue waits."""

    def __init__(self, ports, rounds, firm):
        self.ports, self.rounds, self.firm = ports, rounds, firm
        self.grant, self.accept = [0] * ports, [0] * ports
        self.cells = Counter()  # By input and output.
        self.waits = Counter()
        self.longest = Counter()

    def slot(self, coming):
        """A slot in which cells come to some queues."""
        self.cells.update(coming)
        matched = self.match()
        for queue in list(self.cells):
            if queue in matched:
                self.longest[queue] = max(self.longest[queue], self.waits.pop(queue, 0))
                self.cells[queue] -= 1
                if not self.cells[queue]:
                    del self.cells[queue]
            else:
                self.waits[queue] += 1

    def match(self):
        """The pairs of all rounds; the pointers move by the first round alone."""
        matched, moves = set(), []
        for number in range(self.rounds):
            grants = self.grants(matched)
            for card in sorted({card for card, _ in grants}):
                offered = [output for it, output in grants if it == card]
                output = min(offered, key=lambda it: (it - self.accept[card]) % self.ports)
                matched.add((card, output))
                if number == 0:
                    moves.append((card, output, offered))
            if not grants:
                break
        for card, output, offered in moves:
            self.move(card, output, offered)
        return matched

    def grants(self, matched):
        """The input that each free output grants, of those that are free and ask it."""
        inputs, outputs = {card for card, _ in matched}, {output for _, output in matched}
        found = set()
        for output in set(range(self.ports)) - outputs:
            asking = [card for card, it in self.cells if it == output and card not in inputs]
            if asking:
                found.add((min(asking, key=lambda card: (card - self.grant[output]) % self.ports), output))
        return found

    def move(self, card, output, offered):
        self.accept[card] = (output + 1) % self.ports
        for it in offered:
            if it == output:
                self.grant[it] = (card + 1) % self.ports
            elif self.firm:
                self.grant[it] = card


def play(arrivals, ports, rounds, firm):
    """The longest waits of all queues over a whole run."""
    model = Model(ports, rounds, firm)
    coming = {}
    for packet in arrivals:
        coming.setdefault(packet.slot, []).append((packet.input, packet.outputs[0]))
    slot = 0
    while slot <= max(coming) or model.cells:
        model.slot(coming.get(slot, []))
        slot += 1
    return model.longest


class Traffic(unittest.TestCase):
    def test_requests_wait_so_long(self):
        """Under the model the request of input 0 for output 0 waits as long as it must, and no other longer."""
        for ports in (3, 4, 5, 6, 7, 8, 12):
            for rounds, firm in KINDS:
                with self.subTest(ports=ports, rounds=rounds, firm=firm):
                    longest = play(long_waits.longest_wait_traffic(ports, rounds, firm), ports, rounds, firm)
                    wait = long_waits.longest_wait(ports, rounds, firm)
                    self.assertEqual((longest[0, 0], max(longest.values())), (wait, wait))

    def test_at_most_one_packet_for_each_port_and_slot(self):
        for ports in (3, 4, 5, 16, 40, 64):
            for rounds, firm in KINDS:
                if ports <= long_waits.most_ports(rounds, firm):
                    arrivals = long_waits.longest_wait_traffic(ports, rounds, firm)
                    self.assertEqual(len({(it.slot, it.input) for it in arrivals}), len(arrivals))
                    self.assertEqual(min(it.slot for it in arrivals), 0)
                    self.assertLessEqual(len(arrivals), 65_536 if ports > 32 else 131_072)

    def test_numbers(self):
        """The numbers of some ports, by hand."""
        found = [[long_waits.longest_wait(ports, *kind) for ports in (3, 4, 5, 16, 40)] for kind in KINDS]
        islip_one, islip_more = [9, 20, 35, 464, 3_080], [10, 26, 53, 1_934, 31_238]
        firm_one, firm_more = [8, 15, 24, 255, 1_599], [7, 14, 24, 255, 1_599]
        self.assertEqual(found, [islip_one, islip_more, islip_more, firm_one, firm_more, firm_more])


class Jobs(unittest.TestCase):
    def test_packets_are_those_of_jobs(self):
        """The captures of an independent model bring the same packets in the same slots."""
        rounds_words = ((1, "one_round"), (2, "two_rounds"))
        for scheduler, (rounds, word), ports in product(("islip", "firm_command"), rounds_words, (3, 4, 5, 6)):
            with self.subTest(scheduler=scheduler, rounds=rounds, ports=ports):
                self.compare(JOBS / f"{scheduler}_{word}_{ports}_ports", ports, rounds)

    def compare(self, job, ports, rounds):
        files = [path.read_bytes() for path in sorted(job.glob("*.pcap"))]
        arrivals = captures.arrivals_of((job / "table.txt").read_text(), files, 1)
        self.assertEqual(arrivals, long_waits.longest_wait_traffic(ports, rounds, job.name.startswith("firm")))


class Command(unittest.TestCase):
    def make(self, *words, cwd=None):
        return subprocess.run([sys.executable, TOOLS / "longest_wait", *words], cwd=cwd,
                              stdout=subprocess.PIPE, stderr=subprocess.PIPE, text=True)

    def test_refusals(self):
        with tempfile.TemporaryDirectory() as folder:
            (Path(folder) / "other").write_text("")
            for words, status in [
                (["2", "1", "x"], 2), (["65", "1", "x"], 2), (["41", "2", "x"], 2), (["3", "0", "x"], 2),
                (["3", "65", "x"], 2), (["3", "1", folder], 1), (["3", "1", f"{folder}/other"], 1),
            ]:
                made = self.make(*words)
                self.assertEqual(made.returncode, status, words)
                self.assertNotIn("Traceback", made.stderr)

    @unittest.skipUnless(PROGRAM.is_file(), "no program is there")
    def test_program_waits_so_long(self):
        """The command that is printed prints the line that is printed, in the folder in which it is."""
        for ports in ("3", "4", "8", "16"):
            for words in ((ports, "1"), (ports, "4"), (ports, "1", "--scheduler=firm"), (ports, "4", "--scheduler=firm")):
                with tempfile.TemporaryDirectory() as folder, self.subTest(words=words):
                    self.check_command(folder, words, "its traffic")
        with tempfile.TemporaryDirectory() as folder:
            self.check_command(TOP, ("3", "1"), f"{folder}/its traffic")

    def check_command(self, folder, words, made):
        _, command, _, line = self.make(*words, made, cwd=folder).stdout.splitlines()
        ran = subprocess.run(with_program(command.strip(), folder), cwd=folder, shell=True, stdout=subprocess.PIPE, text=True)
        self.assertEqual((ran.returncode, ran.stdout.splitlines()[-1:]), (0, [line.strip()]))
