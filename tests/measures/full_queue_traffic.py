"""Tests of tools/full_queues: by a small model of the three schedulers, and by the built program."""

import subprocess
import tempfile
import unittest
from collections import Counter
from pathlib import Path

from launcher import captures
from measure import full_queues, report, traffic

from .common import PROGRAM, TOOLS, run, with_program

KINDS = [(2, 8), (3, 1), (4, 4), (5, 7)]  # Ports, and cells of a queue.


def read_arrivals(folder, ports):
    """The packets of a folder, by the rules for captures."""
    read = [(Path(folder) / name).read_bytes() for name in traffic.capture_names(ports)]
    return captures.arrivals_of((Path(folder) / "table.txt").read_text(), read, traffic.PACE_US)


class Model:
    """A switch with one round, multicast of level 0 to all outputs and unicast of level 1: its queues and pointers of level 1."""

    def __init__(self, ports, rule):
        self.ports, self.rule = ports, rule
        self.grant, self.accept = [0] * ports, [0] * ports
        self.group = Counter()  # Cells by input.
        self.cells = Counter()  # Cells by input and output.

    def come(self, packet):
        if packet.level == 0:
            assert packet.outputs == tuple(range(self.ports))
            self.group[packet.input] += packet.cells
        else:
            self.cells[packet.input, packet.outputs[0]] += packet.cells

    def slot(self):
        """The pairs of level 1 in a slot; none while a cell of level 0 takes all outputs."""
        if self.group:
            (card, _), = self.group.items()
            self.group -= Counter([card])
            return []
        pairs = []
        for card, outputs in self.grants().items():
            taken = min(outputs, key=lambda output: (output - self.accept[card]) % self.ports)
            self.accept[card] = (taken + 1) % self.ports
            pairs.append((card, taken))
            for output in outputs:
                if output == taken or self.rule == "rrm":
                    self.grant[output] = (card + 1) % self.ports
                elif self.rule == "firm":
                    self.grant[output] = card
        self.cells -= Counter(pairs)
        return pairs

    def grants(self):
        """For each input that is granted the outputs that grant it."""
        found = {}
        for output in range(self.ports):
            asking = [card for card, it in self.cells if it == output]
            if asking:
                card = min(asking, key=lambda card: (card - self.grant[output]) % self.ports)
                found.setdefault(card, []).append(output)
        return found


def play(arrivals, ports, rule):
    """For each slot of a run the cells in the queues of level 1 before it serves, and its pairs of level 1."""
    model, slots = Model(ports, rule), []
    while not slots or len(slots) <= arrivals[-1].slot or model.group or model.cells:
        for packet in (it for it in arrivals if it.slot == len(slots)):
            model.come(packet)
        slots.append((Counter(model.cells), model.slot()))
    return [*slots, (Counter(), [])]


class FullQueues(unittest.TestCase):
    def test_captures_have_the_arrivals(self):
        for ports, cells in (*KINDS, (64, 8)):
            with self.subTest(ports=ports, cells=cells), tempfile.TemporaryDirectory() as folder:
                full_queues.write_full_queues(folder, ports, cells)
                self.assertEqual(read_arrivals(folder, ports), full_queues.make_arrivals(ports, cells))

    def test_all_queues_are_full_at_once(self):
        """Before that slot nothing of level 1 is served, and in it each queue has all its cells."""
        for ports, cells in KINDS:
            for rule in ("islip", "firm", "rrm"):
                with self.subTest(ports=ports, cells=cells, rule=rule):
                    slots = play(full_queues.make_arrivals(ports, cells), ports, rule)
                    begun = full_queues.full_slot(ports, cells)
                    self.assertEqual([pairs for _, pairs in slots[:begun]], [[]] * begun)
                    self.assertEqual(slots[begun][0], {(card, output): cells for card in range(ports) for output in range(ports)})
                    self.check_pairs([len(pairs) for _, pairs in slots[begun:]], ports, cells, rule)
                    self.assertEqual(len(slots), full_queues.slots_of_run(ports, cells)["rrm" if rule == "rrm" else "islip"])

    def check_pairs(self, counts, ports, cells, rule):
        """One pair in each slot under RRM; else one more in each slot, up to all of them, and at the end one less."""
        if rule == "rrm":
            self.assertEqual(counts, [1] * (cells * ports * ports) + [0])
            return
        ramp = list(range(1, ports))
        self.assertEqual(counts, ramp + [ports] * ((cells - 1) * ports + 1) + ramp[::-1] + [0])

    def test_most_cells(self):
        """The limits of a job, by hand: 1,170 cells of a packet, 131,072 of all, half of it over 32 ports."""
        for ports, most in ((2, 585), (32, 36), (33, 30), (64, full_queues.CELLS)):
            self.assertEqual(full_queues.most_cells(ports), most)
            arrivals = full_queues.make_arrivals(ports, most)
            self.assertLessEqual(sum(packet.cells * len(packet.outputs) for packet in arrivals), 65_536 if ports > 32 else 131_072)

    def test_refusals(self):
        with tempfile.TemporaryDirectory() as folder:
            Path(folder, "other").write_text("")
            for words, status in (
                (["1", "x"], 2), (["65", "x"], 2), (["64", "--cells", "9", "x"], 2), (["3", "--cells", "0", "x"], 2),
                (["3", folder], 1), (["3", f"{folder}/other"], 1),
            ):
                found, told = run(TOOLS / "full_queues", *words, cwd=folder)
                self.assertEqual((found, "Traceback" in told), (status, False), words)

    @unittest.skipUnless(PROGRAM.is_file(), "no program is there")
    def test_program(self):
        """The commands that are printed make the slots that are printed, and under RRM one pair in each of them."""
        for ports in (2, 4, 16):
            with tempfile.TemporaryDirectory() as room, self.subTest(ports=ports):
                folder = Path(room, "its traffic")
                lines = run(TOOLS / "full_queues", ports, folder.name, cwd=room)[1].splitlines()
                for line in lines[1:3]:
                    self.check_command(with_program(line.strip(), room), ports, folder, lines[4:])

    def check_command(self, command, ports, folder, told):
        ended = subprocess.run(command, cwd=folder.parent, shell=True, stdout=subprocess.PIPE, stderr=subprocess.PIPE, text=True)
        if ended.returncode == 2:
            self.skipTest("the program does not take --scheduler")
        scheduler = command.split("--scheduler ")[1].split()[0]
        self.assertIn(f"    {scheduler}: {ended.stdout.splitlines()[3]}", told)
        found = report.read_report((folder / f"{scheduler}.report").read_text()).slots
        begun = full_queues.full_slot(ports, full_queues.CELLS)
        self.check_pairs([len(slot.pairs) for slot in found[begun:]], ports, full_queues.CELLS, scheduler)
