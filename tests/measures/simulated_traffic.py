"""Tests of `tools/traffic --simulated`: its packets are the cells of a simulation, and a run gives them the same delays."""

import subprocess
import tempfile
import unittest
from collections import Counter
from pathlib import Path

from launcher.builds import SIMULATION
from launcher.there import program
from measure import simulated_traffic
from tests.model.simulation.command import run_words
from tests.model.simulation.sources import Source
from tests.model.simulation.words import Job
from tiny_tera.simulated import read_text

from .common import PROGRAM, TOOLS, TOP, lacks, run

SIMULATE = program(TOP, SIMULATION)
# The kind, its share, the scheduler with its rounds, the load and the depth of a queue.
RUNS = [
    ("uniform", None, "islip", 1, "0.95", 4_096), ("bursty", None, "islip", 4, "0.8", 4_096), ("diagonal", None, "firm", 2, "0.9", 4_096),
    ("log-diagonal", None, "rrm", 1, "1", 3), ("hot-spot", "0.25", "firm", 1, "0.5", 2), ("unbalanced", "0.5", "islip", 2, "1", 5),
]
PORTS, SLOTS, SEED = 4, 300, 9


def words_of(kind, share, scheduler, rounds, load, depth):
    """The words of the simulation, as the program takes them."""
    pattern = "uniform" if kind == "bursty" else kind
    words = ["simulate", "--scheduler", scheduler, "--rounds", str(rounds), "--load-ppm", str(round(float(load) * 1_000_000))]
    words += ["--pattern", pattern, "--depth", str(depth), "--burst", "16" if kind == "bursty" else "1", "--warm-up", "0", "--histogram"]
    words += ["--weight-ppm", str(round(float(share) * 1_000_000))] if share else []
    return [*words, str(SEED), str(SLOTS), str(PORTS)]


class Arrivals(unittest.TestCase):
    def test_cells_of_the_model(self):
        """Each kind, with one port and more than the words of a random number have bits in a share."""
        for kind, pattern in (("bursty", "uniform"), *((it, it) for it in ("uniform", "diagonal", "log-diagonal", "hot-spot", "unbalanced"))):
            for ports in (1, 3, 64):
                job = Job(5, 40, ports, load=700_001, pattern=pattern, weight=300_000, burst=4 if kind == "bursty" else 1)
                sources = [Source(job, port) for port in range(ports)]
                expected = [(slot, port, source.next()) for slot in range(40) for port, source in enumerate(sources)]
                made = simulated_traffic.make_arrivals(kind, 0.700001, 4, 0.3, ports, 40, 5)
                found = [(it.slot, it.input, *it.outputs) for it in made]
                self.assertEqual(found, [it for it in expected if it[2] is not None], (kind, ports))

    def test_words(self):
        for words, told in (
            (["--kind", "unbalanced"], "--kind unbalanced goes with --simulated"), (["--simulated", "1", "--burst", "5000"], "--burst is 1 to 4096"),
            (["--simulated", "1", "--kind", "trace", "--trace", "x"], "do not go together"), (["--simulated", "x"], "not a whole number"),
            (["--simulated", "1", "--load", "0.0000001"], "0.0000001 has more than 6 places"),
        ):
            status, said = run(TOOLS / "traffic", "made", *words)
            self.assertEqual(status, 2)
            self.assertIn(told, said.splitlines()[-1])


@unittest.skipIf(lacks("pandas"), lacks("pandas"))
@unittest.skipUnless(PROGRAM.is_file(), "no program is there")
class Runs(unittest.TestCase):
    def test_delays(self):
        """The packets that a run serves in the slots of a simulation have the delays of its `count` lines, and as many are dropped."""
        for given in RUNS:
            with self.subTest(given), tempfile.TemporaryDirectory() as name:
                expected = read_text(self.text_of(words_of(*given)))
                found, dropped = self.packets_of(Path(name), *given)
                self.assertEqual(sorted(found.items()), list(expected.count_rows))
                self.assertEqual(dropped, expected.dropped)
                self.assertGreater(len(found), 1)

    def text_of(self, words):
        """What the program prints where it is there, else the model."""
        if SIMULATE.is_file():
            return subprocess.run([SIMULATE, *words], stdout=subprocess.PIPE, text=True, check=True).stdout
        return "".join(f"{line}\n" for line in run_words(words).output)

    def packets_of(self, folder, kind, share, scheduler, rounds, load, depth):
        """The delays of the packets of a run that were served in the first slots, and how many were dropped."""
        from measure.packets import forwarded, read_packets

        made = folder / "made"
        words = [made, "--simulated", SEED, "--kind", kind, "--load", load, "--ports", PORTS, "--slots", SLOTS, "--burst", 16]
        words += ["--hot" if kind == "hot-spot" else "--weight", share] if share else []
        self.assertEqual(run(TOOLS / "traffic", *words), (0, ""))
        words = ["run", "--packets", "--alone", "--pace-us", "1", "--scheduler", scheduler, "--rounds", str(rounds), "--depth", str(depth)]
        captures = [made / f"0{port}.pcap" for port in range(PORTS)]
        subprocess.run([PROGRAM, *words, made / "table.txt", folder / "out", *captures], stdout=subprocess.DEVNULL, check=True)
        packets = read_packets(folder / "out.packets.csv")
        left = forwarded(packets)
        # The run begins with the slot of the first packet; one that departs in a slot was served in the slot before.
        first = SLOTS - min(it.slot for it in self.arrivals(kind, share, load))
        return Counter(left["delay"][left["departure"] <= first].tolist()), int((packets["state"] == "dropped").sum())

    def arrivals(self, kind, share, load):
        return simulated_traffic.make_arrivals(kind, float(load), 16, float(share or 0.5), PORTS, SLOTS, SEED)
