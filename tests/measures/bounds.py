"""Tests of tools/bound: its numbers by their definitions, by any maximal matches at random and by runs of the reference
model; what it tells, and what it refuses."""

import csv
import io
import random
import subprocess
import tempfile
import unittest
from itertools import product
from pathlib import Path

from launcher.captures import ETHERNET, RAW_IP, Arrival
from launcher.slot_lengths import of_rate
from measure import traffic
from measure.report import read_report
from tests.model.stored.jobs import Job, expected_of, files_of

from .common import PROGRAM, TOP, lacks, run_here

if not lacks("numpy"):
    from measure.bounds import bounds_of, promise_of
    from measure.sizing import read_arrivals

# Traffic found by a search, as slot, input and output: at most so many cells a line in any 4 * cells - 3 slots in a row, and
# under iSLIP a packet that takes as long as the bound. With the ports and the number of cells.
WORST = (
    (3, 2, "0 2 0;0 0 2;0 1 2;1 2 0;1 1 1"),
    (3, 3, "0 0 2;0 1 1;0 2 2;1 2 0;2 0 0;2 2 1;2 1 1;3 0 0;3 1 2"),
    (4, 3, "0 0 2;0 1 0;0 3 2;0 2 3;1 0 1;1 2 2;1 1 0;2 1 1;2 3 0;2 2 3;2 0 3;3 3 1"),
    (4, 4, "0 0 3;0 2 3;1 0 2;1 3 2;1 2 3;1 1 2;2 1 0;2 3 1;2 2 2;4 3 3;4 2 1;4 1 0;5 0 0;6 3 1;6 0 0;6 1 1"),
)


def policed(ports, cells, slots, numbers, last, longest=1):
    """Packets at random, of which at most so many cells come to an input and for an output in so many slots in a row."""
    found, free = [], [0] * ports
    for slot in range(last):
        for card in numbers.sample(range(ports), ports):
            count = numbers.randint(1, longest)
            recent = [it for it in found if it.slot > slot - slots]
            room = cells - count - sum(it.cells for it in recent if it.input == card)
            outputs = [
                output for output in range(ports)
                if sum(it.cells for it in recent if it.outputs[0] == output) + count <= cells
            ]
            if slot - count + 1 >= free[card] and room >= 0 and outputs:
                found.append(Arrival(slot, card, (numbers.choice(outputs),), numbers.randrange(2), count))
                free[card] = slot + 1
    return sorted(found)


def files_with(arrivals, ports):
    """A table and captures with these packets, each of so many cells at its level, in slots of a microsecond."""
    records = [[] for _ in range(ports)]
    for packet in arrivals:
        length = 56 * packet.cells - 16
        address = bytes([10, packet.level, packet.outputs[0], 1])
        time = (packet.slot - packet.cells + 1) * traffic.PACE_US
        records[packet.input].append((time, traffic.ip_header(packet.input, address, length).ljust(length, b"\0")))
    table = "".join(f"10.{level}.{output}.0/24 {output} {level}\n" for level in range(2) for output in range(ports))
    captures = {f"{card:02}.pcap": traffic.capture_bytes(RAW_IP, packets) for card, packets in enumerate(records)}
    return {"table.txt": table.encode(), **captures}


def ran(files, *options):
    """What the reference model writes with these options, and as many ports as captures."""
    names = sorted(name for name in files if name.endswith(".pcap"))
    words = ["run", "--pace-us", "1", "--queues", "--packets", *options, "table.txt", "out", *names]
    return expected_of(Job(words, files, ""))


def longest_and_queues(made):
    """The longest delay of a run, and its queues."""
    rows = csv.DictReader(io.StringIO(made["out.packets.csv"].decode()))
    return max(int(row["delay"]) for row in rows), read_report(made["out.report"].decode()).queues


def most(arrivals, window):
    """The most cells in so many slots in a row, slot by slot."""
    last = max(it.slot for it in arrivals)
    return max(sum(it.cells for it in arrivals if begin <= it.slot < begin + window) for begin in range(last + 1))


def of_input(arrivals, card):
    return [it for it in arrivals if it.input == card]


def of_output(arrivals, output):
    return [it for it in arrivals if it.outputs[0] == output]


def least_wait(arrivals):
    """The least wait of the theorem on delays: in 2 * wait + 1 slots at most wait + 2 cells to an input and for an output."""
    pairs = {(it.input, it.outputs[0]) for it in arrivals}
    both = [of_input(arrivals, card) + of_output(arrivals, output) for card, output in pairs]
    return next(wait for wait in range(10**6) if all(most(it, 2 * wait + 1) <= wait + 2 for it in both))


def least_window(arrivals, limit):
    """The least window of the theorem on buffers, if it is no more than the limit."""
    pairs = {(it.input, it.outputs[0]) for it in arrivals}
    for window in range(1, limit + 1):
        found = [(most(of_input(arrivals, card), window), most(of_output(arrivals, output), window)) for card, output in pairs]
        if all(r + 2 * k <= window + 1 and 2 * r + k <= window + 1 for r, k in found):
            return window
    return None


def played(arrivals, numbers):
    """A run with some maximal match of the waiting cells in each slot: the longest delay, and the most cells at each input,
    for each output and in each queue."""
    cells, delay, peaks, slot = [], 0, {}, 0
    while slot <= arrivals[-1].slot or cells:
        cells += [(it.slot, it.input, it.outputs[0], it.level) for it in arrivals if it.slot == slot for _ in range(it.cells)]
        for name in ("input", "output", "queue"):
            counts = {}
            for _, card, output, level in cells:
                key = name, {"input": card, "output": output, "queue": (card, output, level)}[name]
                counts[key] = counts.get(key, 0) + 1
            for key, count in counts.items():
                peaks[key] = max(peaks.get(key, 0), count)
        queues = list({it[1:]: it for it in reversed(cells)}.values())  # The first cell of each.
        numbers.shuffle(queues)
        busy = set()
        for cell in queues:
            ends = {("input", cell[1]), ("output", cell[2])}
            if not ends & busy:
                busy |= ends
                cells.remove(cell)
                delay = max(delay, slot + 1 - cell[0])
        slot += 1
    return delay, peaks


@unittest.skipIf(lacks("numpy"), lacks("numpy"))
class Numbers(unittest.TestCase):
    def setUp(self):
        self.numbers = random.Random("bounds")

    def some(self):
        """Packets of many kinds, by a random number of ports, cells and slots."""
        ports = self.numbers.randint(1, 4)
        count = self.numbers.randint(1, 25)
        last = self.numbers.choice((3, 15, 100))
        return sorted(
            Arrival(self.numbers.randrange(last), self.numbers.randrange(ports), (self.numbers.randrange(ports),),
                    self.numbers.randrange(2), self.numbers.choice((1, 1, 1, 4)))
            for _ in range(count)
        )

    def test_definitions(self):
        """The least wait and the least window are those that are found by trying each."""
        windows = 0
        for number in range(80):
            arrivals = policed(3, 4, 11, self.numbers, 80) if number % 8 == 0 else self.some()
            found, wait = bounds_of(arrivals), least_wait(arrivals)
            window = least_window(arrivals, wait)
            by_wait = {card: most(of_input(arrivals, card), wait + 1) for card in found.inputs}
            if window is None:
                self.assertEqual((found.delay, found.inputs), (wait + 1, by_wait))
            else:
                windows += 1
                self.assertLessEqual(found.delay, wait + 1)
                for card, cells in found.inputs.items():
                    by_window = most(of_input(arrivals, card), window)
                    self.assertLessEqual(cells, min(by_wait[card], by_window))
                    self.assertEqual(cells, min(most(of_input(arrivals, card), found.delay), by_window))
        self.assertGreater(windows, 3)

    def test_any_maximal_matches(self):
        """No run that matches all it can in each slot is over the bounds, of whatever choice."""
        for number in range(60):
            arrivals = policed(4, 3, 9, self.numbers, 40, 2) if number % 3 == 0 else self.some()
            found = bounds_of(arrivals)
            delay, peaks = played(arrivals, self.numbers)
            self.assertLessEqual(delay, found.delay)
            bounds = {
                **{("input", card): cells for card, cells in found.inputs.items()},
                **{("output", output): cells for output, cells in found.outputs.items()},
                **{("queue", tuple(queue)): cells for queue, cells in found.queues.items()},
            }
            self.assertEqual(bounds.keys(), peaks.keys())
            for key, peak in peaks.items():
                self.assertLessEqual(peak, bounds[key])

    def test_worst_traffic(self):
        """Delays of 3, 5 and 7 slots are reached under iSLIP, and no more is told of the traffic, nor of the contract."""
        for ports, cells, text in WORST:
            arrivals = [Arrival(slot, card, (output,), 0, 1) for slot, card, output in (map(int, it.split()) for it in text.split(";"))]
            slots = 4 * cells - 3
            for lines in (of_input, of_output):
                self.assertLessEqual(max(most(lines(arrivals, port), slots) for port in range(ports) if lines(arrivals, port)), cells)
            longest, _ = longest_and_queues(ran(files_with(arrivals, ports), "--rounds", str(ports)))
            promise = promise_of(cells, slots)
            self.assertEqual((longest, bounds_of(arrivals).delay, promise.delay), (2 * cells - 1,) * 3)

    def test_policed_traffic(self):
        """Under each scheduler delays and queues of runs are within the bounds of their arrivals, and these within those of
        the contract."""
        for scheduler, (ports, cells, slots) in product(("islip", "firm", "rrm"), ((4, 3, 9), (8, 4, 13), (4, 4, 11), (4, 6, 21))):
            arrivals = policed(ports, cells, slots, self.numbers, 100, 1 + (cells > 4))
            found, promise = bounds_of(arrivals), promise_of(cells, slots)
            longest, queues = longest_and_queues(ran(files_with(arrivals, ports), "--rounds", str(ports), "--scheduler", scheduler))
            self.assertLessEqual(longest, found.delay)
            self.assertLessEqual(found.delay, promise.delay)
            self.assertLessEqual(max(*found.inputs.values(), *found.outputs.values(), found.depth), promise.cells)
            told = {str(name): count for name, count in found.queues.items()}
            self.assertEqual({queue.name for queue in queues}, set(told))
            for queue in queues:
                self.assertLessEqual(queue.peak, told[queue.name])

    def test_promises(self):
        """By the formulas of docs/SIZING.md."""
        for cells in range(1, 9):
            for slots in range(1, 40):
                promise = promise_of(cells, slots)
                if 4 * cells <= slots + 3:
                    self.assertEqual(promise, (2 * cells - 1, cells))
                elif 3 * cells <= slots + 1:
                    self.assertEqual(promise, (6 * cells - 1, cells))
                else:
                    self.assertIsNone(promise)


@unittest.skipIf(lacks("numpy"), lacks("numpy"))
class Told(unittest.TestCase):
    def setUp(self):
        room = tempfile.TemporaryDirectory()
        self.addCleanup(room.cleanup)
        self.room = Path(room.name)

    def files(self, arrivals, ports):
        """The names of a table and of captures with these packets."""
        files = files_with(arrivals, ports)
        for name, data in files.items():
            (self.room / name).write_bytes(data)
        return [self.room / name for name in files]

    def test_arrivals(self):
        """Slots are those of the program, at line pace, at a pace and at a line rate; numbers are told with their time."""
        folder = TOP / "examples/incast"
        names = [folder / "table.txt", *sorted(folder.glob("*.pcap"))]
        found, others = read_arrivals(names[0], names[1:], of_rate(15868))
        rows = csv.DictReader(io.StringIO((folder / "expected/out.packets.csv").read_text()))
        told = [tuple(int(row[name]) for name in ("packet", "arrival", "input", "output", "level", "cells")) for row in rows]
        self.assertEqual([(number, it.slot, it.input, it.outputs[0], it.level, it.cells) for number, it in found], told)
        self.assertEqual(others, 0)
        status, text = run_here("bound", "--most", 1, *names, "--ethernet", 10000)
        self.assertEqual((status, text), (0, """\
4 ports, 12 packets of 258 cells for queues in 169 slots (5.453 us)
no packet takes more than 335 slots (10.809 us) from its arrival to its departure
no input holds more than 84 cells (5,376 bytes)
no more than 252 cells (16,128 bytes) wait for an output
no queue holds more than 84 cells (5,376 bytes): --depth 84 drops nothing
This holds of each run of these arrivals, under each scheduler, with --rounds 4 or more.

line        cells     bytes
output 0      252     16128
and 7 more

queue     cells     bytes
1>0:0u       84      5376
and 5 more
"""))

    def test_contract(self):
        status, text = run_here("bound", "--contract", 4, 13, "--ports", 16, "--pace-us", 2)
        self.assertEqual((status, text), (0, """\
at most 4 cells to each input and for each output in any 13 slots (26 us) in a row: a load of 0.308
no packet takes more than 7 slots (14 us) from its arrival to its departure
no input holds more than 4 cells (256 bytes), and no more wait for an output
--depth 4 drops nothing
This holds of all that keeps the contract, under each scheduler, with --rounds 16 or more.
"""))
        status, text = run_here("bound", "--contract", 40, 60, "--ports", 16)
        self.assertEqual((status, text), (0, """\
at most 40 cells to each input and for each output in any 60 slots in a row: a load of 0.667
no number follows: 40 cells must have 119 slots for a buffer, 157 for the shortest delay
traffic that keeps it makes one queue of 16 ports grow for ever, under islip with any number of rounds
"""))

    def test_run(self):
        """How far a run was from it; with fewer rounds than ports the bounds are not of it."""
        arrivals = policed(4, 3, 9, random.Random(1), 60)
        names = self.files(arrivals, 4)
        for rounds in (4, 1):
            made = ran(files_of(self.room), "--rounds", str(rounds))
            prefix = self.room / f"run{rounds}"
            for suffix in (".report", ".packets.csv"):
                Path(f"{prefix}{suffix}").write_bytes(made[f"out{suffix}"])
            status, text = run_here("bound", "--pace-us", 1, "--packets", prefix, *names)
            longest, queues = longest_and_queues(made)
            found = bounds_of(arrivals)
            deepest = max(queue.peak for queue in queues)
            line = f"The run: the longest delay {longest} slots ({longest} us) of {found.delay}, the deepest queue {deepest} cells of {found.depth}.\n"
            self.assertEqual((status, line in text, "It had 1 round" in text), (0, True, rounds == 1), text)
            Path(f"{prefix}.report").unlink()
        status, text = run_here("bound", "--pace-us", 1, "--packets", prefix, *names)
        self.assertEqual((status, f"The run: the longest delay {longest} slots ({longest} us) of {found.delay}.\n" in text), (0, True), text)
        told = f"tools/bound: {prefix} is no run of these captures with this table, in slots of this time\n"
        self.assertEqual(run_here("bound", "--pace-us", 2, "--packets", prefix, *names), (1, told))
        Path(f"{prefix}.report").write_bytes(made["out.report"])
        told = f"tools/bound: {prefix} is a run of 4 ports, and here are 5 captures\n"
        self.assertEqual(run_here("bound", "--pace-us", 1, "--packets", prefix, *names, names[1]), (1, told))

    def test_nothing_comes(self):
        names = self.files([], 2)
        self.assertEqual(run_here("bound", *names), (0, "2 ports, 0 packets of 0 cells for queues in 0 slots\n"))

    def test_others(self):
        """Packets that go nowhere are told: they have no route, or are longer than any that is forwarded."""
        names = self.files([Arrival(slot, 0, (output,), 0, 1) for slot, output in enumerate((0, 1, 1))], 2)
        counts = "2 ports, {} for queues in {}\n{} without a route, or too long: not counted\n"
        names[0].write_text("10.0.0.0/24 0\n")
        status, text = run_here("bound", *names)
        self.assertEqual((status, text.startswith(counts.format("1 packet of 1 cell", "1 slot", "2 more packets"))), (0, True), text)
        names[0].write_text("")
        told = counts.format("0 packets of 0 cells", "0 slots", "3 more packets")
        self.assertEqual(run_here("bound", *names), (0, told))

    def test_closed_output(self):
        words = [str(TOP / "tools/bound"), "--contract", "4", "13", "--ports", "16"]
        ended = subprocess.run(["sh", "-c", '"$@" >&-', "sh", *words], stderr=subprocess.PIPE, text=True)
        self.assertEqual((ended.returncode, ended.stderr), (1, "tools/bound: standard output: Bad file descriptor\n"))

    def test_faults(self):
        """One line with the file, and for multicast the first packet."""
        table, *names = self.files([Arrival(0, 0, (1,), 0, 1), Arrival(1, 1, (0,), 0, 1), Arrival(2, 1, (1,), 1, 1)], 2)
        table.write_text("10.0.0.0/16 0\n10.1.1.0/24 0,1 2\n")
        told = f"tools/bound: frame 2 of {names[1]} is multicast, for outputs 0, 1: the bounds are of unicast alone\n"
        self.assertEqual(run_here("bound", table, *names), (1, told))
        table.write_text("10.0.0.0/16 2\n")
        self.assertEqual(run_here("bound", table, *names), (1, f"tools/bound: {table}: table line 1: port 2\n"))
        self.assertEqual(run_here("bound", names[0], *names), (1, f"tools/bound: {names[0]} is a capture: the words are TABLE INPUT..\n"))
        table.write_text("* 0\n")
        names[1].write_bytes(traffic.capture_bytes(ETHERNET, []))
        self.assertEqual(run_here("bound", table, *names), (1, f"tools/bound: link types 101 and 1: {names[0]} and {names[1]}\n"))
        status, told = run_here("bound", table, self.room / "none.pcap")
        self.assertEqual((status, told.count("\n")), (1, 1), told)

    def test_words(self):
        for words, told in (
            ((), "the words are TABLE INPUT.., or --contract CELLS SLOTS --ports N"),
            (("table.txt",), "the words are TABLE INPUT.., or --contract CELLS SLOTS --ports N"),
            (("--contract", 1, 2), "--contract takes --ports N"),
            (("--contract", 1, 2, "--contract", 3, 9, "--ports", 2),
             "--contract goes once; ask of each contract alone: the least of each number holds"),
            (("--contract", 0, 2, "--ports", 2), "argument --contract: '0' is not a whole number from 1 to 1000000000"),
            (("--contract", 1, 2, "--ports", 65), "argument --ports: '65' is not a whole number from 1 to 64"),
            (("--contract", 1, 2, "--ports", 2, "table.txt"), "--contract goes without TABLE, INPUT and --packets"),
            (("--ports", 2, "table.txt", "a.pcap"), "--ports goes with --contract; of captures each is a port"),
            (("table.txt", *["a.pcap"] * 65), "a switch has at most 64 ports, and here are 65 captures"),
            (("--pace-us", 1, "--line-rate", 1, "table.txt", "a.pcap"), "argument --line-rate: not allowed with argument --pace-us"),
        ):
            status, text = run_here("bound", *words)
            self.assertEqual((status, text.splitlines()[-1]), (2, f"bound: error: {told}"))

    @unittest.skipUnless(PROGRAM and PROGRAM.is_file(), "no program is there")
    def test_program_drops_nothing(self):
        """With the depth that is told the program drops nothing."""
        arrivals = policed(4, 4, 11, random.Random(2), 200)
        table, *names = self.files(arrivals, 4)
        words = ["run", "--rounds", "4", "--pace-us", "1", "--depth", str(bounds_of(arrivals).depth), table, self.room / "out", *names]
        said = subprocess.run([PROGRAM, *map(str, words)], stdout=subprocess.PIPE, text=True).stdout
        self.assertIn("\ndropped 0\n", said)
