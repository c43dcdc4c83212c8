"""Tests of what holds of each run, on jobs at random and on made input: cards word for word, conservation, order,
length, the reference, queues, packets, and the depth that a run needs."""

import random
import unittest

from .captures import capture_bytes, read_capture
from .cards import Card, Post
from .departures import HEADER, packets_text
from .fullness import deepest, queue_lines, waiting_cells
from .histories import History
from .literal import LiteralCard, literal_run
from .made import made_input
from .messages import cell_bytes, message_of, read_cell
from .plans import MOST_DEPTH, ROUTED, Settings, plan_files
from .queues import QueueName, queue_for
from .reference import reference_line, tracks_of
from .rows import EMPTY_ROW, LETTERS, MULTICAST, UNICAST, served_part
from .runs import crossings, outcome_of, run_plan
from .samples import (
    FILLING, HEAD, HEAD_TABLE, HEADS, HEADS_TABLE, TO_1, busy_job, capture, plan_of, random_job, raw, run, run_of
)
from .schedulers import SCHEDULERS, firm, islip, rrm
from .texts import summary_of


def marked(plan):
    """A plan with another original length in each packet, so that a record tells its packet."""
    cards = [
        [it._replace(packet=it.packet._replace(original=1_000 * port + number)) for number, it in enumerate(card)]
        for port, card in enumerate(plan.cards)
    ]
    return plan._replace(cards=cards)


def admitted_of(made):
    """The admitted packets of a run, with their inputs."""
    return [(port, made.plan.cards[port][number]) for port, numbers in enumerate(made.admitted) for number in numbers]


class Laws(unittest.TestCase):
    """What holds of each run."""

    def check_run(self, made):
        outcome = outcome_of(made)
        self.check_cards(made)
        self.check_numbers(outcome)
        self.check_delivery(outcome)
        self.check_length(made)
        self.check_reference(outcome)
        self.check_queues(made)
        self.check_packets(outcome)

    def check_cards(self, made):
        """The cards word for word post the same."""
        if made.plan.slots < 200 and made.plan.ports < 9:
            served = [[served_part(slot.match, port) for slot in made.slots] for port in range(made.plan.ports)]
            for port, packets in enumerate(made.plan.cards):
                card = LiteralCard(port, made.plan.depth, packets, served[port])
                for number, slot in enumerate(made.slots):
                    expected = Post(slot.rows[port], slot.cells[port], slot.mores[port])
                    self.assertEqual(card.post(made.plan.ports, number), expected)
                admitted = [number for number in range(len(packets)) if card.is_admitted(number)]
                self.assertEqual(admitted, made.admitted[port])

    def check_numbers(self, outcome):
        summary, admitted = summary_of(outcome), admitted_of(outcome.run)
        parts = summary.oversize + summary.unrouted + summary.dropped + summary.forwarded
        self.assertEqual(summary.packets, parts)
        self.assertEqual(summary.copies, sum(len(packet.fan) for _, packet in admitted))
        self.assertEqual(summary.cells, sum(packet.cells * len(packet.fan) for _, packet in admitted))

    def check_delivery(self, outcome):
        """Each flow is whole and in order at each output; one message is ended in a slot."""
        for output, delivered in enumerate(outcome.delivered):
            found, expected = {}, {}
            for it in delivered:
                found.setdefault((it.input, it.level, it.kind), []).append(it.message)
            for port, packet in admitted_of(outcome.run):
                if output in packet.fan:
                    expected.setdefault((port, packet.level, packet.kind()), []).append(message_of(packet.packet))
            self.assertEqual(found, expected)
            slots = [it.slot for it in delivered]
            self.assertEqual(slots, sorted(set(slots)))
            for _, cell in outcome.crossed[output]:
                self.assertEqual(read_cell(cell_bytes(cell)), cell)

    def check_length(self, made):
        """The run is no longer than arrivals and admitted cells allow, and each slot with a request matches
        something."""
        cells = sum(packet.cells * len(packet.fan) for _, packet in admitted_of(made))
        self.assertLessEqual(len(made.slots), made.plan.slots + cells + 1)
        for slot in made.slots:
            self.assertEqual(bool(slot.match), not all(row.is_empty() for row in slot.rows))

    def check_reference(self, outcome):
        """The ideal switch is never behind, gives a plain queue's cells, and gives all in the end."""
        for output, delivered in enumerate(outcome.delivered):
            came, ran, ideal = tracks_of(outcome.run, output)
            line = reference_line(outcome.run, output)
            waiting, given = 0, []
            for before, now in zip([0, *came], came):
                waiting += now - before
                given.append((given[-1] if given else 0) + (waiting > 0))
                waiting -= waiting > 0
            self.assertEqual(ideal, given)
            self.assertTrue(all(first >= second for first, second in zip(ideal, ran)))
            self.assertEqual({ideal[-1], ran[-1]}, {came[-1]})
            self.assertEqual(line.runs, max((it.slot for it in delivered), default=0))
            self.assertTrue(line.ends <= line.runs and 0 <= line.lead <= line.extra)

    def check_queues(self, made):
        """The lines of queues; word for word where that is quick."""
        lines, plan = queue_lines(made), made.plan
        summary = summary_of(outcome_of(made))
        counts = [sum(line[place] for line in lines.values()) for place in (0, 1)]
        self.assertEqual(counts, [summary.dropped + summary.forwarded, summary.dropped])
        self.assertEqual(list(lines), sorted(lines))
        for (port, name), line in lines.items():
            self.assertTrue(line.packets >= 1 and line.peak <= min(plan.depth, line.cells))
            self.assertEqual(line.peak == 0, line.dropped == line.packets)
            admitted = [plan.cards[port][number] for number in made.admitted[port]]
            self.assertIn(line.slot, [packet.arrival for packet in admitted if queue_of(packet) == name] or [0])
        if plan.slots < 200 and plan.ports < 9:
            self.assertEqual({place: line[3:] for place, line in lines.items() if line.peak}, self.literal_peaks(made))

    def literal_peaks(self, made):
        """The most cells in each queue and the first slot with so many, by cards word for word."""
        peaks = {}
        for port, packets in enumerate(made.plan.cards):
            card = LiteralCard(port, made.plan.depth, packets, [served_part(slot.match, port) for slot in made.slots])
            for name in {queue_of(packets[number]) for number in made.admitted[port]}:
                lengths = [len(card.queue(name, slot)) for slot in range(len(made.slots))]
                peaks[port, name] = max(lengths), lengths.index(max(lengths))
        return peaks

    def check_packets(self, outcome):
        """The packets file as its reader sees it."""
        plan, summary = outcome.run.plan, summary_of(outcome)
        head, *lines = packets_text(outcome).splitlines()
        rows = [dict(zip(HEADER.split(","), line.split(","))) for line in lines]
        self.assertTrue(head == HEADER and all(line.count(",") == 10 for line in lines))
        order = [(int(row["input"]), int(row["packet"]), int(row["output"] or -1)) for row in rows]
        self.assertEqual(order, sorted(set(order)))
        states = {}
        departed = [[] for _ in range(plan.ports)]
        for row, (port, number, output) in zip(rows, order):
            packet = plan.cards[port][number]
            states[port, number] = row["state"]
            self.check_row(row, packet, output)
            if row["state"] == "forwarded":
                departed[output].append((int(row["departure"]), 1_000 * port + number))
        self.assertEqual(len(states), summary.packets)
        for state in ("oversize", "unrouted", "dropped", "forwarded"):
            self.assertEqual(list(states.values()).count(state), getattr(summary, state))
        for output, leaving in enumerate(departed):
            messages = [it.message for it in outcome.delivered[output]]
            records = read_capture(capture_bytes(messages, plan.is_nano, plan.link)).packets
            self.assertEqual([it.original for it in records], [mark for _, mark in sorted(leaving)])
            self.assertEqual([slot for slot, _ in sorted(leaving)], [it.slot for it in outcome.delivered[output]])

    def check_row(self, row, packet, output):
        numbers = tuple(int(row[name]) for name in ("bytes", "cells", "arrival"))
        self.assertEqual(numbers, (len(packet.packet.data), packet.cells, packet.arrival))
        rank = (row["level"], row["kind"])
        if packet.what != ROUTED:
            self.assertEqual((row["state"], *rank, row["output"], row["departure"]), (packet.what, "", "", "", ""))
            return
        self.assertIn(output, packet.fan)
        self.assertEqual(rank, (str(packet.level), LETTERS[packet.kind()]))
        if row["state"] == "dropped":
            self.assertEqual((row["departure"], row["delay"]), ("", ""))
            return
        self.assertEqual(int(row["departure"]) - packet.arrival, int(row["delay"]))
        self.assertGreaterEqual(int(row["delay"]), packet.cells)


def queue_of(packet):
    """The queue that a planned packet is for."""
    return queue_for(packet.fan, packet.level)


class AtRandom(Laws):
    def test_runs(self):
        rng, seen = random.Random(21), {"dropped": 0, "waited": 0, "multicast": 0}
        for number in range(30):
            table, inputs, settings = random_job(rng, is_big=number % 10 == 7)
            plan = marked(plan_files(settings, table, inputs))
            for scheduler in SCHEDULERS.values():
                made = run_plan(plan, scheduler)
                self.check_run(made)
                summary = summary_of(outcome_of(made))
                seen["dropped"] += bool(summary.dropped)
                seen["waited"] += any(summary.longest)
                seen["multicast"] += summary.copies > summary.forwarded
        self.assertGreater(min(seen.values()), 9)

    def test_whole_runs_word_for_word(self):
        rng = random.Random(22)
        for _ in range(10):
            table, inputs, settings = random_job(rng)
            plan = plan_files(settings._replace(pace=None), table, inputs)
            for scheduler in SCHEDULERS.values():
                made = run_plan(plan, scheduler)
                slots, admitted = literal_run(plan, scheduler)
                posts = [[Post(*post) for post in zip(slot.rows, slot.cells, slot.mores)] for slot in made.slots]
                expected = [(post, slot.match) for post, slot in zip(posts, made.slots)]
                self.assertEqual((slots, admitted), (expected, made.admitted))

    def test_made_input(self):
        for seed, count, ports, scheduler in ((3, 12, 1, islip), (5, 6, 3, firm), (2, 1, 33, rrm)):
            made = made_input(seed, count, ports)
            plan = marked(plan_files(Settings(), made.table, made.captures))
            self.check_run(run_plan(plan, scheduler))

    def test_depth_that_a_run_needs(self):
        """With a depth below the deepest queue something is dropped; with each other one the run is the same."""
        rng, most = random.Random(24), 0
        for number in range(12):
            table, inputs, settings = busy_job(rng) if number % 2 else random_job(rng)
            plan = plan_files(settings._replace(depth=MOST_DEPTH, pace=None), table, inputs)
            for scheduler in SCHEDULERS.values():
                made = run_plan(plan, scheduler)
                needed = deepest(queue_lines(made))
                most = max(most, needed)
                for depth in sorted({1, needed // 2, needed - 1, needed, needed + 1, MOST_DEPTH - 1} - {0, -1}):
                    other = run_plan(plan._replace(depth=depth), scheduler)
                    self.assertEqual(any(other.dropped), depth < needed)
                    self.assertTrue(depth < needed or other[1:] == made[1:])
        self.assertGreater(most, 15)

    def test_cards_in_any_order_make_the_run(self):
        rng = random.Random(6)
        for _ in range(15):
            table, inputs, settings = random_job(rng, most_ports=3)
            plan = plan_files(settings._replace(pace=None), table, inputs)
            made = run_plan(plan)
            history = History(plan.ports, plan.rounds, plan.slots + plan.cells + 1)
            taken = drive(rng, history, plan)
            self.assertEqual([it.match for it in history.decisions], [slot.match for slot in made.slots])
            for number, slot in enumerate(made.slots):
                posts = [posts[number] for posts in history.posts]
                self.assertEqual(posts, [Post(*post) for post in zip(slot.rows, slot.cells, slot.mores)])
            crossed = [[(it.slot, it.cell) for it in part if it.cell is not None] for part in taken]
            self.assertEqual(crossed, [list(map(tuple, cells)) for cells in crossings(made)])


def drive(rng, history, plan):
    """Drives cards in any order until all are done, and answers what each took."""
    cards = [Card(port, plan.depth, packets) for port, packets in enumerate(plan.cards)]
    while not all(history.is_done(port) for port in range(plan.ports)):
        port = rng.randrange(plan.ports)
        slot = len(history.takes[port])
        if history.may_take(port):
            cards[port].take(history.take(port).served)
        elif len(history.posts[port]) == slot and not history.is_done(port):
            history.post(port, cards[port].post(slot))
    return history.takes


class ByHand(unittest.TestCase):
    def test_two_cells_arrive_where_two_wait(self):
        other = "1>0:0u packets 1 dropped 0 cells 3 peak 3 slot 2"
        for depth, line, rows in (
            (4, "0>0:0u packets 2 dropped 0 cells 5 peak 4 slot 4",
             ["0,0,100,3,forwarded,0,u,0,2,7,5", "0,1,60,2,forwarded,0,u,0,4,10,6", "1,0,100,3,forwarded,0,u,0,2,8,6"]),
            (3, "0>0:0u packets 2 dropped 1 cells 3 peak 3 slot 2",
             ["0,0,100,3,forwarded,0,u,0,2,7,5", "0,1,60,2,dropped,0,u,0,4,,", "1,0,100,3,forwarded,0,u,0,2,8,6"]),
        ):
            ended = run(b"* 0\n", FILLING, f"--queues --packets --depth {depth}")
            self.assertEqual(ended.report()[2:], [f"queue {line}", f"queue {other}", f"deepest {depth}"])
            self.assertEqual(ended.files["out.packets.csv"].decode().splitlines(), [HEADER, *rows])

    def test_multicast_is_served_in_parts(self):
        """The head leaves for outputs 0 and 2 in slot 0, for 1 in slot 1, and counts as one cell in both."""
        ended = run(HEAD_TABLE, HEAD, "--rounds 1 --slots --queues --reference --packets")
        lines = "0>*:0m packets 1 dropped 0 cells 1 peak 1 slot 0", "1>1:0u packets 2 dropped 0 cells 2 peak 1 slot 0"
        self.assertEqual(ended.report()[3:6], [*(f"queue {line}" for line in lines), "deepest 1"])
        kinds = ["output"] * 3 + ["queue"] * 2 + ["deepest"] + ["slot"] * 4 + ["reference"] * 3
        self.assertEqual([line.split()[0] for line in ended.report()], kinds)
        inputs = [capture(raw(20, "10.0.9.1"), raw(20, "10.0.9.1")), capture(TO_1), capture()]
        waiting = waiting_cells(run_of(HEAD_TABLE, inputs, rounds=1))
        counts = [{place: len(cells) for place, cells in it.items()} for it in waiting]
        head, other = (0, QueueName(MULTICAST, -1, 0)), (1, QueueName(UNICAST, 1, 0))
        self.assertEqual(counts[:2], [{head: 1, other: 1}, {head: 2}])

    def test_all_states(self):
        inputs = [
            capture(raw(100, "192.0.2.1"), raw(100, "10.0.9.1"), raw(65_536, "10.0.0.1"), TO_1),
            capture(b"", raw(41, "10.0.9.2"), raw(40, "10.0.9.3")), capture(),
        ]
        ended = run(HEAD_TABLE, inputs, "--depth 2 --queues --packets")
        rows = [
            "0,0,100,3,unrouted,,,,2,,", *(f"0,1,100,3,dropped,0,m,{output},5,," for output in range(3)),
            "0,2,65536,1171,oversize,,,,1176,,", "0,3,20,1,forwarded,0,u,1,1177,1178,1", "1,0,0,1,unrouted,,,,0,,",
            *(f"1,1,41,2,forwarded,0,m,{output},2,4,2" for output in range(3)),
            *(f"1,2,40,1,forwarded,0,m,{output},3,5,2" for output in range(3)),
        ]
        self.assertEqual(ended.files["out.packets.csv"].decode().splitlines()[1:], rows)
        queues = (
            "0>1:0u packets 1 dropped 0 cells 1 peak 1 slot 1177", "0>*:0m packets 1 dropped 1 cells 0 peak 0 slot 0",
            "1>*:0m packets 2 dropped 0 cells 3 peak 2 slot 2",
        )
        self.assertEqual(ended.report()[3:], [*(f"queue {line}" for line in queues), "deepest 2"])

    def test_reference(self):
        new_request = [run_of(b"* 0\n", FILLING, depth=depth) for depth in (4, 3)]
        self.assertEqual(reference_line(new_request[0], 0), (10, 10, 0, 0))
        self.assertEqual(reference_line(new_request[0], 1), (0, 0, 0, 0))
        self.assertEqual(reference_line(new_request[1], 0), (8, 8, 0, 0))

    def test_board(self):
        """Each card posts once for a slot and takes it once all have posted; what it was not served with it asks
        again."""
        plan = plan_of(HEADS_TABLE, HEADS, rounds=1)
        cards = [Card(port, plan.depth, packets) for port, packets in enumerate(plan.cards)]
        history = History(3, 1, 10)
        posts = [card.post(0) for card in cards]
        history.post(2, posts[2])
        history.post(0, posts[0])
        self.assertEqual((history.posted(), history.may_post(0, posts[0]), history.may_take(0)), ({0, 2}, False, False))
        history.post(1, posts[1])
        part = history.take(1)
        self.assertEqual((part.slot, part.served.outputs, part.cell, part.is_last), (0, {2}, None, False))
        self.assertFalse(history.may_post(1, Post(EMPTY_ROW, None, False)))
        cards[1].take(part.served)
        self.assertTrue(history.may_post(1, cards[1].post(1)))
