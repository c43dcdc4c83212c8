"""Tests of rounds and of the three schedulers, in single slots and schedules."""

import random
import unittest

from .literal import LiteralRound
from .ports import LEVELS, first_from, next_port
from .rounds import Pointers, is_maximal, make_round
from .rows import EMPTY_ROW, MULTICAST, UNICAST, Entry, row_of
from .samples import entries, pairs, random_pointers, random_row
from .schedulers import SCHEDULERS, islip, islip_slot, rrm, schedule

BY_NAME = sorted(SCHEDULERS.items())


def random_slot(rng, most_ports):
    """A number of ports and of rounds, a slot, rows and pointers."""
    ports, rounds, slot = rng.randint(1, most_ports), rng.randint(1, most_ports + 1), rng.randrange(4)
    density = rng.choice((0.1, 0.3, 0.6))
    rows = [random_row(rng, ports, density=density) for _ in range(ports)]
    return ports, rounds, slot, rows, random_pointers(rng, ports)


class OneLevel(unittest.TestCase):
    def test_full_load_reaches_a_match_of_all_ports(self):
        three = [{(0, 0)}, {(0, 1), (1, 0)}, {(0, 0), (1, 1)}, {(0, 1), (1, 0)}]
        four = [{(0, 0)}, {(0, 1), (1, 0)}, {(0, 2), (1, 1), (2, 0)}, {(0, 0), (1, 2), (2, 1)}]
        for ports, expected in ((2, three), (3, four)):
            grant = accept = [0] * ports
            for match in expected:
                slot = islip_slot(ports, 1, [range(ports)] * ports, grant, accept)
                grant, accept = slot.grant, slot.accept
                self.assertEqual({(port, output) for output, port in enumerate(slot.fed) if port is not None}, match)
            rows = [row_of({0: range(ports)})] * ports
            self.assertEqual([pairs(it.match) for it in schedule(ports, 1, [rows] * 4)], expected)

    def test_pair_of_a_later_round_moves_no_pointer(self):
        self.assertEqual(islip_slot(2, 2, [{0, 1}] * 2, [0] * 2, [0] * 2), ([0, 1], (2, 1, 1), [1, 0], [1, 0]))
        made = islip_slot(3, 2, [{0, 1, 2}] * 3, [0] * 3, [0] * 3)
        self.assertEqual(made, ([0, 1, None], (2, 1, 1), [1, 0, 0], [1, 0, 0]))


class Multicast(unittest.TestCase):
    ROWS = [row_of(multicast={0: {1, 2}}), row_of({0: {0, 2}}), EMPTY_ROW]

    def test_head_goes_on_in_later_rounds(self):
        decision = islip(3, 2, 0, self.ROWS, Pointers(3))
        self.assertEqual(decision.match, entries("0>1:0m 0>2:0m 1>0:0u"))
        self.assertEqual((decision.used, decision.first, decision.last_added), (2, 2, 1))
        after = decision.pointers
        self.assertEqual((after.shared[0], after.grant[0, 0], after.accept[1, 0]), (1, 2, 1))
        self.assertTrue(is_maximal(3, self.ROWS, decision.match))

    def test_head_is_split_with_one_round(self):
        decision = islip(3, 1, 0, self.ROWS, Pointers(3))
        self.assertEqual(decision.match, entries("0>1:0m 1>0:0u"))
        self.assertFalse(is_maximal(3, self.ROWS, decision.match))
        self.assertEqual(decision.pointers.shared[0], 0)

    def test_outputs_pick_from_the_shared_pointer(self):
        rows = [row_of(multicast={2: {0, 1}})] * 2 + [EMPTY_ROW]
        first = islip(3, 1, 0, rows, Pointers(3, shared={2: 1}))
        self.assertEqual(first.match, entries("1>0:2m 1>1:2m"))
        self.assertEqual(first.pointers, Pointers(3, shared={2: 2}))
        second = islip(3, 1, 1, rows, first.pointers)
        self.assertEqual((second.match, second.pointers.shared[2]), (entries("0>0:2m 0>1:2m"), 1))

    def test_shared_pointer_waits_for_the_first_head(self):
        rows = [row_of(multicast={0: {0, 1}}), row_of(multicast={0: {2}}), row_of({0: {0}})]
        decision = islip(3, 1, 0, rows, Pointers(3))
        self.assertEqual((decision.match, decision.pointers.shared[0]), (entries("2>0:0u 0>1:0m 1>2:0m"), 0))


class RefusedGrants(unittest.TestCase):
    ROWS = [EMPTY_ROW, row_of({0: {0, 1}}), row_of({0: {0}})]

    def test_output_0_grants_input_1_which_takes_output_1(self):
        for name, grant in (("islip", 0), ("firm", 1), ("rrm", 2)):
            decision = SCHEDULERS[name](3, 1, 2, self.ROWS, Pointers(3, accept={(1, 0): 1}))
            after = Pointers(3, grant={(0, 0): grant, (1, 0): 2}, accept={(1, 0): 2})
            self.assertEqual((decision.match, decision.pointers), (entries("1>1:0u"), after))

    def test_better_level_or_preferred_kind_refuses(self):
        decision = rrm(2, 2, 0, [row_of({0: {0}, 1: {1}}), EMPTY_ROW], Pointers(2))
        after = decision.pointers
        self.assertEqual((decision.match, after.grant[1, 1], after.accept[0, 1]), (entries("0>0:0u"), 1, 0))
        decision = rrm(2, 2, 1, [row_of({0: {0}}, {0: {1}}), EMPTY_ROW], Pointers(2))
        after = decision.pointers
        self.assertEqual((decision.match, after.grant[0, 0], after.accept[0, 0]), (entries("0>1:0m"), 1, 0))
        self.assertEqual(after.shared[0], 1)

    def test_multicast_and_later_rounds_move_no_grant_pointer(self):
        decision = rrm(2, 1, 1, [row_of({}, {0: {0}}), EMPTY_ROW], Pointers(2))
        self.assertEqual(decision.pointers, Pointers(2, shared={0: 1}))
        decision = rrm(2, 2, 0, [row_of({0: {0, 1}})] * 2, Pointers(2))
        self.assertEqual(decision.match, entries("0>0:0u 1>1:0u"))
        self.assertEqual(decision.pointers, Pointers(2, grant={(0, 0): 1, (1, 0): 1}, accept={(0, 0): 1}))

    def test_full_load_of_two_ports(self):
        rows = [row_of({0: {0, 1}})] * 2
        alternate = [{(0, 1), (1, 0)}, {(0, 0), (1, 1)}]
        self.assertEqual([pairs(it.match) for it in schedule(2, 1, [rows] * 9)], [{(0, 0)}, *alternate * 4])
        one_each = [{(0, 0)}, {(1, 0)}, {(0, 1)}, {(1, 1)}]
        self.assertEqual([pairs(it.match) for it in schedule(2, 1, [rows] * 8, rrm)], one_each * 2)


class AtRandom(unittest.TestCase):
    def test_rounds_are_those_word_for_word(self):
        rng = random.Random(2)
        for _ in range(300):
            ports, _, slot, rows, pointers = random_slot(rng, 5)
            matched = []
            for _ in range(ports):
                made = make_round(ports, slot, rows, pointers, matched)
                literal = LiteralRound(ports, slot, rows, pointers, matched)
                granted = {Entry(feed.input, output, *feed[1:]) for output, feed in made.grants.items()}
                self.assertEqual((granted, set(made.accepted)), (literal.grants, literal.accepted))
                matched += made.accepted

    def test_matches_and_their_numbers(self):
        """No port is matched twice but a multicast input; a match has what rows name; when it is maximal."""
        rng = random.Random(3)
        for _ in range(300):
            ports, rounds, slot, rows, pointers = random_slot(rng, 6)
            for _, scheduler in BY_NAME:
                decision = scheduler(ports, rounds, slot, rows, pointers)
                self.check_match(ports, rows, decision.match)
                self.assertEqual(decision.last_added > 0, decision.used == rounds)
                self.assertTrue(decision.first > 0 or all(row.is_empty() for row in rows))
                if decision.last_added == 0 or rounds >= ports:
                    self.assertTrue(is_maximal(ports, rows, decision.match))

    def check_match(self, ports, rows, match):
        self.assertEqual(len({entry.output for entry in match}), len(match))
        for port in range(ports):
            mine = [entry for entry in match if entry.input == port]
            self.assertTrue(len(mine) <= 1 or {entry.kind for entry in mine} == {MULTICAST})
            self.assertLessEqual(len({entry[2:] for entry in mine}), 1)
            self.assertTrue(all(entry.output in rows[port].of_kind(entry.kind)[entry.level] for entry in mine))

    def test_pointers_one_by_one(self):
        rng = random.Random(4)
        for _ in range(200):
            ports, rounds, slot, rows, before = random_slot(rng, 6)
            first = LiteralRound(ports, slot, rows, before, ())
            for name, scheduler in BY_NAME:
                decision = scheduler(ports, rounds, slot, rows, before)
                expected = Pointers(
                    ports, self.grants_after(name, before, first), self.accepts_after(before, first),
                    self.shared_after(ports, rows, before, decision.match),
                )
                self.assertEqual(decision.pointers, expected)

    def grants_after(self, name, before, first):
        moved = dict(before.grant)
        for output, level in before.grant:
            mine = {it for it in first.grants if it[1:] == (output, level, UNICAST)}
            self.assertLessEqual(len(mine), 1)
            for grant in mine:
                if grant in first.accepted or name == "rrm":
                    moved[output, level] = next_port(before.ports, grant.input)
                elif name == "firm":
                    moved[output, level] = grant.input
        return moved

    def accepts_after(self, before, first):
        won = {(it.input, it.level): next_port(before.ports, it.output) for it in first.accepted if it.kind == UNICAST}
        return {**before.accept, **won}

    def shared_after(self, ports, rows, before, match):
        shared = dict(before.shared)
        for level in range(LEVELS):
            heads = {port for port in range(ports) if rows[port].multicast[level]}
            first = first_from(ports, shared[level], heads)
            served = {it.output for it in match if (it.input, *it[2:]) == (first, level, MULTICAST)}
            if heads and served == rows[first].multicast[level]:
                shared[level] = next_port(ports, first)
        return shared
