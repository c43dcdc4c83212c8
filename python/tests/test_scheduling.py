"""The schedulers against the outside vectors, and what they refuse."""

import itertools

import known_rows
import needs
import pytest

needs.library()

import numpy  # noqa: E402

from tiny_tera import scheduling  # noqa: E402
from tiny_tera.library import Refused  # noqa: E402
from tiny_tera.scheduling import FEED, MULTICAST, NONE, UNICAST, Pointers, Scheduler  # noqa: E402


def rows_of(sets):
    """Rows as arrays, of eight sets for each input."""
    return numpy.array(sets, dtype=numpy.uint64).reshape(len(sets), 2, 4)


def feeds_of(feeds):
    return numpy.array(feeds, dtype=FEED)


def pointers_of(grant, accept, shared):
    made = Pointers()
    made.grant[:], made.accept[:], made.shared[:] = grant, accept, shared
    return made


def test_unicast_rows():
    rows = list(known_rows.unicast_rows())
    for row in rows:
        grant, accept = (numpy.array(at, dtype=numpy.uint32) for at in (row.grant, row.accept))
        found = scheduling.islip_slot(row.asks, grant, accept, row.rounds)
        assert found.fed.tolist() == row.fed, row.name
        assert list(found.rounds) == row.used, row.name
        assert (grant.tolist(), accept.tolist()) == (row.grant_after, row.accept_after), row.name
    assert len(rows) == 421


def test_decision_rows():
    rows = list(known_rows.decision_rows())
    for row in rows:
        pointers = pointers_of(row.grant, row.accept, row.shared)
        found = scheduling.decide(rows_of(row.rows), pointers, row.slot, row.rounds)
        assert found.feeds.tolist() == row.feeds, row.name
        assert list(found.rounds) == row.used, row.name
        after = pointers_of(row.grant_after, row.accept_after, row.shared_after)
        assert pointers.words.tolist() == after.words.tolist(), row.name
    assert len(rows) == 244


def test_schedules():
    count = 0
    for case in known_rows.schedules():
        scheduler = Scheduler(case.ports, case.rounds)
        for sets, feeds, used, shared in case.slots:
            scheduler.rows[:] = rows_of(sets)
            found = scheduler.decide().tolist(), list(scheduler.rounds_used()), scheduler.pointers.shared.tolist()
            assert found == (feeds, used, shared), (case.name, scheduler.slot)
            count += 1
    assert count == 145


def test_schedules_in_one_call():
    """The slots of each schedule in one call: what is stated of each, and the shared pointers after the last."""
    for case in known_rows.schedules():
        scheduler = Scheduler(case.ports, case.rounds)
        found = scheduler.decide_many([rows_of(sets) for sets, *_ in case.slots])
        stated = [feeds for _, feeds, *_ in case.slots], [tuple(used) for _, _, used, _ in case.slots]
        assert (found.feeds.tolist(), found.rounds.tolist()) == stated, case.name
        assert scheduler.pointers.shared.tolist() == case.slots[-1][-1], case.name


@pytest.mark.parametrize("rule", scheduling.RULES)
@pytest.mark.parametrize("ports", [1, 2, 3, 5, 16, 33, 64])
def test_many_slots(rule, ports):
    """Random rows of all levels and kinds, sparse and full, in calls of none, one and many slots: as slot by slot."""
    random = numpy.random.default_rng(ports)
    one, many = Scheduler(ports, rounds=1 + ports % 4, rule=rule), Scheduler(ports, rounds=1 + ports % 4, rule=rule)
    one.slot = many.slot = 2**32 - 7
    for density, slots in ((0.9, 5), (0.02, 0), (0.1, 1), (0.02, 9), (0.3, 30)):
        rows = scheduling.sets(random.random((slots, ports, 2, 4, ports)) < density)
        found = many.decide_many(rows)
        for at in range(slots):
            one.rows[:] = rows[at]
            assert one.decide().tolist() == found.feeds[at].tolist()
            assert one.rounds_used() == tuple(found.rounds[at].tolist())
        assert one.slot == many.slot
        assert (one.pairs(), one.rounds_used()) == (many.pairs(), many.rounds_used())
        assert one.pointers.words.tolist() == many.pointers.words.tolist()


def test_refused_many_slots():
    """A set beyond the ports in the last slot, a pointer beyond them, and numbers of rounds; nothing changes then."""
    for rounds, outputs, port in ((1, 4, 0), (1, 3, 2), (0, 3, 0), (65, 3, 0), (-1, 3, 0)):
        scheduler = Scheduler(2, rounds)
        scheduler.feeds["input"] = 7
        scheduler.pointers.accept[1, 1] = port
        rows = numpy.zeros((3, 2, 2, 4), dtype=numpy.uint64)
        rows[:2], rows[2, 1, MULTICAST, 3] = 3, outputs
        before = scheduler.pointers.words.tolist()
        with pytest.raises(Refused):
            scheduler.decide_many(rows)
        assert scheduler.pointers.words.tolist() == before and scheduler.slot == 0
        assert scheduler.feeds["input"].tolist() == [7, 7] and scheduler.rounds_used() == (0, 0, 0)


def test_many_rows_of_another_form():
    """Lists are taken, and every other order of an array; no other shape, and nothing that the call changes."""
    scheduler, plain = Scheduler(2), numpy.zeros((3, 2, 2, 4), dtype=numpy.uint64)
    plain[:, :, UNICAST, 0] = 3
    wanted = Scheduler(2).decide_many(plain).feeds.tolist()
    for rows in (plain.tolist(), numpy.asfortranarray(plain), plain.astype(numpy.uint8)):
        assert Scheduler(2).decide_many(rows).feeds.tolist() == wanted
    pointers = scheduler.pointers.words[:512].view(numpy.uint64).reshape(16, 2, 2, 4)
    for rows in ([], plain[0], plain[:, :1], plain.reshape(3, 2, 4, 2), plain.astype(float), -plain.astype(int), pointers):
        with pytest.raises(ValueError) as fault:
            scheduler.decide_many(rows)
        assert not isinstance(fault.value, Refused)
    assert scheduler.slot == 0


def test_maximal_rows():
    for row in known_rows.decision_rows():
        assert scheduling.is_maximal(rows_of(row.rows), feeds_of(row.feeds)) == row.maximal, row.name


@pytest.mark.parametrize("rule, name", [("islip", "longest_waits"), ("firm", "longest_waits_firm")])
def test_long_waits(rule, name):
    """Input 0 asks output 0 in each slot of a schedule, and is served in the last one alone."""
    for case in known_rows.long_waits(name):
        scheduler = Scheduler(case.ports, case.rounds, rule)
        scheduler.pointers.grant[0, 0] = case.grant_0
        scheduler.pointers.accept[0, : case.ports] = case.accept
        served = []
        for sets in case.slots:
            scheduler.rows[:, UNICAST, 0] = sets
            scheduler.decide()
            served.append((0, 0) in scheduler.pairs())
        assert served == [False] * (len(case.slots) - 1) + [True], case[:2]


def test_wait_rows():
    for case in known_rows.waits():
        meter = scheduling.WaitMeter(case.ports)
        for rows, feeds, longest in case.slots:
            meter.note(rows_of(rows), feeds_of(feeds))
            assert meter.longest.tolist() == longest, case.name
        assert meter.waits.max() <= max(longest), case.name


def test_full_load():
    """Full load of three ports in one round: in slots 0 and 1 some outputs grant the same input, from then on none do."""
    scheduler = Scheduler(3, rounds=1)
    scheduler.rows[:, UNICAST, 0] = scheduling.sets(numpy.ones((3, 3)))
    slots = []
    for _ in range(4):
        scheduler.decide()
        slots.append(scheduler.pairs())
    assert slots == [[(0, 0)], [(1, 0), (0, 1)], [(2, 0), (1, 1), (0, 2)], [(0, 0), (2, 1), (1, 2)]]
    assert scheduler.slot == 4 and scheduler.rounds_used() == (1, 3, 3)


def test_round_robin_matching():
    """Two ports, all queues full, one round: the grant pointers stay together, and each slot has one pair."""
    scheduler = Scheduler(2, rounds=1, rule="rrm")
    scheduler.rows[:, UNICAST, 0] = 0b11
    slots = []
    for _ in range(5):
        scheduler.decide()
        slots.append(scheduler.pairs())
        assert len(set(scheduler.pointers.grant[0, :2].tolist())) == 1
    assert slots == [[(0, 0)], [(1, 0)], [(0, 1)], [(1, 1)], [(0, 0)]]


def test_multicast():
    """One head for all outputs leaves at once; of two heads that share an output the first leaves whole."""
    scheduler = Scheduler(3, rounds=1)
    scheduler.rows[:2, MULTICAST, 0] = [0b011, 0b110]
    assert scheduler.decide().tolist() == [(0, 0, MULTICAST), (0, 0, MULTICAST), (1, 0, MULTICAST)]
    assert scheduler.pointers.shared.tolist() == [1, 0, 0, 0]


def test_sets():
    wanted = numpy.array([[True, False, True], [False, False, False]])
    assert scheduling.sets(wanted).tolist() == [5, 0]
    assert (scheduling.members([5, 0], 3) == wanted).all()
    assert scheduling.sets(numpy.ones(64)) == 2**64 - 1
    assert scheduling.members(2**63, 64).nonzero()[0].tolist() == [63]
    for wrong in (numpy.ones(65), True):
        with pytest.raises(ValueError):
            scheduling.sets(wrong)
    with pytest.raises(ValueError):
        scheduling.members([0], 65)


def test_refused_slots():
    """Rows, pointers, rounds and ports out of range; nothing changes then."""
    grant, accept = numpy.array([1, 0], dtype=numpy.uint32), numpy.array([0, 1], dtype=numpy.uint32)
    for asks, rounds in (([4, 0], 1), ([3, 3], 0), ([3, 3], 65), ([3, 3], -1), ([3, 3], 2**32 + 1), ([1, 1, 1], 1)):
        with pytest.raises(Refused):
            scheduling.islip_slot(asks, grant, accept, rounds)
    assert (grant.tolist(), accept.tolist()) == ([1, 0], [0, 1])
    for place, port in itertools.product(("grant", "accept", "shared"), (2, 64, NONE)):
        scheduler = Scheduler(2)
        scheduler.rows[:, UNICAST, 0] = 3
        scheduler.feeds["input"] = 7
        getattr(scheduler.pointers, place)[..., 1] = port
        before = scheduler.pointers.words.tolist()
        with pytest.raises(Refused):
            scheduler.decide()
        assert scheduler.pointers.words.tolist() == before and scheduler.slot == 0
        assert scheduler.feeds["input"].tolist() == [7, 7]


def test_refused_matches():
    rows = rows_of([[3, 0, 0, 0, 0, 0, 0, 0]] * 2)
    twice = feeds_of([(0, 0, 0), (0, 0, 0)])
    half = feeds_of([(0, 0, 0), (1, NONE, NONE)])
    beyond = feeds_of([(2, 0, 0), (NONE, NONE, NONE)])
    for feeds in (twice, half, beyond):
        with pytest.raises(Refused):
            scheduling.is_maximal(rows, feeds)
    meter = scheduling.WaitMeter(2)
    for feeds in (half, beyond):
        with pytest.raises(Refused):
            meter.note(rows, feeds)
    assert not meter.waits.any() and not meter.longest.any()


def test_arrays_of_another_form():
    """What ctypes would take and the library could not read is refused before the call."""
    words = numpy.zeros(2, dtype=numpy.uint32)
    for grant in ([0, 0], numpy.zeros(2), numpy.zeros(4, dtype=numpy.uint32)[::2]):
        with pytest.raises(ValueError):
            scheduling.islip_slot([3, 3], grant, words)
    with pytest.raises(ValueError):
        scheduling.islip_slot([3, 3], words, words)
    fixed = numpy.zeros(2, dtype=numpy.uint32)
    fixed.flags.writeable = False
    with pytest.raises(ValueError):
        scheduling.islip_slot([3, 3], fixed, words)
    for asks in ([-1, 3], [0.5, 3], [[3], [3]], []):
        with pytest.raises(ValueError):
            scheduling.islip_slot(asks, words, words.copy())
    for rows in (numpy.zeros((2, 4, 2), dtype=numpy.uint64), numpy.zeros(16, dtype=numpy.uint64)):
        with pytest.raises(ValueError):
            scheduling.decide(rows, Pointers(), 0)
    for wrong in ((0, 4, "islip"), (65, 4, "islip"), (4, 4, "other")):
        with pytest.raises(ValueError):
            Scheduler(*wrong)
