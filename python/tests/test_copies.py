"""Copied and pickled pointers and schedulers decide as the ones that they were made from, and no copy moves another."""

import copy
import pickle
import subprocess
import sys
from pathlib import Path

import known_rows
import needs
import pytest

needs.library()

import numpy  # noqa: E402

from tiny_tera.scheduling import LEVELS, MAX_PORTS, UNICAST, Pointers, Scheduler, sets  # noqa: E402

PACKAGE = Path(__file__).resolve().parents[1]


def pickled(it):
    return pickle.loads(pickle.dumps(it))


def pickled_apart(it):
    """By a pickle whose arrays stand apart, in bytes that cannot be written."""
    apart = []
    data = pickle.dumps(it, protocol=5, buffer_callback=apart.append)
    return pickle.loads(data, buffers=[bytes(buffer) for buffer in apart])


WAYS = pytest.mark.parametrize("way", [copy.copy, copy.deepcopy, pickled, pickled_apart, lambda it: it.copy()])


@WAYS
def test_pointers_stay_views(way):
    """What is written to the views of a copy is read by the call, and what the call writes is seen there."""
    pointers = way(Pointers())
    pointers.grant[0, 0] = 2
    scheduler = Scheduler(3, 1, pointers=pointers)
    scheduler.rows[:, UNICAST, 0] = 1
    scheduler.decide()
    assert scheduler.pairs() == [(2, 0)]
    assert pointers.grant[0, 0] == 0 and pointers.accept[0, 2] == 1


@WAYS
def test_pointers_of_their_own(way):
    pointers = Pointers()
    pointers.grant[1, 63], pointers.accept[3, 0], pointers.shared[2] = 5, 6, 7
    made = way(pointers)
    assert made.words.tolist() == pointers.words.tolist()
    made.shared[2] = 1
    assert pointers.shared.tolist() == [0, 0, 7, 0]


@WAYS
def test_schedulers_go_on(way):
    """Each slot of the outside schedules is decided by a copy of the scheduler that decided the slot before."""
    for case in known_rows.schedules():
        scheduler = Scheduler(case.ports, case.rounds)
        for rows, feeds, used, shared in case.slots:
            scheduler = way(scheduler)
            scheduler.rows[:] = numpy.array(rows, dtype=numpy.uint64).reshape(case.ports, 2, LEVELS)
            scheduler.decide()
            again = way(scheduler)
            found = again.feeds.tolist(), list(again.rounds_used()), again.pointers.shared.tolist()
            assert found == (feeds, used, shared), (case.name, scheduler.slot)


@WAYS
@pytest.mark.parametrize("rule, second", [("islip", [(1, 0), (0, 1)]), ("firm", [(1, 0), (0, 1)]), ("rrm", [(1, 0)])])
def test_schedulers_of_their_own(way, rule, second):
    """Two ports, all queues full, one round: the second slot has two pairs, but one by round-robin matching."""
    scheduler = Scheduler(2, 1, rule)
    scheduler.rows[:, UNICAST, 0] = sets(numpy.ones((2, 2)))
    scheduler.decide()
    made = way(scheduler)
    made.decide()
    assert (made.pairs(), made.slot, made.rule, made.ports) == (second, 2, rule, 2)
    assert (scheduler.pairs(), scheduler.slot) == ([(0, 0)], 1)
    assert scheduler.pointers.accept[0].tolist()[:2] == [1, 0]


def test_schedulers_share_what_is_copied_with_them():
    pointers = Pointers()
    for way in (copy.deepcopy, pickled):
        made, one, other = way((pointers, Scheduler(2, pointers=pointers), Scheduler(2, pointers=pointers)))
        assert one.pointers is made and other.pointers is made


def test_in_another_process(tmp_path):
    """The process that unpickles a scheduler finds the library by itself."""
    scheduler = Scheduler(2, 1, "firm")
    scheduler.rows[:, UNICAST, 0] = 3
    scheduler.decide()
    file = tmp_path / "scheduler"
    file.write_bytes(pickle.dumps(scheduler))
    code = f"import pickle; it = pickle.load(open({str(file)!r}, 'rb')); it.decide(); print(it.pairs(), it.slot)"
    words = [sys.executable, "-c", f"import sys; sys.path.insert(0, {str(PACKAGE)!r}); {code}"]
    assert subprocess.run(words, check=True, stdout=subprocess.PIPE, text=True).stdout == "[(1, 0), (0, 1)] 2\n"


def test_set_pointers():
    """A setting changes the words in place; the array that was set stays the caller's."""
    pointers = Pointers()
    scheduler = Scheduler(3, 1, pointers=pointers)
    scheduler.rows[:, UNICAST, 0] = 1
    words = numpy.zeros(516, dtype=numpy.uint32)
    words[0] = 2
    pointers.words = words
    scheduler.decide()
    assert scheduler.pairs() == [(2, 0)] and words[0] == 2
    pointers.grant = numpy.ones((LEVELS, MAX_PORTS), dtype=int)
    pointers.accept += 1
    pointers.shared = [0, 1, 2, 2]
    scheduler.decide()
    assert scheduler.pairs() == [(1, 0)] and pointers.words[-4:].tolist() == [0, 1, 2, 2]


@pytest.mark.parametrize("wrong", [[-1, 0, 0, 0], [2**32, 0, 0, 0], [0.0] * 4, [True, "x", 0, 0], [0] * 5, 0, [[0]] * 4])
def test_pointers_that_are_none(wrong):
    pointers = Pointers()
    with pytest.raises(ValueError):
        pointers.shared = wrong
    with pytest.raises(ValueError):
        pointers.shared = numpy.array(wrong)
    assert not pointers.words.any()


def test_what_a_scheduler_is_made_with():
    """What could not take effect is refused."""
    for name, value in (("ports", 3), ("rule", "firm"), ("rows", []), ("pointers", Pointers()), ("feeds", [])):
        with pytest.raises(AttributeError):
            setattr(Scheduler(2), name, value)
