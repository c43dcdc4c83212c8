"""Journals that are made of slots: their bytes, and what is refused."""

from pathlib import Path

import pytest

import tiny_tera
from tiny_tera import journal_writer
from tiny_tera.journal import Fed, Post, read_journal
from tiny_tera.journal_writer import NONE, BadSlot, journal_bytes

numpy = pytest.importorskip("numpy")

TOP = Path(__file__).resolve().parents[2]
JOURNALS = sorted([*TOP.glob("examples/*/expected/*.journal"), *TOP.glob("tests/jobs/*/expected/*.journal")])
# Two ports: input 0 asks output 1 and is served, and the last slot is empty.
ONE_CELL = bytes.fromhex("54544a31 02 01 0000 00000002  01 01 0000000000000002  00 00  ff00 0000  0000 0000 ff00 ff00")
NO_SETS = [0, 0, 0, 0]


@pytest.mark.parametrize("name", JOURNALS, ids=lambda name: f"{name.parts[-3]}-{name.stem}")
def test_known_journals(name):
    """What is read of a journal makes the same journal."""
    data = name.read_bytes()
    found = read_journal(data)
    assert journal_bytes(found.rounds, found.slots()) == data


@pytest.mark.parametrize("slot", [
    ([2, 0], [None, 0]),
    ([([2, 0, 0, 0], NO_SETS), (NO_SETS, NO_SETS)], [None, (0, 0, 0)]),
    ([Post((2, 0, 0, 0), (0,) * 4, True), Post((0,) * 4, (0,) * 4, False)], [None, Fed(0, 0, False)]),
    (numpy.array([2, 0], dtype=numpy.uint64), numpy.array([NONE, 0], dtype=numpy.uint32)),
    (list(numpy.array([2, 0], dtype=numpy.uint64)), list(numpy.array([NONE, 0], dtype=numpy.int64))),
    (numpy.array([[[2, 0, 0, 0], NO_SETS], [NO_SETS, NO_SETS]], dtype=numpy.uint64),
     numpy.array([(NONE, NONE, NONE), (0, 0, 0)], dtype=[(name, numpy.uint32) for name in ("input", "level", "kind")])),
])
def test_forms_of_a_slot(slot, tmp_path):
    """Lists and arrays of all forms make the same bytes."""
    tiny_tera.write_journal(tmp_path / "one_cell", 1, [slot, ([0, 0], [None, None])])
    assert (tmp_path / "one_cell").read_bytes() == ONE_CELL


def test_levels_and_multicast():
    """Byte by byte: sets come by rising level, those of multicast last, and a rank is twice the level, and one more."""
    row = [0, 0, 0, 1], [0, 3, 0, 0]
    made = journal_bytes(64, iter([([row, 0], [(0, 1, 1), Fed(0, 1, True)])]))
    assert made[12:] == bytes.fromhex("28 01 0000000000000001 0000000000000003  00 00  0003 0003")
    assert made[:12] == b"TTJ1" + bytes.fromhex("02 40 0000 00000001")


def test_more():
    """An input has more up to the last slot in which it asks; a row that says so itself is written as it says."""
    free = [None, None]
    asked = [([0, 0], free), ([1, 0], free), ([0, 1], free), ([1, 0], free), ([0, 0], free)]
    posts = [slot.posts for slot in read_journal(journal_bytes(1, asked)).slots()]
    assert [[post.more for post in slot] for slot in posts] == [[1, 1], [1, 1], [1, 1], [1, 0], [0, 0]]
    told = [([Post((0,) * 4, (0,) * 4, True), 0], free), ([Post((1, 0, 0, 0), (0,) * 4, False), 0], free)]
    posts = [slot.posts for slot in read_journal(journal_bytes(1, told)).slots()]
    assert [[post.more for post in slot] for slot in posts] == [[1, 0], [0, 0]]


@pytest.mark.parametrize("rows, feeds, what", [
    ([4, 0], [None, None], "input 0 asks output 2 of 2"),
    ([0, -1], [None, None], "input 1: -1 is no set"),
    ([0, 1 << 64], [None, None], "input 1 asks output 64 of 2"),
    ([0, 0.5], [None, None], "input 1: a row is a set"),
    ([0, True], [None, None], "input 1: a row is a set"),
    ([0, ([0] * 3, NO_SETS)], [None, None], "input 1: a row has a set for each of 4 levels"),
    ([0, (NO_SETS, [0, 0, 0, 9])], [None, None], "input 1 asks output 3 of 2"),
    ([0, (NO_SETS, [0, 0, 0, "1"])], [None, None], "input 1: '1' is no set"),
    ([0, (NO_SETS, NO_SETS, 2)], [None, None], "input 1: more is to come or not, and not 2"),
    ([0], [None, None], "2 rows and feeds, and not 1 and 2"),
    ([0, 0], [None], "2 rows and feeds, and not 2 and 1"),
    ([0, 0], [None, 2], "output 1 is fed by input 2 of 2"),
    ([0, 0], [-1, None], "output 0 is fed by input -1 of 2"),
    ([0, 0], [(0, 4, 0), None], "output 0 is fed by level 4 of 4"),
    ([0, 0], [(0, 0, 2), None], "output 0 is fed by kind 2 of 2"),
    ([0, 0], [(NONE, 0, 0), None], "output 0 is fed by input 4294967295 of 2"),
    ([0, 0], [(0, 0), None], "output 0: (0, 0) is no input"),
    ([0, 0], ["0", None], "output 0: '0' is no input"),
    (numpy.ones((2, 2), dtype=bool), [None, None], "input 0: a row has a set"),
    (numpy.zeros((2, 4, 2), dtype=numpy.uint64), [None, None], "input 0: a row is a set"),
])
def test_slots_that_cannot_be_written(rows, feeds, what, tmp_path):
    with pytest.raises(BadSlot) as told:
        tiny_tera.write_journal(tmp_path / "journal", 1, [([0, 0], [None, None]), (rows, feeds)])
    assert str(told.value).startswith(f"slot 1: {what}") and told.value.slot == 1
    assert not (tmp_path / "journal").exists()


@pytest.mark.parametrize("ports", [0, 65])
def test_ports_that_cannot_be_written(ports):
    with pytest.raises(BadSlot, match=f"^slot 0: ports are 1 to 64, and not {ports}$"):
        journal_bytes(1, [([0] * ports, [None] * ports)])


@pytest.mark.parametrize("ports, most", [(1, 262_145), (32, 262_145), (33, 131_073)])
def test_too_many_slots(ports, most):
    """The last slot that the format has room for is taken, and the next one refused."""
    slot, writer = ([0] * ports, [None] * ports), journal_writer.Writer()
    writer.slot(*slot)
    writer.count = most - 1
    writer.slot(*slot)
    with pytest.raises(BadSlot, match=f"^slot {most}: a journal has at most {most} slots$"):
        writer.slot(*slot)


def test_no_journals():
    for rounds, slots in ((0, [([0], [None])]), (65, [([0], [None])]), (1, [])):
        with pytest.raises(ValueError):
            journal_bytes(rounds, slots)
