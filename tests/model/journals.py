"""Journal files: what they say, and which of them are lawful."""

from __future__ import annotations

from typing import Callable, Iterator, List, NamedTuple, Optional, Sequence, Tuple

from .faults import Fault
from .ports import LEVELS, MOST_PORTS, NO_PORTS, Ports, mask_of, ports_of
from .rounds import Pointers
from .rows import Feed, Match, Row, feed_of, keeps, served_part
from .runs import Run
from .schedulers import Scheduler, islip
from .waits import longest_waits

MAGIC = 0x54544A31
HEADER_BYTES, SET_BYTES = 12, 8
FREE = 0xFF  # In the place of an input.


class JournalSlot(NamedTuple):
    """A slot of a journal: the rows of the cards, which have more to come, and what feeds each output."""

    rows: Tuple[Row, ...]
    mores: Tuple[bool, ...]
    fed: List[Optional[Feed]]


class Journal(NamedTuple):
    """What a journal file says."""

    ports: int
    rounds: int
    slots: List[JournalSlot]


def journal_of(run: Run) -> Journal:
    """The journal of a run."""
    ports = range(run.plan.ports)
    fed = ([feed_of(slot.match, output) for output in ports] for slot in run.slots)
    slots = [JournalSlot(slot.rows, slot.mores, feeds) for slot, feeds in zip(run.slots, fed)]
    return Journal(run.plan.ports, run.plan.rounds, slots)


def journal_bytes(journal: Journal) -> bytes:
    """The file of a journal."""
    magic, count = MAGIC.to_bytes(4, "big"), len(journal.slots).to_bytes(4, "big")
    return b"".join([magic, bytes([journal.ports, journal.rounds, 0, 0]), count, *map(slot_bytes, journal.slots)])


def slot_bytes(slot: JournalSlot) -> bytes:
    """The posts and outputs of a slot."""
    posts = (post_bytes(row, more) for row, more in zip(slot.rows, slot.mores))
    outputs = (bytes([FREE, 0] if it is None else [it.input, 2 * it.level + it.kind]) for it in slot.fed)
    return b"".join([*posts, *outputs])


def post_bytes(row: Row, more: bool) -> bytes:
    """A post: which sets follow, whether more is to come, and the sets that are not empty."""
    sets = row.unicast + row.multicast
    which = sum(1 << number for number, outputs in enumerate(sets) if outputs)
    masks = (mask_of(outputs).to_bytes(SET_BYTES, "big") for outputs in sets if outputs)
    return b"".join([bytes([which, int(more)]), *masks])


class Fields:
    """The fields of a file, read one after the other. One that is cut off or has none of its values is a fault at its
    first byte."""

    def __init__(self, data: bytes) -> None:
        self.data, self.at = data, 0

    def number(self, size: int, is_good: Callable[[int], bool]) -> int:
        """The next field, of so many bytes."""
        field = self.data[self.at:self.at + size]
        value = int.from_bytes(field, "big")
        if len(field) < size or not is_good(value):
            raise Fault("bad", at=self.at)
        self.at += size
        return value

    def end(self) -> None:
        """Nothing follows."""
        if self.at != len(self.data):
            raise Fault("bad", at=self.at)


def most_slots(ports: int) -> int:
    """How many slots a journal of so many ports has at most."""
    return 131_073 if ports > 32 else 262_145


def read_journal(data: bytes) -> Journal:
    """What a file says; its first fault is raised."""
    fields = Fields(data)
    fields.number(4, lambda value: value == MAGIC)
    ports = fields.number(1, lambda value: 1 <= value <= MOST_PORTS)
    rounds = fields.number(1, lambda value: 1 <= value <= 64)
    fields.number(2, lambda value: value == 0)
    count = fields.number(4, lambda value: 1 <= value <= most_slots(ports))
    slots = [read_slot(fields, ports) for _ in range(count)]
    fields.end()
    return Journal(ports, rounds, slots)


def read_slot(fields: Fields, ports: int) -> JournalSlot:
    """The next slot."""
    rows, mores = zip(*(read_post(fields, ports) for _ in range(ports)))
    return JournalSlot(rows, mores, [read_output(fields, ports) for _ in range(ports)])


def read_post(fields: Fields, ports: int) -> Tuple[Row, bool]:
    """The next post."""
    which = fields.number(1, lambda value: True)
    more = fields.number(1, lambda value: value <= 1) == 1
    sets = [read_set(fields, ports) if which >> number & 1 else NO_PORTS for number in range(2 * LEVELS)]
    return Row(tuple(sets[:LEVELS]), tuple(sets[LEVELS:])), more


def read_set(fields: Fields, ports: int) -> Ports:
    """The next set, which is not empty."""
    return ports_of(fields.number(SET_BYTES, lambda value: value != 0 and value >> ports == 0))


def read_output(fields: Fields, ports: int) -> Optional[Feed]:
    """The next output."""
    port = fields.number(1, lambda value: value == FREE or value < ports)
    rank = fields.number(1, lambda value: value == 0 if port == FREE else value < 2 * LEVELS)
    return None if port == FREE else Feed(port, rank // 2, rank % 2)


class Verdict(NamedTuple):
    """The answer to a journal: the longest waits of a lawful one; else the first slot that fails, the reason, and of
    which card or output it is, None where it is of none."""

    slots: int
    longest: Optional[List[int]] = None
    slot: Optional[int] = None
    reason: Optional[str] = None
    number: Optional[int] = None


AFTER_END, MORE, KEEPS, OUTPUT, NO_END = "after end", "more of card", "keeps of card", "output", "no end"


class Before(NamedTuple):
    """The slot before: what was posted, and what the scheduler matched."""

    rows: Sequence[Row]
    mores: Sequence[bool]
    match: Match


def failures(slot: JournalSlot, before: Optional[Before], match: Match) -> Iterator[Tuple[str, Optional[int]]]:
    """Why a slot fails, in the order of the reasons."""
    ports = range(len(slot.rows))
    if before is not None and not any(before.mores):
        yield AFTER_END, None
    yield from ((MORE, port) for port in ports if not slot.rows[port].is_empty() and not slot.mores[port])
    if before is not None:
        yield from (
            (KEEPS, port) for port in ports
            if not keeps(before.rows[port], served_part(before.match, port), slot.rows[port])
        )
    yield from ((OUTPUT, port) for port in ports if slot.fed[port] != feed_of(match, port))


def verdict_of(journal: Journal, scheduler: Scheduler = islip) -> Verdict:
    """Whether a journal is lawful: requests are kept, a card that asks has more to come, each slot is decided as the
    scheduler does, and the last slot is the first in which no card has more to come."""
    pointers, before = Pointers(journal.ports), None
    made: List[Tuple[Sequence[Row], Match]] = []
    for number, slot in enumerate(journal.slots):
        decision = scheduler(journal.ports, journal.rounds, number, slot.rows, pointers)
        for reason, port in failures(slot, before, decision.match):
            return Verdict(len(journal.slots), None, number, reason, port)
        pointers, before = decision.pointers, Before(slot.rows, slot.mores, decision.match)
        made.append((slot.rows, decision.match))
    if any(journal.slots[-1].mores):
        return Verdict(len(journal.slots), None, len(journal.slots) - 1, NO_END)
    return Verdict(len(journal.slots), longest_waits(made))
