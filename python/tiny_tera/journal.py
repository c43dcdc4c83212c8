"""Reads the journal of a run: what each card posted in each slot, and what was matched.

All numbers are big-endian. A file is a header (the magic, ports, rounds, two zeros, slots) and then
for each slot a post for each input and two bytes for each output.
"""

from __future__ import annotations

from typing import Dict, Iterator, List, NamedTuple, Optional, Tuple, Union

MAGIC = b"TTJ1"
MAX_PORTS = 64
MAX_ROUNDS = 64
LEVELS = 4
HALVED_ABOVE = 32  # Over so many ports a run has at most half as many slots.
MAX_SLOTS = 262_145
MAX_SLOTS_HALVED = 131_073
FREE = 0xFF
BITS = [[bit for bit in range(2 * LEVELS) if sets >> bit & 1] for sets in range(256)]  # Of each byte that says which sets follow.


class BadJournal(ValueError):
    """Bytes that are no journal; `at` is the offset of the first field that is wrong or cut."""

    def __init__(self, at: int) -> None:
        super().__init__(f"bad at {at}")
        self.at = at


class Post(NamedTuple):
    """What a card posts: for each level the set of outputs, as bits, with unicast and with multicast."""

    unicast: Tuple[int, ...]
    multicast: Tuple[int, ...]
    more: bool


class Fed(NamedTuple):
    """What feeds an output in a slot."""

    input: int
    level: int
    multicast: bool


class JournalSlot(NamedTuple):
    """A slot: the post of each input, and for each output a Fed, or None where it is free."""

    posts: List[Post]
    outputs: List[Optional[Fed]]


class Journal(NamedTuple):
    """A journal, whose slots are read one after the other."""

    ports: int
    rounds: int
    slot_count: int
    data: bytes

    def slots(self) -> Iterator[JournalSlot]:
        """The slots in order; raises BadJournal where the bytes end or a value is outside its table."""
        fields, all_outputs, known = _Fields(self.data, 12), (1 << self.ports) - 1, _feeds(self.ports)
        for _ in range(self.slot_count):
            posts = [fields.post(all_outputs) for _ in range(self.ports)]
            outputs = [fields.fed(known) for _ in range(self.ports)]
            yield JournalSlot(posts, outputs)
        if fields.at < len(self.data):
            raise BadJournal(fields.at)


def read_journal(data: Union[bytes, bytearray, memoryview]) -> Journal:
    """The journal that begins with this header; its slots are checked when they are read."""
    data = bytes(memoryview(data))
    fields = _Fields(data, 0)
    magic = int.from_bytes(MAGIC, "big")
    fields.take(4, magic, magic)
    ports = fields.take(1, 1, MAX_PORTS)
    rounds = fields.take(1, 1, MAX_ROUNDS)
    fields.take(2, 0, 0)
    slot_count = fields.take(4, 1, MAX_SLOTS_HALVED if ports > HALVED_ABOVE else MAX_SLOTS)
    return Journal(ports, rounds, slot_count, data)


class _Fields:
    """The fields of a file from an offset on."""

    def __init__(self, data: bytes, at: int) -> None:
        self.data = data
        self.at = at

    def take(self, size: int, least: int, most: int) -> int:
        """The next field's number, where it is whole and from least to most."""
        end = self.at + size
        value = int.from_bytes(self.data[self.at:end], "big")
        if end > len(self.data) or not least <= value <= most:
            raise BadJournal(self.at)
        self.at = end
        return value

    def post(self, all_outputs: int) -> Post:
        present = self.take(1, 0, 0xFF)
        more = self.take(1, 0, 1)
        sets = [0] * (2 * LEVELS)
        for bit in BITS[present]:
            sets[bit] = self.take(8, 1, all_outputs)
        return Post(tuple(sets[:LEVELS]), tuple(sets[LEVELS:]), more == 1)

    def fed(self, known: Dict[bytes, Optional[Fed]]) -> Optional[Fed]:
        field = self.data[self.at:self.at + 2]
        if field not in known:
            raise BadJournal(self.at + (field[:1] in {two[:1] for two in known}))
        self.at += 2
        return known[field]


def _feeds(ports: int) -> Dict[bytes, Optional[Fed]]:
    """What each two bytes of an output mean."""
    feeds: Dict[bytes, Optional[Fed]] = {bytes([FREE, 0]): None}
    for port in range(ports):
        feeds.update({bytes([port, rank]): Fed(port, rank // 2, rank % 2 == 1) for rank in range(2 * LEVELS)})
    return feeds
