"""Makes journals of slots that any scheduler has decided, for `tiny_tera check` and the viewer.

A journal says of each slot what each input asked and what fed each output. The form is that of docs/FORMATS.md.
"""

from __future__ import annotations

from pathlib import Path
from typing import Any, Iterable, List, NoReturn, Optional, Protocol, Sequence, Tuple, Union

from .journal import FREE, HALVED_ABOVE, LEVELS, MAGIC, MAX_PORTS, MAX_ROUNDS, MAX_SLOTS, MAX_SLOTS_HALVED, Fed, Post

#: In the place of a port, as in the arrays of the library: the output is free.
NONE = 0xFFFFFFFF
_HEADER = 12


class Array(Protocol):
    """An array of numpy, or anything else that makes a list of itself."""

    def tolist(self) -> Any: ...


#: What an input asks: the set of outputs, as bits, with unicast of level 0 alone; or for each level the set with unicast,
#: and for each level that of the head of the multicast queue; or a Post, which also says whether more is to come.
Row = Union[int, Tuple[Sequence[int], Sequence[int]], Post]
#: What feeds an output: an input, with unicast of level 0; or input, level and kind (1 for multicast); None if it is free.
Feed = Union[None, int, Tuple[int, int, int], Fed]
Rows = Union[Array, Sequence[Row]]
Feeds = Union[Array, Sequence[Feed]]


class BadSlot(ValueError):
    """What a journal cannot hold; `slot` is the number of the slot."""

    def __init__(self, slot: int, what: str) -> None:
        super().__init__(f"slot {slot}: {what}")
        self.slot = slot


def write_journal(path: Union[str, Path], rounds: int, slots: Iterable[Tuple[Rows, Feeds]]) -> None:
    """Writes the journal of these slots, as `journal_bytes` makes it; no file is begun where a slot is refused."""
    Path(path).write_bytes(journal_bytes(rounds, slots))


def journal_bytes(rounds: int, slots: Iterable[Tuple[Rows, Feeds]]) -> bytes:
    """The journal of slots, each of which is a pair, of arrays or lists:

    rows    for each input what it asks, a Row; or uint64 of shape (n, 2, 4), as of `scheduling.new_rows`
    feeds   for each output what feeds it, a Feed; or FEED of shape (n,), as of `Scheduler.feeds`; or uint32 of shape (n,),
            as of `islip_slot`, where NONE stands for a free output

    An input whose row does not say whether more is to come has more where it asks in this slot or in a later one. BadSlot
    where a journal cannot hold a slot. Whether the slots are lawful is for `check` to say.
    """
    if not 1 <= rounds <= MAX_ROUNDS:
        raise ValueError(f"rounds are 1 to {MAX_ROUNDS}, and not {rounds}")
    writer = Writer()
    for rows, feeds in slots:
        writer.slot(_listed(rows), _listed(feeds))
    if not writer.count:
        raise ValueError("a journal has at least one slot")
    writer.data[:_HEADER] = MAGIC + bytes([writer.ports, rounds, 0, 0]) + writer.count.to_bytes(4, "big")
    return bytes(writer.data)


def _plain(given: Any) -> Any:
    """What an array or a number of numpy makes of itself, or what is given."""
    return given.tolist() if hasattr(given, "tolist") else given


def _listed(given: Union[Array, Sequence[Any]]) -> Sequence[Any]:
    found = _plain(given)
    return found if isinstance(found, (list, tuple)) else list(found)


class Writer:
    """The bytes of a journal whose header is not written yet; `unsettled` has for each input the places of the bytes that
    say whether more is to come, 0 as long as it has not asked again."""

    def __init__(self) -> None:
        self.data = bytearray(_HEADER)
        self.ports = 0
        self.count = 0
        self.unsettled: List[List[int]] = []

    def refuse(self, what: str) -> NoReturn:
        raise BadSlot(self.count, what)

    def slot(self, rows: Sequence[Any], feeds: Sequence[Any]) -> None:
        if not self.count:
            self.begin(len(rows))
        if (len(rows), len(feeds)) != (self.ports, self.ports):
            self.refuse(f"{self.ports} rows and feeds, and not {len(rows)} and {len(feeds)}")
        if self.count == (MAX_SLOTS_HALVED if self.ports > HALVED_ABOVE else MAX_SLOTS):
            self.refuse(f"a journal has at most {self.count} slots")
        for card, row in enumerate(rows):
            self.post(card, _plain(row))
        for output, feed in enumerate(feeds):
            self.data += self.fed(output, _plain(feed))
        self.count += 1

    def begin(self, ports: int) -> None:
        if not 1 <= ports <= MAX_PORTS:
            self.refuse(f"ports are 1 to {MAX_PORTS}, and not {ports}")
        self.ports = ports
        self.unsettled = [[] for _ in range(ports)]

    def post(self, card: int, row: Any) -> None:
        sets, more = self.asked(card, row)
        present = sum(1 << bit for bit, outputs in enumerate(sets) if outputs)
        if more is None:
            self.unsettled[card].append(len(self.data) + 1)
        self.data += bytes([present, bool(more)])
        for outputs in filter(None, sets):
            self.data += outputs.to_bytes(8, "big")
        if present:
            for place in self.unsettled[card]:
                self.data[place] = 1
            self.unsettled[card].clear()

    def asked(self, card: int, row: Any) -> Tuple[List[int], Optional[bool]]:
        """The eight sets of a row, and whether more is to come, None where it does not say so."""
        more = None
        if _is_number(row):
            row = [row, 0, 0, 0], [0] * LEVELS
        if not isinstance(row, (list, tuple)) or not 2 <= len(row) <= 3:
            self.refuse(f"input {card}: a row is a set of outputs, or sets of unicast and sets of multicast")
        if len(row) == 3:
            more = row[2]
            if more not in (0, 1):
                self.refuse(f"input {card}: more is to come or not, and not {more!r}")
        kinds = [list(kind) if hasattr(kind, "__iter__") else [] for kind in row[:2]]
        if [len(kind) for kind in kinds] != [LEVELS, LEVELS]:
            self.refuse(f"input {card}: a row has a set for each of {LEVELS} levels")
        sets = [self.outputs(card, outputs) for kind in kinds for outputs in kind]
        return sets, more

    def outputs(self, card: int, given: Any) -> int:
        """A set of outputs, which there are."""
        if not _is_number(given) or given < 0:
            self.refuse(f"input {card}: {given!r} is no set of outputs")
        found = int(given)
        if found >> self.ports:
            self.refuse(f"input {card} asks output {found.bit_length() - 1} of {self.ports}")
        return found

    def fed(self, output: int, feed: Any) -> bytes:
        """The two bytes of an output."""
        if feed is None or _is_number(feed) and feed == NONE:
            return bytes([FREE, 0])
        parts = (feed, 0, 0) if _is_number(feed) else feed
        if not isinstance(parts, (list, tuple)) or len(parts) != 3:
            self.refuse(f"output {output}: {feed!r} is no input, nor input, level and kind")
        if tuple(parts) == (NONE, NONE, NONE):
            return bytes([FREE, 0])
        for name, part, most in zip(("input", "level", "kind"), parts, (self.ports, LEVELS, 2)):
            if not (_is_number(part) or part is True or part is False) or not 0 <= part < most:
                self.refuse(f"output {output} is fed by {name} {part!r} of {most}")
        card, level, kind = parts
        return bytes([card, 2 * level + kind])


def _is_number(given: Any) -> bool:
    """Whether it is a whole number, also one of numpy; booleans are none."""
    return hasattr(given, "__index__") and not isinstance(given, bool)
