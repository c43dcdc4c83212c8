"""Rounds of request, grant and accept, and the match that they make: the same under all schedulers."""

from __future__ import annotations

from collections import defaultdict
from dataclasses import dataclass, field
from typing import DefaultDict, Dict, Iterable, List, NamedTuple, Optional, Sequence, Tuple

from .ports import LEVELS, first_from
from .rows import KINDS, MULTICAST, UNICAST, Ask, Entry, Feed, Match, Row, asks_of


@dataclass
class Pointers:
    """The pointers of a scheduler: grant pointers by output and level, accept pointers by input and level, and for
    multicast one by level that all outputs share. All begin at port 0."""

    ports: int
    grant: Dict[Tuple[int, int], int] = field(default_factory=dict)
    accept: Dict[Tuple[int, int], int] = field(default_factory=dict)
    shared: Dict[int, int] = field(default_factory=dict)

    def __post_init__(self) -> None:
        for table in (self.grant, self.accept):
            for port in range(self.ports):
                for level in range(LEVELS):
                    table.setdefault((port, level), 0)
        for level in range(LEVELS):
            self.shared.setdefault(level, 0)

    def copy(self) -> Pointers:
        """Pointers of their own that stand at the same ports."""
        return Pointers(self.ports, dict(self.grant), dict(self.accept), dict(self.shared))


class Round(NamedTuple):
    """What a round granted, by output, and the entries that it added."""

    grants: Dict[int, Feed]
    accepted: List[Entry]


class Rounds(NamedTuple):
    """The match of a slot, and its numbers: how many rounds added an entry, how many outputs the first round matched,
    and how many the last one, 0 where not all rounds added; and the first round, which moves pointers."""

    match: Match
    used: int
    first: int
    last_added: int
    first_round: Round


def preferred_kind(slot: int) -> int:
    """The kind that a slot prefers."""
    return UNICAST if slot % 2 == 0 else MULTICAST


def best(slot: int, items: Iterable[Tuple[int, int, int]]) -> Tuple[int, int, List[int]]:
    """Of ports with a level and a kind: the best level, at it the preferred kind if it is there, and the ports with
    both."""
    items = list(items)
    level = min(item[1] for item in items)
    preferred = preferred_kind(slot)
    kinds = {item[2] for item in items if item[1] == level}
    kind = preferred if preferred in kinds else 1 - preferred
    return level, kind, [item[0] for item in items if item[1:] == (level, kind)]


def requests(ports: int, rows: Sequence[Row], entries: Iterable[Entry]) -> Dict[int, List[Feed]]:
    """The requests of a round by output, after those entries. An input that is not matched asks for all that its row
    names. One that is matched as multicast goes on asking for the rest of this head. Any other asks for nothing."""
    matched = {entry.output for entry in entries}
    of_input = {entry.input: entry for entry in entries}
    asked: DefaultDict[int, List[Feed]] = defaultdict(list)
    for port in range(ports):
        for output, level, kind in asks_after(rows[port], of_input.get(port)):
            if output not in matched:
                asked[output].append(Feed(port, level, kind))
    return asked


def asks_after(row: Row, entry: Optional[Entry]) -> Iterable[Ask]:
    """What an input asks for, where an entry of it is in the match or none is."""
    if entry is None:
        return asks_of(row)
    if entry.kind == MULTICAST:
        return [Ask(output, entry.level, MULTICAST) for output in sorted(row.multicast[entry.level])]
    return ()


def choose(ports: int, pointer: int, members: Sequence[int]) -> int:
    """The rotating choice where there is a member."""
    chosen = first_from(ports, pointer, members)
    assert chosen is not None
    return chosen


def grant(ports: int, slot: int, pointers: Pointers, output: int, asked: List[Feed]) -> Feed:
    """What an output grants of its requests."""
    level, kind, inputs = best(slot, asked)
    pointer = pointers.grant[output, level] if kind == UNICAST else pointers.shared[level]
    return Feed(choose(ports, pointer, inputs), level, kind)


def accept(ports: int, slot: int, pointers: Pointers, port: int, granted: List[Ask]) -> List[Entry]:
    """What an input accepts of its grants: all multicast ones of the level and kind, but one unicast one."""
    level, kind, outputs = best(slot, granted)
    if kind == UNICAST:
        outputs = [choose(ports, pointers.accept[port, level], outputs)]
    return [Entry(port, output, level, kind) for output in outputs]


def make_round(ports: int, slot: int, rows: Sequence[Row], pointers: Pointers, entries: Iterable[Entry]) -> Round:
    """One round after those entries."""
    asked = requests(ports, rows, entries)
    grants = {output: grant(ports, slot, pointers, output, asked[output]) for output in sorted(asked)}
    granted: DefaultDict[int, List[Ask]] = defaultdict(list)
    for output, feed in grants.items():
        granted[feed.input].append(Ask(output, feed.level, feed.kind))
    accepted = [entry for port in sorted(granted) for entry in accept(ports, slot, pointers, port, granted[port])]
    return Round(grants, accepted)


def make_rounds(ports: int, rounds: int, slot: int, rows: Sequence[Row], pointers: Pointers) -> Rounds:
    """The match of so many rounds, all from the pointers before the slot. A round that adds nothing leaves the entries
    as they are, and so do all after it: they are not made."""
    entries: List[Entry] = []
    added: List[int] = []
    made: List[Round] = []
    while len(made) < rounds and 0 not in added:
        made.append(make_round(ports, slot, rows, pointers, entries))
        added.append(len(made[-1].accepted))
        entries = entries + made[-1].accepted
    used = sum(1 for count in added if count)
    return Rounds(frozenset(entries), used, added[0], added[-1] if used == rounds else 0, made[0])


def is_maximal(ports: int, rows: Sequence[Row], match: Match) -> bool:
    """Whether no pair can be added to a match: no input that is not matched names a free output, and no head that is
    matched as multicast has a free output left."""
    inputs = set(range(ports)) - {entry.input for entry in match}
    outputs = set(range(ports)) - {entry.output for entry in match}
    is_named = any(outputs & sets for port in inputs for kind in KINDS for sets in rows[port].of_kind(kind))
    goes_on = any(outputs & rows[entry.input].multicast[entry.level] for entry in match if entry.kind == MULTICAST)
    return not is_named and not goes_on
