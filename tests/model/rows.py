"""What line cards post and are given: rows, posts, entries of a match."""

from __future__ import annotations

from functools import lru_cache
from typing import FrozenSet, Iterable, List, Mapping, NamedTuple, Optional, Tuple

from .ports import LEVELS, NO_PORTS, Ports

UNICAST, MULTICAST = 0, 1
KINDS = (UNICAST, MULTICAST)
LETTERS = "um"  # Of the kinds, in texts.
Sets = Tuple[Ports, ...]  # One for each level.
Named = Mapping[int, Iterable[int]]  # Outputs by their level.


class Row(NamedTuple):
    """What an input asks for: for each level the outputs for which a unicast cell waits, and what remains of the
    fan-out of the multicast head."""

    unicast: Sets = (NO_PORTS,) * LEVELS
    multicast: Sets = (NO_PORTS,) * LEVELS

    def names(self, output: int, level: int) -> bool:
        """Whether it names an output at a level, with either kind."""
        return output in self.unicast[level] or output in self.multicast[level]

    def of_kind(self, kind: int) -> Sets:
        """Its sets of a kind."""
        return self.unicast if kind == UNICAST else self.multicast

    def is_empty(self) -> bool:
        """Whether it names no output."""
        return not any(self.unicast) and not any(self.multicast)

    def is_within(self, ports: int) -> bool:
        """Whether it names only outputs of a switch of so many ports."""
        return all(0 <= output < ports for outputs in self.unicast + self.multicast for output in outputs)


EMPTY_ROW = Row()


def row_of(unicast: Optional[Named] = None, multicast: Optional[Named] = None) -> Row:
    """The row of some sets by their level; the others are empty."""
    given = ({} if sets is None else sets for sets in (unicast, multicast))
    return Row(*(tuple(frozenset(sets.get(level, ())) for level in range(LEVELS)) for sets in given))


class Entry(NamedTuple):
    """An entry of a match: this input is connected to this output, for a cell of this level and kind."""

    input: int
    output: int
    level: int
    kind: int


Match = FrozenSet[Entry]
NO_MATCH: Match = frozenset()


class Served(NamedTuple):
    """An input's part of a match: the outputs that its cell goes to, and which queue the cell is of."""

    outputs: Ports
    level: int
    kind: int


class Feed(NamedTuple):
    """An output's part of a match: what feeds it."""

    input: int
    level: int
    kind: int


def served_part(match: Iterable[Entry], port: int) -> Optional[Served]:
    """The part of an input, None where it is not matched."""
    mine = [entry for entry in match if entry.input == port]
    if not mine:
        return None
    assert len({(entry.level, entry.kind) for entry in mine}) == 1
    return Served(frozenset(entry.output for entry in mine), mine[0].level, mine[0].kind)


def feed_of(match: Iterable[Entry], port: int) -> Optional[Feed]:
    """The part of an output, None where it is free."""
    mine = [entry for entry in match if entry.output == port]
    assert len(mine) <= 1
    return Feed(mine[0].input, mine[0].level, mine[0].kind) if mine else None


class Ask(NamedTuple):
    """A request of some input."""

    output: int
    level: int
    kind: int


@lru_cache(maxsize=100_000)
def asks_of(row: Row) -> Tuple[Ask, ...]:
    """What an input that is not matched asks for: each output that its row names, at the best level at which the row
    names it, and with each kind for which it is named there."""
    asks: List[Ask] = []
    for output in sorted(NO_PORTS.union(*row.unicast, *row.multicast)):
        level = next(level for level in range(LEVELS) if row.names(output, level))
        asks += [Ask(output, level, kind) for kind in KINDS if output in row.of_kind(kind)[level]]
    return tuple(asks)


def keeps(old: Row, served: Optional[Served], new: Row) -> bool:
    """Whether a row still asks for all that the row before was not served with: each unicast output, and of a multicast
    head just the rest."""
    return all(keeps_level(old, served, new, level) for level in range(LEVELS))


def keeps_level(old: Row, served: Optional[Served], new: Row, level: int) -> bool:
    """The same of one level."""
    unicast, multicast = (
        sets[level] - (served.outputs if served is not None and served[1:] == (level, kind) else NO_PORTS)
        for kind, sets in ((UNICAST, old.unicast), (MULTICAST, old.multicast))
    )
    return unicast <= new.unicast[level] and (not multicast or new.multicast[level] == multicast)
