"""The files of a run as tables of pandas.

In all tables a kind is `u` for unicast and `m` for multicast, ports, levels and slots count from 0, and a set of ports
is a uint64 in which bit j stands for port j.
"""

from __future__ import annotations

from pathlib import Path
from typing import Iterable, List, NamedTuple, Optional, Tuple, Union

import pandas

from . import journal, packets, report

PathLike = Union[str, Path]

_SETS = [f"{kind}{level}" for kind in "um" for level in range(journal.LEVELS)]


class ReportFrames(NamedTuple):
    """A report as tables; one that the report has no lines for is None.

    summary    a series: the numbers of the summary by their names, and `longest_0` to `longest_3`
    outputs    index output; packets, cells
    slots      index slot; used (rounds that added a pair), first (outputs that the first round matched)
    matches    a row for each matched output of each slot: slot, output, input, level, kind
    queues     a row for each queue: input, output (NA for multicast), level, kind, packets, dropped, cells, peak, slot
    reference  index output; ends, runs, lead, extra
    """

    summary: pandas.Series
    outputs: pandas.DataFrame
    slots: Optional[pandas.DataFrame]
    matches: Optional[pandas.DataFrame]
    queues: Optional[pandas.DataFrame]
    reference: Optional[pandas.DataFrame]


class JournalFrames(NamedTuple):
    """A journal as tables.

    ports, rounds  numbers of the header
    posts          a row for each slot and input: slot, input, more (whether more is to come), and the sets u0 to u3 and
                   m0 to m3, of unicast and of the head of the multicast queue at each level
    matches        a row for each matched output of each slot: slot, output, input, level, kind
    """

    ports: int
    rounds: int
    posts: pandas.DataFrame
    matches: pandas.DataFrame


def read_report(path: PathLike) -> ReportFrames:
    """The tables of a report, `PREFIX.report`; report.BadReport, a ValueError, where it has another form."""
    found = report.read_report(Path(path).read_bytes().decode("ascii", "replace"))
    longest = {f"longest_{level}": wait for level, wait in enumerate(found.longest)}
    outputs = pandas.DataFrame(found.outputs, columns=["packets", "cells"], dtype="int64").rename_axis("output")
    slots = matches = reference = None
    if found.slots is not None:
        slots = pandas.DataFrame([slot[:2] for slot in found.slots], columns=["used", "first"]).rename_axis("slot")
        matches = _matches((at, pair.output, pair) for at, slot in enumerate(found.slots) for pair in slot.pairs)
    if found.reference is not None:
        columns = report.Reference._fields
        reference = pandas.DataFrame(found.reference, columns=columns, dtype="int64").rename_axis("output")
    return ReportFrames(pandas.Series({**found.summary, **longest}), outputs, slots, matches, _queues(found.queues), reference)


def read_journal(path: PathLike) -> JournalFrames:
    """The tables of a journal, `PREFIX.journal`; journal.BadJournal, a ValueError, where it has another form. It says
    nothing of whether the journal is lawful, as `verdicts.check_journal` does."""
    found = journal.read_journal(Path(path).read_bytes())
    posts, fed = [], []
    for at, slot in enumerate(found.slots()):
        posts += [(at, card, post.more, *post.unicast, *post.multicast) for card, post in enumerate(slot.posts)]
        fed += [(at, output, feed) for output, feed in enumerate(slot.outputs) if feed]
    kinds = {"more": "bool", **{name: "uint64" for name in _SETS}}
    table = pandas.DataFrame(posts, columns=["slot", "input", "more", *_SETS]).astype(kinds)
    return JournalFrames(found.ports, found.rounds, table, _matches(fed))


def read_packets(path: PathLike) -> pandas.DataFrame:
    """The rows of a packets file, `PREFIX.packets.csv`, with `packets.COLUMNS`; ValueError where it has another form."""
    return packets.read_packets(path)


def _matches(fed: Iterable[Tuple[int, int, Union[report.Pair, journal.Fed]]]) -> pandas.DataFrame:
    rows = [(at, output, feed.input, feed.level, "um"[feed.multicast]) for at, output, feed in fed]
    columns = ["slot", "output", "input", "level", "kind"]
    return pandas.DataFrame(rows, columns=columns).astype({name: "int64" for name in columns[:4]})


def _queues(found: Optional[List[report.Queue]]) -> Optional[pandas.DataFrame]:
    if found is None:
        return None
    table = pandas.DataFrame(found, columns=report.Queue._fields)
    table.insert(3, "kind", ["um"[queue.output is None] for queue in found])
    return table.astype({"output": "Int64"})
