"""How full one queue of a run was in each slot, in packets by its packets file, and in cells by its slot lines too.

A packet is in its queue from the slot in which it arrives to the one that grants its last cell, at the last of its
outputs. Counted is what a slot has before it serves: with the packet that arrives in it, as the report counts the peak.
"""

from collections import Counter, defaultdict
from itertools import accumulate, groupby
from typing import NamedTuple, Optional, Sequence

import numpy

from .packets import Misfit

# Of a run of more, which has no slot lines, only those slots are kept in which the number is another than before.
MOST_SLOTS = 1_000_000


class Fill(NamedTuple):
    """What was in a queue in each of these slots, and from it to the next: packets, cells where these are known; and the
    slots that dropped packets."""

    packets: list
    cells: Optional[list]
    dropped: list
    slots: Sequence[int]


def fill_of(packets, report, name):
    """How full a queue was; Misfit where the files are not of one run, ValueError where no packet came to the queue."""
    came = rows_of(packets, name)
    if not len(came):
        raise ValueError(f"no packet came to the queue {name}")
    slots = report.summary["slots"]
    dropped = came[came["state"] == "dropped"].drop_duplicates("packet")["arrival"].tolist()
    waiting = came[came["state"] == "forwarded"]
    cells = None if report.slots is None else cells_waiting(waiting, report, name)
    _check_peak(cells, report, name)
    if cells is None and slots > MOST_SLOTS:
        kept, packets = changes(*_times(waiting), slots)
        return Fill(packets, None, dropped, kept)
    return Fill(packets_waiting(waiting, slots), cells, dropped, range(slots))


def rows_of(packets, name):
    """The rows of the packets that came to a queue."""
    rows = packets[(packets["input"] == name.input) & (packets["level"] == name.level)]
    if name.output is None:
        return rows[rows["kind"] == "m"]
    return rows[(rows["kind"] == "u") & (rows["output"] == name.output)]


def packets_waiting(rows, slots):
    """The packets in a queue in each of so many slots, from the rows of those that it forwarded."""
    return _running(*_times(rows), slots)


def _times(rows):
    """How many packets come in each slot, and how many have left before it."""
    times = rows.groupby("packet").agg({"arrival": "first", "departure": "max"}).astype(int)
    return Counter(times["arrival"]), Counter(times["departure"])


def changes(came, left, slots):
    """The first and the last of so many slots and those in which a number changes, and the number from each on: how many
    came up to it, less how many left up to it."""
    change = Counter({0: 0, slots - 1: 0})
    change.update(came)
    change.subtract(left)
    kept = sorted(slot for slot, by in change.items() if slot < slots and (by or slot in (0, slots - 1)))
    return kept, list(accumulate(change[slot] for slot in kept))


def _running(came, left, slots):
    """For each slot how many came up to it, less how many left up to it."""
    change = numpy.zeros(slots + 1, dtype=int)
    for slot, count in came.items():
        change[slot] += count
    for slot, count in left.items():
        change[slot] -= count
    return numpy.cumsum(change)[:slots].tolist()


def cells_waiting(rows, report, name):
    """The cells in a queue in each slot; a cell of multicast is there until it is served for all of its outputs."""
    feeds = {output: iter(slots) for output, slots in slots_that_feed(report, name).items()}
    came, left = Counter(), Counter()
    columns = rows.sort_values(["packet", "output"])[["packet", "output", "arrival", "departure", "cells"]].astype(int)
    for _, packet in groupby(columns.itertuples(index=False), key=lambda row: row.packet):
        outputs = list(packet)
        came[outputs[0].arrival] += outputs[0].cells
        served = [[next(feeds.get(it.output, iter(())), -1) for it in outputs] for _ in range(outputs[0].cells)]
        if [slot + 1 for slot in served[-1]] != [it.departure for it in outputs]:
            packet = f"packet {outputs[0].packet} of the queue {name}"
            raise Misfit(f"the slots do not serve {packet} so that it departs as told")
        left.update(max(slots) + 1 for slots in served)
    if any(next(slots, None) is not None for slots in feeds.values()):
        raise Misfit(f"a slot serves more cells of the queue {name} than came")
    return _running(came, left, report.summary["slots"])


def slots_that_feed(report, name):
    """For each output the slots that feed it from a queue."""
    found, is_multicast = defaultdict(list), name.output is None
    for number, pair in ((number, pair) for number, slot in enumerate(report.slots) for pair in slot.pairs):
        if (pair.input, pair.level, pair.multicast) == (name.input, name.level, is_multicast):
            if is_multicast or pair.output == name.output:
                found[pair.output].append(number)
    return found


def _check_peak(cells, report, name):
    """Misfit where the report tells another peak of a queue."""
    told = next((it for it in report.queues or () if (it.input, it.output, it.level) == name), None)
    if cells is not None and told is not None and (max(cells), cells.index(max(cells))) != (told.peak, told.slot):
        peak = f"{max(cells)} cells in slot {cells.index(max(cells))}"
        raise Misfit(f"the queue {name} has at most {peak}, and by the report {told.peak} in slot {told.slot}")
