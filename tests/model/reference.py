"""The run beside an ideal output-queued switch, which gets the admitted packets of the run."""

from __future__ import annotations

from collections import Counter
from typing import List, NamedTuple

from .runs import Run


class ReferenceLine(NamedTuple):
    """The comparison at an output: one more than the last slots in which the ideal switch and the run gave a cell, 0
    where they never did; the greatest lead of the ideal switch; and the sum of its leads over all slots."""

    ends: int
    runs: int
    lead: int
    extra: int


class Tracks(NamedTuple):
    """For each slot the cells that came to an output up to it, that the run fed to it, and that the ideal switch
    gave."""

    came: List[int]
    ran: List[int]
    ideal: List[int]


def arrivals_at(run: Run, output: int) -> List[int]:
    """For each slot the cells that come to an output of the ideal switch: all of an admitted packet in its arrival
    slot."""
    comes: Counter[int] = Counter()
    for card, admitted in zip(run.plan.cards, run.admitted):
        for number in admitted:
            if output in card[number].fan:
                comes[card[number].arrival] += card[number].cells
    return [comes[slot.number] for slot in run.slots]


def tracks_of(run: Run, output: int) -> Tracks:
    """The three counts of an output."""
    came, ran, ideal = 0, 0, 0
    tracks = Tracks([], [], [])
    for comes, slot in zip(arrivals_at(run, output), run.slots):
        came += comes
        ran += any(entry.output == output for entry in slot.match)
        ideal = min(came, ideal + 1)
        for track, count in zip(tracks, (came, ran, ideal)):
            track.append(count)
    return tracks


def after_last_rise(run: Run, track: List[int]) -> int:
    """One more than the last slot in which a count rose, 0 where it never did."""
    rises = [slot.number for slot, count, before in zip(run.slots, track, [0, *track]) if count > before]
    return rises[-1] + 1 if rises else 0


def reference_line(run: Run, output: int) -> ReferenceLine:
    """The comparison at an output."""
    _, ran, ideal = tracks_of(run, output)
    leads = [before - behind for before, behind in zip(ideal, ran)]
    return ReferenceLine(after_last_rise(run, ideal), after_last_rise(run, ran), max(leads), sum(leads))
