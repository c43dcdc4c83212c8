"""The arrivals for which a buffer is sized, from a table and captures, and how far a run of them was from its bounds."""

from __future__ import annotations

from pathlib import Path
from typing import List, NamedTuple, Optional, Sequence, Tuple

from launcher.captures import Arrival, offered_to_queues
from launcher.slot_lengths import Slot

from .run_inputs import read_captures, read_routes

Numbered = Tuple[int, Arrival]  # A packet behind its number in its capture, from 0.


class Offered(NamedTuple):
    """The packets that come to queues, and how many others come: without a route, or longer than any that is forwarded."""

    packets: List[Numbered]
    others: int


class Run(NamedTuple):
    """A run: its rounds where it has a report, its longest delay, and the deepest queue where its report tells it."""

    rounds: Optional[int]
    delay: int
    deepest: Optional[int]


def read_arrivals(table: str, names: Sequence[str], slot: Optional[Slot]) -> Offered:
    """What comes, port by port; ValueError where a packet is multicast."""
    routes, captures = read_routes(table, len(names)), read_captures(names)
    found = []
    for number, packet in offered_to_queues(routes, captures, slot):
        if len(packet.outputs) > 1:
            outputs = ", ".join(map(str, packet.outputs))
            raise ValueError(f"frame {number + 1} of {names[packet.input]} is multicast, for outputs {outputs}: the bounds are of unicast alone")
        found.append((number, packet))
    return Offered(found, sum(len(capture.packets) for capture in captures) - len(found))


def read_run(prefix: str, arrivals: Sequence[Numbered], ports: int) -> Run:
    """The run of these packets by its files; ValueError where it is of others."""
    from .packets import forwarded, offered
    from .report import read_report
    from .runs import REPORT, packets_of_run, prefix_of

    packets = packets_of_run(prefix)
    file = Path(prefix_of(prefix) + REPORT)
    report = read_report(file.read_text()) if file.exists() else None
    if report and report.summary["ports"] != ports:
        raise ValueError(f"{prefix} is a run of {report.summary['ports']} ports, and here are {ports} captures")
    came = offered(packets)[["arrival", "input", "output", "level", "cells", "packet"]].astype(int)
    here = [(it.slot, it.input, it.outputs[0], it.level, it.cells, number) for number, it in arrivals]
    if [tuple(row) for row in came.to_numpy().tolist()] != here:
        raise ValueError(f"{prefix} is no run of these captures with this table, in slots of this time")
    rounds = report.summary["rounds"] if report else None
    return Run(rounds, int(forwarded(packets)["delay"].max()) if len(here) else 0, report.deepest if report else None)
