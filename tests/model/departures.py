"""What became of each packet of a run: the rows of a packets file."""

from __future__ import annotations

from collections import defaultdict
from typing import DefaultDict, Dict, Iterator, List, NamedTuple, Optional, Tuple

from .messages import Flow
from .plans import ROUTED, Planned
from .rows import LETTERS
from .runs import Outcome

HEADER = "input,packet,bytes,cells,state,level,kind,output,arrival,departure,delay"
FORWARDED, DROPPED = "forwarded", "dropped"


class PacketRow(NamedTuple):
    """A row of a packets file. A packet that had a route has one for each output of its fan-out."""

    input: int
    packet: int
    bytes: int
    cells: int
    state: str
    level: Optional[int]
    kind: Optional[str]
    output: Optional[int]
    arrival: int
    departure: Optional[int]
    delay: Optional[int]


def departures_of(outcome: Outcome) -> Dict[Tuple[int, int, int], int]:
    """The slot in which each admitted packet left at each output of its fan-out, by input, packet and output: the n-th
    packet of a flow with an output in its fan-out leaves there with the flow's n-th last cell."""
    departures: Dict[Tuple[int, int, int], int] = {}
    for output, messages in enumerate(outcome.delivered):
        last: DefaultDict[Flow, List[int]] = defaultdict(list)
        for message in messages:
            last[message.input, message.level, message.kind].append(message.slot)
        for flow, numbers in flows_to(outcome, output).items():
            assert len(numbers) == len(last[flow])
            departures.update({(flow[0], number, output): slot for number, slot in zip(numbers, last[flow])})
    return departures


def flows_to(outcome: Outcome, output: int) -> Dict[Flow, List[int]]:
    """The admitted packets of each flow that have an output in their fan-out."""
    flows: DefaultDict[Flow, List[int]] = defaultdict(list)
    for port, admitted in enumerate(outcome.run.admitted):
        for number in admitted:
            packet = outcome.run.plan.cards[port][number]
            if output in packet.fan:
                flows[port, packet.level, packet.kind()].append(number)
    return flows


def packet_rows(outcome: Outcome) -> Iterator[PacketRow]:
    """The rows, by input, packet and output."""
    departures = departures_of(outcome)
    for port, card in enumerate(outcome.run.plan.cards):
        dropped = set(outcome.run.dropped[port])
        for number, packet in enumerate(card):
            state = packet.what if packet.what != ROUTED else DROPPED if number in dropped else FORWARDED
            yield from rows_of(port, number, packet, state, departures)


def rows_of(
    port: int, number: int, packet: Planned, state: str, departures: Dict[Tuple[int, int, int], int]
) -> Iterator[PacketRow]:
    """The rows of a packet."""
    head = (port, number, len(packet.packet.data), packet.cells, state)
    if packet.what != ROUTED:
        yield PacketRow(*head, None, None, None, packet.arrival, None, None)
    for output in sorted(packet.fan):
        departure = departures.get((port, number, output))
        delay = None if departure is None else departure - packet.arrival
        yield PacketRow(*head, packet.level, LETTERS[packet.kind()], output, packet.arrival, departure, delay)


def packets_text(outcome: Outcome) -> str:
    """The packets file."""
    rows = (",".join("" if field is None else str(field) for field in row) for row in packet_rows(outcome))
    return "".join(line + "\n" for line in (HEADER, *rows))
