"""The three schedulers: iSLIP with levels and multicast, one in the manner of FIRM, and round-robin matching. They make
the same rounds and differ in how grant pointers move."""

from __future__ import annotations

from typing import Callable, Dict, Iterable, List, NamedTuple, Optional, Sequence, Tuple

from .ports import LEVELS, Ports, first_from, next_port
from .rounds import Pointers, Rounds, make_rounds
from .rows import MULTICAST, UNICAST, Entry, Feed, Match, Row, row_of


class Decision(NamedTuple):
    """What a slot decides: the match with its numbers, and the pointers after it."""

    match: Match
    used: int
    first: int
    last_added: int
    pointers: Pointers
    rounds: Rounds


Scheduler = Callable[[int, int, int, Sequence[Row], Pointers], Decision]


def shared_after(ports: int, rows: Sequence[Row], pointers: Pointers, match: Match) -> Dict[int, int]:
    """The shared pointers after a slot: each goes to one beyond the first input from it on that posted a head of the
    level, where all of this head's posted fan-out was matched to it, in whichever rounds; else it stays."""
    shared = dict(pointers.shared)
    for level in range(LEVELS):
        heads = [port for port in range(ports) if rows[port].multicast[level]]
        first = first_from(ports, pointers.shared[level], heads)
        if first is not None and completes(rows[first].multicast[level], match, first, level):
            shared[level] = next_port(ports, first)
    return shared


def completes(fan: Ports, match: Match, port: int, level: int) -> bool:
    """Whether a head is matched to all that remains of its fan-out."""
    return all(Entry(port, output, level, MULTICAST) in match for output in fan)


def refused(made: Rounds) -> List[Tuple[int, Feed]]:
    """The unicast grants of the first round that were not accepted, with their outputs."""
    grants, accepted = made.first_round
    return [
        (output, feed) for output, feed in grants.items()
        if feed.kind == UNICAST and Entry(feed.input, output, feed.level, UNICAST) not in accepted
    ]


def decide(
    ports: int, rounds: int, slot: int, rows: Sequence[Row], pointers: Pointers,
    refused_pointer: Optional[Callable[[int, int], int]],
) -> Decision:
    """One slot. The unicast pairs of the first round move their grant pointer to one beyond the input and their accept
    pointer to one beyond the output; a unicast grant of the first round that was refused moves its grant pointer to
    what `refused_pointer` says of ports and input, and leaves it where that is None."""
    made = make_rounds(ports, rounds, slot, rows, pointers)
    after = pointers.copy()
    for port, output, level, kind in made.first_round.accepted:
        if kind == UNICAST:
            after.grant[output, level] = next_port(ports, port)
            after.accept[port, level] = next_port(ports, output)
    if refused_pointer is not None:
        for output, feed in refused(made):
            after.grant[output, feed.level] = refused_pointer(ports, feed.input)
    after.shared = shared_after(ports, rows, pointers, made.match)
    return Decision(made.match, made.used, made.first, made.last_added, after, made)


def islip(ports: int, rounds: int, slot: int, rows: Sequence[Row], pointers: Pointers) -> Decision:
    """A refused grant moves nothing."""
    return decide(ports, rounds, slot, rows, pointers, None)


def firm(ports: int, rounds: int, slot: int, rows: Sequence[Row], pointers: Pointers) -> Decision:
    """A refused grant moves the pointer to the input that refused it."""
    return decide(ports, rounds, slot, rows, pointers, lambda _, port: port)


def rrm(ports: int, rounds: int, slot: int, rows: Sequence[Row], pointers: Pointers) -> Decision:
    """A refused grant moves the pointer as one that is accepted."""
    return decide(ports, rounds, slot, rows, pointers, next_port)


SCHEDULERS: Dict[str, Scheduler] = {"islip": islip, "firm": firm, "rrm": rrm}


def schedule(ports: int, rounds: int, slots: Iterable[Sequence[Row]], scheduler: Scheduler = islip) -> List[Decision]:
    """The decisions of slots one after the other, from slot 0 and from pointers at port 0."""
    pointers = Pointers(ports)
    decisions: List[Decision] = []
    for slot, rows in enumerate(slots):
        decisions.append(scheduler(ports, rounds, slot, rows, pointers))
        pointers = decisions[-1].pointers
    return decisions


class OneLevelSlot(NamedTuple):
    """A slot of one level of unicast: for each output the input that feeds it, the three numbers, the pointers after
    it."""

    fed: List[Optional[int]]
    numbers: Tuple[int, int, int]
    grant: List[int]
    accept: List[int]


def islip_slot(
    ports: int, rounds: int, asks: Sequence[Iterable[int]], grant: Sequence[int], accept: Sequence[int]
) -> OneLevelSlot:
    """One slot of iSLIP over one level of unicast, from grant pointers of the outputs and accept pointers of the
    inputs."""
    pointers = Pointers(ports)
    for port in range(ports):
        pointers.grant[port, 0], pointers.accept[port, 0] = grant[port], accept[port]
    decision = islip(ports, rounds, 0, [row_of({0: outputs}) for outputs in asks], pointers)
    fed = {entry.output: entry.input for entry in decision.match}
    after = decision.pointers
    return OneLevelSlot(
        [fed.get(output) for output in range(ports)], (decision.used, decision.first, decision.last_added),
        [after.grant[port, 0] for port in range(ports)], [after.accept[port, 0] for port in range(ports)],
    )
