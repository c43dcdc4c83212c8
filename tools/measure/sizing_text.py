"""What is told of bounds, in lines: of a contract, of arrivals, and of a run beside them."""

from __future__ import annotations

from typing import Dict, Iterator, List, NamedTuple, Optional, Tuple

from launcher.slot_lengths import CELL_BYTES, short

from .bounds import Bounds, bounds_of, may_grow, promise_of
from .sizing import Offered, Run
from .words import counted


class Switch(NamedTuple):
    """The ports of a switch, and the microseconds of its slot where they are known."""

    ports: int
    length: Optional[float]

    def slots(self, slots: int) -> str:
        """So many slots, with their time."""
        time = "" if self.length is None else f" ({short(slots * self.length, 3)} us)"
        return counted(slots, "slot") + time

    def premise(self, what: str) -> str:
        """For which runs the bounds are."""
        return f"This holds of {what}, under each scheduler, with --rounds {self.ports} or more."


def cells_text(cells: int) -> str:
    """So many cells, with their bytes."""
    return f"{counted(cells, 'cell')} ({cells * CELL_BYTES:,} bytes)"


def contract_lines(cells: int, slots: int, switch: Switch) -> Iterator[str]:
    """What is told of a contract."""
    row = f"at most {counted(cells, 'cell')} to each input and for each output in any {switch.slots(slots)} in a row"
    yield f"{row}: a load of {short(cells / slots, 3)}"
    promise = promise_of(cells, slots)
    if promise is None:
        yield f"no number follows: {counted(cells, 'cell')} must have {3 * cells - 1:,} slots for a buffer, {4 * cells - 3:,} for the shortest delay"
        if may_grow(cells, slots, switch.ports):
            yield f"traffic that keeps it makes one queue of {switch.ports} ports grow for ever, under islip with any number of rounds"
        return
    yield f"no packet takes more than {switch.slots(promise.delay)} from its arrival to its departure"
    yield f"no input holds more than {cells_text(promise.cells)}, and no more wait for an output"
    yield f"--depth {promise.cells} drops nothing"
    yield switch.premise("all that keeps the contract")


def arrival_lines(offered: Offered, switch: Switch, run: Optional[Run], most: int) -> Iterator[str]:
    """What is told of arrivals, with so many lines and queues at most."""
    arrivals = [packet for _, packet in offered.packets]
    slots = max((packet.slot + 1 for packet in arrivals), default=0)
    cells = sum(packet.cells for packet in arrivals)
    came = f"{counted(len(arrivals), 'packet')} of {counted(cells, 'cell')}"
    yield f"{counted(switch.ports, 'port')}, {came} for queues in {switch.slots(slots)}"
    if offered.others:
        yield f"{counted(offered.others, 'more packet')} without a route, or too long: not counted"
    if not arrivals:
        return
    found = bounds_of(arrivals)
    yield f"no packet takes more than {switch.slots(found.delay)} from its arrival to its departure"
    yield f"no input holds more than {cells_text(max(found.inputs.values()))}"
    yield f"no more than {cells_text(max(found.outputs.values()))} wait for an output"
    yield f"no queue holds more than {cells_text(found.depth)}: --depth {found.depth} drops nothing"
    yield switch.premise("each run of these arrivals")
    if run:
        yield from run_lines(run, found, switch)
    yield from table("line", [*of_ports("input", found.inputs), *of_ports("output", found.outputs)], most)
    yield from table("queue", [(str(name), count) for name, count in found.queues.items()], most)


def run_lines(run: Run, found: Bounds, switch: Switch) -> Iterator[str]:
    """How far a run was from its bounds."""
    deepest = "" if run.deepest is None else f", the deepest queue {counted(run.deepest, 'cell')} of {found.depth:,}"
    yield f"The run: the longest delay {switch.slots(run.delay)} of {found.delay:,}{deepest}."
    if run.rounds is not None and run.rounds < switch.ports:
        yield f"It had {counted(run.rounds, 'round')}: with fewer than {switch.ports} a run may be over these numbers."


def of_ports(what: str, cells: Dict[int, int]) -> List[Tuple[str, int]]:
    """The inputs or the outputs by their names."""
    return [(f"{what} {port}", count) for port, count in cells.items()]


def table(what: str, rows: List[Tuple[str, int]], most: int) -> Iterator[str]:
    """Lines or queues with their cells, the deepest first, in columns."""
    told = sorted(rows, key=lambda row: -row[1])[:most]
    if told:
        width = max(len(what), *(len(name) for name, _ in told))
        yield f"\n{what:{width}}    cells     bytes"
        for name, cells in told:
            yield f"{name:{width}}  {cells:7}  {cells * CELL_BYTES:8}"
        if len(rows) > most:
            yield f"and {len(rows) - most} more"
