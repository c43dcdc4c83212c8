"""The texts of a run: the summary and the report."""

from __future__ import annotations

from typing import Dict, Iterable, List, NamedTuple, Optional, Sequence, Tuple

from .fullness import Place, QueueLine, deepest
from .plans import OVERSIZE, UNROUTED
from .reference import ReferenceLine
from .rows import LETTERS, UNICAST, Match
from .runs import Outcome, Slot
from .waits import longest_waits


class Summary(NamedTuple):
    """The numbers of a summary, in the order of its lines."""

    ports: int
    rounds: int
    depth: int
    slots: int
    packets: int
    oversize: int
    unrouted: int
    dropped: int
    forwarded: int
    copies: int
    cells: int
    longest: Sequence[int]


def summary_of(outcome: Outcome) -> Summary:
    """The numbers of a run."""
    run, plan = outcome.run, outcome.run.plan
    what = [packet.what for card in plan.cards for packet in card]
    return Summary(
        ports=plan.ports, rounds=plan.rounds, depth=plan.depth, slots=run.slots[-1].number + 1,
        packets=len(what), oversize=what.count(OVERSIZE), unrouted=what.count(UNROUTED),
        dropped=sum(map(len, run.dropped)), forwarded=sum(map(len, run.admitted)),
        copies=sum(map(len, outcome.delivered)), cells=sum(map(len, outcome.crossed)),
        longest=longest_waits((slot.rows, slot.match) for slot in run.slots),
    )


def joined(lines: Iterable[str]) -> str:
    """A text of lines."""
    return "".join(line + "\n" for line in lines)


def summary_lines(summary: Summary) -> List[str]:
    """The lines of a summary."""
    numbers = [f"{name} {number}" for name, number in zip(Summary._fields[:-1], summary[:-1])]
    return [*numbers, "longest " + " ".join(map(str, summary.longest))]


def output_lines(counts: Iterable[Tuple[int, int]]) -> List[str]:
    """A line for each output, of its packets and cells."""
    return [f"output {output} packets {packets} cells {cells}" for output, (packets, cells) in enumerate(counts)]


def slot_line(number: int, used: int, first: int, match: Match) -> str:
    """The line of a slot."""
    entries = sorted(match, key=lambda entry: entry.output)
    pairs = (f" {entry.input}>{entry.output}:{entry.level}{LETTERS[entry.kind]}" for entry in entries)
    return f"slot {number} used {used} first {first}" + "".join(pairs)


def slot_lines(slots: Iterable[Slot]) -> List[str]:
    """The lines of the slots of a run."""
    return [slot_line(slot.number, slot.used, slot.first, slot.match) for slot in slots]


def queue_line_texts(lines: Dict[Place, QueueLine]) -> List[str]:
    """The lines of queues, and the deepest."""
    texts = []
    for (port, name), line in lines.items():
        to = f"{name.output}" if name.kind == UNICAST else "*"
        texts.append(
            f"queue {port}>{to}:{name.level}{LETTERS[name.kind]} packets {line.packets} dropped {line.dropped} "
            f"cells {line.cells} peak {line.peak} slot {line.slot}"
        )
    return [*texts, f"deepest {deepest(lines)}"]


def reference_lines(lines: Iterable[ReferenceLine]) -> List[str]:
    """The lines of the reference."""
    return [
        f"reference {output} ends {line.ends} runs {line.runs} lead {line.lead} extra {line.extra}"
        for output, line in enumerate(lines)
    ]


def report_lines(
    summary: Summary, outputs: Iterable[Tuple[int, int]], queues: Optional[Dict[Place, QueueLine]] = None,
    slots: Optional[List[str]] = None, references: Optional[Iterable[ReferenceLine]] = None,
) -> List[str]:
    """The lines of a report; what is None was not asked for."""
    return [
        *summary_lines(summary), *output_lines(outputs), *([] if queues is None else queue_line_texts(queues)),
        *(slots or []), *reference_lines(references or []),
    ]
