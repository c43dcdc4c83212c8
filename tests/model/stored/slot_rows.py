"""Rows of the rotating choice, of single slots, of schedules and of waits."""

from __future__ import annotations

from typing import Callable, Dict, Iterator, List

from ..ports import distance, first_from, lowest, next_port, ports_of, rotated
from ..rounds import Pointers, is_maximal
from ..rows import UNICAST, Entry, row_of
from ..schedulers import SCHEDULERS, Decision, Scheduler, firm, islip, islip_slot, refused
from ..waits import longest_waits
from . import forms
from .lines import Remake, Rows, arrowed, by_lines


class ChoiceRows(Rows):
    """Lines of a call with its answer as the last word."""

    def remade(self, line: str) -> List[str]:
        """The line with its answer."""
        call, *words = line.split()
        question = words[:-1]
        return [" ".join([call, *question, getattr(self, call)(*question)])]

    def dist(self, ports: str, start: str, port: str) -> str:
        """The distance from a pointer to a port."""
        return str(distance(int(ports), int(start), int(port)))

    def next(self, ports: str, port: str) -> str:
        """The port one beyond."""
        return str(next_port(int(ports), int(port)))

    def pick(self, ports: str, start: str, members: str) -> str:
        """The rotating choice."""
        return forms.numbers([first_from(int(ports), int(start), forms.ports(members))])

    def rotate(self, ports: str, members: str, by: str) -> str:
        """A mask, rotated."""
        return f"{rotated(int(ports), int(members, 16), int(by)):#x}"

    def lowest(self, members: str) -> str:
        """The least member."""
        return forms.numbers([lowest(int(members, 16))])


def one_level(question: str) -> str:
    """`NAME N ROUNDS ASKS GRANT ACCEPT`: a slot of one level of unicast."""
    _, ports, rounds, asks, grant, accept = question.split()
    outputs = [forms.ports(part) for part in asks.split(",")]
    slot = islip_slot(int(ports), int(rounds), outputs, forms.read_numbers(grant), forms.read_numbers(accept))
    after = (forms.numbers(pointers) for pointers in (slot.grant, slot.accept))
    return " ".join([forms.numbers(slot.fed), *map(str, slot.numbers), *after])


def helper(question: str) -> str:
    """`transpose N ROWS` or `picks N FROM MASKS FREE`."""
    call, count, *words = question.split()
    ports = range(int(count))
    if call == "transpose":
        rows = [forms.ports(part) for part in words[0].split(",")]
        return ",".join(forms.mask(port for port in ports if output in rows[port]) for output in ports)
    pointers, asked, free = forms.read_numbers(words[0]), words[1].split(","), forms.ports(words[2])
    chosen = (first_from(len(ports), pointers[port], forms.ports(asked[port])) for port in ports)
    return forms.numbers(other if port in free else None for port, other in enumerate(chosen))


class ScheduledRows(Rows):
    """Rows that a scheduler answers: from a line `by NAME` on the one of this name, before the first such line
    iSLIP."""

    def __init__(self) -> None:
        self.scheduler: Scheduler = islip

    def remade(self, line: str) -> List[str]:
        """The line with its answer."""
        key, _, value = line.partition(" ")
        if key == "by":
            self.scheduler = SCHEDULERS[value]
            return [line]
        return self.scheduled(line, key, value)

    def scheduled(self, line: str, key: str, value: str) -> List[str]:
        """The lines in place of any other line."""
        raise NotImplementedError


class DecisionRows(ScheduledRows):
    """Blocks of one slot: ports, rounds, slot, rows and pointers, and then the answers."""

    def __init__(self) -> None:
        super().__init__()
        self.case: Dict[str, str] = {}
        self.answers: Dict[str, str] = {}

    def scheduled(self, line: str, key: str, value: str) -> List[str]:
        """The line, or the one of its answer."""
        if key == "case":
            self.case = {}
        elif key == "shared":
            self.case[key] = value
            self.answers = self.answer()
        elif key in self.answers and "shared" in self.case:
            return [f"{key} {self.answers[key]}"]
        self.case[key] = value
        return [line]

    def answer(self) -> Dict[str, str]:
        """The answers to a block by their keys."""
        ports, rounds, slot = (int(self.case[name]) for name in ("n", "rounds", "slot"))
        rows = forms.rows(self.case["rows"])
        pointers = forms.read_pointers(ports, *(self.case[name] for name in ("grant", "accept", "shared")))
        decision = self.scheduler(ports, rounds, slot, rows, pointers)
        after = decision.pointers
        return {
            "match": forms.match(decision.match, ports),
            "numbers": f"{decision.used} {decision.first} {decision.last_added}",
            "maximal": "yes" if is_maximal(ports, rows, decision.match) else "no",
            "grant_after": forms.table(after.grant, ports), "accept_after": forms.table(after.accept, ports),
            "shared_after": forms.shared(after), "refused": forms.refused(refused(decision.rounds)),
        }


class ScheduleRows(ScheduledRows):
    """Blocks of slots one after the other."""

    def __init__(self) -> None:
        super().__init__()
        self.ports = self.rounds = self.slot = 0
        self.pointers = Pointers(0)

    def scheduled(self, line: str, key: str, value: str) -> List[str]:
        """The line, or the one of its answer."""
        if key == "n":
            self.ports, self.slot, self.pointers = int(value), 0, Pointers(int(value))
        elif key == "rounds":
            self.rounds = int(value)
        elif key == "slot":
            return [self.made(value.split(" -> ")[0])]
        return [line]

    def made(self, rows: str) -> str:
        """The line of the next slot."""
        made: Decision = self.scheduler(self.ports, self.rounds, self.slot, forms.rows(rows), self.pointers)
        self.slot, self.pointers = self.slot + 1, made.pointers
        match = forms.match(made.match, self.ports)
        return f"slot {rows} -> {match} {made.used} {made.first} {made.last_added} {forms.shared(made.pointers)}"


class WaitRows(Rows):
    """Blocks of slots, given and not decided, each with the longest waits after it."""

    def __init__(self) -> None:
        self.slots: list = []

    def remade(self, line: str) -> List[str]:
        """The line with its answer."""
        key, *words = line.split()
        if key == "case":
            self.slots = []
        if key != "note":
            return [line]
        self.slots.append((forms.rows(words[0]), forms.read_match(words[1])))
        return [f"note {words[0]} {words[1]} -> {' '.join(map(str, longest_waits(self.slots)))}"]


def longest(scheduler: Scheduler) -> Remake:
    """Blocks of a request that waits as long as it can: `case N ROUNDS SLOTS` has the slots until output 0 serves
    input 0, from the pointers and over the rows that follow."""

    def remake(text: str) -> str:
        """The text with the numbers of slots made anew."""
        head, *blocks = text.split("\ncase ")
        return "\ncase ".join([head, *(counted(block, scheduler) for block in blocks)])

    return remake


def counted(block: str, scheduler: Scheduler) -> str:
    """A block with its number of slots made anew."""
    first, *lines = block.split("\n")
    ports, rounds = map(int, first.split()[:2])
    words = [line.split() for line in lines if line and not line.startswith("#")]
    grant, *accepts = next(list(map(int, rest)) for key, *rest in words if key == "pointers")
    asked = [[ports_of(int(mask)) for mask in rest] for key, *rest in words if key == "rows"]
    pointers = Pointers(ports, {(0, 0): grant}, {(port, 0): place for port, place in enumerate(accepts)})
    served = next(served_slots(ports, rounds, asked, pointers, scheduler), None)
    return "\n".join([f"{ports} {rounds} {served}", *lines])


def served_slots(ports: int, rounds: int, asked: list, pointers: Pointers, scheduler: Scheduler) -> Iterator[int]:
    """The slots, from 1 on, in which output 0 serves input 0."""
    for number, outputs in enumerate(asked, 1):
        decision = scheduler(ports, rounds, 0, [row_of({0: part}) for part in outputs], pointers)
        pointers = decision.pointers
        if Entry(0, 0, 0, UNICAST) in decision.match:
            yield number


REMAKES: Dict[str, Callable[[str], str]] = {
    "rotating_choice": by_lines(ChoiceRows), "islip_one_round": arrowed(one_level), "islip_rounds": arrowed(one_level),
    "islip_helpers": arrowed(helper), "waits": by_lines(WaitRows),
    "schedules": by_lines(ScheduleRows), "schedules_by_scheduler": by_lines(ScheduleRows),
    "longest_waits": longest(islip), "longest_waits_firm": longest(firm),
    **{f"decide_{kind}": by_lines(DecisionRows) for kind in ("by_scheduler", "many_ports", "random", "refuses")},
}
