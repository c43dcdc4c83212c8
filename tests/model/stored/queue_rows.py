"""Rows of calls of the queues of an input, one after the other."""

from __future__ import annotations

from collections import defaultdict
from typing import DefaultDict, Dict, List, Optional, Tuple

from ..ports import mask_of
from ..queues import CellName, FanQueue, Queue
from . import forms
from .lines import Rows, by_lines


def cell_text(cell: Optional[CellName]) -> str:
    """A cell that waits."""
    return forms.NONE if cell is None else f"{cell.packet} {cell.number} {'last' if cell.is_last else 'more'}"


def truth(value: bool) -> str:
    """How true and false are written."""
    return "true" if value else "false"


class CallRows(Rows):
    """Lines of calls: those with an arrow have an answer, which the method of the call's name gives."""

    def remade(self, line: str) -> List[str]:
        """The line with its answer, where it has one."""
        question, arrow, _ = line.partition(" -> ")
        call, *words = question.split()
        if call == "case":
            return [line]
        answer = getattr(self, call)(*(int(word, 16) if word.startswith("0x") else int(word) for word in words))
        return [f"{question} -> {answer}" if arrow else line]


class BankRows(CallRows):
    """The unicast queues of an input, by output and level."""

    def make(self, ports: int, depth: int) -> None:
        """Makes the queues."""
        self.ports = ports
        self.queues: DefaultDict[Tuple[int, int], Queue] = defaultdict(lambda: Queue(depth))

    def room(self, output: int, level: int, packets: int) -> None:
        """For how many packets a queue is made."""
        self.queues[output, level].spare = packets

    def fits(self, output: int, level: int, cells: int) -> str:
        """Whether a packet can be taken."""
        return truth(self.queues[output, level].fits(cells))

    def spare(self, output: int, level: int) -> str:
        """How many packets more a queue is made for."""
        return str(self.queues[output, level].spare)

    def admit(self, output: int, level: int, packet: int, cells: int) -> None:
        """Takes a packet."""
        self.queues[output, level].admit(packet, cells)

    def offer(self, output: int, level: int, packet: int, cells: int) -> str:
        """Takes a packet if it fits, and says whether it did."""
        return truth(self.queues[output, level].offer(packet, cells))

    def cells(self, output: int, level: int) -> str:
        """How many cells wait."""
        return str(len(self.queues[output, level].cells))

    def mask(self, level: int) -> str:
        """The outputs for which a cell waits."""
        return forms.mask(output for output in range(self.ports) if self.queues[output, level].cells)

    def pop(self, output: int, level: int) -> str:
        """The first cell, which leaves."""
        return cell_text(self.queues[output, level].pop())


class FanRows(CallRows):
    """The multicast queues of an input, by level."""

    def make(self, ports: int, depth: int, *rooms: int) -> None:
        """Makes the queues."""
        self.queues: Dict[int, FanQueue] = {level: FanQueue(depth, room) for level, room in enumerate(rooms)}

    def fits(self, level: int, cells: int) -> str:
        """Whether a packet can be taken."""
        return truth(self.queues[level].fits(cells))

    def spare(self, level: int) -> str:
        """How many packets more a queue is made for."""
        return str(self.queues[level].spare)

    def admit(self, level: int, packet: int, cells: int, fan: int) -> None:
        """Takes a packet."""
        self.queues[level].admit_to(packet, cells, forms.ports_of(fan))

    def offer(self, level: int, packet: int, cells: int, fan: int) -> str:
        """Takes a packet if it fits, and says whether it did."""
        fits = self.queues[level].fits(cells)
        if fits:
            self.admit(level, packet, cells, fan)
        return truth(fits)

    def fan(self, level: int) -> str:
        """What remains of the fan-out of the head."""
        return f"{mask_of(self.queues[level].remaining):#x}"

    def head(self, level: int) -> str:
        """The first cell."""
        return cell_text(self.queues[level].head())

    def served(self, level: int, outputs: int) -> str:
        """Serves the head to some outputs, and says whether it leaves."""
        return truth(self.queues[level].serve(forms.ports_of(outputs)))


REMAKES = {"banks": by_lines(BankRows), "fan_queues": by_lines(FanRows)}
