"""Reads the report of a run: its summary, its outputs and, where it has them, its lines of queues, slots and references."""

from __future__ import annotations

import re
from typing import Dict, List, NamedTuple, Optional, Sequence, Tuple

SUMMARY = (
    "ports", "rounds", "depth", "slots", "packets", "oversize",
    "unrouted", "dropped", "forwarded", "copies", "cells",
)
LEVELS = 4
MAX_PORTS = 64
MAX_ROUNDS = 64
# As it is printed, without leading zeros, and no longer than the greatest number of 64 bits.
NUMBER = re.compile(r"0|[1-9][0-9]{0,19}")
PAIR = re.compile(r"([0-9]{1,2})>([0-9]{1,2}):([0-3])([um])")
QUEUE = re.compile(r"queue ([0-9]{1,2})>([0-9]{1,2}|\*):([0-3])([um])")


class BadReport(ValueError):
    """A text is no report; the message names the line, counted from 1."""


class Pair(NamedTuple):
    """One output that is fed in a slot."""

    input: int
    output: int
    level: int
    multicast: bool


class Slot(NamedTuple):
    """One slot line: how many rounds added a pair, what the first matched, and the fed outputs."""

    used: int
    first: int
    pairs: List[Pair]


class Reference(NamedTuple):
    """One output beside an ideal switch whose queues stand at the outputs.

    `ends` is one more than the last slot in which the ideal switch gave out a cell for the output, and
    `runs` the same of the run; `lead` is the most cells by which it was ahead at the end of a slot, and
    `extra` the sum of these over all slots.
    """

    ends: int
    runs: int
    lead: int
    extra: int


class Queue(NamedTuple):
    """What one queue held; `output` is None for multicast, and `slot` is the first one with the peak.

    `packets` were for the queue, of which `dropped` did not fit; `cells` are those of the others. Both the peak
    and its slot are 0 where nothing was admitted.
    """

    input: int
    output: Optional[int]
    level: int
    packets: int
    dropped: int
    cells: int
    peak: int
    slot: int

    @property
    def name(self) -> str:
        """The queue as the report names it: 0>1:2u, or 0>*:2m for multicast."""
        return f"{self.input}>*:{self.level}m" if self.output is None else f"{self.input}>{self.output}:{self.level}u"


class Report(NamedTuple):
    """A report; `queues`, `slots` and `reference` are None where it has no such lines."""

    summary: Dict[str, int]
    longest: Tuple[int, ...]
    outputs: List[Tuple[int, int]]
    slots: Optional[List[Slot]]
    reference: Optional[List[Reference]]
    queues: Optional[List[Queue]] = None

    @property
    def deepest(self) -> Optional[int]:
        """The greatest peak of all queues, 0 where there is no queue; None where the report does not tell the queues."""
        return None if self.queues is None else max((queue.peak for queue in self.queues), default=0)


def read_report(text: str) -> Report:
    """The report that a text is, else BadReport."""
    lines = text.split("\n")
    if lines.pop():
        raise BadReport(f"line {len(lines) + 1}: the report ends within a line")
    reader = _Lines(lines)
    summary = reader.summary()
    longest = tuple(reader.numbers("longest", LEVELS))
    outputs = [reader.output(number) for number in range(summary["ports"])]
    queues = reader.queues() if reader.next_is("queue") or reader.next_is("deepest") else None
    slots = None
    if reader.next_is("slot"):
        slots = [reader.slot(number) for number in range(summary["slots"])]
    reference = None
    if reader.next_is("reference"):
        reference = [reader.reference(number) for number in range(summary["ports"])]
    if reader.at < len(lines):
        raise BadReport(f"line {reader.at + 1}: a line too many")
    return Report(summary, longest, outputs, slots, reference, queues)


class _Lines:
    """The lines of a report and the place of the next one."""

    def __init__(self, lines: List[str]) -> None:
        self.lines = lines
        self.at = 0
        self.ports = MAX_PORTS
        self.pairs: Dict[str, Pair] = {}

    def fault(self, what: str) -> BadReport:
        return BadReport(f"line {self.at}: {what}")

    def next_is(self, name: str) -> bool:
        return self.at < len(self.lines) and self.lines[self.at].startswith(name + " ")

    def words(self) -> List[str]:
        if self.at == len(self.lines):
            raise BadReport(f"line {self.at + 1}: the report ends early")
        self.at += 1
        return self.lines[self.at - 1].split(" ")

    def number(self, word: str) -> int:
        if not NUMBER.fullmatch(word):
            raise self.fault(f"{word[:24]!r} is no number")
        return int(word)

    def port(self, word: str) -> int:
        number = self.number(word)
        if number >= self.ports:
            raise self.fault(f"there is no port {number}")
        return number

    def numbers(self, name: str, count: int) -> List[int]:
        """The numbers of the line `name` and so many numbers."""
        words = self.words()
        if words[0] != name or len(words) != count + 1:
            raise self.fault(f"expected {name} with {count} numbers")
        return [self.number(word) for word in words[1:]]

    def named(self, words: Sequence[str], names: Tuple[str, ...]) -> List[int]:
        """The numbers of words of the form name, number, name, number."""
        if tuple(words[::2]) != names or len(words) != 2 * len(names):
            raise self.fault("expected " + ", ".join(names))
        return [self.number(word) for word in words[1::2]]

    def summary(self) -> Dict[str, int]:
        """The first lines, which say how many ports and rounds there are."""
        found = {}
        for name in SUMMARY:
            found[name] = self.numbers(name, 1)[0]
            most = {"ports": MAX_PORTS, "rounds": MAX_ROUNDS}.get(name)
            if most and not 1 <= found[name] <= most:
                raise self.fault(f"{name} are 1 to {most}")
        self.ports = found["ports"]
        return found

    def output(self, number: int) -> Tuple[int, int]:
        found, packets, cells = self.named(self.words(), ("output", "packets", "cells"))
        if found != number:
            raise self.fault(f"expected output {number}")
        return packets, cells

    def reference(self, number: int) -> Reference:
        found, *numbers = self.named(self.words(), ("reference", *Reference._fields))
        if found != number:
            raise self.fault(f"expected reference {number}")
        return Reference(*numbers)

    def slot(self, number: int) -> Slot:
        words = self.words()
        found, used, first = self.named(words[:6], ("slot", "used", "first"))
        if found != number:
            raise self.fault(f"expected slot {number}")
        pairs = [self.known_pair(word) for word in words[6:]]
        outputs = [pair.output for pair in pairs]
        if outputs != sorted(set(outputs)):
            raise self.fault("the outputs do not rise")
        return Slot(used, first, pairs)

    def known_pair(self, word: str) -> Pair:
        """A pair, whose word is taken apart the first time only, since the same ones come in many slots."""
        if word not in self.pairs:
            self.pairs[word] = self.pair(word)
        return self.pairs[word]

    def pair(self, word: str) -> Pair:
        found = PAIR.fullmatch(word)
        if not found:
            raise self.fault(f"{word[:24]!r} is no pair")
        return Pair(self.port(found[1]), self.port(found[2]), int(found[3]), found[4] == "m")

    def queues(self) -> List[Queue]:
        """The lines of the queues, up to the one that tells the greatest peak."""
        found = []
        while self.next_is("queue"):
            found.append(self.queue())
        if self.numbers("deepest", 1)[0] != max((queue.peak for queue in found), default=0):
            raise self.fault("not the greatest peak")
        return found

    def queue(self) -> Queue:
        words = self.words()
        name = QUEUE.fullmatch(" ".join(words[:2]))
        if not name or (name[2] == "*") != (name[4] == "m"):
            raise self.fault("expected a queue")
        output = None if name[2] == "*" else self.port(name[2])
        return Queue(self.port(name[1]), output, int(name[3]), *self.named(words[2:], Queue._fields[3:]))
