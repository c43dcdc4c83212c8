"""Rows of arrival slots, captures, destinations, tables, cells, reassembly and output captures."""

from __future__ import annotations

from typing import Dict, List

from ..captures import Packet, capture_bytes, header_bytes, read_capture, record_bytes
from ..faults import Fault, Refusal
from ..messages import Reassembly, cell_bytes, cells_of, cut, read_cell
from ..plans import MOST_SLOTS, Limits, arrivals_of, not_over, slots_of
from ..rows import LETTERS
from ..table import destination, read_table, route_of
from . import forms
from .lines import Rows, arrowed, by_lines

CAPTURE_FAULTS = {
    "short_header": "short_header {length}", "bad_magic": "bad_magic {found:08x}", "bad_link": "bad_link {found}",
    "bad_version": "bad_version {major}.{minor}", "cut_record": "cut_record {at}",
    "long_record": "long_record {at} {length}",
}
TABLE_FAULTS = {
    "bad_line": "bad_line {line}", "host_bits": "host_bits {line}", "bad_port": "bad_port {line} {port}",
    "bad_level": "bad_level {line}", "repeated": "repeated {line} {first}", "too_many_lines": "too_many_lines {count}",
}


def arrivals(question: str) -> str:
    """`NAME PACE PACKETS`: the arrival slots, or how many are too many."""
    slots = arrival_slots(question)
    return f"too_long {slots_of(slots)}" if slots_of(slots) > MOST_SLOTS else forms.numbers(slots) or forms.NONE


def arrivals_without_limit(question: str) -> str:
    """`NAME PACE PACKETS`: the arrival slots, and how many slots they take."""
    slots = arrival_slots(question)
    return f"{forms.numbers(slots) or forms.NONE} slots {slots_of(slots)}"


def arrival_slots(question: str) -> List[int]:
    """The arrival slots of the packets of `NAME PACE PACKETS`."""
    _, pace, packets = question.split()
    parts = (it.split(":") for it in packets.split(",")) if packets != forms.NONE else ()
    stamps = [(int(time), int(cells)) for time, cells in parts]
    return arrivals_of(stamps, **speed_of(pace))


def speed_of(pace: str) -> Dict[str, int]:
    """What `line`, `MICROS:BASE` or `rate=MBPS:BASE` says of the arrivals."""
    if pace == "line":
        return {}
    speed, base = pace.split(":")
    kind, _, number = speed.rpartition("=")
    return {kind or "pace": int(number), "base": int(base)}


def limits(question: str) -> str:
    """`NAME SLOTS:PACKETS:CELLS PORTS PACKETS CELLS`: the line of the first limit that is passed."""
    _, most, ports, packets, cells = question.split()
    slots, count, work = most.split(":")
    told = Limits(int(slots), None if count == forms.NONE else int(count), int(work))
    try:
        not_over(told, list(map(int, ports.split(","))), int(packets), int(cells))
    except Refusal as refusal:
        return f'"{refusal.line.decode()}"'
    return "none"


def capture(data: bytes) -> str:
    """What a capture says."""
    try:
        read = read_capture(data)
    except Fault as fault:
        return fault.text(CAPTURE_FAULTS)
    parts, at = [], 24
    for packet in read.packets:
        parts.append(f"{packet.seconds}.{packet.nanos:09}:{packet.original}:{at + 16}:{len(packet.data)}")
        at += 16 + len(packet.data)
    return f"ok {'nano' if read.is_nano else 'micro'} {read.link} {','.join(parts) or forms.NONE}"


class CaptureRows(Rows):
    """Lines `NAME BYTES ANSWER`."""

    def remade(self, line: str) -> List[str]:
        """The line with its answer, where it has one."""
        name, data = line.split()[:2]
        return [f"{name} {data} {capture(forms.unhexed(data))}"]


def dotted(number: int) -> str:
    """An address as it is written."""
    return ".".join(map(str, number.to_bytes(4, "big")))


class DestinationRows(Rows):
    """Lines `NAME LINK ANSWER FRAME`."""

    def remade(self, line: str) -> List[str]:
        """The line with its answer, where it has one."""
        name, link, _, frame = line.split()
        found = destination(int(link), forms.unhexed(frame))
        return [f"{name} {link} {forms.NONE if found is None else dotted(found)} {frame}"]


class TableRows(Rows):
    """Blocks `n`, `repeat`, `text`, `answer` and `route` of a table's text."""

    def __init__(self) -> None:
        self.case: Dict[str, str] = {}

    def remade(self, line: str) -> List[str]:
        """The line with its answer, where it has one."""
        key, _, value = line.partition(" ")
        if key == "answer":
            return [f"answer {self.answer()}"]
        if key == "route":
            return [f"route {value.split()[0]} {self.route(value.split()[0])}"]
        self.case = {**(self.case if key != "case" else {}), key: value}
        return [line]

    def answer(self) -> str:
        """How many lines the table has, or its fault."""
        text = forms.unquoted(self.case["text"]).encode("latin-1") * int(self.case.get("repeat", 1))
        try:
            self.table = read_table(text, int(self.case["n"]))
        except Fault as fault:
            return fault.text(TABLE_FAULTS)
        return f"ok {len(self.table)}"

    def route(self, address: str) -> str:
        """The route of an address."""
        octets = bytes(map(int, address.split("."))) if address != forms.NONE else b""
        found = route_of(self.table, int.from_bytes(octets, "big") if octets else None)
        return "none" if found is None else f"{forms.mask(found.fan)} {found.level}"


LONG_PACKET = bytes(number % 251 for number in range(65_535))


class CellRows(Rows):
    """Lines `cells_of`, `cut`, `cut_long` and `form`."""

    def remade(self, line: str) -> List[str]:
        """The line with its answer, where it has one."""
        words = line.split()
        if words[0] == "cells_of":
            return [f"cells_of {words[1]} {cells_of(int(words[1]))}"]
        question = line.split(" -> ")[0]
        answer = self.form(words[1]) if words[0] == "form" else self.cell(question.split())
        return [f"{question} -> {answer}"]

    def cell(self, words: List[str]) -> str:
        """A cell of a packet."""
        data = LONG_PACKET if words[0] == "cut_long" else forms.unhexed(words[8])
        seconds, nanos, original = map(int, words[4:7])
        packet = Packet(seconds, nanos, original, data)
        return cell_bytes(cut(packet, int(words[1]), int(words[2]), LETTERS.index(words[3]), int(words[7]))).hex()

    def form(self, data: str) -> str:
        """What 64 bytes say."""
        cell = read_cell(bytes.fromhex(data))
        if cell is None:
            return "none"
        return f"{cell.input} {cell.level} {LETTERS[cell.kind]} {int(cell.is_last)} {cell.used} {cell.number}"


class ReassemblyRows(Rows):
    """Blocks `n`, `size`, `put`, `fit` and `no_fit` of the cells at an output."""

    def __init__(self) -> None:
        self.output = Reassembly(0, {})

    def remade(self, line: str) -> List[str]:
        """The line with its answer, where it has one."""
        key, *words = line.split()
        if key == "n":
            self.output = Reassembly(int(words[0]), {})
        elif key == "size":
            self.output.room[int(words[0]), int(words[1]), LETTERS.index(words[2])] = int(words[3])
        elif key == "put":
            return [f"put {words[0]} -> {self.put(words[0])}"]
        elif key in ("fit", "no_fit"):
            cell = read_cell(bytes.fromhex(words[0]))
            return [f"{'fit' if cell is not None and self.output.fits(cell) else 'no_fit'} {words[0]}"]
        return [line]

    def put(self, data: str) -> str:
        """The message that ends with a cell."""
        cell = read_cell(bytes.fromhex(data))
        assert cell is not None
        message = self.output.put(cell)
        return forms.NONE if message is None else f"{cell.input} {cell.level} {LETTERS[cell.kind]} {message.hex()}"


def message(question: str) -> str:
    """`header UNIT LINK`, `record UNIT MESSAGE` or `capture UNIT LINK MESSAGES`: the bytes."""
    kind, unit, *words = question.split()
    if kind == "header":
        return header_bytes(unit == "nano", int(words[0])).hex()
    if kind == "record":
        return record_bytes(bytes.fromhex(words[0]), unit == "nano").hex()
    messages = map(bytes.fromhex, words[1].split(",")) if words[1] != forms.NONE else ()
    return capture_bytes(messages, unit == "nano", int(words[0])).hex()


REMAKES = {
    **dict.fromkeys(("arrivals", "arrivals_at_line_rate"), arrowed(arrivals)),
    "arrivals_without_limit": arrowed(arrivals_without_limit), "limits": arrowed(limits),
    **dict.fromkeys(("captures", "captures_changed"), by_lines(CaptureRows)),
    "destinations": by_lines(DestinationRows), "tables": by_lines(TableRows), "cells": by_lines(CellRows),
    "reassembly": by_lines(ReassemblyRows), "messages": arrowed(message),
}
