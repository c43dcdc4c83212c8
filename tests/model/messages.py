"""Messages, and the cells that they are cut into."""

from __future__ import annotations

from typing import Dict, Iterable, List, NamedTuple, Optional, Tuple

from .captures import Packet
from .ports import LEVELS, MOST_PORTS
from .rows import KINDS

HEADER, PAYLOAD = 16, 56  # Bytes of a message's header, and of a cell's payload.
LAST_NUMBER = 1_170  # Of the cells of the longest packet that is forwarded.
Flow = Tuple[int, int, int]  # Input, level and kind.


class Cell(NamedTuple):
    """A cell: its flow, whether its message ends with it, how many bytes of the payload belong to the message, its
    number in the message, and the payload, with zeros after the used bytes."""

    input: int
    level: int
    kind: int
    is_last: bool
    used: int
    number: int
    payload: bytes

    def flow(self) -> Flow:
        """Its flow."""
        return self.input, self.level, self.kind


def cells_of(length: int) -> int:
    """How many cells a packet of so many captured bytes has."""
    return -(-(HEADER + length) // PAYLOAD)


def message_of(packet: Packet) -> bytes:
    """The message of a packet: time, captured and original length, and the captured bytes."""
    fields = (packet.seconds, packet.nanos, len(packet.data), packet.original)
    return b"".join(number.to_bytes(4, "big") for number in fields) + packet.data


def cut(packet: Packet, port: int, level: int, kind: int, number: int) -> Cell:
    """Cell `number` of a packet of an input."""
    message = message_of(packet)
    part = message[PAYLOAD * number:PAYLOAD * (number + 1)]
    assert part
    is_last = PAYLOAD * (number + 1) >= len(message)
    return Cell(port, level, kind, is_last, len(part), number, part + bytes(PAYLOAD - len(part)))


def is_cell(cell: Cell) -> bool:
    """Whether its fields are those of a cell."""
    has_flow = 0 <= cell.input < MOST_PORTS and 0 <= cell.level < LEVELS and cell.kind in KINDS
    is_used = 1 <= cell.used <= PAYLOAD if cell.is_last else cell.used == PAYLOAD
    has_payload = len(cell.payload) == PAYLOAD and not any(cell.payload[cell.used:])
    return has_flow and is_used and has_payload and 0 <= cell.number <= LAST_NUMBER


def cell_bytes(cell: Cell) -> bytes:
    """The 64 bytes of a cell."""
    head = bytes([cell.input, cell.level, cell.kind, int(cell.is_last), cell.used, 0])
    return head + cell.number.to_bytes(2, "big") + cell.payload


def read_cell(data: bytes) -> Optional[Cell]:
    """The cell that 64 bytes are, None where they are none."""
    if data[3] > 1 or data[5] != 0:
        return None
    number = int.from_bytes(data[6:8], "big")
    cell = Cell(data[0], data[1], data[2], data[3] == 1, data[4], number, bytes(data[8:]))
    return cell if is_cell(cell) else None


class Delivered(NamedTuple):
    """A message that left at an output, in the slot in which its last cell crossed."""

    slot: int
    input: int
    level: int
    kind: int
    message: bytes


def put_together(cells: Iterable[Tuple[int, Cell]]) -> List[Delivered]:
    """The messages of the cells that crossed to one output, each with its slot, in the order of their last cells."""
    flows: Dict[Flow, List[Cell]] = {}
    delivered: List[Delivered] = []
    for slot, cell in cells:
        parts = flows.setdefault(cell.flow(), [])
        assert cell.number == len(parts)
        parts.append(cell)
        if cell.is_last:
            message = b"".join(part.payload[:part.used] for part in flows.pop(cell.flow()))
            delivered.append(Delivered(slot, *cell.flow(), message))
    return delivered


class Reassembly:
    """The cells of the messages that come to an output. For each flow there is room for the longest of its messages."""

    def __init__(self, ports: int, room: Dict[Flow, int]) -> None:
        self.ports, self.room = ports, room
        self.parts: Dict[Flow, List[Cell]] = {}

    def fits(self, cell: Cell) -> bool:
        """Whether a cell is the next of its flow, of a port, and has room there."""
        parts = self.parts.get(cell.flow(), [])
        used = sum(part.used for part in parts) + cell.used
        is_next = is_cell(cell) and cell.input < self.ports and cell.number == len(parts)
        return is_next and used <= self.room.get(cell.flow(), 0)

    def put(self, cell: Cell) -> Optional[bytes]:
        """Takes a cell, and gives the message that ends with it, None where it is not the last."""
        assert self.fits(cell)
        self.parts.setdefault(cell.flow(), []).append(cell)
        if not cell.is_last:
            return None
        return b"".join(part.payload[:part.used] for part in self.parts.pop(cell.flow()))
