"""The made input of the command `gen`."""

from __future__ import annotations

from typing import List, NamedTuple

from .ports import LEVELS

HEADER = bytes.fromhex("d4c3b2a1020004000000000000000000" "00000400" "01000000")


class MadeInput(NamedTuple):
    """A table and a capture for each port, as files."""

    table: bytes
    captures: List[bytes]


def made_table(ports: int) -> bytes:
    """For each level, group and port a line: to the port alone in group 0, also to the next one in group 1."""
    lines = []
    for level in range(LEVELS):
        for group in range(2):
            for port in range(ports):
                fan = f"{port}" if group == 0 or ports == 1 else f"{port},{(port + 1) % ports}"
                lines.append(f"10.{level}.{group}.{port}/32 {fan} {level}\n")
    return "".join(lines).encode("ascii")


def made_record(seed: int, number: int, port: int, ports: int) -> bytes:
    """A record of a port's capture."""
    drawn = (75 * (seed + 101 * number + 13 * port) + 74) % 65_537
    length, level, group = 60 + drawn % 1_441, drawn % 4, int(drawn // 4 % 8 == 0)
    frame = bytearray(length)
    frame[12], frame[14] = 0x08, 0x45
    frame[30:34] = bytes([10, level, group, drawn // 8 % ports])
    return b"".join(field.to_bytes(4, "little") for field in (number, port, length, length)) + bytes(frame)


def made_input(seed: int, count: int, ports: int) -> MadeInput:
    """The table and the captures of so many packets for each port."""
    captures = [
        HEADER + b"".join(made_record(seed, number, port, ports) for number in range(count)) for port in range(ports)
    ]
    return MadeInput(made_table(ports), captures)
