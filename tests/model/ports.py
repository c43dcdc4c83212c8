"""Ports, sets of ports and the rotating choice among them."""

from __future__ import annotations

from functools import lru_cache
from typing import FrozenSet, Iterable, Optional

LEVELS = 4
MOST_PORTS = 64
Ports = FrozenSet[int]
NO_PORTS: Ports = frozenset()


def distance(ports: int, pointer: int, port: int) -> int:
    """How far a port is from a pointer, going up and from the last port on to port 0."""
    return (port - pointer) % ports


def next_port(ports: int, port: int) -> int:
    """The port one beyond a port."""
    return (port + 1) % ports


def first_from(ports: int, pointer: int, members: Iterable[int]) -> Optional[int]:
    """The rotating choice: the member of least distance from a pointer, None where there is no member."""
    members = list(members)
    return min(members, key=lambda port: distance(ports, pointer, port)) if members else None


@lru_cache(maxsize=100_000)
def ports_of(mask: int) -> Ports:
    """The set of a mask: bit x says whether port x is in it."""
    return frozenset(port for port in range(mask.bit_length()) if mask >> port & 1)


def mask_of(members: Iterable[int]) -> int:
    """The mask of a set."""
    return sum(1 << port for port in members)


def rotated(ports: int, mask: int, by: int) -> int:
    """The mask whose bit x is bit (x + by) mod `ports` of the given one."""
    return sum(1 << port for port in range(ports) if mask >> ((port + by) % ports) & 1)


def lowest(mask: int) -> Optional[int]:
    """The least member of a mask, None where it is empty."""
    return min(ports_of(mask), default=None)
