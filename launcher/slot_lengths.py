"""How long a slot lasts: so many microseconds, or as long as a cell on a line of so many Mbit/s."""

from typing import NamedTuple

CELL_BYTES, MICROSECOND, SECOND = 64, 1_000, 1_000_000_000
MOST_PACE_US, MOST_RATE = 1_000_000, 1_600_000
# The frames that fill their cells worst have 97 captured bytes. With the check sequence, the preamble and the gap they are
# 121 bytes of Ethernet, and with the 16 bytes before a packet they take three cells.
WORST_FRAME, WORST_CELLS = 121, 3
MOST_ETHERNET = MOST_RATE * WORST_FRAME // (WORST_CELLS * CELL_BYTES)


class Slot(NamedTuple):
    """The length of a slot: so many nanoseconds, divided by a number, since those of a line rate are no whole ones."""

    nanos: int
    divisor: int
    is_of_rate: bool

    def at(self, nanos: int) -> int:
        """The slot of a time, in nanoseconds from the begin of slot 0."""
        return nanos * self.divisor // self.nanos

    def slots_in(self, nanos: int) -> int:
        """How many slots so many nanoseconds have, rounded up."""
        return -(-nanos * self.divisor // self.nanos)

    def told(self, count: int = 1) -> str:
        """How long so many slots last."""
        time = count * self.nanos / self.divisor
        return f"{short(time, 3)} ns" if time < MICROSECOND else f"{short(time / MICROSECOND, 3)} us"


def of_pace(pace_us: int) -> Slot:
    return Slot(pace_us * MICROSECOND, 1, False)


def of_rate(mbps: int) -> Slot:
    return Slot(8 * CELL_BYTES * MICROSECOND, mbps, True)


def rate_for(ethernet: int) -> int:
    """The least line rate that keeps up with any frames of an Ethernet of so many Mbit/s."""
    return -(-WORST_CELLS * CELL_BYTES * ethernet // WORST_FRAME)


def short(number: float, places: int) -> str:
    """A number with at most so many places."""
    return f"{number:,.{places}f}".rstrip("0").rstrip(".")
