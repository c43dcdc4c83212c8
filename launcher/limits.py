"""How large a job may be: a burst by the number of its ports, a long one in any case the same."""

from typing import NamedTuple, Optional

from .made import most_cells
from .words import JOURNAL, LONG, SLOTS



class Limits(NamedTuple):
    """The most arrival slots of a port, cells of all packets, counted at each output, packets of all captures, where there is
    such a limit, and bytes of a capture."""

    slots: int
    cells: int
    packets: Optional[int]
    capture_bytes: int


MOST_TABLE_BYTES = 16_777_216
LONG_LIMITS = Limits(1 << 31, 1 << 30, 1 << 30, (1 << 32) - 1)


def limits_of(job):
    """The limits of a job."""
    if job.is_long:
        return LONG_LIMITS
    most = most_cells(len(job.inputs))
    return Limits(most, most, None, MOST_TABLE_BYTES)


def told_long(job, count, most):
    """What is added where a job has too many of a thing: of how many a long one takes, where these are no more."""
    if job.is_long or count > most:
        return ""
    clash = " and ".join(name for name in (SLOTS, JOURNAL) if name in job.options)
    return f"; with {LONG}{clash and f' and without {clash}'} up to {most:,}"
