"""After a run: the command that says what the packets are that no line of the table serves."""

import os
import re
import shlex

from .given import Converted
from .sources import stamp_of

SUMMARY_BYTES = 1024  # More than the summary has, which begins a report.


def line_of_unrouted(place, job):
    """A hint where a run has such packets, and its files can be read again; else None."""
    tool = place.path("tools", "unrouted")
    count, names = _count(f"{job.prefix}.report"), [job.table, *job.inputs]
    if not count or not os.path.exists(tool) or not all(map(stamp_of, names)):
        return None
    told = f"{count:,} packet{'s are' if count > 1 else ' is'} unrouted; "
    if any(isinstance(name, Converted) for name in names):
        return told + "to see why, give tools/unrouted captures that are classic ones"
    dashes = ["--"] if any(name.startswith("-") for name in names) else []
    command = shlex.join([_from_here(tool), *dashes, *names])
    return f"{told}to see why: {command}"


def _from_here(path):
    """The name of a file in the folder in which one stands, else its whole path."""
    try:
        near = os.path.relpath(path)
    except OSError:
        return path
    return path if near.startswith(os.pardir) else near


def _count(report):
    """The number in the line `unrouted` of a report, 0 where there is none."""
    if not stamp_of(report):
        return 0
    with open(report, "rb") as file:
        found = re.search(rb"^unrouted (\d+)$", file.read(SUMMARY_BYTES), re.M)
    return int(found[1]) if found else 0
