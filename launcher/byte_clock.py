"""How far a run of captures is: the bytes that it has read and written so far, and the time that is gone."""

import os
import re
import time

from .place import write_all
from .run_clock import time_of

MEGABYTE = 1_000_000
CLEAR = b"\r\x1b[K"  # The line in which the cursor stands.


class ByteClock:
    """Shows in one line of a terminal, each second, what a run of these inputs has read and written."""

    def __init__(self, inputs, clock=time.monotonic):
        self.size = _size_of(inputs)
        self.clock, self.began = clock, clock()
        self.is_shown = False

    def second(self, process):
        """A second of the process is over."""
        moved = bytes_of(process)
        if moved:
            read, written = (f"{it / MEGABYTE:,.0f}" for it in moved)
            whole = f" of {self.size / MEGABYTE:,.0f}" if self.size else ""
            text = f"{time_of(self.clock() - self.began)}: {read}{whole} MB read, {written} MB written"
            self.is_shown = write_all(2, CLEAR + text.encode())

    def clear(self):
        """The line goes, since another text comes or the run has ended."""
        if self.is_shown:
            write_all(2, CLEAR)
            self.is_shown = False


def bytes_of(process):
    """How many bytes a process has read and written, None where that cannot be seen."""
    try:
        with open(f"/proc/{process}/io", encoding="ascii") as file:
            found = dict(re.findall(r"(\w+): (\d+)", file.read()))
        return int(found["rchar"]), int(found["wchar"])
    except (OSError, KeyError):
        return None


def _size_of(names):
    """The bytes of all files together, 0 where one has no size."""
    try:
        return sum(os.stat(name).st_size for name in names)
    except OSError:
        return 0
