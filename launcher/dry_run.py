"""What a job would end with, as far as its words and files show it without a run: the program's line and its status."""

import os
import stat
from typing import NamedTuple, Tuple

from .capture_hints import first_bytes
from .captures import CELL_PAYLOAD, LONGEST_FORWARDED, BadCapture, bytes_in, destination, on_line, read_header, records_of
from .hints import MOST_JOURNAL_BYTES, fault_of_path
from .limits import MOST_TABLE_BYTES, limits_of
from .made import HALVED_ABOVE, cells_of_gen, most_cells
from .simulation_words import MOST_WAITING, cells_of
from .tables import MAX_PORTS, BadTable, read_table, route
from .words import SIMULATE

JOURNAL, MAX_ROUNDS = int.from_bytes(b"TTJ1", "big"), 64
MOST_SLOTS, MOST_SLOTS_HALVED = 262_145, 131_073
READ_FAULT, REFUSED, WRITE_FAULT = 3, 4, 6
# The frame's bytes in which an address may stand.
HEAD = CELL_PAYLOAD


class Refused(Exception):
    """A job that cannot be run: the status and the line that the program would end with."""

    def __init__(self, status, said):
        super().__init__(said)
        self.status, self.said = status, said


class Found(NamedTuple):
    """What is seen of a job: the status, the line for one that is not 0, what was not looked at, and the packets of the
    ports, as far as they were counted."""

    status: int
    said: str
    unseen: Tuple[str, ...]
    packets: Tuple[int, ...]


def look(job) -> Found:
    """Looks at what a job reads and writes, and in the order in which the program does."""
    sight = {"run": _Captures, "firm": _Captures, "check": _Journal, "gen": _Made, SIMULATE: _Simulated}[job.command](job)
    status, said = 0, ""
    try:
        sight.look()
    except Refused as fault:
        status, said = fault.status, fault.said
    return Found(status, said, sight.unseen(), tuple(getattr(sight, "packets", ())))


class _Made:
    """What `gen` makes."""

    def __init__(self, job):
        self.numbers = map(int, job.names)

    def look(self):
        seed, count, ports = self.numbers
        cells = cells_of_gen(seed, count, ports)
        if cells > most_cells(ports):
            raise Refused(REFUSED, f"too many cells: {cells}")

    def unseen(self):
        return ("whether there is room in memory",)


class _Simulated:
    """What `simulate` makes."""

    def __init__(self, job):
        self.cells = cells_of(job)

    def look(self):
        if self.cells > MOST_WAITING:
            raise Refused(REFUSED, f"too many cells: {self.cells}")

    def unseen(self):
        return ("whether there is room in memory",)


class _Journal:
    """A journal that is to be checked."""

    def __init__(self, job):
        self.name = job.names[0]

    def look(self):
        if _is_seen(self.name, MOST_JOURNAL_BYTES):
            at = bad_field(first_bytes(self.name, 12))
            if at is not None:
                raise Refused(REFUSED, f"journal: bad at {at}")

    def unseen(self):
        return ("what the journal has behind its header, and whether there is room in memory",)


def bad_field(header):
    """Where the first bad field of a journal's header begins, None where there is none."""
    most_slots = MOST_SLOTS_HALVED if header[4:5] > bytes([HALVED_ABOVE]) else MOST_SLOTS
    for at, size, low, high in ((0, 4, JOURNAL, JOURNAL), (4, 1, 1, MAX_PORTS), (5, 1, 1, MAX_ROUNDS), (6, 2, 0, 0), (8, 4, 1, most_slots)):
        field = header[at:at + size]
        if len(field) < size or not low <= int.from_bytes(field, "big") <= high:
            return at
    return None


class _Captures:
    """The table and the captures of a job, and the files that it writes."""

    def __init__(self, job):
        self.job, self.limits = job, limits_of(job)
        self.others = []  # Files that are not seen.
        self.packets = []  # Of each port.
        self.routes = None

    def unseen(self):
        found = [f"{name}, which is no file that can be read twice" for name in self.others]
        if self.others:
            found.append("how many slots and cells the packets have")
        limited = () if self.job.is_long else ("journal", "packets")
        found += [f"whether the {what} file would be too long" for what in limited if f"--{what}" in self.job.options]
        return (*found, "whether there is room in memory" + (" and on the disk" if self.job.command == "run" else ""))

    def look(self):
        for name, most in ((self.job.table, MOST_TABLE_BYTES), *((name, self.limits.capture_bytes) for name in self.job.inputs)):
            if not _is_seen(name, most) and name not in self.others:
                self.others.append(name)
        self._read_table()
        heads = [self._read_capture(port) for port in range(len(self.job.inputs))]
        links = [link for link, _ in heads if link]
        other = next((link for link in links if link != links[0]), None)
        if other:
            raise Refused(REFUSED, f"link types {links[0]} and {other}")
        if not self.others:
            self._count(min((time for _, time in heads if time is not None), default=0))
        self._look_at_outputs()

    def _read_table(self):
        if self.job.table not in self.others:
            try:
                self.routes = read_table(bytes(_bytes_of(self.job.table)), len(self.job.inputs))
            except BadTable as fault:
                raise Refused(REFUSED, str(fault)) from None

    def _read_capture(self, port):
        """The link type and the earliest time of a capture, both None where it is not seen; Refused where it is bad."""
        name = self.job.inputs[port]
        if name in self.others:
            return None, None
        data = _bytes_of(name)
        try:
            link = read_header(data).link
            return link, min((record.time for record in records_of(data)), default=None)
        except BadCapture as fault:
            raise Refused(REFUSED, f"capture {port}: {fault}") from None

    def _count(self, base):
        """Refused where a port has too many arrival slots, or all captures have too many packets or cells."""
        cells, known = 0, {}
        for port, name in enumerate(self.job.inputs):
            slots, packets, cells_more = self._counted(_bytes_of(name), base, known)
            self.packets.append(packets)
            if slots > self.limits.slots:
                raise Refused(REFUSED, f"too many slots: port {port} has {slots}")
            cells += cells_more
        packets = sum(self.packets)
        if self.limits.packets and packets > self.limits.packets:
            raise Refused(REFUSED, f"too many packets: {packets}")
        if cells > self.limits.cells:
            raise Refused(REFUSED, f"too many cells: {cells}")

    def _counted(self, data, base, known):
        """The arrival slots of a port, its packets, and their cells, counted at each output; answers of routes are known."""
        link, slots, packets, cells = read_header(data).link, 0, 0, 0
        for record, _, first, count in on_line(records_of(data), base, self.job.slot):
            slots = first + count
            packets += 1
            address = destination(link, data[record.start:record.start + min(record.length, HEAD)])
            if address not in known:
                known[address] = route(self.routes, address)
            if known[address] and record.length <= LONGEST_FORWARDED:
                cells += count * len(known[address][0])
        return slots, packets, cells

    def _look_at_outputs(self):
        for name in self.job.outputs():
            if fault_of_path(name, True):
                raise Refused(WRITE_FAULT, f"write fault: {name}")


def _is_seen(name, most):
    """Whether a file can be looked at without taking anything from it; Refused where it cannot be read, or is too long."""
    try:
        found = os.stat(name)
        if stat.S_ISREG(found.st_mode):
            with open(name, "rb"):
                pass
    except OSError:
        found = None
    if found is None or stat.S_ISDIR(found.st_mode):
        raise Refused(READ_FAULT, f"read fault: {name}")
    if stat.S_ISREG(found.st_mode) and found.st_size > most:
        raise Refused(REFUSED, f"too long: {name}")
    return stat.S_ISREG(found.st_mode)


def _bytes_of(name):
    try:
        with open(name, "rb") as file:
            return bytes_in(file)
    except OSError:
        raise Refused(READ_FAULT, f"read fault: {name}") from None
