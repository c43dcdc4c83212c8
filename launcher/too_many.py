"""Hints on captures with too many packets: how many fit, or at which pace or line rate they do."""

import os
from itertools import takewhile

from .capture_hints import converted, is_nano, with_unit
from .captures import CELL_PAYLOAD, FILE_HEADER, MOST_PACKETS, BadCapture, Records, Unseen, first_time, on_line, read_header, records_of
from .given import given_name
from .limits import LONG_LIMITS, limits_of, told_long
from .slot_lengths import CELL_BYTES, MICROSECOND, MOST_PACE_US, SECOND, short
from .sources import stamp_of
from .words import PACE, RATE

KEEPS = "editcap -F pcap -r IN OUT 1-K keeps the first K of a capture"


def on_slots(job, port, slots):
    """A port with too many arrival slots: by its packets alone, or by their times."""
    more = told_long(job, slots, LONG_LIMITS.slots)
    try:
        return _on_slots(job, port, [Records(*it) for it in enumerate(job.inputs)]) + more
    except Unseen:
        return f"a port may have at most {limits_of(job).slots:,} arrival slots{more}" if more else None


def _on_slots(job, port, found):
    name, limit = job.inputs[port], limits_of(job).slots
    text = f"a port may have at most {limit:,} arrival slots"
    base = first_time(found, MOST_PACKETS)
    cells = [it.cells for it in on_line(found[port], 0, None)]
    if sum(cells) > limit:
        fix = converted(f"editcap -F pcap -r IN OUT 1-{_that_fit(cells, limit)}", name)
        return f"{text}, and the packets of {given_name(name)} have {sum(cells):,} cells; to keep the first that fit: {fix}"
    times = [packet.time for packet in found[port]]
    fits = _that_fits(job, _times_and_room(found, base, limit))
    count = _count_that_fit(found[port], base, limit, job.slot)
    if count:
        fits += f"; to keep its first packets that fit: {converted(f'editcap -F pcap -r IN OUT 1-{count}', name)}"
    if min(times) > base and job.slot.at(max(times) - min(times)) + sum(cells) <= limit:
        fix = f"editcap -F pcap -t -{short((min(times) - base) / SECOND, 6).replace(',', '')} IN OUT"
        fits += f"; to begin it with the first packet of all: {converted(fix, name)}"
    goes_on = f"to {short((max(times) - base) / SECOND, 6)} s after the first packet of all captures"
    return f"{text}, and {given_name(name)} lasts longer than so many slots of {job.slot.told()}, {goes_on}: {fits}"


def _that_fit(cells, limit):
    """How many packets from the first on have at most so many cells together."""
    count, total = 0, 0
    while count < len(cells) and total + cells[count] <= limit:
        total += cells[count]
        count += 1
    return count


def _times_and_room(packets_by_port, base, limit):
    """For each port that has not too many cells in any case its latest time, and how many slots may have begun by then:
    its last slot is at most that of this time, with all cells behind it."""
    for packets in packets_by_port:
        own = sum(it.cells for it in on_line(packets, 0, None))
        if own <= limit:
            yield max((packet.time for packet in packets), default=base) - base, limit - own + 1


def _that_fits(job, times_and_room):
    """A line rate, or else a pace, at which no port has too many arrival slots."""
    both = [(time, room) for time, room in times_and_room if time]
    rate = min(((room * 8 * CELL_BYTES * MICROSECOND - 1) // time for time, room in both), default=0)
    pace = max((time // MICROSECOND // room + 1 for time, room in both), default=1)
    if job.slot.is_of_rate and rate:
        return f"at {RATE} {rate} the packets fit"
    return f"at {PACE} {pace} the packets fit" if pace <= MOST_PACE_US else "its packets are too far apart in time"


def on_bytes(job, name):
    """A capture with more bytes than are read, and so with too many cells: how many of its packets fit."""
    if job.is_long:
        return f"may have at most {limits_of(job).capture_bytes:,} bytes; {with_unit(KEEPS, name)}"
    limit = limits_of(job).cells
    most = FILE_HEADER + CELL_PAYLOAD * limit  # A cell has at most so many bytes of a record.
    text = f"may have at most {limit:,} cells, so at most {most:,} bytes"
    if not stamp_of(name):
        return text
    more = told_long(job, os.stat(name).st_size, LONG_LIMITS.capture_bytes)
    count = _first_that_fit(name, most, limit, job.slot)
    if count is None:
        return text + "; to keep its first 1,000 packets: " + converted("editcap -F pcap -r IN OUT 1-1000", name) + more
    return text + "; to keep its first packets that fit: " + converted(f"editcap -F pcap -r IN OUT 1-{count}", name) + more


def _first_that_fit(name, most, limit, slot):
    """How many packets from the first on have no more arrival slots than the limit; None where the file is no capture."""
    try:
        with open(name, "rb") as file:
            records = list(_whole_records(file.read(most)))
    except (OSError, BadCapture):
        return None
    return _count_that_fit(records, first_time([records[:1]]), limit, slot)


def _count_that_fit(packets, base, limit, slot):
    """How many packets of a port from the first on have no more arrival slots than the limit."""
    ends = (it.first + it.cells for it in on_line(packets, base, slot))
    return sum(1 for _ in takewhile(lambda end: end <= limit, ends))


def _whole_records(data):
    """The records of the first part of a capture, up to one that is cut off there."""
    read_header(data)
    try:
        yield from records_of(data)
    except BadCapture:
        pass


def _keeps(job):
    """The command for any capture of a job; in nanoseconds where one is."""
    return with_unit(KEEPS, next(filter(is_nano, job.inputs), job.inputs[0]))


def on_cells(job, cells):
    limit = limits_of(job).cells
    part = 100 * limit // cells
    text = f"all packets may have at most {limit:,} cells, a multicast one counted at each output: {part} per cent of them fit, and {_keeps(job)}"
    return text + told_long(job, cells, LONG_LIMITS.cells)


def on_packets(job, packets):
    limit = limits_of(job).packets
    return f"all captures together may have at most {limit:,} packets: {100 * limit // packets} per cent of them fit, and {_keeps(job)}"
