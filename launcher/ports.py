"""The files of a job: which port has which capture, and which files would be lost."""

import os
import stat

from .given import given_name
from .words import OVERWRITE

# Packets are counted before a run only where this takes no time that a user sees.
MOST_BYTES_COUNTED = 4 << 20


def refusal(job, may_overwrite):
    """Why a job is not started: one of its files would be lost or hidden. None where all is well."""
    if job.command != "run":
        return None
    if not job.prefix:
        return "PREFIX is empty, so the outputs would be hidden files, as .0.pcap; give a name"
    if job.prefix.endswith("/"):
        return f"PREFIX {job.prefix} is a folder, so the outputs would be hidden files in it, as {job.prefix}.0.pcap; give a name in it: {job.prefix}out"
    return None if may_overwrite else _lost_file(job)


def _lost_file(job):
    read = {job.table: "the table"}
    read.update((name, f"the capture of port {port}") for port, name in reversed(list(enumerate(job.inputs))))
    by_file = {}
    for name, what in read.items():
        by_file.setdefault(_file_of(name), (name, what))
    for output, made in job.outputs().items():
        found = _file_of(output)
        if found and found in by_file:
            return _told(job, *by_file[found], output, made)
    return None


def _file_of(name):
    """A regular file, by device and number, however it is named; None where there is none."""
    try:
        found = os.stat(name)
    except OSError:
        return None
    return (found.st_dev, found.st_ino) if stat.S_ISREG(found.st_mode) else None


def _told(job, name, what, output, made):
    is_same_name = os.path.normpath(name) == os.path.normpath(output)
    if is_same_name and made.startswith("output ") and os.path.exists(f"{job.prefix}.report"):
        why = f"{name}, {what}, is an output of an earlier run with PREFIX {job.prefix}, which a pattern may have caught, and would be replaced"
    elif is_same_name:
        why = f"{name} is {what}, and would be replaced by {made} of PREFIX {job.prefix}"
    else:
        why = f"{name} is {what}, and is the same file as {output}, so it would be replaced by {made}"
    return f"{why}; nothing was run. Give another PREFIX, or {OVERWRITE} before the command"


def lines_of_ports(job, counted=()):
    """For each port its number, its capture, and where it was counted, or that is cheap, the number of packets."""
    is_cheap = sum(map(_size, job.inputs)) <= MOST_BYTES_COUNTED
    found = []
    for port, name in enumerate(job.inputs):
        packets = counted[port] if port < len(counted) else packets_of(port, name) if is_cheap else None
        more = "" if packets is None else ", 1 packet" if packets == 1 else f", {packets:,} packets"
        found.append(f"port {port}: {given_name(name)}{more}")
    return found


def _size(name):
    try:
        return os.stat(name).st_size
    except OSError:
        return 0


def packets_of(port, name):
    """The packets of a capture, None where it is no regular file or cannot be counted."""
    from .captures import Records, Unseen  # Only where ports are told.
    try:
        return sum(1 for _ in Records(port, name))
    except Unseen:
        return None


def lines_of_job(job, counted=()):
    """What a job reads and writes, for --dry-run, with the packets of ports as far as they were counted."""
    found = [f"table: {job.table}"] if job.table is not None else []
    found += lines_of_ports(job, counted)
    found += [f"journal: {name}" for name in job.names if job.command == "check"]
    found += [f"writes {name}" + (", which is there" if os.path.exists(name) else "") for name in job.outputs()]
    return found or ["no file is read or written"]
