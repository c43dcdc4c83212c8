"""One line of help after the program's own line, for statuses 2, 3, 4 and 6. A hint that does not know says nothing."""

import errno
import os
import re
import resource

from . import capture_hints, table_hints
from .given import given_name
from .journal_hints import on_journal
from .limits import MOST_TABLE_BYTES
from .made import largest_count
from .simulation_words import MOST_WAITING, queues_of
from .too_many import on_bytes, on_cells, on_packets, on_slots
from .words import CONVERT, LONG, MAX_COUNT, SIMULATE, Fault, read_words

MOST_JOURNAL_BYTES = 134_217_728


def hint(words, status, said):
    """What is to be said of a run that ended so, None where that is not known."""
    try:
        job = read_words(words)
    except Fault as fault:
        return str(fault) if status == 2 else None
    for at, pattern, make in HINTS:
        found = re.fullmatch(pattern, said.rstrip("\n"), re.S) if at == status else None
        if found:
            return make(job, *found.groups())
    return None


def _part_of(job, name):
    """What a file is in the job."""
    if name == job.table:
        return "TABLE"
    if name in job.inputs:
        return f"the capture of port {job.inputs.index(name)}"
    return "the journal"


def fault_of_path(name, for_writing):
    """What stands against reading or writing a file, None where nothing is seen."""
    folder = os.path.dirname(name) or "."
    if not os.path.isdir(folder):
        return f"there is no folder {folder}"
    if os.path.isdir(name):
        return f"{name} is a folder"
    if os.path.exists(name):
        return None if os.access(name, os.W_OK if for_writing else os.R_OK) else f"this user may not {'write' if for_writing else 'read'} {name}"
    if for_writing:
        return None if os.access(folder, os.W_OK) else f"this user may not write to the folder {folder}"
    if os.path.islink(name):
        return f"{name} is a link to a file that is not there"
    if any(it in name for it in "*?["):
        return f"no file fits the pattern {name}"
    return f"there is no file {name}"


def _on_read(job, name):
    why = fault_of_path(name, False)
    return f"{_part_of(job, name)}: {why}" if why else None


def _on_write(job, name):
    why = fault_of_path(name, True) or _fault_of_room(name)
    return f"{why}; PREFIX is {job.prefix}" if why else None


def _fault_of_room(name):
    """That there is no room for more bytes of a file, None where none is seen."""
    folder = os.path.dirname(name) or "."
    most = resource.getrlimit(resource.RLIMIT_FSIZE)[0]
    try:
        if most != resource.RLIM_INFINITY and os.path.getsize(name) >= most:
            return f"no file may have more than {most:,} bytes here (ulimit -f)"
        is_full = os.statvfs(folder).f_bavail == 0
    except OSError as fault:
        is_full = fault.errno == errno.ENOSPC
    return f"the disk of {folder} is full" if is_full else None


def _on_standard_output(job):
    where = "; all files are written" if job.command == "run" else ""
    return "standard output is closed or full, or its reader has ended, as head does" + where


def _on_too_long(job, name):
    if name == job.table and capture_hints.is_capture(name):  # It is read before the captures.
        return table_hints.on_capture(job)
    if name in job.inputs:
        return f"{_part_of(job, name)} {on_bytes(job, job.inputs[job.inputs.index(name)])}"
    most = MOST_JOURNAL_BYTES if job.command == "check" else MOST_TABLE_BYTES
    return f"{_part_of(job, name)} may have at most {most:,} bytes"


def _on_capture(job, port, said):
    port = int(port)
    name = job.inputs[port] if port < len(job.inputs) else ""
    text = capture_hints.hint_on(name, said) if name else None
    if text and capture_hints.kind_of(name):
        text = text.replace(": ", f"; {CONVERT} before the command takes it, or: ", 1)
    return f"{given_name(name)}, the capture of port {port}, {text}" if text else None


def _of_line(make):
    """A hint on a line of the table, with numbers."""
    return lambda job, *groups: make(job, *map(int, groups))


def _on_all_cells(job, cells):
    if job.command == SIMULATE:
        queues = queues_of(job.options, int(job.names[2]))
        return f"{queues:,} queues hold at most {MOST_WAITING:,} cells together: --depth {MOST_WAITING // queues} is the most"
    if job.command != "gen":
        return on_cells(job, int(cells))
    seed, _, ports = map(int, job.names)
    most = largest_count(seed, ports, MAX_COUNT)
    return f"with SEED {seed} and PORTS {ports} the largest COUNT is {most}"


def _on_output_too_long(job, what):
    more = f"; with {LONG} it may have any number" if what == "packets" else ""
    return f"leave out --{what}, or run fewer packets: what it writes may have at most 134,217,728 bytes{more}"


def _on_journal(job, at):
    return on_journal(job.names[0], int(at))


LINE = r"table line (\d+): "
HINTS = (
    (3, r"read fault: (.*)", _on_read),
    (6, r"write fault: standard output", _on_standard_output),
    (6, r"write fault: (.*)", _on_write),
    (4, r"too long: (.*)", _on_too_long),
    (4, LINE + "bad line", _of_line(table_hints.on_bad_line)),
    (4, LINE + "host bits", _of_line(table_hints.on_host_bits)),
    (4, LINE + r"port (\d+)", _of_line(table_hints.on_port)),
    (4, LINE + "level", _of_line(table_hints.on_level)),
    (4, LINE + r"repeats line (\d+)", _of_line(table_hints.on_repeats)),
    (4, r"table: (\d+) lines", table_hints.on_lines),
    (4, r"capture (\d+): (.*)", _on_capture),
    (4, r"link types (\d+) and (\d+)", capture_hints.on_two_links),
    (4, r"too many slots: port (\d+) has (\d+)", _of_line(on_slots)),
    (4, r"too many packets: (\d+)", _of_line(on_packets)),
    (4, r"too many cells: (\d+)", _on_all_cells),
    (4, r"(journal|packets) too long: \d+", _on_output_too_long),
    (4, r"journal: bad at (\d+)", _on_journal),
)
