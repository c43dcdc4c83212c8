"""The files of a run, by its PREFIX."""

from itertools import takewhile
from pathlib import Path

from .packets import Misfit, check_run, read_packets
from .report import read_report

REPORT, PACKETS = ".report", ".packets.csv"
LONG_LINES = ("queue ", "deepest ", "slot ", "reference ")  # Of a report, behind its summary and its outputs.


def prefix_of(name):
    """The PREFIX of a run, by itself or by one of its two files."""
    is_prefix = any(Path(f"{name}{suffix}").exists() for suffix in (REPORT, PACKETS))
    suffix = next((it for it in (REPORT, PACKETS) if name.endswith(it)), "")
    return name if is_prefix or not suffix else name[:-len(suffix)]


def packets_of_run(name):
    """The packets file of a run; ValueError where it is none, or where the report beside it is of another run."""
    prefix = prefix_of(name)
    file, report = Path(f"{prefix}{PACKETS}"), Path(f"{prefix}{REPORT}")
    if not file.exists():
        raise ValueError(f"there is no {file}: give the run the option --packets")
    try:
        packets = read_packets(file)
    except ValueError as fault:
        raise ValueError(f"{file}: {fault}") from None
    if report.exists():
        _check(packets, file, report)
    return packets


def _check(packets, file, report):
    try:
        found = summary_of(report)
        check_run(packets, found)
    except Misfit as fault:
        raise ValueError(f"{file}: not the packets of {report}: {fault}") from None


def summary_of(report):
    """A report without its lines of queues, slots and references."""
    try:
        with open(report, encoding="ascii", errors="replace") as file:
            return read_report("".join(takewhile(lambda line: not line.startswith(LONG_LINES), file)))
    except ValueError as fault:
        raise ValueError(f"{report}: {fault}") from None
