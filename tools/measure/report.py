"""Reads the report of a run, by the reader of the package for Python."""

from tiny_tera.report import LEVELS, PAIR, QUEUE, SUMMARY, BadReport, Pair, Queue, Reference, Report, Slot, read_report

__all__ = [
    "LEVELS", "PAIR", "QUEUE", "SUMMARY", "BadReport", "Pair", "Queue", "Reference", "Report", "Slot", "read_report",
]
