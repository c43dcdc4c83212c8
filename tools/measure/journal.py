"""Reads the journal of a run, by the reader of the package for Python; what is none is told as the launcher tells it."""

from launcher.journal_hints import on_journal
from tiny_tera.journal import (
    FREE, HALVED_ABOVE, LEVELS, MAGIC, MAX_PORTS, MAX_ROUNDS, MAX_SLOTS, MAX_SLOTS_HALVED,
    BadJournal, Fed, Journal, JournalSlot, Post, read_journal,
)

__all__ = [
    "FREE", "HALVED_ABOVE", "LEVELS", "MAGIC", "MAX_PORTS", "MAX_ROUNDS", "MAX_SLOTS", "MAX_SLOTS_HALVED",
    "BadJournal", "Fed", "Journal", "JournalSlot", "Post", "read_journal", "read_whole",
]


def read_whole(path, read):
    """What `read` makes of the bytes of a journal; ValueError with the file's name, and with what helps, where they are none."""
    try:
        return read(path.read_bytes())
    except BadJournal as fault:
        hint = on_journal(str(path), fault.at)
        raise ValueError(f"{path}: {fault}" + (f"; hint: {hint}" if hint else "")) from None
