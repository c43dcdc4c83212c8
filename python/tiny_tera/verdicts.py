"""The verdict on a journal file, by the proved checker."""

from __future__ import annotations

import ctypes
from typing import NamedTuple, Union

from .library import Refused, check, load

MAX_JOURNAL_BYTES = 134_217_728
_NONE = 0xFFFFFFFF


class Lawful(NamedTuple):
    """Each slot is decided as the scheduler decides it; `longest` has for each level the longest wait of a unicast
    queue, in slots."""

    slots: int
    longest: tuple[int, ...]


class Unlawful(NamedTuple):
    """The first slot that fails, and why: "after end", "more", "keeps", "output" or "no end". `port` is the card or the
    output that fails, None where none does."""

    slot: int
    reason: str
    port: int | None


class NoJournal(NamedTuple):
    """The bytes are no journal file; `at` is the offset of the first byte of the first bad field."""

    at: int


Verdict = Union[Lawful, Unlawful, NoJournal]

REASONS = ("after end", "more", "keeps", "output", "no end")


class _Words(ctypes.Structure):
    _fields_ = [(name, ctypes.c_uint32) for name in ("answer", "number", "reason", "port")] + [
        ("longest", ctypes.c_uint32 * 4)
    ]


def check_journal(data: Union[bytes, bytearray, memoryview]) -> Verdict:
    """The verdict on the bytes of a journal file, in any buffer; Refused where they are more than MAX_JOURNAL_BYTES."""
    view = memoryview(data)
    if view.nbytes > MAX_JOURNAL_BYTES:
        raise Refused(f"a journal has at most {MAX_JOURNAL_BYTES} bytes")
    file, words = bytes(view), _Words()
    check(load().tiny_tera_check_journal(file, len(file), ctypes.addressof(words)))
    if words.answer == 0:
        return Lawful(words.number, tuple(words.longest))
    if words.answer == 1:
        return Unlawful(words.number, REASONS[words.reason], None if words.port == _NONE else words.port)
    return NoJournal(words.number)
