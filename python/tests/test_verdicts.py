"""The checker of journals against the answers of a model."""

import re
from pathlib import Path

import needs
import pytest

needs.library()

from tiny_tera.journal import read_journal  # noqa: E402
from tiny_tera.library import Refused  # noqa: E402
from tiny_tera.verdicts import MAX_JOURNAL_BYTES, Lawful, NoJournal, Unlawful, check_journal  # noqa: E402

ROWS = Path(__file__).resolve().parents[2] / "crates/known_formats/data/journals.txt"
YES = re.compile(r"> yes, (\d+) slots, longest (\d+) (\d+) (\d+) (\d+)")
NO = re.compile(r"> no: slot (\d+) (after end|more|keeps|output|no end)(?: of card)?(?: (\d+))?")
BAD = re.compile(r"> bad at (\d+)")


def stated(text):
    """The verdict that a row states."""
    if found := YES.fullmatch(text):
        slots, *longest = map(int, found.groups())
        return Lawful(slots, tuple(longest))
    if found := NO.fullmatch(text):
        return Unlawful(int(found[1]), found[2], found[3] and int(found[3]))
    return NoJournal(int(BAD.fullmatch(text)[1]))


def test_known_journals():
    lines = [line for line in ROWS.read_text().splitlines() if line and not line.startswith("#")]
    for data, answer in zip(lines[::2], lines[1::2]):
        assert check_journal(bytes.fromhex(data.replace("-", ""))) == stated(answer), data
    assert len(lines) == 2 * 221


def test_too_many_bytes():
    with pytest.raises(Refused):
        check_journal(bytes(MAX_JOURNAL_BYTES + 1))


def test_buffers():
    """All bytes of a buffer are judged, whatever its items are; what has no bytes is refused."""
    file = bytes.fromhex("54544a31020400000000000100000000ff00ff00")
    assert check_journal(file) == Lawful(1, (0, 0, 0, 0))
    words = memoryview(file).cast("I")
    assert check_journal(words) == check_journal(bytearray(file)) == Lawful(1, (0, 0, 0, 0))
    assert list(read_journal(words).slots()) == list(read_journal(file).slots())
    with pytest.raises(Refused):
        check_journal(memoryview(bytes(MAX_JOURNAL_BYTES + 8)).cast("Q"))
    for wrong in (20, [84], "TTJ1", None):
        with pytest.raises(TypeError):
            check_journal(wrong)
        with pytest.raises(TypeError):
            read_journal(wrong)
