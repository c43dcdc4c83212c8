"""Texts that are no report are refused, with the line."""

from pathlib import Path

import pytest

from tiny_tera.report import BadReport, read_report

TOP = Path(__file__).resolve().parents[2]
TEXT = (TOP / "examples/two_inputs/expected/out.report").read_text()
QUEUES = (TOP / "tests/measures/data/all_flags_islip.report").read_text()
DIGITS = "9" * 5000


def line_of(text, part):
    """The line of a text in which a part stands first."""
    return 1 + text[:text.index(part)].count("\n")


PAIR_LINE, QUEUE_LINE = line_of(TEXT, "0>0:0u"), line_of(QUEUES, "queue ")


def test_what_is_changed_below():
    """Both texts have more lines, of a slot with one pair and of a queue; the switches have two and three ports."""
    assert TEXT.split("\n")[PAIR_LINE - 1].endswith(" first 1 0>0:0u") and read_report(TEXT).summary["ports"] == 2
    assert QUEUES.split("\n")[QUEUE_LINE - 1].startswith("queue 0>0:0u ") and read_report(QUEUES).summary["ports"] == 3


@pytest.mark.parametrize("word", ["9>9:0u", "2>0:0u", "0>2:0u", "00>0:0u", "0>0:4u", "0>0:0x", f"{DIGITS}>0:0u", ""])
def test_pairs_that_are_none(word):
    with pytest.raises(BadReport, match=f"^line {PAIR_LINE}: "):
        read_report(TEXT.replace("0>0:0u", word, 1))


@pytest.mark.parametrize("words", ["0>1:0u 0>0:0u", "0>0:0u 1>0:0u", "0>0:0u 0>0:0u"])
def test_outputs_rise(words):
    with pytest.raises(BadReport, match=f"^line {PAIR_LINE}: "):
        read_report(TEXT.replace("0>0:0u", words, 1))


@pytest.mark.parametrize("name", ["queue 0>3:0u", "queue 3>1:0u", "queue 0>9:0u", f"queue {DIGITS}>1:0u", "queue 01>1:0u"])
def test_queues_that_are_none(name):
    found = read_report(QUEUES).queues[0]
    with pytest.raises(BadReport, match=f"^line {QUEUE_LINE}: "):
        read_report(QUEUES.replace(f"queue {found.name}", name, 1))


@pytest.mark.parametrize("end", ["\x0b", "\x0c", "\x1c", "\x85", "\u2028", "\r", "\r\n"])
def test_other_line_ends(end):
    with pytest.raises(BadReport, match="^line 1: "):
        read_report(TEXT.replace("\n", end, 1))


@pytest.mark.parametrize("text", [TEXT[:-1], TEXT[:-3], TEXT + "\n", ""])
def test_last_lines(text):
    with pytest.raises(BadReport):
        read_report(text)


@pytest.mark.parametrize("number", [DIGITS, "1" * 21, "07", "-1", "+1", "1_0", "\u0663", ""])
def test_numbers_that_are_none(number):
    with pytest.raises(BadReport, match=f"^line {line_of(TEXT, 'packets 3')}: ") as told:
        read_report(TEXT.replace("packets 3", f"packets {number}", 1))
    assert len(str(told.value)) < 80


@pytest.mark.parametrize("line, wrong", [("ports 2", "ports 0"), ("ports 2", "ports 65"), ("rounds 4", "rounds 65")])
def test_sizes_that_are_none(line, wrong):
    assert line in TEXT
    with pytest.raises(BadReport, match=f"^line {1 + line.startswith('rounds')}: "):
        read_report(TEXT.replace(line, wrong, 1))
