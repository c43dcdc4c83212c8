"""Journals as text, and back by the tool."""

import re
import subprocess
import sys
from pathlib import Path

import needs
import pytest

from tiny_tera.journal import BadJournal
from tiny_tera.journal_text import BadText, journal_of_text, text_of_journal

TOP = Path(__file__).resolve().parents[2]
TOOL = TOP / "tools/journal"
JOURNALS = sorted([*TOP.glob("examples/*/expected/*.journal"), *TOP.glob("tests/jobs/*/expected/*.journal")])
KNOWN = TOP / "crates/known_formats/data/journals.txt"
MAKES = "tools/journal make TEXT JOURNAL makes the journal of it"
# By hand: one cell of input 0 for output 1, at level 0; then all levels and kinds.
ONE_CELL = """\
journal ports 2 rounds 1
slot 0 requests 0>1:0u more 0 matches 0>1:0u
slot 1 requests more matches
"""
ONE_CELL_BYTES = bytes.fromhex("54544a31 02 01 0000 00000002  01 01 0000000000000002  00 00  ff00 0000  0000 0000 ff00 ff00")
ALL_KINDS = """\
journal ports 3 rounds 64
slot 0 requests 0>0,2:3u 0>*:1m 2>1:0u more * matches 0>0:1m 2>1:0u 0>2:1m
"""
ALL_KINDS_BYTES = bytes.fromhex(
    "54544a31 03 40 0000 00000001  28 01 0000000000000005 0000000000000007  00 01  01 01 0000000000000002  0003 0200 0003"
)


def text_of(data):
    return "".join(text_of_journal(data))


def bytes_of(text):
    return journal_of_text(text.splitlines(keepends=True))


def run(*words, given=None):
    ran = subprocess.run([sys.executable, TOOL, *words], input=given, stdout=subprocess.PIPE, stderr=subprocess.PIPE)
    return ran.returncode, ran.stdout, ran.stderr.decode()


@pytest.mark.parametrize("text, data", [(ONE_CELL, ONE_CELL_BYTES), (ALL_KINDS, ALL_KINDS_BYTES)])
def test_by_hand(text, data):
    assert text_of(data) == text and bytes_of(text) == data


@pytest.mark.parametrize("name", JOURNALS, ids=lambda name: f"{name.parts[-3]}-{name.stem}")
def test_known_journals(name):
    data = name.read_bytes()
    assert bytes_of(text_of(data)) == data


def test_the_text_of_the_page():
    """That of docs/FORMATS.md is a text as the tool shows it, of a journal that is lawful."""
    page = (TOP / "docs/FORMATS.md").read_text(encoding="utf-8")
    (text,) = re.findall(r"^```text\n(journal ports .*?)^```$", page, re.M | re.S)
    assert text_of(bytes_of(text)) == text
    needs.library()
    from tiny_tera.verdicts import Lawful, check_journal

    assert check_journal(bytes_of(text)) == Lawful(3, (1, 0, 0, 0))


def test_changed_journals():
    """Files that a model says are lawful or not come back to the byte; those that it says are bad are bad there."""
    lines = [line for line in KNOWN.read_text().splitlines() if line and not line.startswith("#")]
    for packed, answer in zip(lines[::2], lines[1::2]):
        data = bytes.fromhex(packed.replace("-", ""))
        bad = re.fullmatch(r"> bad at (\d+)", answer)
        if bad:
            with pytest.raises(BadJournal) as told:
                text_of(data)
            assert told.value.at == int(bad[1])
        else:
            assert bytes_of(text_of(data)) == data, packed


def test_written_by_hand():
    """Remarks, empty lines, tabs, a carriage return, and no end of the last line; a set in parts, and no word `more`."""
    text = "# one\n\njournal  ports 3\trounds 64\r\n \t\nslot 0 requests 2>1:0u 0>2:3u 0>0:3u 0>1:1m 0>0,2:1m"
    text += " more * matches 2>1:0u 0>2:1m 0>0:1m"
    assert bytes_of(text) == ALL_KINDS_BYTES
    assert bytes_of(ONE_CELL.replace(" more 0", "").replace(" more", "")) == ONE_CELL_BYTES


@pytest.mark.parametrize("line, text", [
    (1, ""),
    (1, "journal ports 2 rounds\n"),
    (1, "journal ports 0 rounds 1\n"),
    (1, "journal ports 65 rounds 1\n"),
    (1, "journal ports 2 rounds 65\n"),
    (1, "journal ports 02 rounds 1\n"),
    (2, "journal ports 2 rounds 1\n"),
    (3, "# a remark\njournal ports 2 rounds 1\n"),
    (2, ONE_CELL.replace("slot 0", "slot 1")),
    (2, ONE_CELL.replace("slot 0", "slot 00")),
    (2, ONE_CELL.replace("slot 0 requests", "slot requests 0")),
    (3, ONE_CELL.replace("slot 1 requests more matches", "slot 1 requests more")),
    (3, ONE_CELL.replace("slot 1 requests more matches", "slot 1 matches more requests")),
    (3, ONE_CELL.replace("slot 1", "slot 2")),
    (4, ONE_CELL + "slot 1 requests more matches\n"),
    (4, ONE_CELL + "end\n"),
    *((2, ONE_CELL.replace("requests 0>1:0u", f"requests {word}")) for word in (
        "2>1:0u", "0>2:0u", "0>1:4u", "0>1:0x", "0>:0u", "0>1,:0u", "0>1,1:0u", "0>*,1:0u", "0>1:0u 0>1:0u", "0>01:0u", "0:0u",
        "-1>1:0u", "\u0660>1:0u", "0>" + "9" * 5000 + ":0u")),
    *((2, ONE_CELL.replace("matches 0>1:0u", f"matches {word}")) for word in (
        "2>1:0u", "0>2:0u", "0>1:4u", "0>*:0u", "0>0,1:0u", "0>1:0u 1>1:0u", "0>1:0u\u00a0", "more 0")),
    *((2, ONE_CELL.replace("more 0", f"more {word}")) for word in ("2", "0 0", "0,1", "* 0", "00", "x")),
])
def test_texts_that_are_none(line, text):
    with pytest.raises(BadText) as told:
        bytes_of(text)
    assert told.value.line == line and str(told.value).startswith(f"line {line}: ") and len(str(told.value)) < 160


def test_tool(tmp_path):
    """Both ways, from a file and from standard input; a file that is there is replaced only where that is asked."""
    text, made = tmp_path / "one.txt", tmp_path / "one.journal"
    text.write_text(ONE_CELL)
    assert run("make", text, made) == (0, b"", "")
    assert made.read_bytes() == ONE_CELL_BYTES and run("show", made) == (0, ONE_CELL.encode(), "")
    status, printed, told = run("make", "-", made, given=ALL_KINDS.encode())
    assert (status, printed) == (1, b"") and "is there already" in told and made.read_bytes() == ONE_CELL_BYTES
    assert run("make", "--replace", "-", made, given=ALL_KINDS.encode()) == (0, b"", "")
    assert made.read_bytes() == ALL_KINDS_BYTES


def test_tool_refuses(tmp_path):
    """One line that names the file and the place; no file is begun."""
    text, made = tmp_path / "wrong", tmp_path / "made"
    text.write_bytes(ONE_CELL.encode().replace(b"slot 1", b"slot\xff 1"))
    told = f"tools/journal: {text}: line 3: expected: slot 1 requests .. more .. matches ..\n"
    assert run("make", text, made) == (1, b"", told) and not made.exists()
    status, _, told = run("show", text)
    assert (status, told) == (1, f"tools/journal: {text}: bad at 0; hint: {text} is the text of a journal; {MAKES}\n")
    status, _, told = run("show", tmp_path / "none")
    assert status == 1 and told.count("\n") == 1 and "Traceback" not in told
