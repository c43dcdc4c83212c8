"""How values stand in rows: masks, numbers, bytes, rows of requests, matches, pointers, words in quotes."""

from __future__ import annotations

import re
from typing import Dict, Iterable, List, Optional, Sequence, Tuple

from ..ports import LEVELS, Ports, mask_of, ports_of
from ..rounds import Pointers
from ..rows import LETTERS, Entry, Feed, Match, Row, row_of

NONE = "-"


def mask(members: Iterable[int]) -> str:
    """A set as a mask."""
    return f"{mask_of(members):#x}"


def ports(text: str) -> Ports:
    """The set of a mask."""
    return ports_of(int(text, 16))


def numbers(items: Iterable[Optional[int]]) -> str:
    """Numbers parted by commas; `-` for none."""
    return ",".join(NONE if item is None else str(item) for item in items)


def read_numbers(text: str) -> List[int]:
    """The numbers that are parted by commas."""
    return list(map(int, text.split(",")))


def hexed(data: bytes) -> str:
    """Bytes in hexadecimal, `-` for no bytes."""
    return data.hex() or NONE


def unhexed(text: str) -> bytes:
    """The bytes of a text in hexadecimal."""
    return b"" if text == NONE else bytes.fromhex(text)


def rows(text: str) -> List[Row]:
    """The rows of a text as `u0=0x3+m2=0x6;.`."""
    return [read_row(part) for part in text.split(";")]


def read_row(text: str) -> Row:
    """One of them."""
    sets: Dict[str, Dict[int, Ports]] = {"u": {}, "m": {}}
    for part in text.split("+") if text != "." else ():
        name, members = part.split("=")
        sets[name[0]][int(name[1])] = ports(members)
    return row_of(sets["u"], sets["m"])


def match(entries: Match, count: int) -> str:
    """For each output what feeds it, as `0:1u`, parted by commas."""
    fed = {entry.output: f"{entry.input}:{entry.level}{LETTERS[entry.kind]}" for entry in entries}
    return ",".join(fed.get(output, NONE) for output in range(count))


def read_match(text: str) -> Match:
    """The match of such a text."""
    return frozenset(read_entry(output, part) for output, part in enumerate(text.split(",")) if part != NONE)


def read_entry(output: int, text: str) -> Entry:
    """What feeds an output."""
    port, rank = text.split(":")
    return Entry(int(port), output, int(rank[0]), LETTERS.index(rank[1]))


def table(pointers: Dict[Tuple[int, int], int], count: int) -> str:
    """The pointers of ports, level by level."""
    return "/".join(numbers(pointers[port, level] for port in range(count)) for level in range(LEVELS))


def read_pointers(count: int, grant: str, accept: str, shared: str) -> Pointers:
    """The pointers of three such texts."""
    return Pointers(count, read_table(grant), read_table(accept), dict(enumerate(read_numbers(shared))))


def read_table(text: str) -> Dict[Tuple[int, int], int]:
    """The pointers of ports, by port and level."""
    levels = enumerate(map(read_numbers, text.split("/")))
    return {(port, level): pointer for level, part in levels for port, pointer in enumerate(part)}


def shared(pointers: Pointers) -> str:
    """The shared pointers."""
    return numbers(pointers.shared[level] for level in range(LEVELS))


def refused(grants: Sequence[Tuple[int, Feed]]) -> str:
    """Grants that were not accepted, as output:input:level."""
    return ",".join(f"{output}:{feed.input}:{feed.level}" for output, feed in grants) or NONE


ESCAPES = {"n": "\n", "r": "\r", "t": "\t", '"': '"', "\\": "\\"}
QUOTED = re.compile(r'"((?:[^"\\]|\\.)*)"')


def unquoted(text: str) -> str:
    """What stands in quotes: with escapes as in Rust and C; \\xNN is one byte, as a character of its number."""
    body = text[1:-1]
    return re.sub(r"\\x([0-9a-f]{2})|\\(.)", lambda it: chr(int(it[1], 16)) if it[1] else ESCAPES[it[2]], body)


def quoted(text: str) -> str:
    """A word in quotes."""
    letters = {letter: f"\\{name}" for name, letter in ESCAPES.items()}
    return '"' + "".join(letters.get(letter, letter) for letter in text) + '"'
