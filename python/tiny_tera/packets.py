"""The packets file of a run, `PREFIX.packets.csv`, as `run --packets` writes it: what became of each packet, and when it
left each of its outputs. The form is that of docs/FORMATS.md.
"""

from __future__ import annotations

from pathlib import Path
from typing import IO, Dict, Iterator, Union

import pandas

COLUMNS = [
    "input", "packet", "bytes", "cells", "state", "level", "kind", "output", "arrival", "departure", "delay",
]
TEXTS = ("state", "kind")
NUMBERS = [name for name in COLUMNS if name not in TEXTS]
STATES = ("forwarded", "dropped", "unrouted", "oversize")
# Floating-point numbers hold these exactly, and pandas reads Int64 from text several times slower.
KINDS: Dict[str, object] = {**dict.fromkeys(NUMBERS, "float64"), **dict.fromkeys(TEXTS, str)}
PIECE_ROWS = 1_000_000


def read_packets(path: Union[str, Path, IO[str]]) -> pandas.DataFrame:
    """The rows of a packets file; ValueError where it has another form. Fields that are empty are NA."""
    try:
        found = pandas.read_csv(path, dtype=KINDS)
    except (TypeError, ValueError) as fault:
        raise ValueError(f"no packets file: {fault}") from None
    return _checked(found)


def packet_pieces(path: Union[str, Path, IO[str]], rows: int = PIECE_ROWS) -> Iterator[pandas.DataFrame]:
    """The same rows, some at a time, as of a file that is larger than the memory. All rows of a packet are in one piece."""
    rest = pandas.DataFrame(columns=COLUMNS)
    try:
        with pandas.read_csv(path, dtype=KINDS, chunksize=rows) as pieces:
            for piece in pieces:
                both = pandas.concat([rest, piece], ignore_index=True) if len(rest) else piece
                ends = both[["input", "packet"]].tail(1)
                is_last = (both[["input", "packet"]] == ends.to_numpy()).all(axis=1) if len(ends) else both.index < 0
                rest = both[is_last]
                yield _checked(both[~is_last])
    except (KeyError, TypeError, ValueError) as fault:
        raise ValueError(fault if str(fault).startswith("no packets file") else f"no packets file: {fault}") from None
    yield _checked(rest)


def _checked(found: pandas.DataFrame) -> pandas.DataFrame:
    """The rows with whole numbers; ValueError where they are not of the form."""
    try:
        if list(found.columns) != COLUMNS:
            raise ValueError("the header is not " + ",".join(COLUMNS))
        found = found.astype(dict.fromkeys(NUMBERS, "Int64"))
    except (TypeError, ValueError) as fault:
        raise ValueError(f"no packets file: {fault}") from None
    if not found["state"].isin(STATES).all():
        raise ValueError("no packets file: a state is none of " + ", ".join(STATES))
    left = found[found["state"] == "forwarded"]
    if not (left["delay"] == left["departure"] - left["arrival"]).all():
        raise ValueError("no packets file: a delay is not departure less arrival")
    return found
