"""Words of the tools: those of a run, and as types of argparse lists of numbers with ranges, and numbers within limits.

A word that is refused is told with what it may be.
"""

import argparse
import json
import math
import shlex
from decimal import Decimal
from pathlib import Path
from typing import NamedTuple

TOP = Path(__file__).resolve().parents[2]
MOST_NUMBERS = 10_000  # Of one list.


class Words(NamedTuple):
    """The words of a run; the load is in cells per input and slot."""

    kind: str
    ports: int
    load: float
    scheduler: str
    rounds: int
    seed: int
    commit: str


def words_of_run(path):
    """The words of a run, from its result; None where the file is none, and may be one of the user's own."""
    try:
        result = json.loads(path.read_text())
        return {name: result[name] for name in Words._fields}
    except (OSError, ValueError, KeyError, TypeError, RecursionError):
        return None


def launcher():
    """The word that starts the switch in a shell in the current folder."""
    return "./tiny_tera" if Path.cwd() == TOP else shlex.quote(str(TOP / "tiny_tera"))


def folder_word(folder):
    """A folder as the shell takes it, for `/` and a name behind it."""
    return shlex.quote(folder.rstrip("/") or "/")


def whole(low, high):
    """The type of a whole number from `low` to `high`."""

    def read(word):
        if not (word.isascii() and word.isdigit() and low <= int(word) <= high):
            raise argparse.ArgumentTypeError(f"{word!r} is not a whole number from {low} to {high}")
        return int(word)

    return read


def share(word):
    """A number over 0 and at most 1, as a load."""
    number = _number(word)
    if not 0 < number <= 1:
        raise argparse.ArgumentTypeError(f"{word!r} is not a number over 0 and at most 1")
    return number


def weight(word):
    """A number from 0 to 1, as the share of the cells that go to one output."""
    number = _number(word)
    if not 0 <= number <= 1:
        raise argparse.ArgumentTypeError(f"{word!r} is not a number from 0 to 1")
    return number


def _number(word):
    """The number that a word spells, NaN where it is none."""
    try:
        return float(word)
    except ValueError:
        return math.nan


def counted(number, what):
    """A number of something."""
    return f"{number:,} {what}" if number == 1 else f"{number:,} {what}s"


def decimal(number):
    """A number of at most six digits beyond leading zeros, as text without an exponent: names of files have it."""
    return format(Decimal(f"{number:g}"), "f")


def numbers(low, high):
    """The type of a list such as 1-10 or 1,3,5-7, whose numbers are from `low` to `high`."""
    one = whole(low, high)

    def part(word):
        first, dash, last = word.partition("-")
        if not dash:
            return [one(word)]
        begin, end = one(first), one(last)
        if end < begin:
            raise argparse.ArgumentTypeError(f"{word!r} falls")
        if end - begin >= MOST_NUMBERS:
            raise argparse.ArgumentTypeError(f"{word!r} has over {MOST_NUMBERS} numbers")
        return list(range(begin, end + 1))

    def read(word):
        return [number for piece in word.split(",") for number in part(piece)]

    return read


def joined(lists):
    """The numbers of several lists, each once, in rising order."""
    return sorted({number for found in lists for number in found})


def ranges(found):
    """A list of numbers as text that `numbers` reads: 1-10, or 1,3,5-7."""
    parts = []
    for number in sorted(set(found)):
        if parts and parts[-1][1] == number - 1:
            parts[-1][1] = number
        else:
            parts.append([number, number])
    return ",".join(str(first) if first == last else f"{first}-{last}" for first, last in parts)
