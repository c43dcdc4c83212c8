"""The simulations of tests/simulations, and the words of ones that are refused."""

from __future__ import annotations

from pathlib import Path
from typing import List

from ..simulation.command import run_words
from .jobs import Files, read_job
from .lines import Rows, by_lines

ARROW = " => "


def joined(lines: List[str]) -> bytes:
    """A text of lines."""
    return "".join(f"{line}\n" for line in lines).encode()


def expected_of(folder: Path) -> Files:
    """What the model makes of a simulation."""
    ended = run_words(read_job(folder).words)
    return {"status": f"{ended.status}\n".encode(), "stdout": joined(ended.output), "stderr": joined(ended.error)}


class RefusedWords(Rows):
    """Lines `WORDS => STATUS LINE`."""

    def remade(self, line: str) -> List[str]:
        """The line with its answer."""
        words = line.split(ARROW)[0]
        ended = run_words(words.split())
        return [f"{words}{ARROW}{ended.status} {' '.join(ended.error)}"]


refused_words = by_lines(RefusedWords)
