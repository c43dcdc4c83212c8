"""Texts of rows: each question stays as it is, and its answer is made anew."""

from __future__ import annotations

from typing import Callable, List

Answer = Callable[[str], str]
Remake = Callable[[str], str]


class Rows:
    """Makes the lines of a text anew, one after the other; what it keeps of earlier ones are the questions."""

    def remade(self, line: str) -> List[str]:
        """The lines in place of a line that is no comment."""
        raise NotImplementedError


def by_lines(make: Callable[[], Rows]) -> Remake:
    """Makes a text anew, line by line."""

    def remake(text: str) -> str:
        """The text with each line made anew; comments and empty lines stay."""
        rows = make()
        lines: List[str] = []
        for line in text.split("\n"):
            lines += rows.remade(line) if line and not line.startswith("#") else [line]
        return "\n".join(lines)

    return remake


class Arrowed(Rows):
    """Lines `QUESTION -> ANSWER`."""

    def __init__(self, answer: Answer, arrow: str = " -> ") -> None:
        self.answer, self.arrow = answer, arrow

    def remade(self, line: str) -> List[str]:
        """The line with its answer."""
        question = line.split(self.arrow)[0]
        return [question + self.arrow + self.answer(question)]


def arrowed(answer: Answer) -> Remake:
    """Makes a text of lines `QUESTION -> ANSWER` anew."""
    return by_lines(lambda: Arrowed(answer))
