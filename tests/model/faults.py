"""What ends a job: faults of a file's form, with their numbers, and refusals, with a status and a line."""

from __future__ import annotations

from typing import Dict, Union


class Fault(Exception):
    """A fault of a capture, a table or a journal: its name and its numbers."""

    def __init__(self, name: str, **numbers: int) -> None:
        super().__init__(name, numbers)
        self.name, self.numbers = name, numbers

    def text(self, texts: Dict[str, str], **more: int) -> str:
        """The text of its name among several, with its numbers and more ones in their places."""
        return texts[self.name].format(**self.numbers, **more)


class Refusal(Exception):
    """The end of a job that is not done: its status and its line on standard error, without the line feed."""

    def __init__(self, status: int, line: Union[str, bytes]) -> None:
        super().__init__(status, line)
        self.status = status
        self.line = line if isinstance(line, bytes) else line.encode("ascii")
