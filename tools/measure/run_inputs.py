"""The table and the captures of a run, read by the rules of the switch; what is refused is told with the name of its file."""

from pathlib import Path
from typing import List, Sequence

from launcher.capture_hints import is_capture
from launcher.captures import BadCapture, Capture, read_file
from launcher.tables import BadTable, Routes, read_table


def read_routes(name: str, ports: int) -> Routes:
    """The routes of a table for so many ports; BadTable with its name."""
    try:
        return read_table(Path(name).read_bytes(), ports)
    except BadTable as fault:
        what = " is a capture: the words are TABLE INPUT.." if is_capture(name) else f": {fault}"
        raise BadTable(f"{name}{what}") from None


def read_captures(names: Sequence[str]) -> List[Capture]:
    """The captures of the ports; BadCapture where one is refused, or two have different link types."""
    found = [read_file(name) for name in names]
    for name, capture in zip(names, found):
        if capture.link != found[0].link:
            raise BadCapture(f"link types {found[0].link} and {capture.link}: {names[0]} and {name}")
    return found
