"""The lists of definitions that a reader goes through: from which each begins, and how long it takes."""

from typing import NamedTuple

from definitions import TOLD_BY, Place

LINES_A_MINUTE = 12

ROOTS = {
    "waits": ("How long a request waits", "run_laws.Promises ServesUnder WaitsUnder CompletesUnder bound_of"),
    "delivery": ("What is delivered", "run_laws.Promises DeliversUnder DeliversNoOthersUnder ArrivalsComeFirst"),
    "everything": ("Everything", "switch_run.Causes SwitchTheorem", "switch_run.Endings command_of"),
}


class ReadingList(NamedTuple):
    """A list: its key, its title, the definitions that it begins with, and all of it in the order of reading."""

    key: str
    title: str
    roots: list
    places: list
    lines: int

    @property
    def measure(self):
        """How much there is to read."""
        files = len({place.file for place in self.places})
        return f"{len(self.places)} definitions, {self.lines:,} lines of {files} files, {minutes_of(self.lines)} minutes"


def minutes_of(lines):
    """How many minutes so many lines take, at least one."""
    return max(1, round(lines / LINES_A_MINUTE))


def is_told(place):
    """Whether it is a function that is read as its relation."""
    return place in TOLD_BY


def lines_of(specs, place):
    """How many lines of it are read: of a function that its relation tells, one."""
    return 1 if is_told(place) else specs.at(place).lines


def lists(specs):
    """All lists, the short ones first."""
    found = []
    for key, (title, *texts) in ROOTS.items():
        roots = [Place(file, name) for file, *names in map(str.split, texts) for name in names]
        places = specs.reached(roots)
        found.append(ReadingList(key, title, roots, places, sum(lines_of(specs, it) for it in places)))
    return found
