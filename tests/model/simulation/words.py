"""What the words of a simulation mean."""

from __future__ import annotations

from dataclasses import dataclass
from typing import Any, Dict, List, NamedTuple, Sequence, Tuple

SCHEDULERS = ("islip", "firm", "rrm", "pim", "fifo", "ideal")
PATTERNS = ("uniform", "diagonal", "log-diagonal", "hot-spot", "unbalanced")
WEIGHED = ("hot-spot", "unbalanced")  # The patterns that have a weight.
MILLION = 1_000_000
MOST_WAITING = 2 ** 26  # Queues times their depth.
NAMES: Dict[str, Tuple[int, int]] = {"seed": (0, 1_000_000_000), "slots": (1, 4_000_000_000), "ports": (1, 64)}
OPTIONS: Dict[str, Tuple[int, int]] = {
    "rounds": (1, 64), "load-ppm": (0, MILLION), "burst": (1, 4_096), "weight-ppm": (0, MILLION),
    "depth": (1, 1_048_576), "warm-up": (0, 4_000_000_000), "batches": (1, 1_000),
}
CHOICES = {"scheduler": SCHEDULERS, "pattern": PATTERNS}
FIELDS = {"load-ppm": "load", "weight-ppm": "weight", "warm-up": "warm_up"}  # Of options whose field has another name.


class Usage(Exception):
    """The words are not those of a simulation."""


@dataclass
class Job:
    """A simulation. The load is in cells for each input and million slots, the weight in millionths, the mean length
    of a burst in cells; the first slots, `warm_up` many, are not measured."""

    seed: int
    slots: int
    ports: int
    scheduler: str = "islip"
    rounds: int = 4
    load: int = 900_000
    burst: int = 1
    pattern: str = "uniform"
    weight: int = 0
    depth: int = 4_096
    warm_up: int = 0
    batches: int = 10
    histogram: bool = False

    def queues(self) -> int:
        """How many queues its switch has."""
        return self.ports if self.scheduler in ("fifo", "ideal") else self.ports * self.ports

    def has_room(self) -> bool:
        """Whether these queues are not too large."""
        return self.queues() * self.depth <= MOST_WAITING


def number(least: int, most: int, word: str) -> int:
    """The number that a word is: 1 to 10 decimal digits, in a range."""
    if not (1 <= len(word) <= 10 and all(letter in "0123456789" for letter in word) and least <= int(word) <= most):
        raise Usage
    return int(word)


class Parts(NamedTuple):
    """The names, and the values of the options and flags that are given."""

    names: List[str]
    given: Dict[str, Any]


def parts_of(words: Sequence[str]) -> Parts:
    """The parts of words. An option may stand anywhere, at most once; after `--` each word is a name."""
    parts, rest = Parts([], {}), list(words)
    while rest:
        word = rest.pop(0)
        if word == "--":
            parts.names.extend(rest)
            break
        if word.startswith("--"):
            read_option(word, rest, parts.given)
        else:
            parts.names.append(word)
    return parts


def read_option(word: str, rest: List[str], given: Dict[str, Any]) -> None:
    """Adds the option of a word; its value may be the first of the other words."""
    name, equals, value = word[2:].partition("=")
    if name in given:
        raise Usage
    if name == "histogram" and not equals:
        given[name] = True
        return
    if not equals:
        if not rest:
            raise Usage
        value = rest.pop(0)
    if name in OPTIONS:
        given[name] = number(*OPTIONS[name], value)
    elif value in CHOICES.get(name, ()):
        given[name] = value
    else:
        raise Usage


def read_words(words: Sequence[str]) -> Job:
    """The simulation that the words behind the command mean. Where no warm-up is given it is a tenth of the slots. A
    weight goes with the patterns that have one, and with no other."""
    names, given = parts_of(words)
    if len(names) != len(NAMES):
        raise Usage
    seed, slots, ports = (number(*NAMES[name], word) for name, word in zip(NAMES, names))
    job = Job(seed, slots, ports, **{FIELDS.get(name, name): value for name, value in given.items()})
    if "warm-up" not in given:
        job.warm_up = job.slots // 10
    if (job.pattern in WEIGHED) != ("weight-ppm" in given) or job.warm_up >= job.slots:
        raise Usage
    return job
