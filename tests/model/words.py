"""What the words of the command line mean."""

from __future__ import annotations

from typing import Dict, List, NamedTuple, Optional, Sequence, Set, Tuple, Union

from .plans import LONG_DEPTH, MOST_DEPTH, MOST_PACE, MOST_RATE, Settings
from .schedulers import SCHEDULERS

USAGE = (
    "usage: tiny_tera run [options] TABLE PREFIX INPUT.. or tiny_tera gen [options] SEED COUNT PORTS "
    "or tiny_tera check FILE or tiny_tera firm [options] TABLE INPUT.."
)
MOST_INPUTS = 64
RANGES: Dict[str, Tuple[int, int]] = {
    "--rounds": (1, 64), "--depth": (1, MOST_DEPTH), "--workers": (1, 32), "--pace-us": (1, MOST_PACE),
    "--line-rate": (1, MOST_RATE),
}
FIELDS = {
    "--rounds": "rounds", "--depth": "depth", "--workers": "workers", "--pace-us": "pace", "--line-rate": "rate"
}
OPTIONS: Dict[str, Tuple[str, ...]] = {
    "run": ("--rounds", "--depth", "--workers", "--pace-us", "--line-rate", "--scheduler"),
    "gen": ("--rounds", "--depth", "--workers", "--scheduler"),
    "check": ("--scheduler",),
    "firm": ("--rounds", "--depth", "--pace-us", "--line-rate"),
}
LONG = "--long"
SHORT_ONLY = {"--slots", "--journal"}  # Not of a long job.
FLAGS: Dict[str, Tuple[str, ...]] = {
    "run": ("--slots", "--journal", "--reference", "--queues", "--packets", "--alone", LONG),
    "gen": (), "check": (), "firm": (LONG,),
}
MADE_RANGES = ((0, 1_000_000_000), (0, 4_000), (1, 64))  # Of a seed, a count and ports.


class RunJob(NamedTuple):
    """The command `run`; its flags are named without their dashes."""

    settings: Settings
    flags: Set[str]
    scheduler: str
    table: str
    prefix: str
    inputs: List[str]


class GenJob(NamedTuple):
    """The command `gen`."""

    settings: Settings
    scheduler: str
    seed: int
    packets: int
    ports: int


class CheckJob(NamedTuple):
    """The command `check`."""

    scheduler: str
    file: str


class FirmJob(NamedTuple):
    """The command `firm`."""

    settings: Settings
    table: str
    inputs: List[str]


Job = Union[RunJob, GenJob, CheckJob, FirmJob]


class Usage(Exception):
    """The words mean no job."""


def number_of(word: str, least: int, most: int) -> int:
    """The number that a word is: 1 to 10 decimal digits, in a range."""
    if not 1 <= len(word) <= 10 or any(letter not in "0123456789" for letter in word) or not least <= int(word) <= most:
        raise Usage
    return int(word)


class Parts(NamedTuple):
    """The names, the values of options, and the flags that words give."""

    names: List[str]
    values: Dict[str, str]
    flags: Set[str]


def parts_of(command: str, words: Sequence[str]) -> Parts:
    """The parts of the words behind a command. After `--` each word is a name."""
    parts = Parts([], {}, set())
    rest = list(words)
    while rest:
        word = rest.pop(0)
        if word == "--":
            parts.names.extend(rest)
            break
        if word.startswith("--"):
            read_option(command, word, rest, parts)
        elif word.startswith("-") and word != "-":
            raise Usage
        else:
            parts.names.append(word)
    return parts


def read_option(command: str, word: str, rest: List[str], parts: Parts) -> None:
    """Adds an option or a flag to the parts; the value of an option may be the first of the other words."""
    name, equals, value = word.partition("=")
    if name in parts.values or name in parts.flags:
        raise Usage
    if name in FLAGS[command] and not equals:
        parts.flags.add(name)
    elif name in OPTIONS[command]:
        parts.values[name] = value if equals else next_value(rest)
    else:
        raise Usage


def next_value(rest: List[str]) -> str:
    """The next word, as a value."""
    if not rest or rest[0].startswith("-"):
        raise Usage
    return rest.pop(0)


def settings_of(values: Dict[str, str], flags: Set[str]) -> Settings:
    """The numbers that options give. A slot has its length from a pace or from a line rate, not from both. A long job may
    have deeper queues, and tells no slots."""
    is_long = LONG in flags
    ranges = {**RANGES, "--depth": (1, LONG_DEPTH)} if is_long else RANGES
    given = {FIELDS[name]: number_of(values[name], *ranges[name]) for name in ranges if name in values}
    if "pace" in given and "rate" in given or is_long and flags & SHORT_ONLY:
        raise Usage
    return Settings(**{"depth": LONG_DEPTH if is_long else MOST_DEPTH, **given}, is_long=is_long)


def scheduler_of(values: Dict[str, str]) -> str:
    """The scheduler that an option gives."""
    name = values.get("--scheduler", "islip")
    if name not in SCHEDULERS:
        raise Usage
    return name


def read_words(words: Sequence[str]) -> Job:
    """The job that words mean; Usage where they mean none."""
    if not words or words[0] not in OPTIONS:
        raise Usage
    names, values, flags = parts_of(words[0], words[1:])
    settings, scheduler = settings_of(values, flags), scheduler_of(values)
    if words[0] == "run" and 1 <= len(names) - 2 <= MOST_INPUTS:
        return RunJob(settings, {flag[2:] for flag in flags - {LONG}}, scheduler, names[0], names[1], names[2:])
    if words[0] == "gen" and len(names) == 3:
        seed, packets, ports = (number_of(name, *limits) for name, limits in zip(names, MADE_RANGES))
        return GenJob(settings, scheduler, seed, packets, ports)
    if words[0] == "check" and len(names) == 1:
        return CheckJob(scheduler, names[0])
    if words[0] == "firm" and 1 <= len(names) - 1 <= MOST_INPUTS:
        return FirmJob(settings, names[0], names[1:])
    raise Usage


def job_of(words: Sequence[str]) -> Optional[Job]:
    """The job that words mean, None where they mean none."""
    try:
        return read_words(words)
    except Usage:
        return None
