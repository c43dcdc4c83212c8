"""Reads the outside vectors of the repository: decisions of one slot, schedules in which a request waits long, and
rows for the wait meter, as words of the library."""

from pathlib import Path
from typing import NamedTuple

DATA = Path(__file__).resolve().parents[2] / "crates/known_answers/data"
NONE = 0xFFFFFFFF
FREE = (NONE, NONE, NONE)
LEVELS, MOST_PORTS = 4, 64
UNICAST_FILES = ("islip_one_round", "islip_rounds")
DECISION_FILES = ("decide_refuses", "decide_random", "decide_many_ports")


class UnicastRow(NamedTuple):
    """One slot of one level of unicast; `used` is rounds used, matched by the first, matched by the last of all."""

    name: str
    ports: int
    rounds: int
    asks: list
    grant: list
    accept: list
    fed: list
    used: list
    grant_after: list
    accept_after: list


class DecisionRow(NamedTuple):
    """One slot of four levels. A row of `rows` is eight sets, four of unicast and then four of multicast; `feeds` has an
    input, level and kind for each output; tables of pointers are lists of 64 ports for each level."""

    name: str
    ports: int
    rounds: int
    slot: int
    rows: list
    grant: list
    accept: list
    shared: list
    feeds: list
    used: list
    maximal: bool
    grant_after: list
    accept_after: list
    shared_after: list


class Schedule(NamedTuple):
    """Slots one after the other from pointers at 0: for each its rows, and its feeds, used and shared pointers after it."""

    name: str
    ports: int
    rounds: int
    slots: list


class LongWait(NamedTuple):
    """Slots in which input 0 asks output 0 at level 0 and is served in the last one alone; `slots` has the unicast sets
    of level 0 of each input."""

    ports: int
    rounds: int
    grant_0: int
    accept: list
    slots: list


class Waits(NamedTuple):
    """Slots for the wait meter: for each its rows, its feeds, and the longest wait of each level after it."""

    name: str
    ports: int
    slots: list


def numbers(text):
    return [int(word, 0) for word in text.split(",")]


def lines_of(name):
    for line in (DATA / f"{name}.txt").read_text(encoding="utf-8").splitlines():
        if not line.startswith("#"):
            yield line.strip()


def unicast_rows():
    for name in UNICAST_FILES:
        for line in filter(None, lines_of(name)):
            before, after = (half.split() for half in line.split("->"))
            fed = [NONE if word == "-" else int(word) for word in after[0].split(",")]
            yield UnicastRow(
                before[0], int(before[1]), int(before[2]), *map(numbers, before[3:6]),
                fed, [int(word) for word in after[1:4]], *map(numbers, after[4:6]),
            )


def blocks(name):
    """The cases of a file: the lines of each as pairs of the first word and the rest."""
    found = []
    for line in [*lines_of(name), ""]:
        if line:
            found.append(line.split(" ", 1))
        elif found:
            yield found
            found = []


def row(text):
    sets = [0] * (2 * LEVELS)
    for part in [] if text == "." else text.split("+"):
        sets[LEVELS * (part[0] == "m") + int(part[1])] = int(part[3:], 0)
    return sets


def rows_of(text):
    return [row(part) for part in text.split(";")]


def feed(text):
    if text == "-":
        return FREE
    port, rest = text.split(":")
    return int(port), int(rest[0]), int(rest[1] == "m")


def feeds_of(text):
    return [feed(part) for part in text.split(",")]


def tables(text):
    return [[*at, *[0] * (MOST_PORTS - len(at))] for at in map(numbers, text.split("/"))]


def decision_rows():
    for name in DECISION_FILES:
        for case in map(dict, blocks(name)):
            yield DecisionRow(
                case["case"], int(case["n"]), int(case["rounds"]), int(case["slot"]), rows_of(case["rows"]),
                tables(case["grant"]), tables(case["accept"]), numbers(case["shared"]), feeds_of(case["match"]),
                [int(word) for word in case["numbers"].split()], case["maximal"] == "yes",
                tables(case["grant_after"]), tables(case["accept_after"]), numbers(case["shared_after"]),
            )


def schedules():
    for lines in blocks("schedules"):
        (_, name), (_, ports), (_, rounds), *slots = lines
        yield Schedule(name, int(ports), int(rounds), [slot_of(rest) for _, rest in slots])


def slot_of(text):
    before, after = text.split(" -> ")
    fed, *used, shared = after.split()
    return rows_of(before), feeds_of(fed), [int(word) for word in used], numbers(shared)


def long_waits(name):
    for lines in blocks(name):
        (_, sizes), (_, at), *posted = lines
        ports, rounds, _ = map(int, sizes.split())
        first, *accept = map(int, at.split())
        slots = [[int(word, 0) for word in masks.split()] for _, masks in posted]
        yield LongWait(ports, rounds, first, accept, slots)


def waits():
    for lines in blocks("waits"):
        (_, name), (_, ports), *noted = lines
        slots = []
        for _, rest in noted:
            before, after = rest.split(" -> ")
            posted, fed = before.split(" ")
            slots.append((rows_of(posted), feeds_of(fed), [int(word) for word in after.split()]))
        yield Waits(name, int(ports), slots)
