"""The numbers of a simulation, as `tiny_tera simulate` prints them; docs/SIMULATE.md says what each is.

Integers are as they are printed, and ratios of them fractions. Tables need pandas, and intervals scipy.
"""

from __future__ import annotations

from dataclasses import dataclass
from fractions import Fraction
from math import sqrt
from pathlib import Path
from statistics import fmean, stdev
from typing import TYPE_CHECKING, Dict, Iterator, List, NamedTuple, Optional, Sequence, Tuple, Union

if TYPE_CHECKING:
    import pandas

MILLION = 1_000_000


class BadSimulation(ValueError):
    """A text is not that of a simulation; the message names the line, counted from 1, or what does not fit."""


class NoneLeft(ValueError):
    """No cell left in the measured slots, so they have no mean delay."""


class Words(NamedTuple):
    """The words of a simulation; the load is in cells for each input and slot. The first `warm_up` slots are not measured."""

    seed: int
    slots: int
    ports: int
    scheduler: str
    rounds: int
    pattern: str
    weight: Fraction
    load: Fraction
    burst: int
    warm_up: int
    batches: int
    depth: int

    @property
    def measured(self) -> int:
        """How many slots are measured."""
        return self.slots - self.warm_up


class Waiting(NamedTuple):
    """The cells that wait at some time, and for how many slots, taken together."""

    cells: int
    age: int


class Percentiles(NamedTuple):
    """The least delays that 50, 90, 99, 99.9 and 99.99 per cent of the cells do not exceed; those over 4,095 may be low by 1/2048."""

    p50: int
    p90: int
    p99: int
    p99_9: int
    p99_99: int


class Port(NamedTuple):
    """Of a port: the cells that came to its input, were dropped there, left from there, and left to its output."""

    arrived: int
    dropped: int
    left: int
    fed: int


class Batch(NamedTuple):
    """Of a part of the measured slots: the cells that left, and the sum of their delays."""

    departed: int
    delays: int


class Interval(NamedTuple):
    """An interval of a mean, in slots."""

    low: float
    high: float


@dataclass(frozen=True)
class Simulation:
    """What a simulation printed. Counts and sums are over the measured slots, peaks and the longest wait over all;
    `count_rows` has for each delay that came how often, and is None without --histogram."""

    words: Words
    arrived: int
    dropped: int
    departed: int
    before: Waiting
    waiting: Waiting
    cell_slots: int
    delays: int
    percentiles: Percentiles
    longest_delay: int
    rounds_used: int
    first_pairs: int
    peak: int
    peak_of_all: int
    longest_wait: int
    port_rows: Tuple[Port, ...]
    batch_rows: Tuple[Batch, ...]
    count_rows: Optional[Tuple[Tuple[int, int], ...]]

    @property
    def mean_delay(self) -> Fraction:
        """The mean delay of a cell, in slots; NoneLeft where none left."""
        if not self.departed:
            raise NoneLeft("no cell left in the measured slots")
        return Fraction(self.delays, self.departed)

    @property
    def throughput(self) -> Fraction:
        """The cells that left, for each output and measured slot."""
        return Fraction(self.departed, self.words.ports * self.words.measured)

    @property
    def mean_waiting(self) -> Fraction:
        """The mean number of cells that wait at the end of a measured slot."""
        return Fraction(self.cell_slots, self.words.measured)

    @property
    def dropped_share(self) -> Fraction:
        """The share of the cells that came which was dropped, 0 where none came."""
        return Fraction(self.dropped, max(1, self.arrived))

    @property
    def growth(self) -> float:
        """By which share the mean delay of the second half of the batches is over that of the first; NaN where one is not
        known. Far from 0 where queues did not settle."""
        half = len(self.batch_rows) // 2
        first, last = (_mean_of(rows) for rows in (self.batch_rows[:half], self.batch_rows[len(self.batch_rows) - half:]))
        return last / first - 1

    def interval(self, confidence: float = 0.95) -> Interval:
        """The interval of the mean delay by Student's t, over the means of the batches in which cells left; NoneLeft where
        fewer than two have some. Neighbouring batches share cells that wait, so with few slots it is too narrow."""
        means = [batch.delays / batch.departed for batch in self.batch_rows if batch.departed]
        if len(means) < 2:
            raise NoneLeft("fewer than two batches have cells that left")
        return interval_of(means, confidence)

    @property
    def ports(self) -> pandas.DataFrame:
        """A row for each port; `Port` has the columns."""
        import pandas

        return pandas.DataFrame(self.port_rows, columns=Port._fields).rename_axis("port")

    @property
    def batches(self) -> pandas.DataFrame:
        """A row for each batch, with its mean delay, NaN where no cell left."""
        import pandas

        table = pandas.DataFrame(self.batch_rows, columns=Batch._fields).rename_axis("batch")
        return table.assign(mean_delay=table["delays"] / table["departed"].where(table["departed"] > 0))

    @property
    def counts(self) -> pandas.Series:
        """How many cells had each delay; ValueError where the run had no --histogram."""
        import pandas

        if self.count_rows is None:
            raise ValueError("the simulation was run without --histogram")
        delays, numbers = zip(*self.count_rows) if self.count_rows else ((), ())
        return pandas.Series(numbers, index=pandas.Index(delays, name="delay", dtype="int64"), name="cells", dtype="int64")

    def row(self) -> Dict[str, object]:
        """The run as a row of a table: its words, its numbers, and its ratios as floating-point numbers, NaN where there is none."""
        words = {**self.words._asdict(), "weight": float(self.words.weight), "load": float(self.words.load)}
        percentiles = {name: value for name, value in self.percentiles._asdict().items()}
        names = ("arrived", "dropped", "departed", "cell_slots", "delays", "longest_delay", "peak", "peak_of_all", "longest_wait")
        return {
            **words, **{name: getattr(self, name) for name in names}, **percentiles,
            "mean_delay": float(self.mean_delay) if self.departed else float("nan"),
            "throughput": float(self.throughput), "mean_waiting": float(self.mean_waiting),
            "dropped_share": float(self.dropped_share), "growth": self.growth,
        }


def _mean_of(batches: Sequence[Batch]) -> float:
    """The mean delay of some batches, NaN where no cell left in them."""
    departed = sum(batch.departed for batch in batches)
    return sum(batch.delays for batch in batches) / departed if departed else float("nan")


def interval_of(values: Sequence[float], confidence: float = 0.95) -> Interval:
    """The interval of the mean of at least two values, by Student's t."""
    from scipy import stats

    width = stats.t.ppf((1 + confidence) / 2, len(values) - 1) * stdev(values) / sqrt(len(values))
    return Interval(fmean(values) - width, fmean(values) + width)


def longest_wait_bound(scheduler: str, rounds: int, ports: int) -> Optional[int]:
    """The longest wait that is possible in any simulation, by a law; None where no law has one. docs/WAITING.md has the
    slots until a queue is served, which are one more."""
    if scheduler == "firm":
        return ports * ports - 1
    if scheduler != "islip":
        return None
    if ports < 3:
        return {1: 0, 2: 3 if rounds == 1 else 2}[ports]
    served = 2 * ports * ports - 3 * ports + 2 if rounds == 1 else ports * (ports * ports - ports + 2) // 2
    return served - 2


def read_simulation(path: Union[str, Path]) -> Simulation:
    """What a file has of a simulation, as the standard output of `tiny_tera simulate`; BadSimulation where it has another form."""
    return read_text(Path(path).read_bytes().decode("ascii", "replace"))


def read_text(text: str) -> Simulation:
    """The simulation whose text this is, else BadSimulation."""
    if not text.endswith("\n"):
        raise BadSimulation("the text ends within a line")
    lines = _Lines(text[:-1].split("\n"))
    found = _simulation(lines)
    if next(lines.lines, None) is not None:
        raise BadSimulation(f"line {lines.at + 1}: a line too many")
    _check(found)
    return found


class _Lines:
    """The lines of a text, and the number of the last one that was read."""

    def __init__(self, lines: List[str]) -> None:
        self.lines, self.at = iter(lines), 0

    def fields(self, name: str, count: int) -> List[str]:
        """The fields of the next line, which begins with a name and has so many."""
        self.at += 1
        words = next(self.lines, "").split(" ")
        if words[0] != name or len(words) != count + 1:
            raise BadSimulation(f"line {self.at}: expected {name} with {count} fields")
        return words[1:]

    def numbers(self, name: str, count: int) -> List[int]:
        """The same where all fields are numbers."""
        return [self.number(word) for word in self.fields(name, count)]

    def number(self, word: str) -> int:
        if not (word.isascii() and word.isdigit() and len(word) <= 20):
            raise BadSimulation(f"line {self.at}: {word[:24]!r} is no number")
        return int(word)

    def rows(self, name: str, count: int, columns: int) -> Iterator[List[int]]:
        """Rows that are counted from 0, without their numbers."""
        for number in range(count):
            found, *row = self.numbers(name, columns + 1)
            if found != number:
                raise BadSimulation(f"line {self.at}: expected {name} {number}")
            yield row


def _words(lines: _Lines) -> Words:
    seed, slots, ports = lines.numbers("job", 3)
    scheduler, rounds = lines.fields("scheduler", 2)
    given = lines.number(rounds)
    pattern, *shares = lines.fields("traffic", 4)
    weight, load, burst = map(lines.number, shares)
    warm_up, batches, depth = lines.numbers("measured", 3)
    if not (warm_up < slots and 1 <= ports <= 64 and 1 <= batches <= 1_000):
        raise BadSimulation(f"line {lines.at}: no simulation has these words")
    millionths = Fraction(weight, MILLION), Fraction(load, MILLION)
    return Words(seed, slots, ports, scheduler, given, pattern, *millionths, burst, warm_up, batches, depth)


def _simulation(lines: _Lines) -> Simulation:
    words = _words(lines)
    arrived, dropped, departed = (lines.numbers(name, 1)[0] for name in ("arrived", "dropped", "departed"))
    before, waiting = (Waiting(*lines.numbers(name, 2)) for name in ("before", "waiting"))
    cell_slots, delays = (lines.numbers(name, 1)[0] for name in ("cell-slots", "delays"))
    *percentiles, longest_delay = lines.numbers("delay", 6)
    rounds_used, first_pairs = lines.numbers("rounds", 2)
    peak, peak_of_all = lines.numbers("peak", 2)
    (longest_wait,) = lines.numbers("longest", 1)
    ports = tuple(Port(*row) for row in lines.rows("port", words.ports, 4))
    batches = tuple(Batch(*row) for row in lines.rows("batch", words.batches, 2))
    return Simulation(
        words, arrived, dropped, departed, before, waiting, cell_slots, delays, Percentiles(*percentiles), longest_delay,
        rounds_used, first_pairs, peak, peak_of_all, longest_wait, ports, batches, _counts(lines, departed),
    )


def _counts(lines: _Lines, departed: int) -> Optional[Tuple[Tuple[int, int], ...]]:
    """The lines of the histogram; without lines it is empty where no cell left, and not there where some did."""
    found: List[Tuple[int, int]] = []
    for line in lines.lines:
        lines.at += 1
        words = line.split(" ")
        if words[0] != "count" or len(words) != 3:
            raise BadSimulation(f"line {lines.at}: expected count with 2 fields")
        found.append((lines.number(words[1]), lines.number(words[2])))
    if not found and departed:
        return None
    if [delay for delay, _ in found] != sorted({delay for delay, _ in found}):
        raise BadSimulation(f"line {lines.at}: the delays do not rise")
    return tuple(found)


def _check(run: Simulation) -> None:
    """BadSimulation where the sums or the laws of docs/SIMULATE.md do not hold, as of a text that was changed."""
    columns = [sum(column) for column in zip(*run.port_rows)]
    if columns != [run.arrived, run.dropped, run.departed, run.departed]:
        raise BadSimulation("the sums of the ports are not those of the run")
    if [sum(column) for column in zip(*run.batch_rows)] != [run.departed, run.delays]:
        raise BadSimulation("the sums of the batches are not those of the run")
    if run.count_rows is not None and sum(number for _, number in run.count_rows) != run.departed:
        raise BadSimulation("the counts are not of so many cells")
    if run.arrived + run.before.cells != run.dropped + run.departed + run.waiting.cells:
        raise BadSimulation("the cells that came are not those that left, were dropped or wait")
    if run.cell_slots + run.before.age != run.delays - run.departed + run.waiting.age:
        raise BadSimulation("the delays are not the slots that cells waited")
