"""Runs the program of `tiny_tera simulate`, once or for many points and seeds side by side.

The program is the one that the variable SIMULATE names, else the one that the launcher `tiny_tera` starts: that of the
repository or the installed folder in which this package stands, else the one that a shell finds.
"""

from __future__ import annotations

import os
import shutil
import subprocess
import sys
from concurrent.futures import Future, ThreadPoolExecutor
from decimal import Decimal
from fractions import Fraction
from pathlib import Path
from typing import TYPE_CHECKING, Dict, Iterable, List, Mapping, Optional, Sequence, Union

from .simulated import MILLION, Simulation, read_text

if TYPE_CHECKING:
    import pandas

    Running = Future[Dict[str, object]]

# A share from 0 to 1 that is a whole number of millionths.
Share = Union[str, Fraction, Decimal, float]

VARIABLE, LAUNCHER = "SIMULATE", "tiny_tera"
USAGE, TOO_MANY, NO_MEMORY = 2, 4, 5
HINT = "hint: "


class NoProgram(OSError):
    """There is no program, or it cannot be started."""


class TooManyCells(ValueError):
    """The queues would hold more cells than the program has room for."""


class Failed(RuntimeError):
    """The program ended otherwise; the message is what it said."""


def simulate(
    *, seed: int, slots: int, ports: int, scheduler: str = "islip", rounds: int = 4, load: Share = "0.9", burst: int = 1,
    pattern: str = "uniform", weight: Optional[Share] = None, depth: int = 4_096, warm_up: Optional[int] = None,
    batches: int = 10, histogram: bool = False,
) -> Simulation:
    """Runs a simulation; docs/SIMULATE.md has the ranges. Load and weight are shares, as "0.95", Fraction(19, 20) or 0.95.
    Without `warm_up` a tenth of the slots is not measured.

    ValueError where no simulation has these words, TooManyCells where its queues are too large, MemoryError where memory
    runs out, NoProgram where there is none."""
    words = [f"--scheduler={scheduler}", f"--rounds={rounds}", f"--load-ppm={millionths(load)}", f"--burst={burst}"]
    words += [f"--pattern={pattern}", f"--depth={depth}", f"--batches={batches}"]
    words += [] if weight is None else [f"--weight-ppm={millionths(weight)}"]
    words += [] if warm_up is None else [f"--warm-up={warm_up}"]
    words += ["--histogram"] if histogram else []
    return run_words([*words, str(seed), str(slots), str(ports)])


def millionths(share: Share) -> int:
    """A share in millionths; ValueError where it is no whole number of them. A float is the number that it is printed as."""
    try:
        number = Fraction(repr(float(share)) if isinstance(share, float) else share) * MILLION
    except (ValueError, TypeError, OverflowError):
        raise ValueError(f"{share!r} is no share") from None
    if number.denominator != 1 or not 0 <= number <= MILLION:
        raise ValueError(f"{share!r} is no share from 0 to 1 with at most six places")
    return int(number)


def run_words(words: Sequence[str]) -> Simulation:
    """Runs the words behind `simulate`; the faults are those of `simulate`."""
    try:
        ended = subprocess.run(
            [*command(), *words], stdin=subprocess.DEVNULL, stdout=subprocess.PIPE, stderr=subprocess.PIPE, text=True,
        )
    except OSError as fault:
        raise NoProgram(f"the program simulate cannot be started: {fault}") from None
    if ended.returncode == 0:
        return read_text(ended.stdout)
    raise _fault(ended.returncode, ended.stderr.strip())


def command() -> List[str]:
    """The words that start the program, up to `simulate`; NoProgram where there is none."""
    named = os.environ.get(VARIABLE)
    if named:
        return [named, "simulate"]
    beside = Path(__file__).resolve().parents[2] / LAUNCHER
    found = str(beside) if beside.is_file() and os.access(beside, os.X_OK) else shutil.which(LAUNCHER)
    if found is None:
        raise NoProgram(f"there is no {LAUNCHER} beside this package or in the path; the variable {VARIABLE} can name the program")
    return [found, "simulate"]


def _fault(status: int, said: str) -> Exception:
    """What a status of the program is, with its line, and for wrong words with the launcher's hint."""
    lines = said.splitlines() or [f"the program ended with status {status}"]
    hint = next((line[len(HINT):] for line in lines if line.startswith(HINT)), None)
    if status == USAGE:
        return ValueError(hint or lines[0])
    if status == TOO_MANY:
        return TooManyCells(lines[0] + (f"; {hint}" if hint else ""))
    return MemoryError(lines[0]) if status == NO_MEMORY else Failed(lines[-1])


def simulate_all(
    points: Iterable[Mapping[str, object]], seeds: Iterable[int] = range(1, 11), cores: Optional[int] = None,
    progress: bool = True,
) -> pandas.DataFrame:
    """Runs each point with each seed, each run a process of its own, so many at a time as there are cores, and answers a
    row for each run, in the order of points and seeds. A point has the keywords of `simulate` but the seed. A bar of tqdm
    counts the runs where standard error is a terminal. The first fault ends all."""
    import pandas

    numbers = list(seeds)
    jobs: List[Dict[str, object]] = [{**point, "seed": seed} for point in points for seed in numbers]
    with ThreadPoolExecutor(cores or os.cpu_count() or 1) as pool:
        running = [pool.submit(_row, job) for job in jobs]
        try:
            rows = [each.result() for each in _counted(running, progress)]
        finally:
            for each in running:
                each.cancel()
    return pandas.DataFrame(rows)


def _row(job: Mapping[str, object]) -> Dict[str, object]:
    run: Simulation = simulate(**job)  # type: ignore[arg-type]
    return run.row()


def _counted(running: List[Running], progress: bool) -> Iterable[Running]:
    """The runs in their order, with a bar where that is wanted and tqdm is there."""
    try:
        from tqdm import tqdm
    except ImportError:
        return running
    bar: Iterable[Running] = tqdm(running, unit="run", desc="simulate", disable=not (progress and sys.stderr.isatty()))
    return bar
