"""All that is kept of the model: each by its name, with the files that it stands in as they are and as they are
made."""

from __future__ import annotations

from pathlib import Path
from typing import Callable, Dict, List, NamedTuple

from . import examples, lecture, packet_rows, queue_rows, simulations, slot_rows, text_rows, traffic_rows
from .jobs import EXPECTED, expected_of, files_of, read_job
from .lines import Remake

TOP = Path(__file__).resolve().parents[3]
JOBS, SIMULATIONS, EXAMPLES, LECTURE = "tests/jobs", "tests/simulations", "examples", "viewer/lecture"
ROWS: Dict[str, Remake] = {
    **packet_rows.REMAKES, **slot_rows.REMAKES, **queue_rows.REMAKES, **text_rows.REMAKES, **traffic_rows.REMAKES,
    "refused_words": simulations.refused_words,
}
# What takes the model some seconds each.
SLOW = (
    "gen_32_ports", "gen_32_ports_workers_1", "gen_too_many_cells", "last_slot", "rate_last_slot",
    "known_simulations/traffic",
)
# Files of rows whose answers are not the model's.
OTHERS: Dict[str, str] = {
    "known_answers/longest_waits_at_line_rate": "numbers by the formulas of docs/WAITING.md",
    "known_simulations/delays": "rows of another model, which is not kept here",
    "known_simulations/queues": "rows of another model, which is not kept here",
}
Files = Dict[str, bytes]


class Kept(NamedTuple):
    """Something that is kept: its kind, its name, whether it takes the model some seconds, and its files by their paths
    from the top, as they are there and as the model makes them."""

    kind: str
    name: str
    is_slow: bool
    there: Callable[[], Files]
    made: Callable[[], Files]


def kept_job(folder: Path) -> Kept:
    """A job."""
    at = f"{JOBS}/{folder.name}/{EXPECTED}"
    return Kept(
        "jobs", folder.name, folder.name in SLOW,
        lambda: placed(at, files_of(folder / EXPECTED)), lambda: placed(at, expected_of(read_job(folder))),
    )


def kept_simulation(folder: Path) -> Kept:
    """A simulation."""
    at = f"{SIMULATIONS}/{folder.name}/{EXPECTED}"
    return Kept(
        "simulations", f"simulation/{folder.name}", False,
        lambda: placed(at, files_of(folder / EXPECTED)), lambda: placed(at, simulations.expected_of(folder)),
    )


def kept_example(folder: Path) -> Kept:
    """An example."""
    at = f"{EXAMPLES}/{folder.name}"
    return Kept(
        "examples", f"example/{folder.name}", False,
        lambda: placed(at, examples.there_of(files_of(folder))), lambda: placed(at, examples.made_of(files_of(folder))),
    )


def kept_lecture(file: Path) -> Kept:
    """A journal of the viewer's lecture; the end of its name is its scheduler."""
    path, scheduler = file.relative_to(TOP).as_posix(), file.stem.rpartition("_")[2]
    return Kept(
        "journals", f"lecture/{file.stem}", False,
        lambda: {path: file.read_bytes()}, lambda: {path: lecture.full_load(scheduler)},
    )


def placed(folder: str, files: Files) -> Files:
    """Files of a folder by their paths from the top."""
    return {f"{folder}/{name}": data for name, data in files.items()}


def kept_rows(file: Path) -> Kept:
    """A file of rows."""
    path = file.relative_to(TOP).as_posix()
    return Kept(
        "files of rows", row_name(file), row_name(file) in SLOW,
        lambda: {path: file.read_bytes()}, lambda: {path: ROWS[file.stem](file.read_text()).encode()},
    )


def row_name(file: Path) -> str:
    """The name of a file of rows: that of its crate, or of its folder in the tests, and its own."""
    crate = file.parents[1].name if file.parent.name == "data" else "simulation"
    return f"{crate}/{file.stem}"


def row_files() -> List[Path]:
    """All files of rows."""
    return [*sorted(TOP.glob("crates/known_*/data/*.txt")), TOP / SIMULATIONS / "refused_words.txt"]


def all_kept() -> List[Kept]:
    """All that is kept and that the model makes; ValueError where there are rows of which it knows nothing."""
    jobs, runs = (sorted(path for path in (TOP / folder).iterdir() if path.is_dir()) for folder in (JOBS, SIMULATIONS))
    rows = [file for file in row_files() if row_name(file) not in OTHERS]
    unread = [row_name(file) for file in rows if file.stem not in ROWS]
    if unread:
        names = ", ".join(unread)
        raise ValueError(f"tests/model/stored has no reader of {names}; what others make is named in OTHERS there")
    shown = sorted(path.parent for path in (TOP / EXAMPLES).glob(f"*/{EXPECTED}"))
    journals = sorted((TOP / LECTURE).glob("*.journal"))
    return [
        *map(kept_job, jobs), *map(kept_simulation, runs), *map(kept_example, shown), *map(kept_lecture, journals),
        *map(kept_rows, rows),
    ]
