"""The tables of a sweep: all runs of its folder, and the points of its figures with their intervals."""

import json
from pathlib import Path

import numpy
import pandas
from scipy import stats

from tiny_tera.simulated import longest_wait_bound

from . import simulations
from .provenance import UNKNOWN, Provenance, read_lines
from .results import PLACES
from .simulations import half_width
from .words import ranges

POINT = ["kind", "ports", "load", "burst", "weight", "scheduler", "rounds"]
PERCENTILES = ["p50", "p90", "p99", "p99_9", "p99_99"]
WHOLE = ["slots", "warm_up", "arrived", "dropped", "departed", "cell_slots", "delays", *PERCENTILES, "longest_delay", "peak", "longest_wait"]
RATIOS = ["mean_delay", "throughput", "mean_waiting", "first_half", "second_half", "batch_half_width"]
COLUMNS = [*POINT, "seed", "commit", *WHOLE, *RATIOS]
NO_SHARES = {"burst": 1, "weight": 0}  # Of a trace.
CONFIDENCE = 0.95
HALF_WIDTH = 0.05  # The relative half width for which the seeds are counted.
MOST_SEEDS = 100_000
GROWTH = 0.05  # A point grows where its later delays are by more above its earlier ones, and by more than chance makes them.
GROWS, DROPS = "grows", "drops"


def read_runs(folder):
    """The rows of all runs of a sweep's folder, in the order of their words; ValueError where there is none."""
    settings = Path(folder, "settings.json")
    commit = json.loads(settings.read_text())["commit"] if settings.exists() else UNKNOWN
    found = [simulations.row(path, commit) for path in Path(folder).glob("*-weight-*/*-seed-*.txt")]
    found += [{**NO_SHARES, **json.loads(path.read_text())} for path in Path(folder).glob("*-seed-*/*.json")]
    if not found:
        raise ValueError(f"{folder} has no results of runs")
    table = pandas.DataFrame(found).reindex(columns=COLUMNS).astype(dict.fromkeys(WHOLE, "Int64"))
    return table.round(dict.fromkeys(RATIOS, PLACES)).sort_values([*POINT, "seed"], ignore_index=True)


def write_table(path, frame, provenance):
    """Writes a table as CSV, with its provenance in comment lines before the header."""
    with open(path, "w", newline="") as file:
        file.writelines(f"# {line}\n" for line in provenance.lines())
        frame.to_csv(file, index=False, lineterminator="\n")


def read_table(path):
    """A table that `write_table` wrote, and its provenance."""
    with open(path) as file:
        lines = [line[2:].rstrip("\n") for line in file if line.startswith("# ")]
    return pandas.read_csv(path, comment="#", dtype={"seeds": str, "commit": str, "mark": str}), read_lines(lines)


def provenance_of(runs, commands):
    """The provenance of the results of runs that these commands made."""
    notes = (f"seeds {ranges(runs['seed'])}", f"runs {len(runs)}")
    return Provenance(tuple(sorted(runs["commit"].unique())), tuple(commands), notes)


def seeds_needed(values):
    """How many seeds make the relative half width at most 5 per cent, if they spread as these; NaN where unknown."""
    if len(values) < 2 or not numpy.mean(values):
        return numpy.nan
    spread = numpy.std(values, ddof=1) / numpy.mean(values)
    counts = numpy.arange(2, MOST_SEEDS)
    widths = stats.t.ppf((1 + CONFIDENCE) / 2, counts - 1) * spread / numpy.sqrt(counts)
    enough = counts[widths <= HALF_WIDTH]
    return enough[0] if len(enough) else numpy.nan


def formula(kind, ports, load):
    """The mean delay of the output-queued switch in equilibrium, NaN where the formula does not hold.

    The formula, (N-1)/N * p / (2(1-p)) for independent arrivals to any output with the same probability, has the
    slots before the one in which a cell is given out, and a delay counts that slot too.
    """
    if kind != "uniform" or load >= 1:
        return numpy.nan
    return (ports - 1) / ports * load / (2 * (1 - load)) + 1


def dropped_at_most(dropped, arrived):
    """Where no cell was dropped, the share that as many cells show with 95 per cent to be above that of any; else NaN."""
    return numpy.nan if dropped or not arrived else 1 - (1 - CONFIDENCE) ** (1 / arrived)


def points(runs):
    """For each point the means over its seeds, as independent replications, with their intervals.

    `half_width` is that of the mean delay, by the seeds, or of one seed by its batches. `growth` is how much greater
    the mean delay is in the second half of the measured slots than in the first, as a share; `mark` says where that is
    more than chance, so that queues did not settle, and where cells were dropped.
    """
    return pandas.DataFrame(_point(dict(zip(POINT, words)), group) for words, group in runs.groupby(POINT))


def _point(words, runs):
    delays = _delays(runs)
    return {
        **words, "runs": len(runs), "seeds": ranges(runs["seed"]), **{name: _rounded(it) for name, it in delays.items()},
        "formula": _rounded(formula(words["kind"], words["ports"], words["load"])),
        **{name: _rounded(runs[name].astype(float).mean()) for name in PERCENTILES},
        "longest_delay": runs["longest_delay"].max(), **_longest(words, runs), **_dropped(runs),
        "throughput": _rounded(runs["throughput"].mean()), "throughput_half_width": _rounded(half_width(runs["throughput"])),
        "mean_waiting": _rounded(runs["mean_waiting"].astype(float).mean()),
        "seeds_for_5_percent": _as_text(seeds_needed(runs["mean_delay"])), "mark": _mark(delays, runs),
    }


def _rounded(number):
    return round(float(number), PLACES)


def _as_text(number):
    """A whole number as text, since a table's column of them has no place for an unknown one."""
    return "" if numpy.isnan(number) else str(number)


def _delays(runs):
    """The mean delay of a point with its interval, and how it grows."""
    mean = runs["mean_delay"].mean()
    width = half_width(runs["mean_delay"]) if len(runs) > 1 else runs["batch_half_width"].iloc[0]
    first, second = runs["first_half"].mean(), runs["second_half"].mean()
    return {
        "mean_delay": mean, "half_width": width, "relative_half_width": width / mean if mean else numpy.nan,
        "growth": second / first - 1 if first else numpy.nan,
    }


def _longest(words, runs):
    """The longest wait of a point, and the longest that the laws allow, where one has a number."""
    bound = longest_wait_bound(words["scheduler"], words["rounds"], words["ports"])
    return {"longest_wait": runs["longest_wait"].max(), "longest_wait_bound": "" if bound is None else str(bound)}


def _dropped(runs):
    """The dropped cells of a point, their share, and the bound of the share where there are none; of a trace those are not known."""
    dropped, arrived = int(runs["dropped"].sum()), int(runs["arrived"].fillna(0).sum())
    share = dropped / arrived if arrived else numpy.nan
    return {"dropped": dropped, "dropped_share": share, "dropped_at_most": float(f"{dropped_at_most(dropped, arrived):.2g}")}


def _mark(delays, runs):
    """What is to be known of a point before it is believed."""
    chance = 2 * delays["relative_half_width"]  # By which the halves differ in one of twenty settled points.
    grows = delays["growth"] > max(GROWTH, 0 if numpy.isnan(chance) else chance)
    return ",".join(name for name, holds in ((GROWS, grows), (DROPS, runs["dropped"].sum() > 0)) if holds)
