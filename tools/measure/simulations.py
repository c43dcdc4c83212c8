"""The simulations of a sweep: which there are, the words of each, the file of its text, and its row of a table."""

import math
import re
from decimal import Decimal
from itertools import product

from tiny_tera.simulated import NoneLeft, interval_of, read_simulation

from .words import decimal

BURSTY = "bursty"  # Uniform traffic in bursts; in all other kinds each cell is a burst.
KINDS = ("uniform", BURSTY, "diagonal", "log-diagonal", "hot-spot", "unbalanced")
WEIGHED = ("hot-spot", "unbalanced")
SCHEDULERS = ("islip", "firm", "rrm", "pim", "fifo", "ideal")
WITHOUT_ROUNDS = ("fifo", "ideal")
MOST_SLOTS, MOST_BURST = 4_000_000_000, 4_096
PLACES = 6  # Of a load and a weight.
FOLDER = "{kind}-ports-{ports}-load-{load}-burst-{burst}-weight-{weight}"
FILE = FOLDER + "/{scheduler}-rounds-{rounds}-seed-{seed}.txt"
KIND = re.compile(r"([a-z-]+)-ports-\d+-load-[\d.]+-burst-\d+-weight-[\d.]+")
SLOT_SECONDS = 1.2e-7  # Of a switch of one port; of others by the 1.5th power of the ports, twice what most machines take.


def files(settings):
    """The names of the texts of all simulations that settings have."""
    found = []
    for kind in (kind for kind in settings["kinds"] if kind in KINDS):
        common = {"kind": kind, "burst": settings["burst"] if kind == BURSTY else 1}
        lists = (settings[name] for name in ("ports", "loads", "schedulers", "rounds", "seeds"))
        for weight, ports, load, scheduler, rounds, seed in product(settings["weights"].get(kind, ["0"]), *lists):
            rounds = 1 if scheduler in WITHOUT_ROUNDS else rounds
            found.append(FILE.format(**common, weight=weight, ports=ports, load=load, scheduler=scheduler, rounds=rounds, seed=seed))
    return list(dict.fromkeys(found))


def words(found):
    """The options of the simulation whose file's name has these parts."""
    options = {"scheduler": found.scheduler, "rounds": found.rounds, "load-ppm": millionths(found.load), "burst": found.burst}
    options["pattern"] = "uniform" if found.kind == BURSTY else found.kind
    if found.kind in WEIGHED:
        options["weight-ppm"] = millionths(found.weight)
    return " ".join(f"--{name} {value}" for name, value in options.items())


def command_of(words):
    """The command that prints the text of a simulation of these words, with the delays."""
    options = [("scheduler", words.scheduler)]
    options += [] if words.scheduler in WITHOUT_ROUNDS else [("rounds", words.rounds)]
    options += [("pattern", words.pattern)] if words.pattern != "uniform" else []
    options += [("weight", decimal(float(words.weight)))] if words.pattern in WEIGHED else []
    options += [("load", decimal(float(words.load)))]
    usual = {"burst": 1, "depth": 4_096, "warm_up": words.slots // 10, "batches": 10}
    options += [(name.replace("_", "-"), getattr(words, name)) for name, value in usual.items() if getattr(words, name) != value]
    told = " ".join(f"--{name} {value}" for name, value in options)
    return f"tiny_tera simulate {told} --histogram {words.seed} {words.slots} {words.ports}"


def millionths(text):
    """A share of at most six places in millionths."""
    return int(Decimal(text).scaleb(PLACES))


def minutes(slots, ports):
    """The minutes that a run may take, for a cluster that asks for them."""
    return math.ceil(1 + slots * SLOT_SECONDS * ports**1.5 / 60)


def row(path, commit):
    """The row of the simulation that a file has the text of; BadSimulation where it has another form."""
    run = read_simulation(path)
    first, second = halves(run.batch_rows)
    return {
        "kind": KIND.fullmatch(path.parent.name)[1],
        **{name: value for name, value in run.row().items() if name not in ("pattern", "growth")},
        "commit": commit,
        "first_half": first,
        "second_half": second,
        "batch_half_width": half_width_by_batches(run),
    }


def halves(batches):
    """The mean delays of the first and of the second half of the batches, NaN where no cell left."""
    half = len(batches) // 2
    parts = batches[:half], batches[len(batches) - half:]
    sums = [(sum(batch.departed for batch in part), sum(batch.delays for batch in part)) for part in parts]
    return [delays / departed if departed else math.nan for departed, delays in sums]


def half_width_by_batches(run):
    """Half of the 95 per cent interval of the mean delay by the batches, NaN where there is none."""
    try:
        low, high = run.interval()
    except NoneLeft:
        return math.nan
    return (high - low) / 2


def half_width(values):
    """Half of the 95 per cent interval of the mean of values by Student's t; NaN of fewer than two."""
    if len(values) < 2:
        return math.nan
    low, high = interval_of(list(values))
    return (high - low) / 2
