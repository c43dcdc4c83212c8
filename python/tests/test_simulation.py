"""Simulations from Python: what is read of their text, the words that are handed on, and the faults."""

import os
import re
import sys
from decimal import Decimal
from fractions import Fraction
from pathlib import Path

import pytest

from tiny_tera import read_simulation, simulated, simulation

TOP = Path(__file__).resolve().parents[2]
TEXTS = sorted(TOP.glob("tests/simulations/*/expected/stdout"))
ISLIP = TOP / "tests/simulations/islip_histogram/expected/stdout"
# In the place of the program: writes down its words, and ends as the variables have it.
STUB = """\
#!{python}
import os, sys
with open(os.environ["NOTES"], "a") as file:
    print(*sys.argv[1:], file=file)
sys.stderr.write(os.environ.get("SAID", ""))
sys.stdout.write(open(os.environ["TEXT"]).read())
sys.exit(int(os.environ.get("STATUS", "0")))
"""


@pytest.fixture
def stub(tmp_path, monkeypatch):
    """The program's place; answers how to read the words of its runs."""
    program, notes = tmp_path / "program", tmp_path / "notes"
    program.write_text(STUB.format(python=sys.executable))
    program.chmod(0o755)
    for name, value in (("SIMULATE", program), ("NOTES", notes), ("TEXT", ISLIP)):
        monkeypatch.setenv(name, str(value))
    return lambda: [line.split() for line in notes.read_text().splitlines()]


@pytest.mark.parametrize("name", TEXTS, ids=lambda name: name.parts[-3])
def test_texts(name):
    """What the model prints is read, and its numbers are those of the lines."""
    words = (name.parents[1] / "args").read_text().split()
    text = name.read_text()
    run = read_simulation(name)
    lines = dict(line.split(" ", 1) for line in text.splitlines() if line.split()[0] not in ("port", "batch", "count"))
    assert (run.delays, run.departed, run.cell_slots) == tuple(int(lines[it]) for it in ("delays", "departed", "cell-slots"))
    assert run.words.load * 1_000_000 == int(lines["traffic"].split()[2])
    assert (len(run.port_rows), len(run.batch_rows)) == (run.words.ports, run.words.batches)
    assert (run.count_rows is not None) == ("--histogram" in words or not run.departed)
    bound = simulated.longest_wait_bound(run.words.scheduler, run.words.rounds, run.words.ports)
    assert bound is None or run.longest_wait <= bound


def test_numbers():
    run = read_simulation(ISLIP)
    assert isinstance(run.delays, int) and run.mean_delay == Fraction(run.delays, run.departed)
    assert run.throughput == Fraction(run.departed, run.words.ports * (run.words.slots - run.words.warm_up))
    assert sum(delay * number for delay, number in run.count_rows) == run.delays
    assert run.dropped_share == Fraction(run.dropped, run.arrived)
    low, high = run.interval()
    assert low < run.mean_delay < high
    assert run.interval(0.5).low > low


def test_without_a_cell():
    run = read_simulation(TOP / "tests/simulations/no_load_histogram/expected/stdout")
    assert (run.departed, run.count_rows, run.throughput, run.dropped_share) == (0, (), 0, 0)
    for ask in (lambda: run.mean_delay, run.interval):
        with pytest.raises(simulated.NoneLeft):
            ask()
    assert run.row()["mean_delay"] != run.row()["mean_delay"]


def test_tables():
    pandas = pytest.importorskip("pandas")
    run = read_simulation(ISLIP)
    assert run.ports.sum().tolist() == [run.arrived, run.dropped, run.departed, run.departed]
    assert run.batches["delays"].sum() == run.delays and len(run.batches) == run.words.batches
    assert (run.counts.index * run.counts).sum() == run.delays
    assert list(run.row())[:3] == ["seed", "slots", "ports"] and isinstance(run.counts, pandas.Series)
    with pytest.raises(ValueError, match="--histogram"):
        read_simulation(TOP / "tests/simulations/ports_64/expected/stdout").counts


def test_interval():
    """Of three means: 2 +- 4.303 / sqrt 3, by the table of Student's t for two degrees of freedom."""
    pytest.importorskip("scipy")
    low, high = simulated.interval_of([1.0, 2.0, 3.0])
    assert (low, high) == pytest.approx((2 - 4.30265 / 3**0.5, 2 + 4.30265 / 3**0.5), abs=1e-4)


def test_bounds():
    """The rows of docs/WAITING.md, for runs, less the slot that serves."""
    page = (TOP / "docs/WAITING.md").read_text()
    ports = (1, 2, 3, 4, 5, 6, 16, 64)
    for row, words in (("one round, a run", ("islip", 1)), ("two or more, a run", ("islip", 4)), ("FIRM, any number of rounds", ("firm", 2))):
        told = re.search(rf"^\| {row} \| (.*) \|$", page, re.M)[1].replace(",", "").split(" | ")
        assert [simulated.longest_wait_bound(*words, number) + 1 for number in ports] == list(map(int, told))
    assert simulated.longest_wait_bound("rrm", 1, 4) is None


# Of a text: what stands there, what in its place, and what is said of it.
OTHERS = [
    (r"^delays ", "delay ", "line 11: expected delays with 1 fields"), (r"^arrived ", "arrived x", "line 5: 'x"),
    (r"^port 1 ", "port 2 ", "expected port 1"), (r"^measured 40", "measured 400", "no simulation has these words"),
    (r"^departed 1", "departed 2", "sums of the ports"), (r"^batch 0 123 ", "batch 0 124 ", "sums of the batches"),
    (r"^before 15", "before 16", "the cells that came"), (r"^before 15 50", "before 15 51", "the delays are not"),
    (r"^count ", "mount ", "expected count"), (r"^count 1 ", "count 1 1", "counts are not"), (r"^count 2 ", "count 1 ", "do not rise"),
]


@pytest.mark.parametrize("old, new, told", OTHERS, ids=[told for *_, told in OTHERS])
def test_other_texts(old, new, told):
    changed, count = re.subn(old, new, ISLIP.read_text(), count=1, flags=re.M)
    assert count == 1
    with pytest.raises(simulated.BadSimulation, match=told):
        simulated.read_text(changed)


def test_cut_and_longer_texts():
    text = ISLIP.read_text()
    for wrong in ("", text[:-1], text[: text.index("batch")], text + "more\n", text + "count 1 1\n"):
        with pytest.raises(simulated.BadSimulation):
            simulated.read_text(wrong)


def test_words(stub):
    run = simulation.simulate(
        seed=1, slots=1_000, ports=4, load=0.95, scheduler="firm", rounds=2, burst=16, pattern="hot-spot", weight="0.05",
        depth=9, warm_up=0, batches=5, histogram=True,
    )
    assert run == read_simulation(ISLIP)
    words = "--scheduler=firm --rounds=2 --load-ppm=950000 --burst=16 --pattern=hot-spot --depth=9 --batches=5 --weight-ppm=50000 --warm-up=0"
    assert stub() == [["simulate", *words.split(), "--histogram", "1", "1000", "4"]]


def test_millionths():
    for share in ("0.95", Fraction(19, 20), 0.95, Decimal("0.95")):
        assert simulation.millionths(share) == 950_000
    assert [simulation.millionths(number / 1_000_000) for number in range(0, 1_000_001, 997)] == list(range(0, 1_000_001, 997))
    assert (simulation.millionths(0), simulation.millionths(1), simulation.millionths("1e-6")) == (0, 1_000_000, 1)
    for wrong in ("0.1234567", 1.5, -0.1, Fraction(1, 3), "x", float("nan"), float("inf"), None, [1]):
        with pytest.raises(ValueError):
            simulation.millionths(wrong)


@pytest.mark.parametrize("status, said, fault, told", [
    (2, "usage: ..\nhint: --rounds 65: R is a number from 1 to 64\n", ValueError, "^--rounds 65: R is"), (2, "usage: ..\n", ValueError, "^usage"),
    (4, "too many cells: 9\nhint: less\n", simulation.TooManyCells, "^too many cells: 9; less$"), (5, "out of memory\n", MemoryError, "out of memory"),
    (1, "tiny_tera: no rt\n", simulation.Failed, "no rt"), (7, "", simulation.Failed, "ended with status 7"),
])  # fmt: skip
def test_faults(stub, monkeypatch, status, said, fault, told):
    monkeypatch.setenv("STATUS", str(status))
    monkeypatch.setenv("SAID", said)
    with pytest.raises(fault, match=told):
        simulation.simulate(seed=1, slots=1, ports=1)


def test_no_program(monkeypatch, tmp_path):
    monkeypatch.setenv("SIMULATE", str(tmp_path / "none"))
    with pytest.raises(simulation.NoProgram):
        simulation.simulate(seed=1, slots=1, ports=1)
    monkeypatch.delenv("SIMULATE")
    assert simulation.command() == [str(TOP / "tiny_tera"), "simulate"]
    monkeypatch.setattr(simulation, "__file__", str(tmp_path / "a/b/c.py"))
    monkeypatch.setenv("PATH", str(tmp_path))
    with pytest.raises(simulation.NoProgram, match="no tiny_tera"):
        simulation.command()


def test_all(stub):
    """A row for each run, in the order of points and seeds."""
    pandas = pytest.importorskip("pandas")
    frame = simulation.simulate_all([{"slots": 10, "ports": 2, "load": load} for load in ("0.5", "0.9")], seeds=iter((3, 4)), cores=2, progress=False)
    assert isinstance(frame, pandas.DataFrame) and len(frame) == 4
    words = sorted((line[3], line[-3]) for line in stub())
    assert words == [(f"--load-ppm={load}", seed) for load in ("500000", "900000") for seed in "34"]
    assert frame["delays"].tolist() == [read_simulation(ISLIP).delays] * 4


def test_all_ends_at_a_fault(stub, monkeypatch):
    pytest.importorskip("pandas")
    monkeypatch.setenv("STATUS", "4")
    with pytest.raises(simulation.TooManyCells):
        simulation.simulate_all([{"slots": 10, "ports": 2}], seeds=range(50), cores=1)
    assert len(stub()) < 50


def test_example(monkeypatch):
    """The example of docs/SIMULATE.md holds together, and runs where there is a program."""
    block = re.search(r"## In Python\n.*?```python\n(.*?)```", (TOP / "docs/SIMULATE.md").read_text(), re.S)[1]
    compile(block, "docs/SIMULATE.md", "exec")
    monkeypatch.syspath_prepend(TOP)
    from launcher import builds, there

    program = there.program(TOP, builds.SIMULATION)
    if not os.access(program, os.X_OK):
        pytest.skip("there is no program simulate")
    pytest.importorskip("pandas")
    monkeypatch.setenv("SIMULATE", str(program))
    exec(block.replace("1_000_000", "2_000"), {})
