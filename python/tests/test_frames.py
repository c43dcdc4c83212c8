"""The tables of reports, journals and packets files."""

from pathlib import Path

import pytest

pandas = pytest.importorskip("pandas")

from tiny_tera import frames  # noqa: E402
from tiny_tera.journal import BadJournal  # noqa: E402
from tiny_tera.report import BadReport  # noqa: E402

TOP = Path(__file__).resolve().parents[2]
EXAMPLES = sorted(TOP.glob("examples/*/expected/*.journal"))
PACKETS = sorted(TOP.glob("tests/jobs/*/expected/out.packets.csv"))
DATA = TOP / "tests/measures/data"


def test_two_inputs():
    """The example that docs/USAGE.md works by hand: two inputs take turns at output 0."""
    found = frames.read_report(TOP / "examples/two_inputs/expected/out.report")
    assert found.summary[["ports", "slots", "cells", "longest_0"]].tolist() == [2, 11, 8, 1]
    assert found.outputs.loc[0].tolist() == [3, 8]
    assert found.matches[["slot", "input", "output"]].values.tolist() == [
        [2, 0, 0], [3, 1, 0], [4, 0, 0], [5, 1, 0], [6, 0, 0], [7, 1, 0], [8, 0, 0], [9, 0, 0],
    ]
    assert set(found.matches["kind"]) == {"u"} and found.slots["used"].sum() == 8
    posted = frames.read_journal(TOP / "examples/two_inputs/expected/out.journal")
    assert (posted.ports, len(posted.posts)) == (2, 22)
    asks = posted.posts[posted.posts["u0"] == 1].groupby("input")["slot"]
    assert [list(asks.get_group(card)) for card in (0, 1)] == [list(range(2, 10)), list(range(2, 8))]


@pytest.mark.parametrize("name", EXAMPLES, ids=lambda name: f"{name.parts[-3]}-{name.stem}")
def test_examples(name):
    """The journal and the slot lines of a run tell the same matches."""
    told = frames.read_report(name.with_suffix(".report")).matches
    pandas.testing.assert_frame_equal(frames.read_journal(name).matches, told)


def test_report_with_all_lines():
    found = frames.read_report(DATA / "all_flags_islip.report")
    assert len(found.queues) == 8
    assert found.queues.iloc[4].tolist() == [1, 1, 0, "u", 5, 1, 11, 8, 11]
    assert found.queues.iloc[2].tolist() == [0, pandas.NA, 3, "m", 2, 0, 2, 1, 0]
    assert len(found.reference) == found.summary["ports"]


def test_packets():
    """The delays of the packets that the slot lines and the packets file of a run tell."""
    found = frames.read_packets(DATA / "packets_of_all_states.packets.csv")
    left = found[found["state"] == "forwarded"]
    assert left["delay"].tolist() == [1, 2, 2, 2, 2, 2, 2]
    assert set(found["state"]) == {"forwarded", "dropped", "unrouted", "oversize"}
    assert found[found["state"] == "unrouted"]["output"].isna().all()


@pytest.mark.parametrize("name", PACKETS, ids=lambda name: name.parts[-3])
def test_packets_of_jobs(name):
    """Departures come after all cells; they rise within a flow, and no two packets depart at an output in one slot."""
    found = frames.read_packets(name)
    summary = frames.read_report(name.with_name("out.report")).summary
    left = found[found["state"] == "forwarded"]
    assert len(left) == summary["copies"] and len(found.drop_duplicates(["input", "packet"])) == summary["packets"]
    assert (left["departure"] >= left["arrival"] + left["cells"]).all()
    assert not left.duplicated(["output", "departure"]).any()
    for _, flow in left.groupby(["input", "level", "kind", "output"]):
        assert flow["departure"].is_monotonic_increasing


def test_other_files(tmp_path):
    report, journal = tmp_path / "out.report", tmp_path / "out.journal"
    report.write_text("ports 2\n")
    journal.write_bytes(b"TTJ2")
    with pytest.raises(BadReport):
        frames.read_report(report)
    with pytest.raises(BadJournal):
        frames.read_journal(journal)
    with pytest.raises(ValueError):
        frames.read_packets(report)
