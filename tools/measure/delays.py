"""The delays of packets by queue and by flow: how many there are, their mean, and what most of them do not exceed."""

import pandas

from .frame_headers import Flow
from .packets import forwarded
from .slot_times import PLACES, in_us

# The least delay that so many of a thousand packets do not exceed.
PARTS = {"p50": 500, "p99": 990, "p99.9": 999}
NUMBERS = ["mean", *PARTS, "max"]
ALL = "all"
UNKNOWN = "-"


def by_queue(packets):
    """The delays of all packets, and of each queue, in the order of the report."""
    came = packets[packets["state"].isin(["forwarded", "dropped"])]
    ordered = came.sort_values(["input", "kind", "output", "level"], ascending=[True, False, True, True])
    # A multicast queue has all outputs.
    output = ordered["output"].astype(str).mask(ordered["kind"] == "m", "*")
    names = ordered["input"].astype(str) + ">" + output + ":" + ordered["level"].astype(str) + ordered["kind"]
    return pandas.concat([summary(ordered, names.map(lambda _: ALL)), summary(ordered, names)])


def by_flow(joined):
    """The delays of each flow of packets that are joined with their captures, those with most packets first."""
    came = joined[joined["state"].isin(["forwarded", "dropped"])]
    fields = came[list(Flow._fields)].astype(object)
    flows = fields.where(fields.notna(), None).itertuples(index=False, name=None)
    names = pandas.Series([Flow(*fields).name for fields in flows], index=came.index, dtype=object)
    return summary(came, names).sort_values("packets", ascending=False, kind="stable")


def summary(came, names):
    """For each name, in the order in which they come, the delays of its forwarded packets, in slots.

    `packets` are the forwarded ones; one of multicast counts at each of its outputs, as it has a delay at each.
    `dropped` are those that did not fit in their queue, each counted once.
    """
    left = forwarded(came)
    rows = {name: _numbers(part.sort_values().to_numpy()) for name, part in left["delay"].groupby(names[left.index])}
    found = pandas.DataFrame.from_dict(rows, orient="index", columns=["packets", *NUMBERS])
    found = found.reindex(names.drop_duplicates()).rename_axis("name")
    lost = came["state"].eq("dropped") & ~came.duplicated(["input", "packet"])
    found.insert(1, "dropped", lost.groupby(names).sum().reindex(found.index))
    whole = dict.fromkeys(["packets", "dropped", *PARTS, "max"], "Int64")
    return found.fillna({"packets": 0}).astype({"mean": "Float64", **whole})


def _numbers(delays):
    """The numbers of delays in rising order."""
    count = len(delays)
    places = [-(-count * part // 1000) - 1 for part in PARTS.values()]
    return [count, float(delays.mean()), *(int(delays[place]) for place in places), int(delays[-1])]


def with_us(found, length):
    """The numbers, and behind them the same in microseconds where a slot has so many; None adds none."""
    told = found.round({"mean": PLACES})
    return told if length is None else told.join(found[NUMBERS].apply(in_us, length=length).add_suffix("_us"))


def text_of(found, what):
    """The numbers as lines in columns, under the heading of what they are of."""
    table = found.astype(object)
    return table.where(table.notna(), UNKNOWN).rename_axis(None).rename_axis(what, axis="columns").to_string()
