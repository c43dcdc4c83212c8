"""The result of one run of a sweep's trace: the delays of its packets."""

from statistics import fmean
from typing import NamedTuple

from .packets import Misfit, check_run, forwarded, offered

# Of the arrival slots, the parts at the begin and at the end whose packets are not measured: the queues
# fill up first, and at the end nothing comes behind the last packets.
LEFT_OUT_FIRST = 0.2
LEFT_OUT_LAST = 0.1
PLACES = 4
PERCENTILES = {"p50": 0.5, "p90": 0.9, "p99": 0.99, "p99_9": 0.999, "p99_99": 0.9999}


class Result(NamedTuple):
    """What a run gave. Loads are cells per input and slot; delays, departures less arrivals, and waits are in slots.

    The measured packets are the admitted ones that came in the middle of the run; one of multicast counts
    at each of its outputs; `departed` are these. `first_half` and `second_half` are the means over the halves of
    these slots: they differ where queues still grew. `throughput` is the cells per output and slot that were granted in
    the measured slots.
    """

    arrival_slots: int
    slots: int
    cells: int
    dropped: int
    came_load: float
    departed: int
    delays: int
    mean_delay: float
    first_half: float
    second_half: float
    p50: int
    p90: int
    p99: int
    p99_9: int
    p99_99: int
    longest_delay: int
    longest_wait: int
    throughput: float


class Span(NamedTuple):
    """The measured slots: from `first` on and before `last`, and the middle between them."""

    first: float
    middle: float
    last: float


def measured_span(slots):
    """The measured slots of a run whose packets come in so many slots."""
    first, last = slots * LEFT_OUT_FIRST, slots * (1 - LEFT_OUT_LAST)
    return Span(first, (first + last) / 2, last)


def measure(report, packets):
    """The result of a run with this report and these packets; ValueError where they do not fit."""
    summary = report.summary
    if report.slots is None:
        raise ValueError("the report has no slot lines")
    try:
        check_run(packets, report)
    except Misfit as fault:
        raise ValueError(f"the packets file is of another run: {fault}") from None
    came, left = offered(packets), forwarded(packets)
    arrival_slots = int(came["arrival"].max()) + 1 if len(came) else 0
    span = measured_span(arrival_slots)
    early = left["delay"][left["arrival"].between(span.first, span.middle, inclusive="left")]
    late = left["delay"][left["arrival"].between(span.middle, span.last, inclusive="left")]
    if early.empty or late.empty:
        raise ValueError("no packet came in the measured slots")
    measured = left["delay"][left["arrival"].between(span.first, span.last, inclusive="left")]
    percentiles = {name: int(measured.quantile(part, interpolation="higher")) for name, part in PERCENTILES.items()}
    return Result(
        arrival_slots=arrival_slots,
        slots=summary["slots"],
        cells=summary["cells"],
        dropped=summary["dropped"],
        came_load=round(int(came["cells"].sum()) / (summary["ports"] * arrival_slots), PLACES),
        departed=len(measured),
        delays=int(measured.sum()),
        mean_delay=round(float(measured.mean()), PLACES),
        first_half=round(float(early.mean()), PLACES),
        second_half=round(float(late.mean()), PLACES),
        **percentiles,
        longest_delay=int(measured.max()),
        longest_wait=max(report.longest),
        throughput=throughput(report, span),
    )


def throughput(report, span):
    """The cells per output and slot that were granted in the measured slots."""
    granted = [len(slot.pairs) for number, slot in enumerate(report.slots) if span.first <= number < span.last]
    return round(fmean(granted) / report.summary["ports"], PLACES)
