"""The packets of a run, from its packets file."""

from collections import Counter, defaultdict

from tiny_tera.packets import COLUMNS, STATES, packet_pieces, read_packets

__all__ = [
    "COLUMNS", "STATES", "Misfit", "PacketCounts", "check_run", "counts_of", "delay_counts", "forwarded", "offered",
    "packet_pieces", "read_packets",
]


class Misfit(ValueError):
    """A packets file is not that of a run; the message says where they differ."""


class PacketCounts:
    """What is counted of the packets of a run: how many came to each state, how many packets and cells left each output, the
    slot in which the last came or left, and for each level and kind how many had each delay, at each of their outputs."""

    def __init__(self):
        self.states, self.packets, self.cells = Counter(), Counter(), Counter()
        self.last, self.delays = 0, defaultdict(Counter)

    def add(self, packets):
        """Counts rows, which are all of their packets."""
        left = forwarded(packets)
        self.states.update(packets.drop_duplicates(["input", "packet"])["state"])
        self.last = max([self.last, *(int(column.max()) for column in (packets["arrival"], left["departure"]) if len(column))])
        for output, count, cells in left.groupby("output")["cells"].agg(["size", "sum"]).itertuples():
            self.packets[output] += int(count)
            self.cells[output] += int(cells)
        for (level, kind), part in left.groupby(["level", "kind"]):
            for delay, count in part["delay"].value_counts(sort=False).items():
                self.delays[int(level), kind][int(delay)] += int(count)

    def check(self, report):
        """Misfit where the counts of a report, its outputs or its number of slots are others."""
        # The run ends with the slot in which the last packet comes or departs.
        found = {**{state: self.states[state] for state in STATES}, "slots": self.last + 1}
        for name, count in found.items():
            if count != report.summary[name]:
                raise Misfit(f"{name} {count}, and the report has {report.summary[name]}")
        for output, told in enumerate(report.outputs):
            if (self.packets[output], self.cells[output]) != told:
                counted = f"output {output} packets {self.packets[output]} cells {self.cells[output]}"
                raise Misfit(f"{counted}, and the report has {told[0]} and {told[1]}")


def counts_of(pieces):
    """The counts of all packets of a run, which come piece by piece."""
    found = PacketCounts()
    for packets in pieces:
        found.add(packets)
    return found


def check_run(packets, report):
    """Misfit where the counts of a report, its outputs or its number of slots are not those of the packets."""
    counts_of([packets]).check(report)


def offered(packets):
    """A row for each packet that came to a queue, and was forwarded or dropped there."""
    came = packets[packets["state"].isin(["forwarded", "dropped"])]
    return came.drop_duplicates(["input", "packet"])


def forwarded(packets):
    """The rows of admitted packets, one for each output, with arrival, departure and delay as plain numbers."""
    left = packets[packets["state"] == "forwarded"]
    return left.astype({"output": int, "arrival": int, "departure": int, "delay": int})


def delay_counts(packets):
    """For each level and kind how many packets had each delay, at each of their outputs."""
    return dict(counts_of([packets]).delays)
