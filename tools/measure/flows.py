"""The packets of a run with their flows: its packets file, joined with the captures that came in."""

import pandas

from launcher.captures import SECOND, read_file

from .frame_headers import Flow, flow_of
from .packets import COLUMNS, Misfit

OWN = ("frame", "time", *Flow._fields)  # Beside the columns of the packets file.
TOLD = ["input", "packet", *OWN, *COLUMNS[2:]]


def joined(packets, names):
    """A row for each row of a packets file, with what the captures, in the order of ports, have of its packet.

    `frame` is the packet's number as Wireshark counts, from 1; `time` its time stamp in seconds. Misfit where the
    captures are not those of the run.
    """
    ports = int(packets["input"].max()) + 1 if len(packets) else 0
    if len(names) < ports:
        raise Misfit(f"the run has packets of {ports} captures, and here are {len(names)}")
    came = packets.drop_duplicates(["input", "packet"])
    tables = [_of_capture(name, card, came[came["input"] == card]) for card, name in enumerate(names)]
    found = pandas.concat(tables, ignore_index=True)
    return packets.merge(found, on=["input", "packet"], how="left", validate="many_to_one")[TOLD]


def _of_capture(name, card, came):
    """The packets of one capture; Misfit where they are not those that the packets file has of its port."""
    capture = read_file(name)
    lengths = [packet.length for packet in capture.packets]
    if len(lengths) != len(came):
        raise Misfit(f"{name} has {len(lengths)} packets, and the packets file {len(came)} of input {card}")
    wrong = next((at for at, (here, told) in enumerate(zip(lengths, came["bytes"])) if here != told), None)
    if wrong is not None:
        told = f"the packets file {came['bytes'].iloc[wrong]} of input {card}"
        raise Misfit(f"packet {wrong} of {name} has {lengths[wrong]} bytes, and {told}")
    rows = [
        (card, at, at + 1, _seconds(packet.time, capture.is_nano), *flow_of(capture.link, packet.frame))
        for at, packet in enumerate(capture.packets)
    ]
    return pandas.DataFrame(rows, columns=["input", "packet", *OWN]).astype(
        {name: "Int64" for name in ("input", "packet", "frame", "source_port", "destination_port")}
    )


def _seconds(time, is_nano):
    """A time in nanoseconds as decimal seconds, with as many digits as its capture has."""
    seconds, fraction = divmod(time, SECOND)
    return f"{seconds}.{fraction:09}" if is_nano else f"{seconds}.{fraction // 1000:06}"
