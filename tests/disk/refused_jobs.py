"""Whole jobs of the program on a real disk, with each request for memory refused in turn."""

from typing import NamedTuple

from .files import FRAME, INPUTS, JOURNAL, RAW_IP, WORDS, header, packet, record
from .running import Place, Wrong

OUT_OF_MEMORY = b"out of memory\n"

# A multicast packet of input 0 for two outputs, and unicast of input 1 for one of these and for a third.
MULTICAST = {
    "table": b"10.0.9.0/24 1,2\n10.0.0.0/24 0\n10.0.2.0/24 2\n",
    "a": header(RAW_IP) + record(packet(100, (10, 0, 9, 1))),
    "b": header(RAW_IP) + record(packet(60, (10, 0, 2, 1))) + record(packet(20, (10, 0, 0, 1))),
    "c": header(RAW_IP),
}
FLAGS = ("--slots", "--journal", "--reference", "--queues", "--packets")

ADDRESSES, TAG = FRAME[:12], bytes.fromhex("81000005")


def _frame(length, port, tag=b""):
    """An Ethernet frame of so many bytes with a packet for a port's network."""
    first = ADDRESSES + tag + b"\x08\x00" + packet(20, (10, 0, port, 1))
    return first.ljust(length, b"\0")


def _capture(port):
    """A tagged and an untagged frame of full size for the next port, and an ARP frame for all."""
    to = (port + 1) % 4
    frames = (_frame(1518, to, TAG), _frame(1514, to), (ADDRESSES + b"\x08\x06").ljust(60, b"\0"))
    return header() + b"".join(map(record, frames))


FOUR_PORTS = {
    "table": b"10.0.0.0/24 0\n10.0.1.0/24 1\n10.0.2.0/24 2\n10.0.3.0/24 3\n* 0,1,2,3 3\n",
    **{name: _capture(port) for port, name in enumerate("abcd")},
}


class Job(NamedTuple):
    """The words of a run, and the files that it begins with."""

    words: tuple
    files: dict


JOBS = (
    Job(("run", "--workers", "1", *WORDS), INPUTS),
    Job(("run", "--workers", "1", *FLAGS, *WORDS), INPUTS),
    Job(("run", "--workers", "2", *WORDS), INPUTS),
    Job(("run", "--workers", "1", "--rounds", "2", *FLAGS, "table", "out", "a", "b", "c"), MULTICAST),
    Job(("run", "--workers", "1", "table", "out", *"abcd"), FOUR_PORTS),
    Job(("run", "--workers", "1", "--pace-us", "10", *WORDS), INPUTS),
    Job(("run", "--alone", *FLAGS, *WORDS), INPUTS),
    Job(("run", "--long", "--queues", "--packets", "--reference", *WORDS), INPUTS),
    Job(("firm", "--long", "table", "a", "b", "c"), MULTICAST),
    Job(("gen", "--workers", "1", "1", "2", "2"), {}),
    Job(("firm", "table", "a", "b", "c"), MULTICAST),
    Job(("check", "journal"), {"journal": JOURNAL}),
    Job(("check", "journal"), {"journal": JOURNAL[:-1]}),
)


class Counts(NamedTuple):
    """How many requests were refused, and in how many of these runs memory ran out."""

    refused: int
    ran_out: int


def _end(program, job, variables):
    """How a run of the job ends, and what then stands in its folder."""
    with Place(program, job.files) as place:
        before = place.state()
        return place.run(*job.words, env=variables), before, place.state()


def refuse_in(program, job, refusing):
    """Runs the job once for each of its requests for memory, with that one refused. It does all of its work, or tells
    that memory ran out, or ends with 1 where there is none for its words, and then has done nothing."""
    whole, before, after = _end(program, job, refusing.environment(0))
    requests = refusing.requests()
    if requests == 0:
        raise Wrong("no request for memory is seen: the program does not ask the C library that is loaded with it")
    if whole.status < 0:
        raise Wrong(f"without a refusal: {whole}")
    ran_out = 0
    for number in range(1, requests + 1):
        found, _, state = _end(program, job, refusing.environment(number))
        out_of_memory = (found.status, found.out, found.err) in ((5, b"", OUT_OF_MEMORY), (1, b"", b""))
        if not (out_of_memory and state == before or found == whole and state == after):
            raise Wrong(f"request {number}: {found}, and the files {sorted(state)}")
        ran_out += out_of_memory
    return Counts(requests, ran_out)
