"""`run --packets` and `--queues`: a packets file that cannot be begun or written, or would be too long."""

from .cases import case
from .failing_outputs import FULL, expect_full_within, write_fault
from .failing_streams import OUT, OUT_FAULT, closing
from .files import (
    INPUTS, JOURNAL, MAX_RECORDS, PACKETS, QUEUES, RAW_IP, REPORT, SUMMARY, WORDS, header, outputs, packet, record, report,
)
from .running import expect, expect_state

FLAG = "--packets"
FLAGS = ("--journal", FLAG)


def before_it(prefix="out"):
    """The files that the job writes before the packets file, by name."""
    return {**outputs(prefix), f"{prefix}.journal": JOURNAL}


def written(prefix="out"):
    """All files that the job writes, by name."""
    return {**before_it(prefix), f"{prefix}.packets.csv": PACKETS}


def expect_no_packets(place):
    """Runs the job where its packets file cannot be written: the files before it are whole."""
    before = place.state()
    expect(place.run_job(*FLAGS, *WORDS), 6, write_fault("out.packets.csv"))
    expect_state(place, before, before_it())


@case("a packets file, and the lines of queues")
def packets_and_queues(place):
    before = place.state()
    expect(place.run_job(*FLAGS, "--queues", *WORDS), 0, out=SUMMARY)
    expect_state(place, before, {**written(), "out.report": REPORT + QUEUES})


@case("a packets file that is there and longer")
def packets_are_replaced(place):
    place.write("out.packets.csv", bytes(1_000))
    before = place.state()
    expect(place.run_job(*FLAGS, *WORDS), 0, out=SUMMARY)
    expect_state(place, before, written())


@case("a run without --packets beside a file of that name", {**INPUTS, "out.packets.csv": b"kept"})
def packets_are_kept(place):
    before = place.state()
    expect(place.run_job("--queues", *WORDS), 0, out=SUMMARY)
    expect_state(place, before, {**outputs(), "out.report": REPORT + QUEUES})


@case("a packets file that is a folder")
def packets_are_folder(place):
    place.make_folder("out.packets.csv")
    expect_no_packets(place)


@case("a packets file that is there without write permission")
def packets_without_permission(place):
    place.write("out.packets.csv", b"kept", 0o444)
    expect_no_packets(place)


@case("a full disk as the packets file")
def packets_full(place):
    place.link("out.packets.csv", FULL)
    expect_no_packets(place)


@case("a journal that is a folder, and a packets file behind it")
def journal_is_folder(place):
    place.make_folder("out.journal")
    before = place.state()
    expect(place.run_job(*FLAGS, *WORDS), 6, write_fault("out.journal"))
    expect_state(place, before, outputs())


def unrouted(packets):
    """A capture of so many packets, none of which has a route."""
    return header(RAW_IP) + record(packet(20, (10, 0, 9, 1))) * packets


# As many packets as make a packets file that is longer than all other outputs.
FEW = 2_000
# And as many as make one of several pieces: it is written in pieces of 65,536 bytes.
MANY = 6_000
MANY_ROWS = PACKETS.splitlines(True)[0] + b"".join(b"0,%d,20,1,unrouted,,,,%d,,\n" % (k, k) for k in range(MANY))
MANY_INPUTS = {**INPUTS, "a": unrouted(MANY), "b": header(RAW_IP)}


@case("a disk that becomes full within the packets file", {**INPUTS, "a": unrouted(FEW), "b": header(RAW_IP)})
def disk_becomes_full(place):
    expect_full_within(place, ".packets.csv", "32k", (FLAG,))


def expect_pieces(place, *flags):
    """Runs the job of many packets: its packets file is whole."""
    before = place.state()
    found = place.run_job(FLAG, *flags, *WORDS)
    expect(found, 0, out=found.out)
    captures = {f"out.{port}.pcap": header(RAW_IP) for port in range(2)}
    expect_state(place, before, {**captures, "out.report": report(found.out, (0, 0), (0, 0)), "out.packets.csv": MANY_ROWS})


@case("a packets file of several pieces", MANY_INPUTS)
def packets_in_pieces(place):
    expect_pieces(place)


@case("a packets file of several pieces, of a long run", MANY_INPUTS)
def long_packets_in_pieces(place):
    expect_pieces(place, "--long")


@case("a disk that becomes full within a later piece of the packets file", MANY_INPUTS)
def disk_becomes_full_later(place):
    expect_full_within(place, ".packets.csv", "128k", (FLAG, "--long"))


@case("a closed standard output of a run with a packets file")
def out_closed(place):
    before = place.state()
    expect(place.run_job(*FLAGS, *WORDS, before=closing(OUT)), 6, OUT_FAULT)
    expect_state(place, before, written())


# Packets without bytes have no route, and one row each.
LONG_PORTS = 32
LONG_INPUT = header(RAW_IP) + record(b"") * MAX_RECORDS
LONG_BYTES = 138_378_953
LONG_SECONDS = 60  # It has four million packets.


@case("a packets file that would be too long", {"table": b"", "a": LONG_INPUT})
def packets_too_long(place):
    before = place.state()
    found = place.run_job(FLAG, "table", "out", *["a"] * LONG_PORTS, seconds=LONG_SECONDS)
    expect(found, 4, f"packets too long: {LONG_BYTES}\n".encode())
    expect_state(place, before)
