"""The files of the job that the cases run, and what it must write: the worked example of one packet.

The table sends 10.0.0.0/24 to output 0 and 10.0.1.0/24 to output 1. Port 0 has a frame of 60 bytes to
10.0.1.1, of two cells, and port 1 none: it crosses to output 1 in four slots.
"""

import re
import struct
from pathlib import Path

FORMATS = Path(__file__).resolve().parent.parent.parent / "docs/FORMATS.md"

ETHERNET, RAW_IP = 1, 101
FILE_HEADER, RECORD_HEADER = 24, 16
SNAP_LENGTH = 262_144
MAX_FILE_BYTES = 16_777_216
MAX_ROUTES = 4_096
MAX_RECORDS = 131_072  # Of one capture, since each takes a slot.
MAX_PORTS = 64
MAX_CAPTURED = 262_144


def header(link=ETHERNET):
    """The header of a little-endian capture in microseconds."""
    return struct.pack("<IHHIIII", 0xA1B2C3D4, 2, 4, 0, 0, SNAP_LENGTH, link)


def record(frame, seconds=0, microseconds=0):
    """A record of all bytes of a frame."""
    return struct.pack("<IIII", seconds, microseconds, len(frame), len(frame)) + frame


def packet(length, address):
    """A raw IP packet of so many bytes to an address of four bytes."""
    first = bytes.fromhex("45000014 00000000 40fd0000 0a000009") + bytes(address)
    return first + bytes(length - len(first))


FRAME = bytes.fromhex("020000000001 020000000002 0800 4500002e 00000000 40fd0000 0a000001 0a000101") + bytes(26)

TABLE = b"10.0.0.0/24 0\n10.0.1.0/24 1\n"
EMPTY = header()
ONE_FRAME = header() + record(FRAME, 1, 2)

INPUTS = {"table": TABLE, "a": ONE_FRAME, "b": EMPTY}
WORDS = ("table", "out", "a", "b")


def summary(ports=2, slots=4, packets=1, copies=1, cells=2):
    """The summary of a run with four rounds that forwards all packets, none of which waits."""
    return (
        f"ports {ports}\nrounds 4\ndepth 131072\nslots {slots}\npackets {packets}\noversize 0\nunrouted 0\n"
        f"dropped 0\nforwarded {packets}\ncopies {copies}\ncells {cells}\nlongest 0 0 0 0\n"
    ).encode()


def report(summary_text, *outputs):
    """The report of a summary, with the packets and cells of each output."""
    lines = (f"output {port} packets {packets} cells {cells}\n" for port, (packets, cells) in enumerate(outputs))
    return summary_text + "".join(lines).encode()


SUMMARY = summary()
REPORT = report(SUMMARY, (0, 0), (1, 2))
# What --queues adds to the report, and the packets file: the last cell is granted in slot 2 and crosses in slot 3.
QUEUES = b"queue 0>1:0u packets 1 dropped 0 cells 2 peak 2 slot 1\ndeepest 2\n"
PACKETS = (
    b"input,packet,bytes,cells,state,level,kind,output,arrival,departure,delay\n"
    b"0,0,60,2,forwarded,0,u,1,1,3,2\n"
)


def outputs(prefix="out"):
    """The files that the job writes, by name."""
    return {f"{prefix}.0.pcap": EMPTY, f"{prefix}.1.pcap": ONE_FRAME, f"{prefix}.report": REPORT}


PORTS_OF_JOB = 2
# Of slots 0 to 3 with two ports and four rounds: the first has nothing yet, in the next two input 0 asks output 1
# and feeds it, and in the last one nothing is left.
_ASKED = bytes.fromhex("0101 0000000000000002 0000 ff00 0000")
_FIRST = bytes.fromhex("54544a31 02 04 0000 00000004 0001 0000 ff00 ff00")
JOURNAL = _FIRST + 2 * _ASKED + bytes.fromhex("0000 0000 ff00 ff00")


def lawful(slots, *longest):
    """What `check` prints of a lawful journal, with the longest waits of the levels."""
    return f"yes\nslots {slots}\nlongest {' '.join(map(str, longest))}\n".encode()


YES = lawful(4, 0, 0, 0, 0)


def usage():
    """The line of usage that docs/FORMATS.md has."""
    return re.search(r"`(usage: tiny_tera [^`]*)`", FORMATS.read_text()).group(1)


def empty_report(ports):
    """The report of a run without packets."""
    return report(summary(ports, 1, 0, 0, 0), *[(0, 0)] * ports)
