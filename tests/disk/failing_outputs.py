"""Outputs that cannot be begun or written: the ones before are whole, the ones after as before."""

import os
import resource
import signal
import subprocess
import threading

from .cases import case
from .files import EMPTY, INPUTS, ONE_FRAME, REPORT, RAW_IP, SUMMARY, WORDS, header, outputs, packet, record
from .running import IS_ROOT, Skipped, Wrong, expect, expect_part, expect_state

FULL = "/dev/full"
LONG_PACKET = packet(65_535, (10, 0, 1, 1))
LONG_INPUTS = {"a": header(RAW_IP) + record(LONG_PACKET), "b": header(RAW_IP)}


def write_fault(name):
    return f"write fault: {name}\n".encode()


@case("an output folder without write permission")
def folder_without_permission(place):
    place.make_folder("shut", 0o555)
    before = place.state()
    expect(place.run_job("table", "shut/out", "a", "b"), 6, write_fault("shut/out.0.pcap"))
    expect_state(place, before)


@case("an output folder that is not there")
def folder_is_missing(place):
    before = place.state()
    expect(place.run_job("table", "none/out", "a", "b"), 6, write_fault("none/out.0.pcap"))
    expect_state(place, before)


@case("an output that is there without write permission")
def output_without_permission(place):
    place.write("out.1.pcap", b"kept", 0o444)
    before = place.state()
    expect(place.run_job(*WORDS), 6, write_fault("out.1.pcap"))
    expect_state(place, before, {"out.0.pcap": EMPTY})


@case("a report that is a folder")
def report_is_folder(place):
    place.make_folder("out.report")
    before = place.state()
    expect(place.run_job(*WORDS), 6, write_fault("out.report"))
    expect_state(place, before, {"out.0.pcap": EMPTY, "out.1.pcap": ONE_FRAME})


@case("outputs that are there and longer")
def outputs_are_replaced(place):
    for name in outputs():
        place.write(name, bytes(1_000))
    before = place.state()
    expect(place.run_job(*WORDS), 0, out=SUMMARY)
    expect_state(place, before, outputs())


@case("a full disk as the first output")
def first_output_full(place):
    place.link("out.0.pcap", FULL)
    before = place.state()
    expect(place.run_job(*WORDS), 6, write_fault("out.0.pcap"))
    expect_state(place, before)


@case("a full disk as a later output")
def later_output_full(place):
    place.link("out.1.pcap", FULL)
    before = place.state()
    expect(place.run_job(*WORDS), 6, write_fault("out.1.pcap"))
    expect_state(place, before, {"out.0.pcap": EMPTY})


@case("a full disk as the report")
def report_full(place):
    place.link("out.report", FULL)
    before = place.state()
    expect(place.run_job(*WORDS), 6, write_fault("out.report"))
    expect_state(place, before, {"out.0.pcap": EMPTY, "out.1.pcap": ONE_FRAME})


def mounted(place, name, options):
    """Mounts a small file system in the folder; answers how to take it away again."""
    if not IS_ROOT:
        raise Skipped("only root may mount")
    folder = place.make_folder(name)
    told = subprocess.run(["mount", "-t", "tmpfs", "-o", f"mode=777,{options}", "tmpfs", folder], capture_output=True)
    if told.returncode:
        raise Skipped(told.stderr.decode().strip())
    return lambda: subprocess.run(["umount", folder], check=True)


def expect_full_within(place, last, size, flags):
    """Runs a job twice, on a disk of its own with this room too; there it stops within its last file, `out` and `last`."""
    whole = place.run_job(*flags, "table", "out", "a", "b")
    expect(whole, 0, out=whole.out)
    unmount = mounted(place, "small", f"size={size}")
    try:
        before = place.state()
        expect(place.run_job(*flags, "table", "small/out", "a", "b"), 6, write_fault(f"small/out{last}"))
        changed = {f"small/{name}": before[name] for name in before if name.startswith("out.")}
        changed[f"small/out{last}"] = expect_part(place, f"small/out{last}", before[f"out{last}"])
        expect_state(place, before, changed)
    finally:
        unmount()


@case("a disk that becomes full within an output", {**INPUTS, **LONG_INPUTS})
def disk_becomes_full(place):
    unmount = mounted(place, "small", "size=32k")
    try:
        before = place.state()
        expect(place.run_job("table", "small/out", "a", "b"), 6, write_fault("small/out.1.pcap"))
        part = expect_part(place, "small/out.1.pcap", LONG_INPUTS["a"])
        expect_state(place, before, {"small/out.0.pcap": LONG_INPUTS["b"], "small/out.1.pcap": part})
    finally:
        unmount()


@case("a disk without room for another file")
def disk_has_no_more_files(place):
    unmount = mounted(place, "small", "size=1m,nr_inodes=3")
    try:
        before = place.state()
        expect(place.run_job("table", "small/out", "a", "b"), 6, write_fault("small/out.report"))
        expect_state(place, before, {"small/out.0.pcap": EMPTY, "small/out.1.pcap": ONE_FRAME})
    finally:
        unmount()


def _few_bytes_a_file():
    """In the child: no file may have more than 30 bytes, which a write is told and no signal."""
    signal.signal(signal.SIGXFSZ, signal.SIG_IGN)
    resource.setrlimit(resource.RLIMIT_FSIZE, (30, 30))


@case("a user's limit on the bytes of a file")
def limit_on_bytes(place):
    before = place.state()
    expect(place.run_job(*WORDS, before=_few_bytes_a_file), 6, write_fault("out.1.pcap"))
    part = expect_part(place, "out.1.pcap", ONE_FRAME)
    expect_state(place, before, {"out.0.pcap": EMPTY, "out.1.pcap": part})


def _take_all(path, taken):
    taken.append(path.read_bytes())


@case("an output that is a pipe, and is read")
def output_is_pipe(place):
    pipe = place.make_fifo("out.1.pcap")
    before = place.state()
    taken = []
    reader = threading.Thread(target=_take_all, args=(pipe, taken), daemon=True)
    reader.start()
    expect(place.run_job(*WORDS), 0, out=SUMMARY)
    reader.join()
    expect_state(place, before, {"out.0.pcap": EMPTY, "out.report": REPORT})
    if taken != [ONE_FRAME]:
        raise Wrong(f"the reader took {taken!r}")


def _take_little(path):
    with path.open("rb") as pipe:
        os.read(pipe.fileno(), 100)


# More bytes than a pipe keeps: the writer is still there when the reader goes.
TWO_LONG = LONG_INPUTS["a"] + record(LONG_PACKET)


@case("an output that is a pipe, and closes early", {**INPUTS, **LONG_INPUTS, "a": TWO_LONG})
def output_pipe_closes(place):
    pipe = place.make_fifo("out.1.pcap")
    before = place.state()
    reader = threading.Thread(target=_take_little, args=(pipe,), daemon=True)
    reader.start()
    expect(place.run_job(*WORDS), 6, write_fault("out.1.pcap"))
    reader.join()
    expect_state(place, before, {"out.0.pcap": LONG_INPUTS["b"]})
