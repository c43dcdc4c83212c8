"""Standard output and standard error that are closed, full or no longer read, and limits on memory and threads."""

import os
import resource

from . import sixteen_ports
from .cases import case
from .files import EMPTY, SUMMARY, WORDS, outputs, usage
from .running import Wrong, expect, expect_state
from .sixteen_ports import job_files

OUT, ERR = 1, 2
OUT_FAULT = b"write fault: standard output\n"
FULL = "/dev/full"


def closing(*numbers):
    """What closes these of standard input, output and error in the child."""

    def close():
        for number in numbers:
            os.close(number)

    return close


@case("a closed standard input")
def input_closed(place):
    before = place.state()
    expect(place.run_job(*WORDS, before=closing(0)), 0, out=SUMMARY)
    expect_state(place, before, outputs())


@case("a closed standard output")
def out_closed(place):
    before = place.state()
    expect(place.run_job(*WORDS, before=closing(OUT)), 6, OUT_FAULT)
    expect_state(place, before, outputs())


@case("a closed standard output of gen")
def out_of_gen_closed(place):
    before = place.state()
    expect(place.run("gen", "--workers", "1", "1", "2", "2", before=closing(OUT)), 6, OUT_FAULT)
    expect_state(place, before)


@case("a full disk as standard output")
def out_full(place):
    before = place.state()
    with open(FULL, "wb") as full:
        expect(place.run_job(*WORDS, out=full), 6, OUT_FAULT)
    expect_state(place, before, outputs())


@case("standard output as a pipe that is closed")
def out_pipe_closed(place):
    before = place.state()
    reading, writing = os.pipe()
    os.close(reading)
    expect(place.run_job(*WORDS, out=writing), 6, OUT_FAULT)
    os.close(writing)
    expect_state(place, before, outputs())


@case("standard error, and usage")
def usage_line(place):
    before = place.state()
    for words in ((), ("run",), ("run", "--workers", "33", *WORDS), ("gen", "1", "2", "65"), ("-",)):
        expect(place.run(*words), 2, f"{usage()}\n".encode())
    expect_state(place, before)


@case("a closed standard error, and usage")
def err_closed_usage(place):
    before = place.state()
    expect(place.run("run", before=closing(ERR)), 2)
    expect_state(place, before)


@case("a closed standard error, and an input that is missing")
def err_closed_read(place):
    before = place.state()
    expect(place.run_job("table", "out", "a", "none", before=closing(ERR)), 3)
    expect_state(place, before)


@case("a closed standard error, and an output that cannot be begun")
def err_closed_write(place):
    place.make_folder("out.1.pcap")
    before = place.state()
    expect(place.run_job(*WORDS, before=closing(ERR)), 6)
    expect_state(place, before, {"out.0.pcap": EMPTY})


@case("all three streams closed")
def all_closed(place):
    before = place.state()
    expect(place.run_job(*WORDS, before=closing(0, OUT, ERR)), 6)
    expect_state(place, before, outputs())


@case("a full disk as standard error")
def err_full(place):
    before = place.state()
    with open(FULL, "wb") as full:
        expect(place.run_job("table", "out", "a", "none", err=full), 3)
        expect_state(place, before)
        expect(place.run_job(*WORDS, err=full), 0, out=SUMMARY)
    expect_state(place, before, outputs())


def limiting(what, number):
    """What limits the child."""
    return lambda: resource.setrlimit(what, (number, number))


MEGABYTE = 1 << 20
# For the stack of the program: where it cannot grow, the system ends a program by a signal.
STACK = 1 << 18
MEGABYTES = (3, 4, 6, 8, 12, 16, 24, 32, 48, 64, 128, 256)


def can_be_loaded(place, limit):
    """Whether the system's loader has room for the program under a limit on memory."""
    # The loader of a program with shared libraries names these and runs nothing; another program tells its usage.
    tracing = {**os.environ, "LD_TRACE_LOADED_OBJECTS": "1"}
    try:
        return place.run(before=limit, env=tracing).status in (0, 2)
    except OSError:
        return False


def run_with_little_memory(place, *words):
    """Runs the program under limits on memory: it does all of its work, or says `out of memory` and does nothing."""
    before = place.state()
    whole = place.run(*words)
    expect(whole, 0, out=whole.out)
    after = place.state()
    # Memory may also run out while the words are collected.
    ways = {0: (b"", whole.out), 1: (b"", b""), 5: (b"out of memory\n", b"")}
    told = []
    for megabytes in MEGABYTES:
        for name in set(after) - set(before):
            (place.folder / name).unlink(missing_ok=True)
        limit = limiting(resource.RLIMIT_AS, megabytes * MEGABYTE)
        if not can_be_loaded(place, limiting(resource.RLIMIT_AS, megabytes * MEGABYTE - STACK)):
            told.append(f"{megabytes}: not loaded")
            continue
        found = place.run(*words, before=limit)
        if found.status not in ways:
            raise Wrong(f"{megabytes} megabytes: status {found.status}, standard error {found.err!r}")
        expect(found, found.status, *ways[found.status])
        expect_state(place, before if found.status else after)
        told.append(f"{megabytes}: {found.status}")
    return f"statuses by megabytes: {', '.join(told)}"


@case("limits on memory", job_files())
def little_memory(place):
    return run_with_little_memory(place, "run", "--workers", "1", *sixteen_ports.WORDS)


@case("limits on memory, with slots, journal and reference", job_files())
def little_memory_of_journal(place):
    flags = ("--slots", "--journal", "--reference")
    return run_with_little_memory(place, "run", "--workers", "1", *flags, *sixteen_ports.WORDS)


@case("limits on memory of firm", job_files())
def little_memory_of_firm(place):
    table, _, *inputs = sixteen_ports.WORDS
    return run_with_little_memory(place, "firm", table, *inputs)


@case("a limit of no further thread")
def no_threads(place):
    before = place.state()
    expect(place.run("run", "--workers", "2", *WORDS, before=limiting(resource.RLIMIT_NPROC, 1)), 0, out=SUMMARY)
    expect_state(place, before, outputs())
