"""`run --journal`: a journal that cannot be begun or written, and names that coincide with its name."""

import os
import re

from .cases import case
from .failing_outputs import FULL, expect_full_within, mounted, write_fault
from .failing_streams import OUT, OUT_FAULT, closing
from .files import (
    EMPTY, INPUTS, JOURNAL, ONE_FRAME, RAW_IP, REPORT, SUMMARY, TABLE, WORDS, YES, header, outputs, packet, record,
)
from .long_journals import MAX_BYTES
from .running import Wrong, expect, expect_state

FLAG = "--journal"


def written(prefix="out"):
    """The files that the job writes with a journal, by name."""
    return {**outputs(prefix), f"{prefix}.journal": JOURNAL}


@case("a journal, and its check")
def journal_is_lawful(place):
    before = place.state()
    expect(place.run_job(FLAG, *WORDS), 0, out=SUMMARY)
    expect_state(place, before, written())
    expect(place.run("check", "out.journal"), 0, out=YES)


@case("a journal that is there and longer")
def journal_is_replaced(place):
    place.write("out.journal", bytes(1_000))
    before = place.state()
    expect(place.run_job(FLAG, *WORDS), 0, out=SUMMARY)
    expect_state(place, before, written())


@case("a run without --journal beside a file of that name", {**INPUTS, "out.journal": b"kept"})
def journal_is_kept(place):
    before = place.state()
    expect(place.run_job(*WORDS), 0, out=SUMMARY)
    expect_state(place, before, outputs())


@case("a journal that is a folder")
def journal_is_folder(place):
    place.make_folder("out.journal")
    before = place.state()
    expect(place.run_job(FLAG, *WORDS), 6, write_fault("out.journal"))
    expect_state(place, before, outputs())


@case("a journal that is there without write permission")
def journal_without_permission(place):
    place.write("out.journal", b"kept", 0o444)
    before = place.state()
    expect(place.run_job(FLAG, *WORDS), 6, write_fault("out.journal"))
    expect_state(place, before, outputs())


@case("a full disk as the journal")
def journal_full(place):
    place.link("out.journal", FULL)
    before = place.state()
    expect(place.run_job(FLAG, *WORDS), 6, write_fault("out.journal"))
    expect_state(place, before, outputs())


@case("a disk without room for the journal's file")
def journal_has_no_file(place):
    unmount = mounted(place, "small", "size=1m,nr_inodes=4")
    try:
        before = place.state()
        expect(place.run_job(FLAG, "table", "small/out", "a", "b"), 6, write_fault("small/out.journal"))
        expect_state(place, before, outputs("small/out"))
    finally:
        unmount()


# Two packets, so many slots apart: the journal is longer than all other outputs.
APART = 2_000
FAR_PACKETS = header(RAW_IP) + b"".join(record(packet(20, (10, 0, 1, 1)), 1, at) for at in (0, APART))


@case("a disk that becomes full within the journal", {**INPUTS, "a": FAR_PACKETS, "b": header(RAW_IP)})
def disk_becomes_full(place):
    expect_full_within(place, ".journal", "16k", (FLAG, "--pace-us", "1"))


@case("a closed standard output of a run with a journal")
def out_closed(place):
    before = place.state()
    expect(place.run_job(FLAG, *WORDS, before=closing(OUT)), 6, OUT_FAULT)
    expect_state(place, before, written())


@case("the journal over the table", {"out.journal": TABLE, "a": ONE_FRAME, "b": EMPTY})
def journal_over_table(place):
    before = place.state()
    expect(place.run_job(FLAG, "out.journal", "out", "a", "b"), 0, out=SUMMARY)
    expect_state(place, before, written())


@case("the journal over an input", {"table": TABLE, "out.journal": ONE_FRAME, "b": EMPTY})
def journal_over_input(place):
    before = place.state()
    expect(place.run_job(FLAG, "table", "out", "out.journal", "b"), 0, out=SUMMARY)
    expect_state(place, before, written())


@case("a journal that is a link to an input, to another output and to the report")
def journal_is_link(place):
    for target in ("b", "out.1.pcap", "out.report"):
        (place.folder / "out.journal").unlink(missing_ok=True)
        place.link("out.journal", target)
        before = place.state()
        expect(place.run_job(FLAG, *WORDS), 0, out=SUMMARY)
        expect_state(place, before, {**outputs(), target: JOURNAL})
        place.write("b", EMPTY)


@case("a journal and a report that are one file by two names")
def journal_is_report(place):
    place.write("out.report", b"")
    os.link(place.folder / "out.report", place.folder / "out.journal")
    before = place.state()
    expect(place.run_job(FLAG, *WORDS), 0, out=SUMMARY)
    expect_state(place, before, {**outputs(), "out.report": JOURNAL, "out.journal": JOURNAL})


# All inputs have a long packet of level 0 for output 0, and behind it a short one of each other level and kind,
# which waits for as long as the long packets cross: each slot has seven sets for each input.
LONG_PORTS = 64
LONG_TABLE = "".join(f"10.0.{level}.0/24 0 {level}\n10.1.{level}.0/24 0,1 {level}\n" for level in range(4)).encode()
SHORT_PACKETS = [packet(20, (10, group, level, 1)) for group in (0, 1) for level in (1, 2, 3)]
LONG_INPUT = header(RAW_IP) + b"".join(map(record, [packet(40_000, (10, 0, 0, 1)), *SHORT_PACKETS]))


@case("a journal that would be too long", {"table": LONG_TABLE, "a": LONG_INPUT})
def journal_too_long(place):
    before = place.state()
    found = place.run_job(FLAG, "table", "out", *["a"] * LONG_PORTS)
    told = re.fullmatch(rb"journal too long: (\d+)\n", found.err)
    if not (told and int(told.group(1)) > MAX_BYTES):
        raise Wrong(f"status {found.status}, standard error {found.err!r}")
    expect(found, 4, found.err)
    expect_state(place, before)
