"""Inputs that are no plain files, change while they are read, or are as large as can be."""

import gzip
import os
import re
import shutil
import threading
import time
from pathlib import Path

from .cases import case
from .files import (
    EMPTY, FILE_HEADER, INPUTS, MAX_CAPTURED, MAX_FILE_BYTES, MAX_PORTS, MAX_ROUTES, ONE_FRAME, RECORD_HEADER,
    SUMMARY, TABLE, empty_report, header, outputs, record, report, summary, usage,
)
from .running import SECONDS, Skipped, Wrong, ended, expect, expect_state, wait_for


def refuses(place, words, status, line):
    """The job of these words is refused with this line, and changes nothing."""
    before = place.state()
    expect(place.run_job(*words), status, f"{line}\n".encode())
    expect_state(place, before)


@case("inputs and tables that cannot be read")
def cannot_be_read(place):
    place.make_folder("folder")
    place.link("loop", "loop")
    place.link("nowhere", "none")
    place.write("shut", ONE_FRAME, 0)
    for name in ("folder", "loop", "nowhere", "shut", "none", "a/b"):
        refuses(place, ("table", "out", "a", name), 3, f"read fault: {name}")
        refuses(place, (name, "out", "a", "b"), 3, f"read fault: {name}")


@case("devices")
def devices(place):
    refuses(place, ("table", "out", "a", "/dev/null"), 4, "capture 1: short header, 0 bytes")
    refuses(place, ("table", "out", "a", "/dev/zero"), 4, "too long: /dev/zero")
    refuses(place, ("/dev/zero", "out", "a", "b"), 4, "too long: /dev/zero")
    before = place.state()
    expect(place.run_job("/dev/null", "out", "b", "b"), 0, out=summary(2, 1, 0, 0, 0))
    expect_state(place, before, {"out.0.pcap": EMPTY, "out.1.pcap": EMPTY, "out.report": empty_report(2)})


def feed(path, data, pieces=1):
    """Gives the bytes in pieces to whoever opens the pipe, in a thread; a reader may go early."""

    def give():
        opened = []

        def has_reader():
            try:
                opened.append(os.open(path, os.O_WRONLY | os.O_NONBLOCK))
            except OSError:
                return False
            return True

        if not wait_for(has_reader):
            return
        os.set_blocking(opened[0], True)
        step = -(-len(data) // pieces)
        try:
            for at in range(0, len(data), step):
                with memoryview(data)[at:at + step] as piece:
                    os.write(opened[0], piece)
                time.sleep(0.01 if pieces > 1 else 0)
        except BrokenPipeError:
            pass
        os.close(opened[0])

    thread = threading.Thread(target=give, daemon=True)
    thread.start()
    return thread


@case("pipes as the table and the inputs, fed by another process in pieces")
def pipes(place):
    feeders = [feed(place.make_fifo(f"{name}.pipe"), data, 7) for name, data in INPUTS.items()]
    before = place.state()
    expect(place.run_job("table.pipe", "out", "a.pipe", "b.pipe"), 0, out=SUMMARY)
    for feeder in feeders:
        feeder.join()
    expect_state(place, before, outputs())


@case("a pipe with more bytes than a file may have")
def long_pipe(place):
    feeder = feed(place.make_fifo("long"), bytes(MAX_FILE_BYTES + 1))
    refuses(place, ("table", "out", "a", "long"), 4, "too long: long")
    feeder.join()


@case("a pipe whose bytes end within a record")
def cut_pipe(place):
    feeder = feed(place.make_fifo("cut"), ONE_FRAME[:-1], 3)
    refuses(place, ("table", "out", "b", "cut"), 4, f"capture 1: cut record at {FILE_HEADER}")
    feeder.join()


@case("a shell's <(zcat capture.gz)")
def process_substitution(place):
    bash = shutil.which("bash")
    if not (bash and shutil.which("zcat")):
        raise Skipped("no bash or no zcat")
    place.write("a.gz", gzip.compress(ONE_FRAME))
    before = place.state()
    script = 'exec "$0" run --workers 1 table out <(zcat a.gz) b'
    program, place.program = place.program, bash
    expect(place.run("-c", script, program), 0, out=SUMMARY)
    expect_state(place, before, outputs())


# Packets that are too long to be forwarded, of 4,682 cells each; so many have too many arrival slots.
OVERSIZE = record(bytes(MAX_CAPTURED))
OVERSIZE_CELLS = 4_682
SHRINKING_RECORDS = 60
SHRINKING = header() + OVERSIZE * SHRINKING_RECORDS
SHRINK_TRIES = 20


def bytes_read(process, path):
    """How many bytes of the file a run has read, where it has it open now."""
    try:
        numbers = [entry.name for entry in os.scandir(f"/proc/{process.pid}/fd") if os.readlink(entry.path) == str(path)]
        return int(Path(f"/proc/{process.pid}/fdinfo/{numbers[0]}").read_text().split()[1]) if numbers else 0
    except OSError:
        return 0  # It was closed meanwhile, or the run has ended.


def shrink_while_read(place, path, length):
    """Cuts the file as soon as a run has read some of it; answers how many bytes it had, and how it ended."""
    feeder = feed(place.folder / "first", EMPTY)
    process = place.start(("run", "--workers", "1", "table", "out", "first", path.name))
    feeder.join()
    had_read = 0
    end = time.monotonic() + SECONDS
    while process.poll() is None and not had_read and time.monotonic() < end:
        had_read = bytes_read(process, path)
    os.truncate(path, length)
    return had_read, ended(process)


# A fault before the bytes that were read by then, or that the file kept, would have lost some.
@case("a file that shrinks while it is read", {"table": TABLE})
def shrinks(place):
    if not os.path.isdir("/proc/self/fdinfo"):
        raise Skipped("no /proc tells how far a run has read")
    place.make_fifo("first")
    path = place.folder / "shrinking"
    whole = f"too many slots: port 1 has {SHRINKING_RECORDS * OVERSIZE_CELLS}\n".encode()
    cuts = 0
    for number in range(SHRINK_TRIES):
        place.write(path.name, SHRINKING)
        kept = number * len(OVERSIZE) // 2 + 1_000
        had_read, found = shrink_while_read(place, path, kept)
        expect(found, 4, found.err)
        cut = re.fullmatch(rb"capture 1: cut record at (\d+)\n", found.err)
        if cut:
            at = int(cut.group(1))
            least = max(had_read, kept)
            if (at - FILE_HEADER) % len(OVERSIZE) or at + len(OVERSIZE) <= least:
                raise Wrong(f"with {had_read} bytes read and {kept} kept: {found.err!r}")
        elif found.err != whole:
            raise Wrong(f"standard error: {found.err!r}")
        cuts += cut is not None
        expect_state(place, {"first": "special", "shrinking": SHRINKING[:kept], "table": TABLE})
    return f"read in part {cuts} times, whole {SHRINK_TRIES - cuts} times"


def _cells(captured):
    return -(-(RECORD_HEADER + captured) // 56)


@case("captures of 16,777,216 bytes and one more")
def longest_capture(place):
    count = (MAX_FILE_BYTES - FILE_HEADER) // len(OVERSIZE)
    rest = MAX_FILE_BYTES - FILE_HEADER - count * len(OVERSIZE) - RECORD_HEADER
    longest = header() + OVERSIZE * count + record(bytes(rest))
    assert len(longest) == MAX_FILE_BYTES
    place.write("longest", longest)
    place.write("longer", longest + bytes(1))
    slots = count * OVERSIZE_CELLS + _cells(rest)
    refuses(place, ("table", "out", "b", "longest"), 4, f"too many slots: port 1 has {slots}")
    refuses(place, ("table", "out", "b", "longer"), 4, "too long: longer")


@case("tables of 16,777,216 bytes and one more")
def longest_table(place):
    longest = b"#" + bytes(MAX_FILE_BYTES - len(TABLE) - 2) + b"\n" + TABLE
    assert len(longest) == MAX_FILE_BYTES
    place.write("longest", longest)
    place.write("longer", longest + b"\n")
    refuses(place, ("longer", "out", "a", "b"), 4, "too long: longer")
    before = place.state()
    expect(place.run_job("longest", "out", "a", "b"), 0, out=SUMMARY)
    expect_state(place, before, outputs())


@case("tables of 4,096 and 4,097 lines")
def most_lines(place):
    others = "".join(f"172.16.{number // 256}.{number % 256}/32 0\n" for number in range(MAX_ROUTES - 2)).encode()
    place.write("most", others + TABLE)
    place.write("more", others + TABLE + b"* 0\n")
    refuses(place, ("more", "out", "a", "b"), 4, f"table: {MAX_ROUTES + 1} lines")
    before = place.state()
    expect(place.run_job("most", "out", "a", "b"), 0, out=SUMMARY)
    expect_state(place, before, outputs())


@case("64 inputs, and 65")
def most_inputs(place):
    refuses(place, ("table", "out", "a", *["b"] * MAX_PORTS), 2, usage())
    before = place.state()
    printed = summary(MAX_PORTS)
    expect(place.run_job("table", "out", "a", *["b"] * (MAX_PORTS - 1)), 0, out=printed)
    changed = {f"out.{port}.pcap": EMPTY for port in range(MAX_PORTS)}
    others = [(0, 0)] * (MAX_PORTS - 2)
    changed.update({"out.1.pcap": ONE_FRAME, "out.report": report(printed, (0, 0), (1, 2), *others)})
    expect_state(place, before, changed)
