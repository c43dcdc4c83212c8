"""`firm` over inputs that cannot be read, and a standard output that fails; it writes no file."""

import os

from .cases import case
from .failing_streams import ERR, FULL, OUT, OUT_FAULT, closing
from .files import FILE_HEADER, INPUTS, MAX_FILE_BYTES, MAX_PORTS, ONE_FRAME, SUMMARY, summary, usage
from .odd_inputs import feed
from .running import expect, expect_state

WORDS = ("table", "a", "b")


def refuses(place, words, status, line):
    """`firm` ends with this status and line, and changes nothing."""
    before = place.state()
    expect(place.run("firm", *words), status, f"{line}\n".encode())
    expect_state(place, before)


@case("firm, which prints the summary alone")
def summary_alone(place):
    before = place.state()
    expect(place.run("firm", *WORDS), 0, out=SUMMARY)
    expect(place.run("firm", "table", "a", *["b"] * (MAX_PORTS - 1)), 0, out=summary(MAX_PORTS))
    expect_state(place, before)


@case("firm, and usage")
def usage_of_firm(place):
    flags = ("--workers=1", "--slots", "--journal", "--reference")
    too_many = ("table", *["b"] * (MAX_PORTS + 1))
    for words in ((), ("table",), too_many, *((flag, *WORDS) for flag in flags)):
        refuses(place, words, 2, usage())


@case("firm, and inputs that cannot be read")
def cannot_be_read(place):
    place.make_folder("folder")
    place.link("loop", "loop")
    place.write("shut", ONE_FRAME, 0)
    for name in ("folder", "loop", "shut", "none", ""):
        refuses(place, ("table", "a", name), 3, f"read fault: {name}")
        refuses(place, (name, "a", "b"), 3, f"read fault: {name}")


@case("firm, and inputs that are none", {**INPUTS, "cut": ONE_FRAME[:-1], "lines": b"10.0.0.0/24 0\n10.0.1.0/24 2\n"})
def faulty_inputs(place):
    refuses(place, ("table", "b", "cut"), 4, f"capture 1: cut record at {FILE_HEADER}")
    refuses(place, ("lines", "a", "b"), 4, "table line 2: port 2")
    refuses(place, ("table", "a", "/dev/null"), 4, "capture 1: short header, 0 bytes")
    refuses(place, ("table", "a", "/dev/zero"), 4, "too long: /dev/zero")
    place.write("longer", bytes(MAX_FILE_BYTES + 1))
    refuses(place, ("longer", "a", "b"), 4, "too long: longer")


@case("firm, and pipes as the table and the inputs")
def pipes(place):
    feeders = [feed(place.make_fifo(f"{name}.pipe"), data, 7) for name, data in INPUTS.items()]
    before = place.state()
    expect(place.run("firm", "table.pipe", "a.pipe", "b.pipe"), 0, out=SUMMARY)
    for feeder in feeders:
        feeder.join()
    expect_state(place, before)


@case("firm, and a standard output that is closed, full, or a closed pipe")
def out_fails(place):
    before = place.state()
    expect(place.run("firm", *WORDS, before=closing(OUT)), 6, OUT_FAULT)
    with open(FULL, "wb") as full:
        expect(place.run("firm", *WORDS, out=full), 6, OUT_FAULT)
    reading, writing = os.pipe()
    os.close(reading)
    expect(place.run("firm", *WORDS, out=writing), 6, OUT_FAULT)
    os.close(writing)
    expect_state(place, before)


@case("firm, and a closed standard error")
def err_closed(place):
    before = place.state()
    expect(place.run("firm", "table", "a", "none", before=closing(ERR)), 3)
    expect(place.run("firm", before=closing(ERR)), 2)
    expect(place.run("firm", *WORDS, before=closing(0, ERR)), 0, out=SUMMARY)
    expect_state(place, before)
