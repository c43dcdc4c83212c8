"""Names with any bytes, and names that coincide."""

import os

from .cases import case
from .files import EMPTY, INPUTS, ONE_FRAME, REPORT, SUMMARY, TABLE, WORDS, outputs, report, summary, usage
from .running import expect, expect_state

LONG_NAME = "n" * 300  # A name in a folder has at most 255 bytes.
LONG_WORD = "n" * 131_000  # The system hands on words of up to 131,071 bytes.
MANY_WORDS = 100_000


@case("names with a line feed, blanks, quotes and letters of several bytes")
def odd_names(place):
    for name in ("a\nb", " a b ", "\t", "'\"$*\\", "\u00e9\u4e2d", "\x1b[31m"):
        place.write(f"{name}.table", TABLE)
        place.write(f"{name}.a", ONE_FRAME)
        before = place.state()
        expect(place.run_job(f"{name}.table", name, f"{name}.a", "b"), 0, out=SUMMARY)
        expect_state(place, before, outputs(name))


@case("faults of names with a line feed and with blanks")
def faults_of_odd_names(place):
    before = place.state()
    for name in ("no\nsuch", " ", "no such", LONG_NAME):
        expect(place.run_job("table", "out", "a", name), 3, f"read fault: {name}\n".encode())
        expect(place.run_job("table", f"none/{name}", "a", "b"), 6, f"write fault: none/{name}.0.pcap\n".encode())
    expect(place.run_job("table", LONG_NAME, "a", "b"), 6, f"write fault: {LONG_NAME}.0.pcap\n".encode())
    expect_state(place, before)


@case("empty names")
def empty_names(place):
    before = place.state()
    expect(place.run_job("", "out", "a", "b"), 3, b"read fault: \n")
    expect(place.run_job("table", "out", "", "b"), 3, b"read fault: \n")
    expect_state(place, before)
    expect(place.run_job("table", "", "a", "b"), 0, out=SUMMARY)
    expect_state(place, before, outputs(""))


@case("a word that is no text")
def no_text(place):
    before = place.state()
    expect(place.run_job("table", "out", "a", b"\xff"), 1)
    expect_state(place, before)


@case("100,000 words, and a word of 131,000 bytes")
def many_words(place):
    before = place.state()
    expect(place.run("run", "table", "out", *["a"] * MANY_WORDS), 2, f"{usage()}\n".encode())
    expect(place.run_job("table", "out", "a", LONG_WORD), 3, f"read fault: {LONG_WORD}\n".encode())
    expect(place.run_job("table", LONG_WORD, "a", "b"), 6, f"write fault: {LONG_WORD}.0.pcap\n".encode())
    expect_state(place, before)


@case("names that look like options", {**INPUTS, "-": ONE_FRAME, "--slots": EMPTY})
def names_like_options(place):
    before = place.state()
    expect(place.run_job("table", "out", "-", "b"), 0, out=SUMMARY)
    expect_state(place, before, outputs())
    expect(place.run_job("--", "table", "--out", "-", "--slots"), 0, out=SUMMARY)
    expect_state(place, before, {**outputs(), **outputs("--out")})


@case("one capture as two ports")
def same_capture_twice(place):
    before = place.state()
    printed = summary(slots=6, packets=2, copies=2, cells=4).replace(b"longest 0", b"longest 1")
    expect(place.run_job("table", "out", "a", "a"), 0, out=printed)
    both = ONE_FRAME + ONE_FRAME[len(EMPTY):]
    written = {"out.0.pcap": EMPTY, "out.1.pcap": both, "out.report": report(printed, (0, 0), (2, 4))}
    expect_state(place, before, written)


@case("outputs over the inputs", {"table": TABLE, "out.0.pcap": ONE_FRAME, "out.1.pcap": EMPTY})
def outputs_over_inputs(place):
    before = place.state()
    expect(place.run_job("table", "out", "out.0.pcap", "out.1.pcap"), 0, out=SUMMARY)
    expect_state(place, before, outputs())


@case("the report over the table", {"out.report": TABLE, "a": ONE_FRAME, "b": EMPTY})
def report_over_table(place):
    before = place.state()
    expect(place.run_job("out.report", "out", "a", "b"), 0, out=SUMMARY)
    expect_state(place, before, outputs())


@case("outputs that are links to inputs")
def outputs_are_links(place):
    os.link(place.folder / "a", place.folder / "out.0.pcap")
    place.link("out.1.pcap", "b")
    place.link("out.report", "table")
    before = place.state()
    expect(place.run_job(*WORDS), 0, out=SUMMARY)
    expect_state(place, before, {"a": EMPTY, "out.0.pcap": EMPTY, "b": ONE_FRAME, "table": REPORT})


@case("a prefix that ends in a folder")
def prefix_in_folder(place):
    place.make_folder("folder")
    before = place.state()
    expect(place.run_job("table", "folder/", "a", "b"), 0, out=SUMMARY)
    expect_state(place, before, outputs("folder/"))
