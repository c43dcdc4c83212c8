"""`check` over files that are no journal, odd files, and failing streams."""

import gzip
import os
import shutil

from . import long_journals
from .cases import case
from .failing_streams import ERR, FULL, OUT, OUT_FAULT, closing, run_with_little_memory
from .files import JOURNAL, PORTS_OF_JOB, YES, usage
from .long_journals import MAX_BYTES, Shape
from .odd_inputs import feed
from .running import Skipped, expect, expect_state

FILES = {"journal": JOURNAL}
HEADER_FIELDS = (4, 1, 1, 2, 4)
SET = 8
# One byte of the journal changed: no slot has more to come; an output is fed that nothing asks for; a request is lost.
UNLAWFUL = {
    13: (0, "no: slot 1 after end"),
    16: (0, "no: slot 0 output 0"),
    21: (0, "no: slot 1 more of card 0"),
}


def checks(place, name, status, line):
    """`check` ends with this status and line, and changes nothing."""
    before = place.state()
    expect(place.run("check", name), status, f"{line}\n".encode())
    expect_state(place, before)


def says_yes(place, *words, **options):
    before = place.state()
    expect(place.run("check", *words, **options), 0, out=YES)
    expect_state(place, before)


def changed(at, value):
    return JOURNAL[:at] + bytes([value]) + JOURNAL[at + 1:]


@case("check of a lawful journal", FILES)
def lawful_journal(place):
    says_yes(place, "journal")
    says_yes(place, "--", "journal")
    for name in ("-", "--slots", "a\nb", " "):
        place.write(name, JOURNAL)
        says_yes(place, "--", name)
    says_yes(place, "-")


@case("check, and usage", FILES)
def usage_of_check(place):
    before = place.state()
    for words in ((), ("journal", "journal"), ("--slots", "journal"), ("--journal", "journal"), ("-x",)):
        expect(place.run("check", *words), 2, f"{usage()}\n".encode())
    expect_state(place, before)


@case("check of journals that are not lawful", FILES)
def unlawful_journals(place):
    for at, (value, line) in UNLAWFUL.items():
        place.write("changed", changed(at, value))
        checks(place, "changed", 7, line)


@case("check of what cannot be read", FILES)
def cannot_be_checked(place):
    place.make_folder("folder")
    place.link("loop", "loop")
    place.link("nowhere", "none")
    place.write("shut", JOURNAL, 0)
    for name in ("folder", "loop", "nowhere", "shut", "none", "journal/b", "", "n" * 300):
        checks(place, name, 3, f"read fault: {name}")


@case("check of devices")
def devices(place):
    checks(place, "/dev/null", 4, "journal: bad at 0")
    checks(place, "/dev/zero", 4, "too long: /dev/zero")


def field_starts():
    """Where the fields of the journal begin, the end of the file included."""
    lengths = list(HEADER_FIELDS)
    at = sum(lengths)
    while at < len(JOURNAL):
        for _ in range(PORTS_OF_JOB):
            post = [1, 1] + [SET] * JOURNAL[at].bit_count()
            lengths += post
            at += sum(post)
        lengths += [1, 1] * PORTS_OF_JOB
        at += 2 * PORTS_OF_JOB
    return [sum(lengths[:number]) for number in range(len(lengths) + 1)]


@case("check of every cut of a journal, and of one byte more")
def cut_journals(place):
    starts = field_starts()
    for length in range(len(JOURNAL)):
        place.write("cut", JOURNAL[:length])
        checks(place, "cut", 4, f"journal: bad at {max(start for start in starts if start <= length)}")
    place.write("longer", JOURNAL + bytes(1))
    checks(place, "longer", 4, f"journal: bad at {len(JOURNAL)}")
    return f"{len(JOURNAL)} cuts"


@case("check of a pipe, fed by another process in pieces")
def piped_journal(place):
    feeder = feed(place.make_fifo("pipe"), JOURNAL, 7)
    says_yes(place, "pipe")
    feeder.join()


@case("check of a pipe that ends within a slot")
def cut_pipe(place):
    feeder = feed(place.make_fifo("pipe"), JOURNAL[:-1], 3)
    checks(place, "pipe", 4, f"journal: bad at {len(JOURNAL) - 1}")
    feeder.join()


@case("check of a shell's <(zcat journal.gz)")
def process_substitution(place):
    bash = shutil.which("bash")
    if not (bash and shutil.which("zcat")):
        raise Skipped("no bash or no zcat")
    place.write("journal.gz", gzip.compress(JOURNAL))
    before = place.state()
    program, place.program = place.program, bash
    expect(place.run("-c", 'exec "$0" check <(zcat journal.gz)', program), 0, out=YES)
    expect_state(place, before)


@case("check of journals of 134,217,728 bytes and one more", {})
def longest_journal(place):
    shape = long_journals.longest_shape()
    longest = long_journals.journal(shape)
    assert len(longest) == MAX_BYTES
    place.write("longest", longest)
    expect(place.run("check", "longest"), 0, out=long_journals.told(shape))
    with open(place.folder / "longest", "ab") as file:
        file.write(bytes(1))
    expect(place.run("check", "longest"), 4, b"too long: longest\n")
    expect_state(place, {"longest": longest + bytes(1)})


@case("check of a pipe with more bytes than a journal may have")
def long_pipe(place):
    feeder = feed(place.make_fifo("long"), JOURNAL + bytes(MAX_BYTES + 1 - len(JOURNAL)))
    checks(place, "long", 4, "too long: long")
    feeder.join()


SHORTER = Shape(few=500, many=1_000, waiting=100)


@case("limits on memory of check", {"journal": long_journals.journal(SHORTER)})
def little_memory(place):
    return run_with_little_memory(place, "check", "journal")


@case("check, and a closed standard input", FILES)
def input_closed(place):
    says_yes(place, "journal", before=closing(0))


@case("check, and a standard output that is closed, full, or a closed pipe", FILES)
def out_fails(place):
    before = place.state()
    expect(place.run("check", "journal", before=closing(OUT)), 6, OUT_FAULT)
    with open(FULL, "wb") as full:
        expect(place.run("check", "journal", out=full), 6, OUT_FAULT)
    reading, writing = os.pipe()
    os.close(reading)
    expect(place.run("check", "journal", out=writing), 6, OUT_FAULT)
    os.close(writing)
    expect_state(place, before)


@case("check that prints nothing, and a closed standard output", {**FILES, "changed": changed(16, 0)})
def out_is_not_used(place):
    before = place.state()
    line = f"{UNLAWFUL[16][1]}\n".encode()
    expect(place.run("check", "changed", before=closing(OUT)), 7, line)
    expect(place.run("check", "none", before=closing(OUT)), 3, b"read fault: none\n")
    expect_state(place, before)


@case("check, and a standard error that is closed or full", {**FILES, "changed": changed(16, 0)})
def err_fails(place):
    before = place.state()
    with open(FULL, "wb") as full:
        for options in ({"before": closing(ERR)}, {"err": full}):
            expect(place.run("check", "changed", **options), 7)
            expect(place.run("check", "none", **options), 3)
            expect(place.run("check", "/dev/null", **options), 4)
            expect(place.run("check", "journal", **options), 0, out=YES)
    expect(place.run("check", "journal", before=closing(0, OUT, ERR)), 6)
    expect_state(place, before)
