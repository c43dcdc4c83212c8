"""What the launcher does with its words: its own it answers, and with all others it starts the program."""

import os
import sys

from . import there
from .builds import INSTALLED, LIBRARY, PROGRAM, PROGRAMS, SIMULATION
from .place import Place, say, tell, tell_error
from .ports import lines_of_job, lines_of_ports, refusal
from .version import told_version
from .words import COMMANDS, CONVERT, DRY_RUN, ETHERNET, OVERWRITE, OWN, RATE, SIMULATE, Fault, read_words, words_of_program

USAGE_FAULT, REFUSED = 2, 4
HELP = ("--help", "-h")
# Words of their own, without a command.
VERSION, WHERE, PROVE, ALL = "--version", "--library", "--prove", "all"
PROVED = {(PROVE,): PROGRAM, (PROVE, SIMULATE): SIMULATION, (PROVE, ALL): None}
# For the gate, which builds itself: the sums of the sources as it begins, and that what was built was proved from them.
SUMS, RECORDS = "--sums-of-sources", {"--record-build": PROGRAMS, "--record-library": (LIBRARY,)}
HINTED = (2, 3, 4, 6)
WAITS = "such packets wait before the switch, and no number of the report shows it"


def main(top, words):
    """The status of the launcher, negative where a signal ended the program."""
    place = Place(top)
    own = []
    while words and words[0] in OWN:
        own.append(words[0])
        words = words[1:]
    answer = _own_answer(place, words)
    if answer is not None:
        return answer
    job, fault = _job_of(words)
    refused = job and refusal(job, OVERWRITE in own)
    if refused:
        say(refused)
        return USAGE_FAULT
    does = _dry_run if DRY_RUN in own else _start
    if CONVERT in own and job and job.inputs:
        return _converted(does, place, words, job)
    return does(place, words, job, fault)


def _converted(does, place, words, job):
    """The status of a run, or of a look at one, of captures that are converted first."""
    from .converting import Ended, Failed, converted
    try:
        with converted(job) as classic:
            return does(place, words, classic, None)
    except Failed as fault:
        say(f"{CONVERT}: {fault}")
        return REFUSED
    except Ended as number:
        return -number.args[0]


def _own_answer(place, words):
    """The status where the words ask the launcher alone, else None."""
    before = words[:words.index("--")] if "--" in words else words
    if any(it in before for it in HELP):
        return _help(place, words)
    if words == [VERSION]:
        return _version(place)
    if words == [WHERE]:
        return _library(place)
    if tuple(words) in PROVED:
        return _prove(place, PROVED[tuple(words)])
    if words == [SUMS]:
        from .noting import sums_of
        return tell(sums_of(place.top))
    if len(words) == 2 and words[0] in RECORDS:
        from .noting import note_and_tell
        return note_and_tell(place, RECORDS[words[0]], words[1])
    return None


def _job_of(words):
    try:
        return read_words(words), None
    except Fault as fault:
        return None, fault


def _help(place, words):
    from .page import help_lines, help_of_command
    text = _text_of(place.usage)
    if words[0] in COMMANDS:
        return tell(help_of_command(text, words[0], _text_of(place.simulations) if words[0] == SIMULATE else text))
    return tell([*help_lines(text), f"{place.usage} has every option, file and status; so has: man {place.manual}"])


def _text_of(page):
    with open(page, encoding="utf-8") as file:
        return file.read()


def _version(place):
    """Tells the version and each program; the status, 1 where an installed program is not what was installed."""
    found, simulation = there.find(place, PROGRAM), there.find(place, SIMULATION)
    lines = [told_version(place.version()), *_told_of(place, PROGRAM, found, PROVE)]
    lines += [f"{SIMULATE}: {line}" for line in _told_of(place, SIMULATION, simulation, f"{PROVE} {SIMULATE}")]
    status = tell(lines)
    is_altered = simulation.build is None and os.path.exists(place.path(INSTALLED[SIMULATION].files[0]))
    is_lost = place.is_installed and (found.build is None or is_altered)
    return 1 if is_lost else status


def _told_of(place, kind, found, prove):
    """What is told of a program, which some words prove."""
    if found.build is None and place.is_installed:
        return [_not_installed(place, kind)]
    if found.build is None:
        why = f"{found.changed[0]} changed since it was proved" if found.changed else str(found.fault)
        return [f"no program is there of these sources: {why}; it is proved before it runs"]
    kit = found.build.said()["kit"]
    told = f"proved with {kit}" if place.is_installed else f"proved and built here with {kit}"
    if found.is_stored:
        told = f"stored in release/, proved elsewhere with {kit} from these sources; to prove it here: ./tiny_tera {prove}"
    return [told, f"sha256 {found.build.sum()}  {found.build.path}"]


def _not_installed(place, kind):
    """Why an installed program is not started."""
    program = place.path(INSTALLED[kind].files[0])
    what = "is not the program that was installed" if os.path.exists(program) else "is not there"
    return f"{program} {what}, so it is not started"


def _library(place):
    """Tells the folder in which the library for C and Python is."""
    if place.is_installed:
        say(f"{WHERE} is a word of a clone's launcher")
        return USAGE_FAULT
    found = there.find(place, LIBRARY)
    if found.build:
        return tell([found.build.folder])
    changed = f"{found.changed[0]} changed since the library was built; " if found.changed else ""
    say(f"{changed}{found.fault}: dev/make_library builds it, with the toolchain")
    return 1


def _prove(place, kind):
    """The status of proving a program, or all where none is named."""
    if place.is_installed:
        say(f"{PROVE} is a word of a clone's launcher: nothing is installed that could be proved")
        return USAGE_FAULT
    from .proving import prove
    return 0 if prove(place, kind) else 1


def _dry_run(_, words, job, fault):
    """The status that a run would end with, as far as that is seen without one."""
    status = _no_text(words)
    if status:
        return status
    if fault:
        say(f"{fault}")
        return USAGE_FAULT
    from .dry_run import look
    _tell_rate(job)
    found = look(job)
    status = tell([*lines_of_job(job, found.packets), *(f"not looked at: {what}" for what in found.unseen)])
    if found.status:
        tell_error(found.said)
        _tell_hint(words_of_program(job, words), found.status, found.said)
        return found.status
    if job.slot and job.inputs:
        _warn_of_late(job, True)
    if job.inputs:
        _warn_of_cut(job)
        _warn_of_prefix(job)
    return status


def _tell_rate(job):
    """Tells which line rate an Ethernet is, which the program is given."""
    if job and ETHERNET in job.options:
        given = f"{ETHERNET} {job.options[ETHERNET]} is {RATE} {job.slot.divisor}"
        tell_error(f"note: {given}, the least that keeps up with any frames of this Ethernet")


def _tell_hint(words, status, said):
    """Adds to the program's line what helps, where that is known."""
    from .hints import hint
    text = hint(words, status, said)
    if text:
        tell_error(f"hint: {text}")


def _start(place, words, job, fault):
    program = _program(place, SIMULATION if words[:1] == [SIMULATE] else PROGRAM, fault)
    if isinstance(program, int):
        return program
    if job and job.inputs and os.isatty(2):
        for line in lines_of_ports(job):
            tell_error(line)
    _tell_rate(job)
    from .running import OLD_LIBRARY, needs_line, run
    try:
        status, said = _simulate(program, job) if job and job.command == SIMULATE else run(program, words_of_program(job, words), _clock_of(job))
    except OSError as fault:
        say(needs_line(fault.strerror))
        return 1
    if status == 1 and OLD_LIBRARY in said:
        say(needs_line("its C library is older"))
    if status in HINTED:
        _tell_hint(words_of_program(job, words), status, said)
    if status == 1 and not said:
        _no_text(words)
    if status == 0 and job and job.slot and job.inputs:
        _warn_of_late(job, False)
    if status == 0 and job and job.prefix and os.isatty(2):
        from .unrouted import line_of_unrouted
        text = line_of_unrouted(place, job)
        if text:
            tell_error(f"hint: {text}")
    if status == 0 and job and job.inputs:
        _warn_of_cut(job)
        _warn_of_prefix(job)
    return status


def _clock_of(job):
    """What shows how far a run of captures is, where one looks on."""
    if not (job and job.inputs and os.isatty(2)):
        return None
    from .byte_clock import ByteClock
    return ByteClock([job.table, *job.inputs])


def _simulate(program, job):
    """Runs a simulation; where one looks on, the time that is gone and that of the whole are told."""
    from .running import run
    from .simulation_words import words_of
    if not os.isatty(2):
        return run(program, words_of(job))
    from .run_clock import clock_of
    return run(program, words_of(job), clock_of(program, job))


def _no_text(words):
    """The status of the program where a word is not UTF-8, of which it says nothing, so this tells it; else 0."""
    word = next((it for it in words if any("\ud800" <= letter <= "\udfff" for letter in it)), None)
    if word is None:
        return 0
    from .capture_hints import shell_word
    say(f"{shell_word(word)} is not UTF-8, and the program takes no such word")
    tell_error(f"hint: give the file another name, as by: ln -s -- {shell_word(word)} NAME")
    return 1


def _program(place, kind, fault):
    """The program to start, or the status where there is none."""
    found = there.find(place, kind)
    if found.build:
        return found.build.path
    if place.is_installed:
        say(_not_installed(place, kind))
        return 1
    if fault:
        # The words would be refused after half an hour of proofs.
        say(f"{fault}")
        return USAGE_FAULT
    from .proving import build
    return there.find(place, kind).build.path if build(place, kind, found) else 1


def _warn_of_late(job, looks_at_all):
    """Tells of late packets, or why they are not looked for."""
    from .captures import MOST_PACKETS, Unseen
    from .late import lines_of_late, told_unseen
    try:
        lines = lines_of_late(job.inputs, job.slot, None if looks_at_all else MOST_PACKETS)
    except Unseen as why:
        lines = []
        tell_error(f"late: {told_unseen(why, job.inputs)}")
    for line in lines:
        tell_error(f"late: {line}")
    if lines:
        name, number = job.slot_option
        tell_error(f"late: {name} {number} is a slower line than that of the captures; {WAITS}")


def _warn_of_cut(job):
    """Tells of packets of which a part alone was captured."""
    from .cut_short import line_of_cut
    line = line_of_cut(job.inputs)
    if line:
        tell_error(f"cut: {line}")


def _warn_of_prefix(job):
    """Tells where a capture stands in the place of PREFIX, and so comes in at no port."""
    from .capture_hints import is_capture
    if job.prefix and is_capture(job.prefix):
        tell_error(f"note: PREFIX {job.prefix} is a capture, which comes in at no port: the words are TABLE PREFIX INPUT..")


def start(top):
    """Ends as the launcher or the program ends."""
    from .running import end_as
    try:
        status = main(top, sys.argv[1:])
    except KeyboardInterrupt:
        status = -2
    sys.exit(end_as(status))
