"""The commands: from words and files to files, lines and a status."""

from __future__ import annotations

from typing import Any, Callable, Dict, List, Sequence, Tuple, Union

from .captures import capture_bytes
from .departures import packets_text
from .faults import Fault, Refusal
from .files import Failed, FolderFiles, MemoryFiles
from .fullness import queue_lines
from .journals import journal_bytes, journal_of, read_journal, verdict_of
from .made import made_input
from .plans import Settings, plan_files
from .reference import reference_line
from .runs import Outcome, outcome_of, run_plan
from .schedulers import SCHEDULERS
from .texts import joined, report_lines, slot_lines, summary_lines, summary_of
from .words import USAGE, CheckJob, FirmJob, GenJob, RunJob, job_of

MOST_BYTES = 16_777_216  # Of a table, or of a capture of a job that is not long.
MOST_LONG_BYTES = (1 << 32) - 1  # Of a capture of a long one.
MOST_JOURNAL = MOST_PACKETS = 134_217_728  # Bytes of a journal and of a packets file.
PIECE = 65_536
Files = Union[MemoryFiles, FolderFiles]


def read_whole(files: Files, name: str, most: int) -> bytes:
    """The bytes of a file, of which there may be so many."""
    parts: List[bytes] = []
    total = 0
    while total <= most:
        try:
            part = files.read(name, total, PIECE)
        except Failed:
            raise Refusal(3, b"read fault: " + encoded(name)) from None
        if not part:
            return b"".join(parts)
        parts.append(part)
        total += len(part)
    raise Refusal(4, b"too long: " + encoded(name))


def encoded(name: str) -> bytes:
    """The bytes of a name, also of one that is no text."""
    return name.encode("utf-8", "surrogateescape")


def put_whole(put: Callable[[bytes], int], data: bytes) -> None:
    """Gives what is left until all is taken."""
    while data:
        data = data[put(data):]


def write_file(files: Files, name: str, data: bytes) -> None:
    """Begins and writes a file."""
    try:
        files.begin(name)
        put_whole(lambda piece: files.write(name, piece), data)
    except Failed:
        raise Refusal(6, b"write fault: " + encoded(name)) from None


def print_lines(files: Files, lines: Sequence[str]) -> None:
    """Prints on standard output."""
    try:
        put_whole(lambda piece: files.put("stdout", piece), joined(lines).encode("ascii"))
    except Failed:
        raise Refusal(6, "write fault: standard output") from None


def run_files(settings: Settings, table: str, inputs: Sequence[str], scheduler: str, files: Files) -> Outcome:
    """The run of a table and captures, which are read in this order."""
    text = read_whole(files, table, MOST_BYTES)
    captures = [read_whole(files, name, MOST_LONG_BYTES if settings.is_long else MOST_BYTES) for name in inputs]
    return outcome_of(run_plan(plan_files(settings, text, captures), SCHEDULERS[scheduler], settings.is_long))


def report_of(job: RunJob, outcome: Outcome) -> bytes:
    """The report that a job asks for."""
    run = outcome.run
    counts = [(len(messages), len(cells)) for messages, cells in zip(outcome.delivered, outcome.crossed)]
    queues = queue_lines(run) if "queues" in job.flags else None
    slots = slot_lines(run.slots) if "slots" in job.flags else None
    references = [reference_line(run, output) for output in range(run.plan.ports)] if "reference" in job.flags else None
    return joined(report_lines(summary_of(outcome), counts, queues, slots, references)).encode("ascii")


def outputs_of(job: RunJob, outcome: Outcome) -> List[Tuple[str, bytes]]:
    """The files of a run by name, in the order in which they are written."""
    plan = outcome.run.plan
    outputs = [
        (f"{job.prefix}.{output}.pcap", capture_bytes([it.message for it in messages], plan.is_nano, plan.link))
        for output, messages in enumerate(outcome.delivered)
    ]
    outputs.append((f"{job.prefix}.report", report_of(job, outcome)))
    if "journal" in job.flags:
        data = journal_bytes(journal_of(outcome.run))
        outputs.append((f"{job.prefix}.journal", not_over(MOST_JOURNAL, "journal", data)))
    if "packets" in job.flags:
        data = packets_text(outcome).encode("ascii")
        outputs.append((f"{job.prefix}.packets.csv", data if job.settings.is_long else not_over(MOST_PACKETS, "packets", data)))
    return outputs


def not_over(most: int, what: str, data: bytes) -> bytes:
    """The bytes of a file, which may not be more."""
    if len(data) > most:
        raise Refusal(4, f"{what} too long: {len(data)}")
    return data


def run_job(job: RunJob, files: Files) -> None:
    """The command `run`. Nothing is written before all is made."""
    outcome = run_files(job.settings, job.table, job.inputs, job.scheduler, files)
    for name, data in outputs_of(job, outcome):
        write_file(files, name, data)
    print_lines(files, summary_lines(summary_of(outcome)))


def gen_job(job: GenJob, files: Files) -> None:
    """The command `gen`."""
    made = made_input(job.seed, job.packets, job.ports)
    plan = plan_files(job.settings, made.table, made.captures)
    print_lines(files, summary_lines(summary_of(outcome_of(run_plan(plan, SCHEDULERS[job.scheduler])))))


def firm_job(job: FirmJob, files: Files) -> None:
    """The command `firm`."""
    outcome = run_files(job.settings, job.table, job.inputs, "firm", files)
    print_lines(files, summary_lines(summary_of(outcome)))


def check_job(job: CheckJob, files: Files) -> None:
    """The command `check`."""
    data = read_whole(files, job.file, MOST_JOURNAL)
    try:
        verdict = verdict_of(read_journal(data), SCHEDULERS[job.scheduler])
    except Fault as fault:
        raise Refusal(4, f"journal: bad at {fault.numbers['at']}") from None
    if verdict.longest is None:
        number = "" if verdict.number is None else f" {verdict.number}"
        raise Refusal(7, f"no: slot {verdict.slot} {verdict.reason}{number}")
    print_lines(files, ["yes", f"slots {verdict.slots}", "longest " + " ".join(map(str, verdict.longest))])


COMMANDS: Dict[type, Callable[[Any, Files], None]] = {
    RunJob: run_job, GenJob: gen_job, CheckJob: check_job, FirmJob: firm_job
}


def run_words(words: Sequence[str], files: Files) -> int:
    """Does the job that words mean, and answers the status."""
    try:
        job = job_of(words)
        if job is None:
            raise Refusal(2, USAGE)
        COMMANDS[type(job)](job, files)
        return 0
    except Refusal as refusal:
        print_error(files, refusal.line + b"\n")
        return refusal.status


def print_error(files: Files, line: bytes) -> None:
    """Prints on standard error, as far as it can."""
    try:
        put_whole(lambda piece: files.put("stderr", piece), line)
    except Failed:
        pass
