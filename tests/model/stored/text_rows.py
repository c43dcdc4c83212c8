"""Rows of the words of the command line, of summaries and reports, and of journals."""

from __future__ import annotations

from typing import Dict, List, Optional

from ..faults import Fault
from ..journals import Journal, JournalSlot, journal_bytes, read_journal, verdict_of
from ..plans import Settings
from ..ports import LEVELS, Ports
from ..reference import ReferenceLine
from ..rows import Match, Row, Served, feed_of, row_of, served_part
from ..texts import Summary, report_lines, slot_line, summary_lines
from ..words import CheckJob, FirmJob, GenJob, Job, RunJob, job_of
from . import forms
from .lines import Rows, by_lines
from .slot_rows import ScheduledRows

ARROW = " => "


class WordRows(Rows):
    """Lines of words in quotes with the job that they mean."""

    def remade(self, line: str) -> List[str]:
        """The line with its answer."""
        question = f" {line}".split(ARROW)[0][1:]
        job = job_of([forms.unquoted(word[0]) for word in forms.QUOTED.finditer(question)])
        return [f"{question}{ARROW}{job_text(job)}".lstrip()]


def settings_text(settings: Settings) -> str:
    """The numbers that a job is given; of pace and line rate the one that it has."""
    pace = forms.NONE if settings.pace is None else settings.pace
    speed = f"pace={pace}" if settings.rate is None else f"rate={settings.rate}"
    long = " long=1" if settings.is_long else ""
    return f"rounds={settings.rounds} depth={settings.depth} workers={settings.workers} {speed}{long}"


def flags_text(job: RunJob) -> str:
    """The flags of a run: the oldest with 0 or 1, the others where they are given."""
    always = [f"{name}={int(name in job.flags)}" for name in ("slots", "journal", "reference")]
    given = [f"{name}=1" for name in ("queues", "packets") if name in job.flags]
    return " ".join([*always, *given, *scheduler_text(job.scheduler), *(["alone=1"] if "alone" in job.flags else [])])


def scheduler_text(name: str) -> List[str]:
    """A scheduler that is not iSLIP."""
    return [] if name == "islip" else [f"scheduler={name}"]


def names_text(names: List[str]) -> str:
    """Names in quotes."""
    return ",".join(map(forms.quoted, names))


def job_text(job: Optional[Job]) -> str:
    """A job, or that the words mean none."""
    if isinstance(job, RunJob):
        names = f"table={forms.quoted(job.table)} prefix={forms.quoted(job.prefix)} inputs={names_text(job.inputs)}"
        return f"run {settings_text(job.settings)} {flags_text(job)} {names}"
    if isinstance(job, GenJob):
        numbers = f"seed={job.seed} count={job.packets} ports={job.ports}"
        return " ".join(["gen", settings_text(job.settings), numbers, *scheduler_text(job.scheduler)])
    if isinstance(job, CheckJob):
        return " ".join(["check", f"file={forms.quoted(job.file)}", *scheduler_text(job.scheduler)])
    if isinstance(job, FirmJob):
        return f"firm {settings_text(job.settings)} table={forms.quoted(job.table)} inputs={names_text(job.inputs)}"
    return "usage"


class TextRows(Rows):
    """Blocks of the numbers of a summary, of outputs, slots and references; then the text, or the journal of the
    slots."""

    def __init__(self) -> None:
        self.case: Dict[str, str] = {}
        self.slots: List[str] = []

    def remade(self, line: str) -> List[str]:
        """The line, and the text in the place of the lines of one."""
        key, _, value = line.partition(" ")
        if key == ">":
            return []
        if key == "case":
            self.case, self.slots = {}, []
        elif key == "slot":
            self.slots.append(value)
        elif key in ("text", "journal"):
            return [line, *(f"> {it}".rstrip() for it in getattr(self, key)())]
        self.case[key] = value
        return [line]

    def summary(self) -> Summary:
        """The numbers of the summary."""
        numbers = list(map(int, self.case["summary"].split()))
        return Summary._make([*numbers[:-LEVELS], numbers[-LEVELS:]])

    def text(self) -> List[str]:
        """The lines of the summary or of the report."""
        if "outputs" not in self.case:
            return summary_lines(self.summary())
        counts = (part.split(":") for part in self.case["outputs"].split(","))
        outputs = [(int(packets), int(cells)) for packets, cells in counts]
        lines = None
        if "slot_lines" in self.case:
            slots = [slot.split() for slot in self.slots]
            lines = [slot_line(at, int(it[0]), int(it[1]), forms.read_match(it[2])) for at, it in enumerate(slots)]
        parts = self.case["references"].split(",") if "references" in self.case else []
        references = [ReferenceLine(*map(int, part.split(":"))) for part in parts]
        return report_lines(self.summary(), outputs, None, lines, references)

    def journal(self) -> List[str]:
        """The journal in which each card asks for what it is matched with, and says that more is to come."""
        summary = self.summary()
        matches = [forms.read_match(slot.split()[2]) for slot in self.slots]
        slots = [asked_slot(summary.ports, match) for match in matches]
        return [journal_bytes(Journal(summary.ports, summary.rounds, slots)).hex()]


def asked_slot(ports: int, match: Match) -> JournalSlot:
    """A slot in which each card asks for what it is matched with."""
    rows = tuple(asked_row(served_part(match, port)) for port in range(ports))
    return JournalSlot(rows, (True,) * ports, [feed_of(match, output) for output in range(ports)])


def asked_row(served: Optional[Served]) -> Row:
    """The row of a card that asks for what it is served with."""
    sets: List[Dict[int, Ports]] = [{}, {}]
    if served is not None:
        sets[served.kind][served.level] = served.outputs
    return row_of(*sets)


class JournalRows(ScheduledRows):
    """Lines of the bytes of a journal, each with a line of the answer."""

    def scheduled(self, line: str, key: str, value: str) -> List[str]:
        """The line, and the one of the answer behind it."""
        return [] if key == ">" else [line, f"> {self.answer(forms.unhexed(line))}"]

    def answer(self, data: bytes) -> str:
        """The answer to a journal."""
        try:
            verdict = verdict_of(read_journal(data), self.scheduler)
        except Fault as fault:
            return f"bad at {fault.numbers['at']}"
        if verdict.longest is not None:
            return f"yes, {verdict.slots} slots, longest {' '.join(map(str, verdict.longest))}"
        return f"no: slot {verdict.slot} {verdict.reason}{'' if verdict.number is None else f' {verdict.number}'}"


REMAKES = {
    **dict.fromkeys(("words", "measure_words", "line_rate_words", "scheduler_words", "long_words"), by_lines(WordRows)),
    "texts": by_lines(TextRows),
    **dict.fromkeys(("journals", "journals_by_scheduler"), by_lines(JournalRows)),
}
