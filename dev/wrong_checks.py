"""Checks of copies of crates: the crates as they stand, proved by `rt ci` in a folder of its own, and what a check with a wrong body says."""

import os
import re
import shutil
import subprocess
from typing import NamedTuple

from proved_archive import Crates, kit_of_path

PARTS = ("src", "specs", "proofs")
OF_RUNS = ("args", "stdin", "stdout", "status", "data")
FUNCTION = re.compile(r"^fn (\S+): (.*)$")
# A line that says where something is not proved, and of which goal.
GOAL = re.compile(r"^(?:note: )?(?:\./)?(\S+?):\d+:\d+: (?:error: |it is not proved that )(.*)$")
NAMED = re.compile(r"^(`[^`]+`): ")
IN_BRACKETS = re.compile(r"\((`[^`]+`)\)")
CALLS = re.compile(r"it calls `[^`]+`, which is not proved")
# What is said of a proof that names what an edit took away.
NAME_IS_GONE = re.compile(r"has no field|is not in scope|has no `|was not admitted")
PROVED, NOT_PROVED, NO_VERDICT = 0, 1, 3


class Fault(Exception):
    """Why nothing can be tried; the message is for the user."""


def copy_parts(source, to, parts=PARTS):
    """Copies these parts of a crate's folder."""
    to.mkdir(parents=True, exist_ok=True)
    for part in parts:
        if (source / part).is_dir():
            shutil.copytree(source / part, to / part)
        elif (source / part).is_file():
            shutil.copy(source / part, to / part)


class Room:
    """A folder in which crates and those below them are proved as they stand, as the gate does, in a repository of their
    own without wrong bodies. What was proved before, here or by the gate, is not proved again where the kit keeps it."""

    def __init__(self, top, folder, names):
        self.top, self.folder = top, folder
        self.kit = kit_of_path()
        if self.kit is None:
            raise Fault("the toolchain's rt is not in the path")
        crates = Crates(top)
        needed = {it for name in names for it in (name, *crates.all_below(name))}
        self.prove([name for name in crates.named if name in needed], folder / "repository")
        self.crates = Crates(folder / "repository")

    def prove(self, names, repository):
        """Proves these crates, and builds the libraries among them."""
        (repository / ".git").mkdir(parents=True)
        lines = {re.split("[ :]", line)[0]: line for line in (self.top / "crates.txt").read_text().splitlines()}
        (repository / "crates.txt").write_text("".join(f"{lines[name]}\n" for name in names))
        shutil.copy(self.top / "HANDLES", repository / "HANDLES")
        for name in names:
            copy_parts(self.top / "crates" / name, repository / "crates" / name, (*PARTS, *OF_RUNS))
        ran = subprocess.run(["rt", "ci"], cwd=repository, stdout=subprocess.PIPE, stderr=subprocess.STDOUT, text=True, errors="replace")
        if ran.returncode:
            raise Fault("the crates are not proved as they stand:\n" + "\n".join(ran.stdout.splitlines()[-20:]))


class Check(NamedTuple):
    """How a check ended: its status, its lines, and its processor seconds."""

    status: int
    lines: list
    seconds: float

    def reached_functions(self):
        """Whether the check judged functions."""
        return self.status == PROVED or self.status == NOT_PROVED and self.lines[-1].startswith(("logic=not-proved", "only="))

    def statuses(self):
        """What is said of each function, by its path."""
        return dict(found.groups() for found in map(FUNCTION.match, self.lines) if found)

    def goals(self):
        """What is said to be not proved, as the file in which it stands and the goal or the message, in the order of the lines."""
        found = [it.groups() for it in map(GOAL.match, self.lines) if it]
        return [(path, goal_in(said)) for path, said in found]

    def cannot_be_read(self):
        """The first line that says that a text of src/ or specs/ cannot be read, none where each can."""
        errors = [line for line in self.lines if re.match(r"(\./)?(src|specs)/\S+?:\d+:\d+: error: (?!`)", line)]
        return errors[0] if errors else ""


def goal_in(said):
    """The name of the goal that a line is about, or what it says, cut short."""
    named = NAMED.match(said) or IN_BRACKETS.search(said)
    weak = " (a name is gone)" if NAME_IS_GONE.search(said) else ""
    return (named[1] if named else said[:80]) + weak


def check(room, name, texts, only, folder):
    """Checks a copy of the crate with these texts in the place of its own, the modules and functions of these paths alone
    where there are some, over what earlier checks in the folder kept."""
    for part in PARTS:
        shutil.rmtree(folder / part, ignore_errors=True)
    copy_parts(room.top / "crates" / name, folder)
    for path, text in texts.items():
        (folder / path).write_text(text, encoding="utf-8")
    (folder / "kept").mkdir(exist_ok=True)
    words = [*room.crates.words(room.kit, "check", name), "--incremental", "kept", *(word for it in only for word in ("--only", it))]
    with open(folder / "said", "w", encoding="utf-8") as said:
        ran = subprocess.Popen(words, cwd=folder, stdin=subprocess.DEVNULL, stdout=said, stderr=subprocess.STDOUT)
        _, status, used = os.wait4(ran.pid, 0)
    ran.returncode = os.WEXITSTATUS(status) if os.WIFEXITED(status) else -os.WTERMSIG(status)
    lines = (folder / "said").read_text(encoding="utf-8", errors="replace").rstrip("\n").split("\n")
    return Check(ran.returncode, lines, used.ru_utime + used.ru_stime)
