"""Where tables and figures come from: the commit, the commands and the seeds, as comment lines and as a text."""

import subprocess
import textwrap
from pathlib import Path
from typing import NamedTuple

from launcher.place import Place, git_words

TOP = Path(__file__).resolve().parent.parent.parent
UNKNOWN = "unknown"
LINE = 150  # The most letters of a line under a figure.
# What a result can depend on.
CODE = ("crates", "launcher", "tools", "python/tiny_tera", "crates.txt")


class Provenance(NamedTuple):
    """The commits whose program and tools made something, the commands that did it, and further lines."""

    commits: tuple
    commands: tuple
    notes: tuple = ()

    def lines(self):
        """Each commit, command and note, on a line of its own."""
        commits = [f"commit {name}" for name in self.commits]
        return [*commits, *(f"command {words}" for words in self.commands), *self.notes]

    def text(self, room):
        """The same as a paragraph under a figure that has room for lines of so many letters."""
        width = min(room, LINE)
        return "\n".join(part for line in self.lines() for part in textwrap.wrap(line, width, break_on_hyphens=False))


def read_lines(lines):
    """The provenance that these lines tell."""
    commits, commands, notes = [], [], []
    for line in lines:
        name, _, rest = line.partition(" ")
        if name == "commit":
            commits.append(rest)
        elif name == "command":
            commands.append(rest)
        else:
            notes.append(line)
    return Provenance(tuple(commits), tuple(commands), tuple(notes))


def commit():
    """The commit of the repository, with a + where tracked code differs from it; `unknown` without git. What is
    installed has its version, whatever repository it may stand in."""
    place = Place(str(TOP))
    if place.is_installed:
        return place.version()
    try:
        name = _git("rev-parse", "--short=12", "HEAD")
        changed = _git("status", "--porcelain", "--untracked-files=no", "--", *CODE)
    except (OSError, subprocess.CalledProcessError):
        return UNKNOWN
    return name + "+" if changed else name


def _git(*words):
    ended = subprocess.run(git_words(str(TOP), *words), capture_output=True, text=True, check=True)
    return ended.stdout.strip()
