"""Notes of what was built here that it was made from sources whose sums were written down before it was begun."""

import os
import shutil
import subprocess

from .builds import LIBRARY, PROGRAMS
from .place import say
from .release import TOOLS
from .sources import Sources
from .there import here

COMPILERS = ("cc", "gcc", "clang")
UNKNOWN_KIT = "an unknown kit"


def sums_of(top):
    """A line for each source of the programs and of the library: its sum and its name."""
    roots = [root for kind in (*PROGRAMS, LIBRARY) for root in kind.roots]
    entries = Sources(top, roots).noted()
    return [f"{entry[0]}  {name}" for name, entry in entries.items()]


def note(place, kind, file):
    """Notes that what is built of a kind was made from the sources whose sums a file has, and answers which of them have
    changed since; OSError where it cannot be noted."""
    with open(file, encoding="utf-8") as opened:
        lines = [line.rstrip("\n").partition("  ") for line in opened]
    build = here(place, kind)
    entries = build.sources.of_these({name: [found, None] for found, _, name in lines})
    more = {"tools": linking_tools()} if kind is LIBRARY else {}
    build.note(entries, kit=kit_line(), **more)
    changed = build.changes()
    if changed is None:
        raise FileNotFoundError(f"{build.path} is not there, or cannot be started")
    return changed


def note_and_tell(place, kinds, file):
    """The status of noting builds, but of what has no crate here; what has changed meanwhile is told."""
    changed = {}
    try:
        for kind in kinds:
            if Sources(place.top, kind.roots).below:
                changed.update(dict.fromkeys(note(place, kind, file)))
    except OSError as fault:
        say(f"the build is not noted: {fault}")
        return 1
    for source in changed:
        say(f"{source} was changed since its sum was noted, so what was built is not that of the sources")
    return 0


def kit_line():
    """The line by which the kit names itself."""
    return first_line(["rt", "version"]) or UNKNOWN_KIT


def linking_tools():
    """The first lines of the compiler and the linker that link a shared object here."""
    compiler = next((it for it in (os.environ.get("CC"), *COMPILERS) if it and shutil.which(it)), COMPILERS[0])
    found = {name: first_line([word, "--version"]) for name, word in zip(TOOLS, (compiler, TOOLS[1]))}
    return {name: line for name, line in found.items() if line}


def first_line(words):
    """The first line that a command prints, empty where there is none."""
    try:
        ended = subprocess.run(words, stdout=subprocess.PIPE, stderr=subprocess.DEVNULL, universal_newlines=True)
    except OSError:
        return ""
    return (ended.stdout.splitlines() or [""])[0]
