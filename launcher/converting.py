"""The word --convert: captures of other forms become classic ones in a temporary folder, which goes when the run has ended."""

import os
import re
import shlex
import signal
import subprocess
import tempfile
from contextlib import contextmanager

from .capture_hints import as_file, kind_of, with_unit
from .given import converted_from
from .place import say

MOST_STEPS = 4  # As of a packed file of the form pcapng.
PACKAGES = {"editcap": "wireshark-common", "zstdcat": "zstd", "xzcat": "xz-utils", "zcat": "gzip", "bzcat": "bzip2"}
ENDING = (signal.SIGTERM, signal.SIGHUP)


class Failed(Exception):
    """A capture that could not be converted; the text says which, and why."""


class Ended(BaseException):
    """A signal that ends the launcher."""


@contextmanager
def converted(job):
    """The job with classic captures in the place of those of another form, as long as the block lasts."""
    before = {number: signal.signal(number, _end) for number in ENDING}
    try:
        with tempfile.TemporaryDirectory(prefix="tiny_tera.") as folder:
            made = {name: _convert(name, os.path.join(folder, str(place))) for place, name in enumerate(dict.fromkeys(job.inputs))}
            yield job.with_inputs([made[name] for name in job.inputs])
    finally:
        for number, handler in before.items():
            signal.signal(number, handler)


def _end(number, _):
    raise Ended(number)


def _convert(name, stem):
    """The name of a classic capture with the packets of a capture: its own where it is one, or of what is made of it."""
    made = name
    for step in range(MOST_STEPS):
        found = kind_of(made)
        if not found:
            break
        what, command = found
        new = f"{stem}.{step}.pcap"
        run_command(f"{name} {what}", with_unit(command, made), made, new)
        if made != name:
            os.remove(made)
        made = new
    return made if made == name else converted_from(made, name)


def run_command(told, command, name, new):
    """Runs a command that makes one file of another."""
    words, _, out = command.partition(" > ")
    names = {"IN": as_file(name), "OUT": new}
    words = [re.sub(r"\b(IN|OUT)\b", lambda it: names[it[0]], word) for word in words.split()]
    say(f"{told}: {shlex.join(words)}" + (f" > {new}" if out else ""))
    try:
        with open(new if out else os.devnull, "wb") as file:
            ended = subprocess.run(words, stdin=subprocess.DEVNULL, stdout=file, stderr=subprocess.PIPE)
    except FileNotFoundError:
        package = PACKAGES.get(words[0])
        raise Failed(f"{words[0]} is not there" + (f"; Debian's package {package} has it" if package else "")) from None
    except OSError as fault:
        raise Failed(f"{words[0]}: {fault.strerror}") from None
    if ended.returncode:
        said = os.fsdecode(ended.stderr).strip().splitlines()
        raise Failed(f"{words[0]} ended with status {ended.returncode}" + (f": {said[-1]}" if said else "") + _told_room(new))


def _told_room(name):
    """That a file had no room, and where there may be more; nothing where its disk is not full."""
    folder = os.path.dirname(name)
    is_full = os.statvfs(folder).f_bavail == 0
    return f"; the disk of {folder} is full, and the variable TMPDIR names a folder on another" if is_full else ""
