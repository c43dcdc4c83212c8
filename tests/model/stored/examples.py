"""The expected files of the examples: what runs of the model write, with the options of each."""

from __future__ import annotations

import subprocess
import sys
import tempfile
from pathlib import Path
from typing import List, Tuple

from .jobs import Files, Job, expected_of

EXPECTED, MAKE = "expected", "make"
Run = Tuple[str, List[str]]  # A prefix, and options.


def runs_of(files: Files) -> List[Run]:
    """The runs of an example: one for each file of options, else one without options."""
    named = sorted(name for name in files if name.endswith(".options"))
    return [(name[:-len(".options")], files[name].decode().split()) for name in named] or [("out", [])]


def made_of(files: Files) -> Files:
    """What the model makes of the files that an example has expected, and of the answers to journals that lie in it."""
    inputs = {name: data for name, data in files.items() if not name.startswith(f"{EXPECTED}/")}
    if MAKE in inputs:
        inputs.update(captures_of(inputs.pop(MAKE)))
    captures = sorted(name for name in inputs if name.endswith(".pcap"))
    made: Files = {}
    for prefix, options in runs_of(inputs):
        told = [] if "--long" in options else ["--slots", "--journal"]
        words = ["run", *told, *options, "table.txt", prefix, *captures]
        outputs = expected_of(Job(words, inputs, ""))
        made.update({f"{EXPECTED}/{name}": data for name, data in outputs.items() if f"{EXPECTED}/{name}" in files})
    for name in (name for name in inputs if name.endswith(".journal")):
        made[f"{name[:-len('.journal')]}.verdict"] = expected_of(Job(["check", name], inputs, ""))["stdout"]
    return made


def captures_of(program: bytes) -> Files:
    """The captures that a program makes, of a megabyte together."""
    with tempfile.TemporaryDirectory() as folder:
        made = Path(folder)
        subprocess.run([sys.executable, "-", str(made), "1"], input=program, check=True)
        return {path.name: path.read_bytes() for path in made.iterdir()}


def there_of(files: Files) -> Files:
    """Those files as they are."""
    return {name: data for name, data in files.items() if name.startswith(f"{EXPECTED}/") or name.endswith(".verdict")}
