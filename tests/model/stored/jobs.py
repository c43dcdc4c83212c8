"""The jobs of tests/jobs: what is in their folders, and what the model makes of them."""

from __future__ import annotations

import tempfile
from pathlib import Path
from typing import Dict, List, NamedTuple

from ..files import FolderFiles
from ..jobs import run_words

EXPECTED, WORDS, DEVICE = "expected", "args", "stdout_device"
Files = Dict[str, bytes]


class Job(NamedTuple):
    """A job: its words, the files of its folder, and the device that its standard output is, where it is one."""

    words: List[str]
    files: Files
    device: str


def files_of(folder: Path) -> Files:
    """The bytes of each file of a folder and of the folders in it, by its path."""
    return {path.relative_to(folder).as_posix(): path.read_bytes() for path in folder.rglob("*") if path.is_file()}


def read_job(folder: Path) -> Job:
    """The job of a folder, without what is expected of it."""
    files = {name: data for name, data in files_of(folder).items() if not name.startswith(f"{EXPECTED}/")}
    device = files.pop(DEVICE, b"").decode().strip()
    return Job(files[WORDS].decode().split("\n")[:-1], files, device)


def expected_of(job: Job) -> Files:
    """What the model makes of a job: its status, what it prints, and the files that it begins in a copy of the
    folder."""
    with tempfile.TemporaryDirectory(prefix="remake.") as name:
        folder = Path(name)
        for path, data in job.files.items():
            (folder / path).parent.mkdir(parents=True, exist_ok=True)
            (folder / path).write_bytes(data)
        files = FolderFiles(folder, job.device)
        status = run_words(job.words, files)
        files.close()
        found = files_of(folder)
        changed = {path for path in job.files if found[path] != job.files[path]}
        assert changed <= files.begun
        made = {path: found[path] for path in files.begun if path in found}
    return {"status": f"{status}\n".encode(), **files.printed, **made}
