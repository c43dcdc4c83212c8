"""Builds: the files of a program or of the library in a folder, with the record of what they were made from."""

import os
from functools import cached_property
from typing import NamedTuple

from .place import RECORD, read_record, write_record
from .sources import Sources, moved, noted


class Kind(NamedTuple):
    """What is built: the crates that it stands on, its files, the first of which is always there, and its record."""

    roots: tuple
    files: tuple
    mode: int
    record: str


PROGRAM = Kind(("tiny_tera",), ("tiny_tera",), 0o755, RECORD)
# The program of the command `simulate`.
SIMULATION = Kind(("simulate",), ("simulate",), 0o755, "simulate.json")
PROGRAMS = (PROGRAM, SIMULATION)
LIBRARY = Kind(("scheduler_c", "journal_c"), ("libtiny_tera.a", "libtiny_tera.so"), 0o644, "library.json")
# As tools/install has put them, without sources.
INSTALLED = {PROGRAM: Kind((), ("program",), 0o755, RECORD), SIMULATION: SIMULATION._replace(roots=())}


class Build:
    """A build in a folder, made from the sources of a checkout, and of further files where they are named."""

    def __init__(self, kind, top, folder, more=()):
        self.kind, self.top, self.folder, self.more = kind, top, folder, more
        self.path = os.path.join(folder, kind.files[0])
        self.record = os.path.join(folder, kind.record)

    @cached_property
    def sources(self):
        return Sources(self.top, self.kind.roots, self.more)

    def files(self):
        """The names of its files that are there."""
        return [name for name in self.kind.files if os.path.isfile(os.path.join(self.folder, name))]

    def said(self):
        """What is noted of it, empty where nothing is."""
        return read_record(self.record)

    def changes(self):
        """The names of the sources that are not as they were when it was made, none where all are; None where nothing
        is noted of the files that are there."""
        record = self.said()
        files, entries = dict(record.get("files", {})), dict(record.get("sources", {}))
        if self.kind.files[0] not in files or not os.access(self.path, os.X_OK if self.kind.mode & 0o100 else os.R_OK):
            return None
        for name, entry in files.items():
            is_other, files[name] = moved(os.path.join(self.folder, name), entry)
            if is_other:
                return None
        changed = self.sources.compare(entries) if self.kind.roots else []
        if not changed and (files, entries) != (record["files"], record.get("sources", {})):
            self._keep({**record, "files": files, "sources": entries})
        return changed

    def _keep(self, record):
        """Notes stamps anew; where the folder may not be written, files are read again at each start."""
        try:
            write_record(self.record, record)
        except OSError:
            pass

    def put(self, name, data):
        """Puts a file into the folder, at once or not at all."""
        path = os.path.join(self.folder, name)
        new = f"{path}.{os.getpid()}.new"
        os.makedirs(self.folder, exist_ok=True)
        with open(new, "wb") as file:
            file.write(data)
        os.chmod(new, self.kind.mode)
        os.replace(new, path)

    def note(self, entries, **more):
        """Notes that the files were made from these sources, and what else is to be noted."""
        files = {name: noted(os.path.join(self.folder, name)) for name in self.files()}
        write_record(self.record, {**more, "files": files, "sources": entries})

    def sum(self):
        """The noted sum of its first file."""
        return self.said()["files"][self.kind.files[0]][0]
