"""Files, standard output and standard error, in memory or on a disk: as a job meets them."""

from __future__ import annotations

import os
from pathlib import Path
from typing import IO, Dict, Iterable, Optional, Set, Tuple


class Failed(Exception):
    """A call failed."""


class MemoryFiles:
    """Files in memory. A call takes or gives at most `piece` bytes; those of `fails`, each a kind of call and its
    number from 1 on, fail."""

    def __init__(self, files: Dict[str, bytes], piece: int = 1 << 30, fails: Iterable[Tuple[str, int]] = ()) -> None:
        self.files, self.piece, self.fails = dict(files), piece, set(fails)
        self.calls: Dict[str, int] = {}
        self.printed = {"stdout": b"", "stderr": b""}
        self.begun: Set[str] = set()

    def count(self, call: str) -> None:
        """Counts a call, which may fail."""
        self.calls[call] = self.calls.get(call, 0) + 1
        if (call, self.calls[call]) in self.fails:
            raise Failed

    def read(self, name: str, at: int, size: int) -> bytes:
        """Bytes of a file from a place on, none at its end."""
        self.count("read")
        if name not in self.files:
            raise Failed
        return self.files[name][at:at + min(size, self.piece)]

    def begin(self, name: str) -> None:
        """Begins a file, which is empty then."""
        self.count("begin")
        self.files[name] = b""
        self.begun.add(name)

    def write(self, name: str, piece: bytes) -> int:
        """Writes to the end of a file that was begun, and says how many bytes were taken."""
        assert name in self.begun
        self.count("write")
        self.files[name] += piece[:self.piece]
        return len(piece[:self.piece])

    def put(self, stream: str, piece: bytes) -> int:
        """Writes to standard output or standard error, and says how many bytes were taken."""
        self.count(stream)
        self.printed[stream] += piece[:self.piece]
        return len(piece[:self.piece])


class FolderFiles:
    """Files of a folder on a disk; names go from there. Standard output is kept, or a device takes it."""

    def __init__(self, folder: Path, device: str = "") -> None:
        self.folder, self.device = folder, device
        self.printed = {"stdout": b"", "stderr": b""}
        self.begun: Set[str] = set()
        self.file: Optional[IO[bytes]] = None

    def reopen(self, name: str, mode: str) -> None:
        """Opens a file in place of the one before."""
        self.close()
        self.file = open(os.path.join(str(self.folder), name), mode, buffering=0)

    def close(self) -> None:
        """Closes the file that was opened last."""
        if self.file is not None:
            self.file.close()
            self.file = None

    def read(self, name: str, at: int, size: int) -> bytes:
        """Bytes of a file from a place on, none at its end."""
        try:
            if at == 0:
                self.reopen(name, "rb")
            assert self.file is not None
            return self.file.read(size)
        except (OSError, ValueError):
            raise Failed from None

    def begin(self, name: str) -> None:
        """Begins a file, which is empty then."""
        try:
            self.reopen(name, "wb")
            self.begun.add(name)
        except (OSError, ValueError):
            raise Failed from None

    def write(self, name: str, piece: bytes) -> int:
        """Writes to the end of the file that was begun, and says how many bytes were taken."""
        assert self.file is not None
        return put_all(self.file, piece)

    def put(self, stream: str, piece: bytes) -> int:
        """Writes to standard output or standard error, and says how many bytes were taken."""
        if stream == "stdout" and self.device:
            with open(self.device, "wb", buffering=0) as file:
                return put_all(file, piece)
        self.printed[stream] += piece
        return len(piece)


def put_all(file: IO[bytes], piece: bytes) -> int:
    """Writes to a file, and says how many bytes were taken."""
    try:
        taken = file.write(piece)
    except OSError:
        raise Failed from None
    if not taken:
        raise Failed
    return taken
