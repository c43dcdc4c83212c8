"""Programs that run with one request for memory refused, by a library that is loaded before the C library."""

import os
import shutil
import struct
import subprocess
from pathlib import Path

SOURCE = Path(__file__).resolve().parent / "refuse.c"
LIBRARY, COUNT = "refuse.so", "requests"
COUNTER = struct.Struct("@l")


def compiler():
    """A C compiler, or None."""
    return shutil.which("cc") or shutil.which("gcc") or shutil.which("clang")


class Refusing:
    """The library in a folder, which other users may read."""

    def __init__(self, folder):
        self.library = Path(folder) / LIBRARY
        self.count = Path(folder) / COUNT
        subprocess.run([compiler(), "-shared", "-fPIC", "-O1", "-o", self.library, SOURCE], check=True)
        self.library.chmod(0o755)
        self.count.touch()
        self.count.chmod(0o666)

    def environment(self, number):
        """The variables of a run in which the request of this number is refused, none for 0."""
        self.count.write_bytes(COUNTER.pack(0))
        given = {"LD_PRELOAD": str(self.library), "REFUSED_REQUEST": str(number), "REQUESTS_FILE": str(self.count)}
        return {**os.environ, **given}

    def requests(self):
        """How many requests the last run made."""
        return COUNTER.unpack(self.count.read_bytes())[0]
