"""A folder in which a case runs the program, as an ordinary user and for at most ten seconds."""

import os
import pwd
import shutil
import signal
import stat
import subprocess
import tempfile
import time
from pathlib import Path
from typing import NamedTuple

SECONDS = 10  # A run has ended after so many.
POLL_SECONDS = 0.005
NOBODY = 65_534
IS_ROOT = os.geteuid() == 0


class Wrong(Exception):
    """A run did not end as the formats say."""


class Skipped(Exception):
    """A case cannot be made here."""


class Ended(NamedTuple):
    """How a run ended: its status (negative for a signal), and what it printed."""

    status: int
    out: bytes
    err: bytes


def user():
    """The user and the group that runs have: an ordinary one, also where root runs this."""
    if not IS_ROOT:
        return os.geteuid(), os.getegid()
    try:
        entry = pwd.getpwnam("nobody")
        return entry.pw_uid, entry.pw_gid
    except KeyError:
        return NOBODY, NOBODY


def _state_of(path):
    """What stands at a path: the bytes of a file, else a word for its kind."""
    mode = path.lstat().st_mode
    if stat.S_ISLNK(mode):
        return f"link to {os.readlink(path)}"
    if stat.S_ISDIR(mode):
        return "folder"
    if not stat.S_ISREG(mode):
        return "special"
    try:
        return path.read_bytes()
    except PermissionError:
        return "a file that may not be read"


def _told(state):
    """A state as a fault tells it."""
    if isinstance(state, bytes) and len(state) > 80:
        return f"{len(state)} bytes that begin with {state[:80]!r}"
    return "nothing" if state is None else repr(state)


class Place:
    """A fresh folder with files, and the program that runs in it."""

    def __init__(self, program, files):
        self.program = program
        self.folder = Path(tempfile.mkdtemp(prefix="run_disk."))
        self.folder.chmod(0o755)
        self._give(self.folder)
        for name, data in files.items():
            self.write(name, data)

    def __enter__(self):
        return self

    def __exit__(self, *_):
        for path in [self.folder, *self.folder.rglob("*")]:
            if path.is_dir() and not path.is_symlink():
                path.chmod(0o755)
        shutil.rmtree(self.folder)

    def _give(self, path):
        if IS_ROOT:
            os.chown(path, *user(), follow_symlinks=False)

    def write(self, name, data, mode=0o644):
        path = self.folder / name
        path.write_bytes(data)
        path.chmod(mode)
        self._give(path)

    def make_folder(self, name, mode=0o755):
        path = self.folder / name
        path.mkdir()
        self._give(path)
        path.chmod(mode)
        return path

    def link(self, name, target):
        (self.folder / name).symlink_to(target)

    def make_fifo(self, name):
        path = self.folder / name
        os.mkfifo(path)
        self._give(path)
        return path

    def state(self):
        """What stands in the folder, by name."""
        found = sorted(self.folder.rglob("*"))
        return {str(path.relative_to(self.folder)): _state_of(path) for path in found}

    def start(self, words, **options):
        """Starts a run: `out` and `err` say where it prints, `before` is called in the child, `env` has its variables."""
        user_id, group_id = user()
        given = {"user": user_id, "group": group_id, "extra_groups": []} if IS_ROOT else {}
        return subprocess.Popen(
            [self.program, *words],
            cwd=self.folder,
            stdin=subprocess.DEVNULL,
            stdout=options.get("out", subprocess.PIPE),
            stderr=options.get("err", subprocess.PIPE),
            preexec_fn=options.get("before"),
            env=options.get("env"),
            **given,
        )

    def run(self, *words, **options):
        """Runs the program with these words to its end."""
        return ended(self.start(words, **options), options.get("seconds", SECONDS))

    def run_job(self, *words, **options):
        """Runs the job of these words, on one thread."""
        return self.run("run", "--workers", "1", *words, **options)


def ended(process, seconds=SECONDS):
    """How a started run ends."""
    try:
        out, err = process.communicate(timeout=seconds)
    except subprocess.TimeoutExpired:
        process.kill()
        process.communicate()
        raise Wrong(f"the run had not ended after {seconds} seconds") from None
    return Ended(process.returncode, out or b"", err or b"")


def expect(found, status, err=b"", out=b""):
    """The run has this status, and printed this."""
    if found.status < 0:
        raise Wrong(f"the run was ended by {signal.Signals(-found.status).name}")
    wanted = Ended(status, out, err)
    for what, is_found, is_wanted in zip(("status", "standard output", "standard error"), found, wanted):
        if is_found != is_wanted:
            raise Wrong(f"{what}: {is_found!r} in place of {is_wanted!r}")


def expect_state(place, before, changed=None):
    """The folder is as before, but for these files."""
    wanted = {**before, **(changed or {})}
    found = place.state()
    for name in sorted(set(wanted) | set(found)):
        if found.get(name) != wanted.get(name):
            raise Wrong(f"{name}: {_told(found.get(name))} in place of {_told(wanted.get(name))}")


def expect_part(place, name, whole):
    """The named file holds a first part of these bytes. Answers that part."""
    found = (place.folder / name).read_bytes()
    if not whole.startswith(found):
        raise Wrong(f"{name}: {_told(found)} in place of a first part of {_told(whole)}")
    return found


def wait_for(is_so, seconds=SECONDS):
    """Waits until something is so, at most so many seconds; answers whether it is."""
    end = time.monotonic() + seconds
    while not is_so():
        if time.monotonic() > end:
            return False
        time.sleep(POLL_SECONDS)
    return True
