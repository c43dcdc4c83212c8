"""Proves and builds a program by `rt ci`, outside of the checkout, and tells how far that is.

A folder of the user's cache gets a copy of the crates that it stands on, without their wrong bodies, and plain
`rt ci` proves there: the longest chain first, as many jobs as processors, its libraries as statements. Where the kit
keeps proofs between runs, it does so by sums: that of a gate on this machine counts here, and one from here in the gate.
"""

import fcntl
import os
import re
import shutil
import subprocess
import time

from . import noting, release, there
from .builds import LIBRARY, PROGRAMS
from .estimate import Estimate
from .place import cache_folder, say, tell_error
from .sources import HANDLES, PARTS, Sources

FOLDER = "proving"
COPIED = (*PARTS, "args", "stdin", "stdout", "status", "data")
OF_TESTS = "_tests"  # So ends the name of a crate of tests alone.
BYTES_OF_A_PROOF = 3_000_000_000
PROVED = re.compile(r"^rt: (\w+) (proved$|is kept: )")
TELLS_A_FAULT = re.compile(r"error|: not proved|: no proof|: could not tell|^rt: ")
TELLS_NONE = re.compile(r"^rt: (chose|note|.* proved$|.* is kept: )")
LAST_LINES = 20


def side_by_side():
    """How many crates are proved side by side: one for each processor, where there is memory for each."""
    processors = len(os.sched_getaffinity(0))
    try:
        with open("/proc/meminfo", encoding="ascii") as file:
            free = next(int(line.split()[1]) * 1024 for line in file if line.startswith("MemAvailable:"))
    except (OSError, StopIteration, ValueError):
        return processors
    return max(1, min(processors, free // BYTES_OF_A_PROOF))


def counted(number, thing):
    return f"{number} {thing}" + ("" if number == 1 else "s")


class Progress:
    """Tells each crate as its proof ends. Those that were proved before are only counted."""

    def __init__(self, below, processors, clock=time.monotonic):
        self.order = list(below)
        self.clock = clock
        self.began = clock()
        self.estimate = Estimate(below, processors)
        self.proved, self.kept = [], []

    def line(self, line):
        """Reads a line of rt."""
        found = PROVED.match(line)
        if found and found[1] in self.order and found[1] not in self.proved + self.kept:
            (self.proved if found[2] == "proved" else self.kept).append(found[1])
            if found[2] == "proved":
                self._tell(found[1])

    def _tell(self, name):
        left = len(self.order) - len(self.proved) - len(self.kept)
        rest = "tests and runs are left"
        if left:
            minutes = self.estimate.minutes_left(self.proved, self.kept, self.clock() - self.began)
            rest = f"{left} left, some {counted(minutes, 'minute')}"
        say(f"proved {name}, {len(self.order) - left} of {counted(len(self.order), 'crate')}; {rest}")


class Proof:
    """A proof of a program, or of all programs and libraries where none is named, in the folder for it."""

    def __init__(self, place, kind):
        self.place, self.is_all = place, kind is None
        self.folder = os.path.join(cache_folder(), FOLDER)
        self.log = self.folder + ".log"
        self.sums = os.path.join(self.folder, ".git", "sums")
        every = Sources(place.top, ()).lines
        self.sources = Sources(place.top, [name for name in every if not name.endswith(OF_TESTS)] if self.is_all else kind.roots)
        self.programs = [it for it in PROGRAMS if it.roots[0] in self.sources.below]

    def copy(self):
        """Copies what is proved, with a folder .git so that it is the top of a repository, and notes its sums there."""
        shutil.rmtree(self.folder, ignore_errors=True)
        os.makedirs(os.path.dirname(self.sums))
        for crate in self.sources.below:
            for part in COPIED:
                source, to = (os.path.join(top, "crates", crate, part) for top in (self.place.top, self.folder))
                if os.path.isdir(source):
                    shutil.copytree(source, to, symlinks=True)
                elif os.path.lexists(source):
                    os.makedirs(os.path.dirname(to), exist_ok=True)
                    shutil.copyfile(source, to, follow_symlinks=False)
        if os.path.lexists(self.place.path(HANDLES)):
            shutil.copyfile(self.place.path(HANDLES), os.path.join(self.folder, HANDLES))
        with open(os.path.join(self.folder, "crates.txt"), "w", encoding="utf-8") as file:
            file.writelines(self.sources.lines[crate] + "\n" for crate in self.sources.below)
        with open(self.sums, "w", encoding="utf-8") as file:
            file.writelines(line + "\n" for line in noting.sums_of(self.folder))

    def run(self, lock):
        """Whether rt proves all; what it says goes to the log. While it runs it holds the lock too."""
        progress = Progress(self.sources.below, side_by_side())
        with open(self.log, "w", encoding="utf-8") as log:
            ran = subprocess.Popen(
                ["rt", "ci"], cwd=self.folder, stdin=subprocess.DEVNULL, stdout=subprocess.PIPE, stderr=subprocess.STDOUT,
                pass_fds=[lock.fileno()], universal_newlines=True, errors="replace",
            )
            for line in ran.stdout:
                log.write(line)
                log.flush()
                progress.line(line.rstrip("\n"))
            is_proved = ran.wait() == 0
        if is_proved:
            count = len(progress.kept)
            say(f"{counted(len(self.sources.below), 'crate')} proved" + (f", {count} of them by earlier runs on this machine" if count else ""))
        return is_proved

    def tell_faults(self):
        with open(self.log, encoding="utf-8") as file:
            lines = [line.rstrip("\n") for line in file]
        for line in [it for it in lines if TELLS_A_FAULT.search(it) and not TELLS_NONE.match(it)][-LAST_LINES:]:
            tell_error(line)
        say(f"the program could not be built; all that was said is in {self.log}")

    def take(self):
        """Takes the programs that were built, and builds the library over what was proved where all is. Whether that is
        made from the sources as they are now."""
        for kind in self.programs:
            with open(os.path.join(self.folder, *there.MADE[kind], kind.files[0]), "rb") as file:
                there.here(self.place, kind).put(kind.files[0], file.read())
            changed = noting.note(self.place, kind, self.sums)
            if changed:
                say(f"{changed[0]} was changed while the program was proved: run this again")
                return False
        words = [self.place.path("dev", "make_library"), "--since", self.sums, "--top", self.folder]
        return not self.is_all or subprocess.run(words, stdin=subprocess.DEVNULL).returncode == 0

    def prove(self, lock):
        """Whether all is proved and built. Where it is, the folder is not needed any more."""
        self.copy()
        if not self.run(lock):
            self.tell_faults()
            return False
        is_taken = self.take()
        if is_taken:
            shutil.rmtree(self.folder, ignore_errors=True)
        return is_taken


def build(place, kind, found):
    """Whether a program is now proved and built from the sources as they are, of which none was found; nothing is proved
    where another launcher has done so meanwhile."""
    def call(lock):
        if there.find(place, kind).build:
            return True
        proof = Proof(place, kind)
        _announce(proof, "the program is proved first")
        return proof.prove(lock)
    _tell_why(found)
    return _alone(call)


def prove(place, kind):
    """Whether a program is proved and built, and all of them and the library where none is named, whatever is there; in the
    end they are compared with what is stored."""
    def call(lock):
        proof = Proof(place, kind)
        _announce(proof, "the program is proved" if kind else "all programs and libraries are proved")
        return proof.prove(lock)
    kinds = (kind,) if kind else [it for it in (*PROGRAMS, LIBRARY) if Sources(place.top, it.roots).below]
    return _alone(call) and all([_is_as_stored(place, it) for it in kinds])


def _alone(call):
    """What the call answers, once no other launcher proves."""
    if not shutil.which("rt"):
        say("it is to be proved and built, and the toolchain's rt is not in the path")
        return False
    try:
        os.makedirs(cache_folder(), exist_ok=True)
        with open(os.path.join(cache_folder(), FOLDER + ".lock"), "w", encoding="ascii") as lock:
            try:
                fcntl.flock(lock, fcntl.LOCK_EX | fcntl.LOCK_NB)
            except OSError:
                say("another launcher proves: this one waits for it")
                fcntl.flock(lock, fcntl.LOCK_EX)
            return call(lock)
    except OSError as fault:
        say(f"the program could not be built: {fault}")
        return False


def _tell_why(found):
    """Says why the program is to be proved."""
    if found.changed:
        more = f" and {len(found.changed) - 1} more" if len(found.changed) > 1 else ""
        say(f"{found.changed[0]}{more} changed since the program was proved")
    if not found.changed or not isinstance(found.fault, release.OtherSources):
        say(str(found.fault))


def _announce(proof, why):
    below = proof.sources.below
    minutes = Estimate(below, side_by_side()).minutes_left((), (), 0)
    say(f"{why}: {counted(len(below), 'crate')}, some {counted(minutes, 'minute')}, less where rt has kept the proofs of some")


def _is_as_stored(place, kind):
    """Whether nothing that was built differs from what is stored; what was compared is told."""
    try:
        wrong, right, why = release.difference(place.top, there.here(place, kind), noting.kit_line())
    except release.Fault as fault:
        say(str(fault))
        return False
    for name in right:
        say(f"{name} is, byte for byte, the one that is stored in release/")
    for name in wrong:
        say(f"{name} is NOT the one that is stored in release/, which states the same kit and sources")
    if why:
        say(f"not compared with what is stored: {why}")
    return not wrong
