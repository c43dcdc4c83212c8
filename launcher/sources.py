"""What a build is made from: the sources of the crates that it needs, and whether they are those of a record.

A record has, for each source, its sum, and the size and times that its file had. Times decide nothing: a file is read
again only where its size or one of its times is not as noted, or where it had just been written when it was noted. Of
crates.txt the lines of these crates count, each by itself, and stand in the record as they are.
"""

import os
import stat
import time

PARTS = ("src", "specs", "proofs")
SUFFIXES = (".rt", ".antt")
HANDLES = "HANDLES"
LINE = "crates.txt:"  # Before a crate's name, the name of its line.
JUST_WRITTEN_NS = 2_000_000_000  # A file system may round times to this.


def lines_of_crates(top):
    """The line of each crate in crates.txt, without comment and needless blanks."""
    try:
        with open(os.path.join(top, "crates.txt"), encoding="utf-8") as file:
            lines = [" ".join(text.partition("#")[0].split()) for text in file]
    except OSError:
        return {}
    heads = ((line.partition(":"), line) for line in lines)
    return {head.split()[0]: line for (head, colon, _), line in heads if colon and head.split()}


class Sources:
    """The sources of some crates of a checkout and of all crates below them, and further files that count as such."""

    def __init__(self, top, roots, more=()):
        self.top, self.more = top, more
        self.lines = lines_of_crates(top)
        self.below = self._in_order(roots)

    def _in_order(self, roots):
        """The crates, each after those below it, with the crates of the repository that it names."""
        named = {name: line.partition(":")[2].split() for name, line in self.lines.items()}
        found = {}

        def put(name):
            if name in named and name not in found:
                for other in named[name]:
                    put(other)
                found[name] = [it for it in named[name] if it in named]

        for root in roots:
            put(root)
        return found

    def names(self):
        """The names of all sources, from the top of the repository."""
        found = [name for name in (HANDLES, *self.more) if os.path.exists(os.path.join(self.top, name))]
        for crate in self.below:
            found.append(LINE + crate)
            for part in PARTS:
                for at, _, names in os.walk(os.path.join(self.top, "crates", crate, part)):
                    place = at[len(self.top):].strip("/")
                    found += [f"{place}/{name}" for name in names if name.endswith(SUFFIXES)]
        return found

    def noted(self):
        """Each source as it is noted now."""
        return {name: self._noted(name) for name in self.names()}

    def _noted(self, name):
        if name.startswith(LINE):
            return [self.lines[name[len(LINE):]], None]
        return noted(os.path.join(self.top, name))

    def of_these(self, entries):
        """Of noted sources, those of these crates."""
        names = set(self.names())
        return {name: entry for name, entry in entries.items() if name in names}

    def compare(self, entries):
        """The names of the sources that are not as noted; entries of others get the stamps that they have now."""
        names = self.names()
        changed = sorted(set(entries) - set(names))
        for name in names:
            is_other = name not in entries
            if not is_other and name.startswith(LINE):
                is_other = entries[name] != self._noted(name)
            elif not is_other:
                is_other, entries[name] = moved(os.path.join(self.top, name), entries[name])
            if is_other:
                changed.append(name)
        return changed

    def sums_by_crate(self, entries):
        """One sum for each crate, of its line and its noted sources in the order of their names; and that of HANDLES."""
        import hashlib
        found = {HANDLES: entries[HANDLES][0]} if HANDLES in entries else {}
        texts = {f"crates/{crate}": self.lines[crate] + "\n" for crate in self.below}
        for name in sorted(entries):
            crate = "/".join(name.split("/")[:2])
            if crate in texts:
                texts[crate] += f"{entries[name][0]}  {name}\n"
        return {**found, **{crate: hashlib.sha256(text.encode()).hexdigest() for crate, text in texts.items()}}


def stamp_of(path):
    """The size and the times of a file, None where it is none."""
    try:
        found = os.stat(path)
    except OSError:
        return None
    return [found.st_size, found.st_mtime_ns, found.st_ctime_ns] if stat.S_ISREG(found.st_mode) else None


def sum_of(path):
    """The SHA-256 sum of a file."""
    import hashlib  # A start that reads no file again does without.
    found = hashlib.sha256()
    with open(path, "rb") as file:
        for piece in iter(lambda: file.read(1 << 20), b""):
            found.update(piece)
    return found.hexdigest()


def noted(path):
    """The sum of a file with its stamp, which is left out where a later change could have the same."""
    now = time.time_ns()
    stamp = stamp_of(path)
    keeps = stamp and max(stamp[1:]) < now - JUST_WRITTEN_NS
    return [sum_of(path), stamp if keeps else None]


def moved(path, entry):
    """Whether the bytes of a file are not the noted ones, and the entry as it should be noted from now on."""
    if entry[1] and stamp_of(path) == entry[1]:
        return False, entry
    try:
        new = noted(path)
    except OSError:
        return True, entry
    return new[0] != entry[0], new
