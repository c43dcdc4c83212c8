"""What is stored in release/: the programs and the library, packed, with the statement of what they were made from."""

import os
from typing import NamedTuple

from .builds import LIBRARY, PROGRAM, SIMULATION

FOLDER, STATEMENT = "release", "made_from.txt"
KINDS = (PROGRAM, SIMULATION, LIBRARY)
FILES = tuple(name for kind in KINDS for name in kind.files)
SHARED = LIBRARY.files[1]
TOOLS = ("cc", "ld")  # What links the shared object, beside the kit.

HEAD = """\
# What the files beside this one were made from, by the gate: dev/make_release writes them, and the gate compares them with
# what it has built. A sum is that of sha256sum; of a file that was made, unpacked. The sum of a crate is that of its line in
# crates.txt and of the lines that sha256sum prints at the top of the repository for all .rt and .antt files in its folders
# src, specs and proofs, in the order of their names.
"""


class Fault(Exception):
    """Why what is stored cannot be taken; the message is for the user."""


class OtherSources(Fault):
    """What is stored, if anything, was not made from the sources as they are."""


class Statement(NamedTuple):
    """What made_from.txt states: the kit, the first lines of cc and ld, the sums of what was made and of the sources."""

    kit: str
    tools: dict
    made: dict
    sources: dict

    def text(self):
        lines = [f"kit: {self.kit}", *(f"{name}: {line}" for name, line in self.tools.items())]
        lines += [f"made: {found}  {name}" for name, found in self.made.items()]
        lines += [f"source: {found}  {name}" for name, found in self.sources.items()]
        return HEAD + "\n".join(lines) + "\n"

    def differing(self, sums):
        """The names of the sources that are not as stated."""
        return [name for name, found in sums.items() if self.sources.get(name) != found]


def path_of(top, name):
    return os.path.join(top, FOLDER, name)


def read_statement(top):
    """What is stated, None where nothing is stored."""
    try:
        with open(path_of(top, STATEMENT), encoding="utf-8") as file:
            lines = [line.rstrip("\n").partition(": ") for line in file if not line.startswith("#")]
    except (OSError, ValueError):
        return None
    first = {head: rest for head, _, rest in lines}
    made, sources = ({name: found for found, _, name in (rest.partition("  ") for head, _, rest in lines if head == kind)} for kind in ("made", "source"))
    return Statement(first.get("kit", ""), {name: first[name] for name in TOOLS if name in first}, made, sources)


def packed(name):
    return name + ".xz"


def unpacked(top, name, statement):
    """The bytes of a stored file; Fault where they are not those that are stated."""
    place = f"{FOLDER}/{packed(name)}"
    try:
        import hashlib
        import lzma
        with open(os.path.join(top, place), "rb") as file:
            data = lzma.decompress(file.read())
    except ImportError:
        raise Fault(f"{place} cannot be unpacked: this Python has no module lzma") from None
    except (OSError, lzma.LZMAError) as fault:
        raise Fault(f"{place} cannot be unpacked: {getattr(fault, 'strerror', None) or fault}") from None
    if hashlib.sha256(data).hexdigest() != statement.made.get(name):
        raise Fault(f"{place} is not what {FOLDER}/{STATEMENT} states")
    return data


def unpack(build, top):
    """Unpacks what is stored into the folder of a build, where it was made from the sources as they are; Fault where not."""
    statement = read_statement(top)
    if statement is None:
        raise OtherSources(f"nothing is stored in {FOLDER}/")
    entries = build.sources.noted()
    others = statement.differing(build.sources.sums_by_crate(entries))
    if others:
        raise OtherSources(f"{FOLDER}/ was made from other sources of {others_text(others)}")
    for name in build.kind.files:
        build.put(name, unpacked(top, name, statement))
    build.note(entries, kit=statement.kit, stored=True)


def others_text(names):
    """The first of some crates, and how many more there are."""
    first = names[0].rpartition("/")[2]
    return first + (f" and {len(names) - 1} more" if len(names) > 1 else "")


def difference(top, build, kit):
    """How a build is compared with what is stored: what is not as stored, what is, and what was not compared and why."""
    statement = read_statement(top)
    if statement is None:
        return [], [], f"nothing is stored in {FOLDER}/"
    if statement.kit != kit:
        return [], [], f"{FOLDER}/ was made with {statement.kit}, and here is {kit}"
    others = statement.differing(build.sources.sums_by_crate(build.said()["sources"]))
    if others:
        return [], [], f"{FOLDER}/ was made from other sources of {others_text(others)}"
    return compared(top, build, statement)


def compared(top, build, statement):
    """Compares each file byte for byte; the shared object only where cc and ld are those that are stated."""
    wrong, right, skipped = [], [], []
    tools = build.said().get("tools", {})
    for name in build.kind.files:
        if name not in build.files():
            skipped.append(f"{name} was not built")
        elif name == SHARED and tools != statement.tools:
            other = next(it for it in TOOLS if tools.get(it) != statement.tools.get(it))
            skipped.append(f"{name} was linked with {statement.tools.get(other)}, and here with {tools.get(other)}")
        else:
            with open(os.path.join(build.folder, name), "rb") as file:
                is_same = file.read() == unpacked(top, name, statement)
            (right if is_same else wrong).append(name)
    return wrong, right, "; ".join(skipped)
