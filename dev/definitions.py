"""The definitions of specs/: what stands in each file, what each names, and what is reached from some of them.

A scheduler is a function of rows and pointers, and each is proved to decide the one slot of request, grant and accept that
its relation tells. So where a definition names such a function its relation is reached in its place: that is what a reader
knows, and the function computes it.
"""

import pathlib
import re
from typing import NamedTuple

ROOT = pathlib.Path(__file__).resolve().parent.parent

HEAD = re.compile(r"(?:abbrev |unfoldable )?(?:pub )?(?:record |data )?([^\s:(]+)")
BEGINS = re.compile(r"(?:abbrev|unfoldable|pub|record|data)\b")
IMPORTED = re.compile(r"^use Rattle\.(\w+)\.specs\.(\w+)\.\{([^}]*)\}", re.M)
RENAMED_FILE = re.compile(r"^use Rattle\.(\w+)\.specs\.(\w+) as (\w+)", re.M)
WORD = re.compile(r"[^\W\d][\w'-]*(?:\.[\w'-]+)*")


class Place(NamedTuple):
    """A definition: `crate.File`, and its name there."""

    file: str
    name: str


class Definition(NamedTuple):
    """What a definition is called, how many lines it has with its comment, these lines, and those without the comment."""

    name: str
    lines: int
    shown: str
    text: str


# A function that decides, and the relation that says what it decides.
TOLD_BY = {
    Place("eslip_rounds.Decisions", "decision_of"): Place("eslip_rounds.Slots", "IsSlot"),
    Place("firm_rounds.Decisions", "firm_decision"): Place("firm_rounds.Slots", "IsFirmSlot"),
    Place("rrm_rounds.Decisions", "rrm_decision"): Place("rrm_rounds.Slots", "IsRrmSlot"),
}


def definitions(text):
    """The definitions of a file of specs/, by name, in their order: a constructor stands for its type."""
    rows = text.split("\n")
    starts = [at for at, row in enumerate(rows) if BEGINS.match(row)]
    found = {}
    for at, after in zip(starts, [*starts[1:], len(rows)]):
        end, begin = after, at
        while end > at + 1 and (not rows[end - 1].strip() or rows[end - 1].startswith("--")):
            end -= 1
        while begin > 0 and rows[begin - 1].startswith("--"):
            begin -= 1
        one = Definition(HEAD.match(rows[at]).group(1), end - begin, "\n".join(rows[begin:end]), "\n".join(rows[at:end]))
        found.setdefault(one.name, one)
        if "data " in rows[at]:
            constructors = [row.split(" :")[0].split() for row in rows[at + 1 : end] if " : " in row]
            found.update((name, one) for names in constructors for name in names)
    return found


def imports(text):
    """What a file imports from other files of specs/: by its name here the place there; a whole file has no name there."""
    found = {}
    for crate, file, names in IMPORTED.findall(text):
        for name in filter(None, (it.strip() for it in names.split(","))):
            there, _, here = name.partition(" as ")
            found[here or there] = Place(f"{crate}.{file}", there)
    for crate, file, here in RENAMED_FILE.findall(text):
        found[here] = Place(f"{crate}.{file}", None)
    return found


class Specs:
    """The definitions of all crates."""

    def __init__(self, root=ROOT):
        texts = {f"{it.parent.parent.name}.{it.stem}": it.read_text(encoding="utf-8") for it in sorted(root.glob("crates/*/specs/*.antt"))}
        self.defined = {file: definitions(text) for file, text in texts.items()}
        self.imported = {file: imports(text) for file, text in texts.items()}

    def at(self, place):
        """The definition at a place."""
        return self.defined[place.file][place.name]

    def meant(self, file, word):
        """The place of the definition that a word of a file means, None of any other word."""
        first, _, rest = word.partition(".")
        if first in self.defined[file]:
            return Place(file, self.defined[file][first].name)
        other, name = self.imported[file].get(first, (None, None))
        name = name or rest.split(".")[0]
        return Place(other, self.defined[other][name].name) if name in self.defined.get(other, {}) else None

    def named_by(self, place):
        """The definitions that a definition rests on, in the order in which it names them."""
        if place in TOLD_BY:
            return [TOLD_BY[place]]
        found = (self.meant(place.file, word) for word in WORD.findall(self.at(place).text))
        return [it for it in dict.fromkeys(found) if it not in (None, place)]

    def reached(self, roots):
        """The definitions that some rest on, and they: each is followed by what it rests on and nothing before it does."""
        found, left = {}, [*reversed(roots)]
        while left:
            here = left.pop()
            if here not in found:
                found[here] = None
                left += reversed(self.named_by(here))
        return list(found)
