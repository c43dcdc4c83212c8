"""What dev/wrong_bodies writes of a crate into its file `wrong/tried.txt`, and whether that is still so.

A record has the kit, sums of the crate's own text and of its proofs, a sum of what is stated in each crate below (its
`specs/` and the contracts of its sources), and for each edit a sum of its file, the function that it changes and what
refused it. Comments are in none of these sums. Kits of one logic prove and refuse the same, so a record holds for each
of them. It holds for other proofs of the same text too: no proof makes a body meet a contract that it does not meet.
Only what refused may have another name then.
"""

import hashlib
from pathlib import Path
from typing import NamedTuple

from proved_archive import Crates
from source_functions import COMMENT, stated
from wrong_edits import crates_with_edits, edits_of

HEADING = "# What refused each wrong body; written by dev/wrong_bodies. The sums are of the texts that were tried.\n"
SHOWN = 12  # Digits of a sum.


class Row(NamedTuple):
    """An edit, a sum of its file, the function that it changes, and what refused it."""

    name: str
    sum: str
    function: str
    refusal: str


class Record(NamedTuple):
    """What was tried of a crate, and over which texts."""

    kit: str
    text: str
    proofs: str
    below: dict
    rows: list


def sum_of(texts):
    """A sum of texts with their names."""
    found = hashlib.sha256()
    for name, text in texts:
        found.update(f"{name} {len(text)}\n{text}".encode())
    return found.hexdigest()[:SHOWN]


def texts_of(folder, parts):
    """The texts of these folders of a crate, by their paths in it."""
    files = sorted(file for part in parts for suffix in ("rt", "antt") for file in (folder / part).rglob(f"*.{suffix}"))
    return [(file.relative_to(folder).as_posix(), file.read_text(encoding="utf-8")) for file in files]


def without_comments(text):
    """A text without its lines that are comments."""
    return "\n".join(it for it in text.split("\n") if not COMMENT.match(it))


def own_sum(folder):
    """A sum of a crate's own code, contracts and definitions, without comments."""
    return sum_of((name, without_comments(text)) for name, text in texts_of(folder, ("src", "specs")))


def proofs_sum(folder):
    """A sum of a crate's own proofs, without comments."""
    return sum_of((name, without_comments(text)) for name, text in texts_of(folder, ("proofs",)))


def stated_sum(folder):
    """A sum of what the crates above can know of a crate: its definitions and its contracts."""
    specs = [(name, without_comments(text)) for name, text in texts_of(folder, ("specs",))]
    return sum_of(specs + [(name, stated(text)) for name, text in texts_of(folder, ("src",))])


def below_sums(top, name):
    """For each crate below one the sum of what is stated in it."""
    return {it: stated_sum(top / "crates" / it) for it in sorted(Crates(top).all_below(name))}


def file_of(folder):
    """Where the record of a crate stands."""
    return folder / "wrong/tried.txt"


def write_record(folder, record):
    """Writes the record of a crate."""
    lines = [f"kit {record.kit}", f"text {record.text}", f"proofs {record.proofs}", *(f"below {name} {sum}" for name, sum in record.below.items())]
    lines += ["edit " + " ".join(row) for row in sorted(record.rows)]
    file_of(folder).parent.mkdir(exist_ok=True)
    file_of(folder).write_text(HEADING + "".join(f"{line}\n" for line in lines), encoding="utf-8")


def read_record(folder):
    """The record of a crate, None where there is none that can be read."""
    if not file_of(folder).is_file():
        return None
    found = {"kit": "", "text": "", "proofs": "", "below": {}, "edit": []}
    for line in file_of(folder).read_text(encoding="utf-8").splitlines():
        word, _, rest = line.partition(" ")
        if word == "below":
            found["below"].update([rest.split(" ")])
        elif word == "edit":
            found["edit"].append(Row(*rest.split(" ", 3)))
        elif word in found:
            found[word] = rest
    return Record(found["kit"], found["text"], found["proofs"], found["below"], found["edit"])


def logic_of(kit):
    """The words by which a kit's line names its logic, which are those from `logic` on, or the whole line where it names none."""
    before, word, rest = kit.partition("logic ")
    return word + rest if word else before


def fault_of(top, name, kit):
    """Why the record of a crate is not of the present texts and logic, none where it is. The kit is None where there is none to compare with."""
    folder = top / "crates" / name
    record = read_record(folder)
    if record is None:
        return "its wrong bodies were never tried"
    if kit is not None and logic_of(kit) != logic_of(record.kit):
        return f"they were tried with another logic, that of {record.kit}"
    if record.text != own_sum(folder):
        return "it changed since they were tried"
    if {row.name: row.sum for row in record.rows} != {edit.name: edit.sum for edit in edits_of(folder)}:
        return "other wrong bodies were tried than it has"
    below = below_sums(top, name)
    other = sorted(it for it in {*below, *record.below} if below.get(it) != record.below.get(it))
    return f"what is stated in {', '.join(other)} changed since they were tried" if other else ""


def is_old(top, name, kit):
    """Whether the edits of a crate are tried again where none is named: also where its proofs alone changed."""
    folder = Path(top) / "crates" / name
    return bool(fault_of(Path(top), name, kit)) or read_record(folder).proofs != proofs_sum(folder)


def untried(top):
    """The crates that have edits and no record."""
    return [name for name in crates_with_edits(top) if read_record(Path(top) / "crates" / name) is None]


def faults(top, kit):
    """A line for each crate whose record is not of the present texts and logic."""
    found = {name: fault_of(Path(top), name, kit) for name in crates_with_edits(top) if name not in untried(top)}
    return [f"crates/{name}: {fault}: dev/wrong_bodies {name}" for name, fault in found.items() if fault]
