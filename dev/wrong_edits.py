"""The wrong bodies of crates: how an edit is read, which functions it changes, and which edits one check can try.

An edit is a file of a crate's folder `must-fail`, which the gate tries, or `wrong`, which dev/wrong_bodies alone
tries: a line `file: PATH`, then pairs of lines `old: TEXT` and `new: TEXT`. Each old text stands once in its file.
"""

import hashlib
from pathlib import Path
from typing import NamedTuple

from source_functions import functions_of

FOLDERS = ("must-fail", "wrong")


class BadEdit(Exception):
    """Why an edit cannot be applied."""


class Change(NamedTuple):
    """What an edit puts in the place of one text of a file of the crate."""

    path: str
    old: str
    new: str


class Edit(NamedTuple):
    """A wrong body: the crate's folder and its own name there, its changes, and a sum of its file."""

    crate: str
    name: str
    changes: tuple
    sum: str


def read_edit(file):
    """Reads the file of an edit."""
    path, old, changes = "", "", []
    text = file.read_text(encoding="utf-8")
    for line in text.split("\n"):
        if line.startswith("file: "):
            path = line[len("file: "):].strip()
        elif line.startswith("old: "):
            old = line[len("old: "):]
        elif line.startswith("new:"):
            new = line[len("new:"):]
            changes.append(Change(path, old, new[1:] if new.startswith(" ") else new))
    sum = hashlib.sha256(text.encode()).hexdigest()[:12]
    return Edit(file.parent.parent.name, f"{file.parent.name}/{file.stem}", tuple(changes), sum)


def edits_of(folder):
    """The edits of the crate in a folder, in the order of their names."""
    return [read_edit(file) for part in FOLDERS for file in sorted((folder / part).glob("*.edit"))]


def changed(texts, edit, folder):
    """The texts of the crate's files with an edit besides, by their paths; BadEdit where it cannot be applied to them."""
    found = dict(texts)
    if not edit.changes:
        raise BadEdit("it has no pair of lines 'old: ' and 'new: '")
    for path, old, new in edit.changes:
        if path not in found:
            if not (folder / path).is_file():
                raise BadEdit(f"there is no file {path}")
            found[path] = (folder / path).read_text(encoding="utf-8")
        if found[path].count(old) != 1:
            raise BadEdit(f"an old text is in {path} {found[path].count(old)} times, and not once")
        found[path] = found[path].replace(old, new)
    return found


def functions_changed(edit, folder):
    """The functions in whose bodies an edit changes something, as the file and the name of each, with None for what is in no body."""
    found, texts = set(), {}
    for change in edit.changes:
        text = texts.get(change.path) or (folder / change.path).read_text(encoding="utf-8")
        lines = text.split("\n")
        number = text[:text.index(change.old)].count("\n") if change.old in text else 0
        inside = [it.name for it in functions_of(lines) if it.begin <= number < it.end]
        found.add((change.path, inside[-1]) if inside and change.path.endswith(".rt") else None)
        texts[change.path] = text.replace(change.old, change.new)
    return found


def function_of(edit, folder):
    """The one function in whose body all of an edit is, as its file and name; None where it is in no body or in several."""
    found = functions_changed(edit, folder)
    return found.pop() if len(found) == 1 else None


def rounds_of(edits, folder):
    """The edits in as few lists as a check of each list can judge: one edit for each function, and an edit of more than one body alone."""
    rounds, alone = [], []
    for edit in edits:
        function = function_of(edit, folder)
        if function is None:
            alone.append([edit])
            continue
        for functions, listed, texts in rounds:
            if function not in functions and _fits(texts, edit, folder):
                break
        else:
            functions, listed, texts = set(), [], {}
            rounds.append((functions, listed, texts))
        functions.add(function)
        listed.append(edit)
        texts.update(changed(texts, edit, folder))
    return [listed for _, listed, _ in rounds] + alone


def _fits(texts, edit, folder):
    """Whether an edit can be applied beside others."""
    try:
        changed(texts, edit, folder)
    except BadEdit:
        return False
    return True


def crates_with_edits(top):
    """The names of the crates that have edits."""
    folders = {file.parent.parent.name for part in FOLDERS for file in Path(top).glob(f"crates/*/{part}/*.edit")}
    return sorted(folders)
