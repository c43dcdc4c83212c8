"""What a file is that is no journal."""

import os

from .capture_hints import converted, first_bytes, is_capture, kind_of

MAGIC = b"TTJ1"
WANTED = "a journal is what run --journal writes"
OTHERS = {
    b"ports ": f"a report; {WANTED}", b"input,packet,": f"a packets file; {WANTED}",
    b"journal ports ": "the text of a journal; tools/journal make TEXT JOURNAL makes the journal of it",
}


def on_journal(name, at):
    """What is to be said of a file whose first bad field as a journal begins at this byte, None where that is not known."""
    begin = first_bytes(name, 16)
    if is_capture(name):
        kind = kind_of(name)
        if kind and kind[1].endswith("> OUT"):
            command = converted(kind[1], name, ".unpacked", ".journal")
            return f"{name} {kind[0]}: {command}"
        return f"{name} is a capture; {WANTED}"
    for front, what in OTHERS.items():
        if begin.startswith(front):
            return f"{name} is {what}"
    if not begin:
        return f"{name} is empty" if os.path.isfile(name) else None
    if not begin.startswith(MAGIC):
        return f"{name} does not begin with the bytes TTJ1; {WANTED}"
    return f"{name} ends at byte {at}, before its last slot does" if at == os.path.getsize(name) else None
