#!/usr/bin/env python3
"""Tries an installed library as a user does who has nothing but the installed files, in a folder of one's own.

    tests/library/installed.py PREFIX c          the first program of docs/EMBEDDING.md, in C
    tests/library/installed.py PREFIX ctypes     the slots of that program, by ctypes
    tests/library/installed.py PREFIX package    the first program of python/README.md, by a copy of the package

Program and command are read out of the pages, and what the program must print too. Says what went well, or exits with 1.
"""

import ast
import os
import re
import shutil
import subprocess
import sys
import tempfile
from pathlib import Path

from rows import NONE, ByCtypes

TOP = Path(__file__).resolve().parents[2]
PAGE = TOP / "docs/EMBEDDING.md"
PACKAGE_PAGE = TOP / "python/README.md"
STATED = re.compile(r"prints that slots 0 to \d+ match ([\d, and]+) outputs")
PORTS = 3  # Of the program in C.
SHARED = b"libtiny_tera.so.1"  # What a program names that the loader is to find.


class Fault(Exception):
    """What does not go as the pages say."""


def block(page, kind, words=""):
    """The first block of a page that is of this kind and has these words."""
    for text in re.findall(rf"^```{kind}\n(.*?)^```$", page.read_text(encoding="utf-8"), re.M | re.S):
        if words in text:
            return text
    raise Fault(f"{page.relative_to(TOP)} has no block of {kind} with {words!r}")


def stated():
    """How many outputs each slot of the program in C matches, as the page says."""
    found = STATED.search(PAGE.read_text(encoding="utf-8"))
    if not found:
        raise Fault(f"{PAGE.relative_to(TOP)} does not say what its first program prints")
    return [int(it) for it in re.findall(r"\d+", found[1])]


def run(words, room, prefix):
    """What a command prints in the folder, where only compiler, loader and pkg-config know of the prefix."""
    paths = {"PKG_CONFIG_PATH": str(prefix / "lib/pkgconfig"), "LD_LIBRARY_PATH": str(prefix / "lib")}
    ignored = ("TINY_TERA_LIBRARY", "PYTHONPATH", "CPATH", "LIBRARY_PATH")
    places = {**{name: it for name, it in os.environ.items() if name not in ignored}, **paths}
    ran = subprocess.run(words, cwd=room, env=places, stdout=subprocess.PIPE, stderr=subprocess.STDOUT, universal_newlines=True)
    if ran.returncode:
        raise Fault(f"{' '.join(map(str, words))} ended with status {ran.returncode}: {ran.stdout}")
    return ran.stdout


def compare(what, wanted, found):
    if wanted != found:
        raise Fault(f"{what}: {wanted} is stated, and {found} came")


def try_c(prefix, room):
    """Compiles and runs the page's program: by the page's command, and over the archive."""
    (room / "first.c").write_text(block(PAGE, "c"), encoding="utf-8")
    lines = [f"slot {slot} matches {count} of {PORTS}" for slot, count in enumerate(stated())]
    archive = f"cc first.c $(pkg-config --cflags tiny_tera) '{prefix}/lib/libtiny_tera.a' -o first"
    for command, is_shared in ((block(PAGE, "sh", "pkg-config").strip(), True), (archive, False)):
        run(["sh", "-c", command], room, prefix)
        compare(command, lines, run(["./first"], room, prefix).splitlines())
        compare(f"{command}: over the shared object", is_shared, SHARED in (room / "first").read_bytes())


def try_ctypes(prefix, _):
    """Decides the slots of the page's program, each port with all queues of level 0 full."""
    library = ByCtypes(prefix / "lib/libtiny_tera.so")
    rows, pointers = [(1 << PORTS) - 1, *[0] * 7] * PORTS, [0] * 516
    for slot, count in enumerate(stated()):
        status, *words = library.decide(PORTS, 1, slot, rows, pointers)
        inputs, pointers = [it for it in words[: 3 * PORTS : 3] if it != NONE], words[-516:]
        compare(f"slot {slot} by ctypes", (0, count, count), (status, len(inputs), len(set(inputs))))


def try_package(prefix, room):
    """Runs the example of the package's page. Its ports are full, so each slot matches one port more, up to all."""
    shutil.copytree(TOP / "python/tiny_tera", room / "tiny_tera", ignore=shutil.ignore_patterns("__pycache__"))
    (room / "first.py").write_text(block(PACKAGE_PAGE, "python"), encoding="utf-8")
    slots = [ast.literal_eval(line) for line in run([sys.executable, "first.py"], room, prefix).splitlines()]
    compare("pairs of python/README.md's slots", [min(slot + 1, 4) for slot in range(5)], [len(it) for it in slots])


WAYS = {"c": try_c, "ctypes": try_ctypes, "package": try_package}


def main():
    if len(sys.argv) != 3 or sys.argv[2] not in WAYS:
        sys.exit(__doc__)
    try:
        with tempfile.TemporaryDirectory(prefix="installed-library-") as room:
            WAYS[sys.argv[2]](Path(sys.argv[1]).resolve(), Path(room))
    except (Fault, OSError) as fault:
        print(f"tests/library/installed.py, {sys.argv[2]}: {fault}")
        return 1
    print(f"tests/library/installed.py, {sys.argv[2]}: as the page says")
    return 0


if __name__ == "__main__":
    sys.exit(main())
