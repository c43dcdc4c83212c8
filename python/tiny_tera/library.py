"""Finds and loads the shared object whose functions are proved, and says how each is called."""

from __future__ import annotations

import ctypes
import os
import shutil
import subprocess
import sys
from functools import lru_cache
from pathlib import Path

VERSION = 1
NAME = "libtiny_tera.so"
# A path to the shared object, which goes before all other places.
VARIABLE = "TINY_TERA_LIBRARY"

DONE, REFUSED, NO_MEMORY = 0, 1, 2

_WORD = ctypes.c_uint32
_ADDRESS = ctypes.c_void_p
# A slice is passed as the address of its first element and the count of its elements.
_SLICE = (ctypes.c_void_p, ctypes.c_size_t)
_SLOT = (_WORD, _WORD, _WORD, *_SLICE, _ADDRESS, *_SLICE, _ADDRESS)
_SLOTS = (_WORD, _WORD, _WORD, *_SLICE, _ADDRESS, *_SLICE, *_SLICE)

_ARGUMENTS = {
    "tiny_tera_version": (),
    "tiny_tera_islip_slot": (_WORD, _WORD, *_SLICE, *_SLICE, *_SLICE, *_SLICE, _ADDRESS),
    "tiny_tera_decide": _SLOT,
    "tiny_tera_decide_firm": _SLOT,
    "tiny_tera_decide_rrm": _SLOT,
    "tiny_tera_decide_many": _SLOTS,
    "tiny_tera_decide_many_firm": _SLOTS,
    "tiny_tera_decide_many_rrm": _SLOTS,
    "tiny_tera_is_maximal": (_WORD, *_SLICE, *_SLICE, _ADDRESS),
    "tiny_tera_note_waits": (_WORD, *_SLICE, *_SLICE, *_SLICE, *_SLICE),
    "tiny_tera_check_journal": (*_SLICE, _ADDRESS),
}


class NoLibrary(OSError):
    """The shared object is not there."""


class OtherLibrary(NoLibrary):
    """The shared object is there, and lacks functions of this version or is of another one."""


class Refused(ValueError):
    """The library refused a call, since a number that it was passed is out of range; nothing has changed."""


def places() -> list[str]:
    """Where the shared object is looked for: the variable TINY_TERA_LIBRARY alone, if it is set; else beside this package,
    in the repository that this package stands in, where the system's loader looks, and in the prefixes below."""
    if os.environ.get(VARIABLE):
        return [os.environ[VARIABLE]]
    package = Path(__file__).resolve().parent
    installed = f"{NAME}.{VERSION}"
    here = [package / NAME, *of_repository(package.parent.parent)]
    below = [prefix / "lib" / installed for prefix in _prefixes(package)]
    return [*_there(here), installed, NAME, *_there(below)]


def of_repository(top: Path) -> list[Path]:
    """The one that was built there, else the stored one, of the sources as they are: its launcher says where."""
    if not (top / "crates.txt").is_file() or not (top / "tiny_tera").is_file():
        return []
    ran = subprocess.run([top / "tiny_tera", "--library"], stdin=subprocess.DEVNULL, stdout=subprocess.PIPE, text=True)
    return [Path(ran.stdout.rstrip("\n"), NAME)] if ran.returncode == 0 else []


def _prefixes(package: Path) -> list[Path]:
    """What `make install-library` may have been given as PREFIX: where Python stands, where this package was installed to
    (PREFIX/lib/pythonX/site-packages), where the program is that a shell finds, and what it takes if none is given."""
    program = shutil.which("tiny_tera")
    found = [Path(sys.prefix), *package.parents[3:4], *([Path(program).parent.parent] if program else []), Path("/usr/local")]
    return list(dict.fromkeys(found))


def _there(files: list[Path]) -> list[str]:
    return [str(file) for file in files if file.is_file()]


@lru_cache(maxsize=None)
def load() -> ctypes.CDLL:
    """The shared object, loaded once, with the types of the arguments of its functions; NoLibrary where there is none."""
    found = _first()
    try:
        for name, arguments in _ARGUMENTS.items():
            function = getattr(found, name)
            function.argtypes, function.restype = arguments, _WORD
    except AttributeError as fault:
        raise OtherLibrary(f"{found._name} is not of version {VERSION}: {fault}") from None
    if found.tiny_tera_version() != VERSION:
        raise OtherLibrary(f"{found._name} is of version {found.tiny_tera_version()} and not {VERSION}")
    return found


def _first() -> ctypes.CDLL:
    faults = []
    for place in places():
        try:
            return ctypes.CDLL(place)
        except OSError as fault:
            faults.append(str(fault))
    raise NoLibrary("; ".join([*faults, f"{VARIABLE} may name the file, and `make install-library` installs it"]))


def check(status: int) -> None:
    """Raises Refused or MemoryError where a call answered so."""
    if status == REFUSED:
        raise Refused("a number is out of range")
    if status == NO_MEMORY:
        raise MemoryError("the library got no memory")
