"""Which program and which library are there, made from the sources as they are: one that was proved and built here comes
first, else the one that is stored in release/, which is unpacked once."""

import os
import zlib
from typing import NamedTuple

from .builds import INSTALLED, LIBRARY, PROGRAM, SIMULATION, Build
from .place import Place, cache_folder
from .release import FOLDER, STATEMENT, Fault, unpack

# Where each kind is built in a checkout, and where the stored ones are unpacked.
MADE = {PROGRAM: ("crates", "tiny_tera", "out"), SIMULATION: ("crates", "simulate", "out"), LIBRARY: ("out",)}
UNPACKED = ("out", "stored")
VARIABLE = "TINY_TERA"
VARIABLES = {PROGRAM: VARIABLE, SIMULATION: "SIMULATE"}  # That name a program to tools and tests.


class Found(NamedTuple):
    """The build that is there, and whether it is the stored one. Where there is none, the sources that changed since one
    was built here, None where nothing is known of one, and why the stored one is not taken."""

    build: Build
    is_stored: bool = False
    changed: list = None
    fault: Fault = None


def of_clone(place):
    """The folder for what belongs to a clone that cannot be written."""
    return os.path.join(cache_folder(), f"{os.path.basename(place.top)}-{zlib.crc32(os.fsencode(place.top)):08x}")


def built(place, kind):
    """What was built here: in the checkout, or, where that cannot be written, outside of it."""
    if place.is_installed:
        return [Build(INSTALLED[kind], place.top, place.top)]
    return [Build(kind, place.top, folder) for folder in (place.path(*MADE[kind]), os.path.join(of_clone(place), "built"))]


def here(place, kind):
    """Where a kind is built here."""
    builds = built(place, kind)
    return next((it for it in builds if to_write(it.folder)), builds[0])


def unpacked(place, kind):
    """What was unpacked of release/."""
    folders = place.path(*UNPACKED), os.path.join(of_clone(place), "stored")
    return [Build(kind, place.top, folder, [f"{FOLDER}/{STATEMENT}"]) for folder in folders]


def find(place, kind):
    """What is there of a kind."""
    builds = built(place, kind)
    changes = [it.changes() for it in builds]
    if [] in changes:
        return Found(builds[changes.index([])])
    if place.is_installed:
        return Found(None)
    try:
        return Found(_stored(place, kind), True)
    except Fault as fault:
        return Found(None, changed=next((it for it in changes if it), None), fault=fault)


def _stored(place, kind):
    """What is stored, unpacked where it is not yet; Fault where it cannot be had."""
    builds = unpacked(place, kind)
    for build in builds:
        if build.changes() == []:
            return build
    for build in builds:
        if to_write(build.folder):
            try:
                unpack(build, place.top)
            except OSError as fault:
                raise Fault(f"what is stored cannot be unpacked: {fault}") from None
            return build
    raise Fault("what is stored cannot be unpacked: neither {} nor {} can be written".format(*(it.folder for it in builds)))


def to_write(folder):
    """Whether a folder can be written, which is made where it is not there."""
    try:
        os.makedirs(folder, exist_ok=True)
    except OSError:
        return False
    return os.access(folder, os.W_OK)


def program(top, kind=PROGRAM):
    """The program that tools run: that of its variable, as TINY_TERA, else the one that is there; where none is made from
    the sources as they are, the one that was built last."""
    from pathlib import Path  # A start does without.
    if os.environ.get(VARIABLES[kind]):
        return Path(os.environ[VARIABLES[kind]]).resolve()
    place = Place(str(top))
    build = find(place, kind).build
    return Path(build.path if build else os.path.join(place.path(*MADE[kind]), kind.files[0]))
