#!/usr/bin/env python3
"""Builds the archive of a static library over libraries that `rt ci` has proved and built, which are not proved again.

    dev/proved_archive.py CRATE --since FILE [--top FOLDER]

`rt ci` checks a static library and builds none; what it builds of the libraries below stays in crates/*/out/rlib. It
makes each of these folders anew, and where an earlier check had left one it puts that back in the end. So a folder
that is newer than FILE, which was written before `rt ci` began, is of that run; where one is not, all is left to
`rt lib`, which proves what it has not proved itself. The crate's own functions are proved either way. The archive is
crates/CRATE/out/libCRATE.a, where `rt lib` has it; FOLDER has the crates, where they are not those of this checkout.
"""

import argparse
import os
import shutil
import subprocess
import sys
from pathlib import Path

TOP = Path(__file__).resolve().parent.parent


class Fault(Exception):
    """Why there is no archive; the message is for the user."""


def kit_of_path():
    """The folder of the toolchain whose rt is in the path, or None."""
    rt = shutil.which(os.environ.get("RT", "rt"))
    return rt and Path(rt).resolve().parent.parent


def call(words, folder):
    """Runs a command, and shows what it said where it fails."""
    ran = subprocess.run([str(word) for word in words], cwd=folder, stdout=subprocess.PIPE, stderr=subprocess.STDOUT, text=True)
    if ran.returncode:
        print(ran.stdout)
        raise Fault(f"{Path(words[0]).name} {words[1]} failed with status {ran.returncode}")


class Crates:
    """The crates of a checkout, or of a copy of its crates, each with those that it names."""

    def __init__(self, top=TOP):
        self.top = top
        self.named, self.static = {}, set()
        for line in (top / "crates.txt").read_text().splitlines():
            name, colon, below = line.split("#")[0].partition(":")
            if colon:
                self.named[name.split()[0]] = below.split()
                self.static |= {name.split()[0]} if "staticlib" in name.split() else set()

    def all_below(self, name):
        """The repository's crates below one, in some order."""
        found = {}
        for below in self.named[name]:
            if below in self.named:
                found.update({below: None, **dict.fromkeys(self.all_below(below))})
        return list(found)

    def folder(self, name):
        """The folder of a library that was built."""
        return self.top / "crates" / name / "out/rlib"

    def are_built_since(self, file, names):
        """Whether each of these libraries was built since the file was written."""
        began = os.stat(file).st_mtime_ns
        folders = {name: self.folder(name) for name in names}
        return all((it / f"{name}.rlib/format").is_file() and it.stat().st_mtime_ns > began for name, it in folders.items())

    def prove_below(self, crate):
        """Proves and builds the libraries below the crate by `rt lib`, where that is not done yet."""
        named = [it for it in self.named[crate] if it in self.named]
        for name in named:
            if not any(name in self.all_below(other) for other in named):
                call([os.environ.get("RT", "rt"), "lib"], self.top / "crates" / name)

    def words(self, kit, verb, crate):
        """The words of the prover for a crate, in whose folder it is started, over the libraries below as they are built."""
        root = "src/main.rt" if (self.top / "crates" / crate / "src/main.rt").exists() else "src/lib.rt"
        words = [kit / "bin/rattle", verb, "--crate-name", crate, root]
        words += [word for name in ("core", "std") for word in ("--extern", f"{name}={kit}/rlibs/{name}.rlib")]
        for name in self.named[crate]:
            folder = self.folder(name) if name in self.named else f"{kit}/rlibs"
            words += ["--extern", f"{name}={folder}/{name}.rlib"]
        for folder in (*map(self.folder, self.all_below(crate)), kit / "rlibs"):
            words += ["-L", f"dependency={folder}"]
        words += ["--antt-project", kit / "rattle/logic/antt-project.json", "--logic-built", kit / "logic_built"]
        words += ["--crate-type", "staticlib"] if crate in self.static else []
        return [*words, "--jobs", "1", "--links", f"{crate}="]

    def build_words(self, kit, crate, archive, target):
        """The words that build a static library's archive, for x86-64 where no target is named."""
        words = [*self.words(kit, "build", crate), "--incremental", "out/incremental"]
        words += ["--target", target] if target else ["--backend", "llvm"]
        return [*words, "--toolchain", kit / "toolchain", "-o", archive]


def build(kit, crate, archive, since, target=None, top=TOP):
    """Builds the crate's archive over the libraries of the `rt ci` that began after the file `since` was written, or, with
    None, over those that `rt lib` builds."""
    crates = Crates(top)
    if since is None or not crates.are_built_since(since, crates.all_below(crate)):
        crates.prove_below(crate)
    call(crates.build_words(kit, crate, archive, target), top / "crates" / crate)


def main():
    parser = argparse.ArgumentParser(description=__doc__, formatter_class=argparse.RawDescriptionHelpFormatter)
    parser.add_argument("crate")
    parser.add_argument("--since", metavar="FILE", required=True, help="what was written before rt ci began")
    parser.add_argument("--top", metavar="FOLDER", type=Path, default=TOP, help="where the crates are")
    given = parser.parse_args()
    top = given.top.absolute()
    try:
        kit = kit_of_path()
        if kit is None:
            raise Fault("the toolchain's rt is not in the path")
        archive = top / "crates" / given.crate / f"out/lib{given.crate}.a"
        archive.parent.mkdir(exist_ok=True)
        build(kit, given.crate, archive, given.since, top=top)
    except (Fault, OSError) as fault:
        print(f"dev/proved_archive.py: {fault}")
        return 1
    return 0


if __name__ == "__main__":
    sys.exit(main())
