"""A small repository with a made-up toolchain and program, in a folder whose name has a blank."""

import os
import shutil
import struct
import subprocess
import sys
import tempfile
import unittest
from pathlib import Path

from launcher import there

TOP = Path(__file__).resolve().parent.parent.parent
# The proved program, where one is there: what the made-up one is told to say is compared with what it says.
PROGRAM = there.program(TOP)
NO_TOOLCHAIN = "/usr/bin:/bin"  # As the path.
KIT = "rattle-kit-test logic 0123456789abcdef"
USAGE_LINE = (
    "usage: tiny_tera run [options] TABLE PREFIX INPUT.. or tiny_tera gen [options] SEED COUNT PORTS"
    " or tiny_tera check FILE or tiny_tera firm [options] TABLE INPUT.."
)
CRATES = """\
# Crates
lower:
upper: lower hex
tiny_tera: upper
simulate: lower
scheduler_c staticlib: lower  # For C.
journal_c staticlib: lower
beside: lower
all_tests tests_may=Threads: lower
"""
SOURCES = {
    ".gitignore": "out/\n__pycache__/\n",
    "HANDLES": "Handles allowed: Threads, Wait.\n",
    "crates.txt": CRATES,
    "crates/lower/src/lib.rt": "// lower\n",
    "crates/lower/proofs/walk/Proof.antt": "-- a proof\n",
    "crates/lower/must-fail/wrong.edit": "file: src/lib.rt\n",
    "crates/upper/src/lib.rt": "// upper\n",
    "crates/upper/specs/Lib.antt": "-- a definition\n",
    "crates/tiny_tera/src/main.rt": "fn main\n",
    "crates/tiny_tera/data/a.pcap": "a capture\n",
    "crates/simulate/src/main.rt": "fn main\n",
    "crates/scheduler_c/src/lib.rt": "// scheduler_c\n",
    "crates/journal_c/src/lib.rt": "// journal_c\n",
    "crates/beside/src/lib.rt": "// beside\n",
    "crates/all_tests/src/lib.rt": "// tests\n",
}
# What the library is made of where it is made up.
LIBRARY = {"libtiny_tera.a": b"an archive\n", "libtiny_tera.so": b"a shared object\n"}
# Says and ends as the variables SAID and STATUS have it, after it has noted its words in NOTES; may run CODE.
FAKE_PROGRAM = """#!/bin/sh
if [ -n "$NOTES" ]; then
    for word in "$@"; do echo "$word"; done >"$NOTES"
    echo "tunables $GLIBC_TUNABLES" >>"$NOTES"
fi
if [ -n "$CODE" ]; then eval "$CODE"; fi
if [ -n "$SAID" ]; then echo "$SAID" >&2; fi
echo summary
exit "${STATUS:-0}"
"""
FAKE_RT = """#!/bin/sh
[ "$1" = version ] && { echo "${RT_KIT:-%s}"; exit 0; }
echo "$*" >>"$RT_CALLS"
if [ -n "$RT_CODE" ]; then eval "$RT_CODE"; fi
[ "$1" = ci ] || exit 0
find . -type f -not -path './.git/*' | sort >"$RT_FILES"
for name in $(sed -e 's/[ :].*//' crates.txt); do
    echo "== $name"
    echo "fn $name: proved"
    echo "logic=proved functions=1 sum=0"
    case " $RT_KEPT " in
    *" $name "*) echo "rt: $name is kept: an earlier run proved the same" ;;
    *) echo "rt: $name proved" ;;
    esac
done
for name in tiny_tera simulate; do
    if grep -q "^$name:" crates.txt; then mkdir -p crates/$name/out && cp "$FAKE_PROGRAM" crates/$name/out/$name; fi
done
echo "9 passed, 0 failed"
""" % KIT
# In the place of what builds the library over proved crates.
FAKE_MAKE_LIBRARY = """#!/bin/sh
cd "$(dirname "$0")/.." || exit 1
echo "$*" >>"$RT_CALLS"
mkdir -p out && cp "$FAKE_PROGRAM".a out/libtiny_tera.a && cp "$FAKE_PROGRAM".so out/libtiny_tera.so || exit 1
./tiny_tera --record-library "$2"
"""


class Scene(unittest.TestCase):
    """A test with a repository of its own, in which the program is not built yet."""

    def setUp(self):
        self.room = Path(tempfile.mkdtemp(prefix="run_launcher."))
        self.addCleanup(shutil.rmtree, self.room)
        self.top, self.jobs = self.room / "a clone", self.room / "jobs"
        self.jobs.mkdir()
        write_repository(self.top)
        self.variables = {**os.environ, "PATH": f"{self.room / 'bin'}:{os.environ['PATH']}", "RT_CALLS": str(self.room / "calls")}
        for name in ("NOTES", "CODE", "SAID", "STATUS", "RT_CODE", "RT_KIT", "RT_KEPT", "GLIBC_TUNABLES", "XDG_CACHE_HOME", "CC"):
            self.variables.pop(name, None)
        named = {"FAKE_PROGRAM": "fake", "RT_FILES": "files", "HOME": "home"}
        self.variables.update({name: str(self.room / file) for name, file in named.items()})
        self.executable(self.room / "bin/rt", FAKE_RT)
        self.executable(self.room / "fake", FAKE_PROGRAM)
        self.executable(self.top / "dev/make_library", FAKE_MAKE_LIBRARY)
        for name, data in LIBRARY.items():
            (self.room / f"fake{Path(name).suffix}").write_bytes(data)

    def executable(self, path, text):
        path.parent.mkdir(parents=True, exist_ok=True)
        path.write_text(text)
        path.chmod(0o755)

    def build(self):
        """Has the program built, and what was called forgotten."""
        self.assertEqual(self.launch("gen", "0", "0", "1").returncode, 0)
        self.calls()

    def store(self):
        """Has the program and the library proved and stored, and all that was built and called forgotten."""
        proved = self.launch("--prove", "all")
        self.assertEqual(proved.returncode, 0, proved.stderr)
        stored = self.release()
        self.assertEqual((stored.returncode, stored.stderr), (0, ""), stored.stdout)
        for name in ("crates/tiny_tera/out", "out"):
            shutil.rmtree(self.top / name)
        shutil.rmtree(self.room / "home")
        self.calls()

    def release(self, *words, **variables):
        """Runs dev/make_release."""
        return python(self.top / "dev/make_release", *words, env={**self.variables, **variables})

    def calls(self):
        """The calls of rt, and none from then on."""
        file = self.room / "calls"
        found = file.read_text().splitlines() if file.exists() else []
        if file.exists():
            file.unlink()
        return found

    def launch(self, *words, top=None, **variables):
        """Runs the launcher in the folder of jobs."""
        options = {name: variables.pop(name) for name in ("pass_fds", "preexec_fn", "cwd") if name in variables}
        return subprocess.run(
            [str((top or self.top) / "tiny_tera"), *map(str, words)],
            cwd=options.pop("cwd", self.jobs), env={**self.variables, **variables}, stdin=subprocess.DEVNULL,
            stdout=subprocess.PIPE, stderr=subprocess.PIPE, universal_newlines=True, **options,
        )

    def files(self, **named):
        """Writes files of a job, by names in which _ before the last part stands for a dot."""
        for name, data in named.items():
            self.write(".".join(name.rsplit("_", 1)), data)

    def write(self, name, data):
        path = self.jobs / name
        path.parent.mkdir(parents=True, exist_ok=True)
        path.write_bytes(data if isinstance(data, bytes) else data.encode())


class Stored(Scene):
    """A clone in which nothing is built, and the program and the library are stored."""

    release_files = {}  # They are the same in each test.

    def setUp(self):
        super().setUp()
        folder = self.top / "release"
        if not self.release_files:
            self.store()
            self.release_files.update({path.name: path.read_bytes() for path in folder.iterdir()})
        folder.mkdir(exist_ok=True)
        for name, data in self.release_files.items():
            (folder / name).write_bytes(data)

    def started(self, **variables):
        """What a start says, where there is no toolchain, if it was well."""
        ended = self.launch("gen", "1", "2", "2", PATH=NO_TOOLCHAIN, **variables)
        self.assertEqual((ended.returncode, ended.stdout), (0, "summary\n"), ended.stderr)
        return ended.stderr

    def append(self, name, text="more\n"):
        with open(self.top / name, "a") as file:
            file.write(text)


def write_repository(top):
    """The launcher and what it reads, with sources of a few crates."""
    ignored = shutil.ignore_patterns("__pycache__")
    for name in ("launcher", "viewer", "include"):
        shutil.copytree(TOP / name, top / name, ignore=ignored)
    for name in ("tiny_tera", "tools/install", "tools/measure/__init__.py", "tools/measure/ends.py", "dev/make_release", "docs/USAGE.md",
                 "docs/SIMULATE.md", "docs/tiny_tera.1", "LICENSE", "Makefile"):
        (top / name).parent.mkdir(exist_ok=True)
        shutil.copy(TOP / name, top / name)
    for name, text in SOURCES.items():
        (top / name).parent.mkdir(parents=True, exist_ok=True)
        (top / name).write_text(text)


def frame(to="10.0.0.1", length=60):
    """An Ethernet frame to an IPv4 address."""
    data = bytearray(length)
    data[12], data[14] = 0x08, 0x45
    data[30:34] = bytes(map(int, to.split(".")))
    return bytes(data)


def capture(*frames, link=1, order="<", magic=0xA1B2C3D4, version=(2, 4), times=None):
    """A classic capture; times are in microseconds."""
    data = struct.pack(order + "IHHIIII", magic, *version, 0, 0, 262_144, link)
    for at, one in enumerate(frames):
        seconds, micros = divmod(times[at] if times else at, 1_000_000)
        data += struct.pack(order + "IIII", seconds, micros, len(one), len(one)) + one
    return data


def python(*words, **more):
    """Runs a Python tool."""
    return run_here([sys.executable, *words], **more)


def run_here(words, **more):
    """Runs a command, and keeps what it says."""
    return subprocess.run(list(map(str, words)), stdout=subprocess.PIPE, stderr=subprocess.PIPE, universal_newlines=True, **more)
