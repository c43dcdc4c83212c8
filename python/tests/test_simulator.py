"""The example, beside the same one in C where there is a compiler."""

import os
import shutil
import subprocess
import sys
from pathlib import Path

import needs
import pytest

needs.library()

from tiny_tera import library  # noqa: E402

TOP = Path(__file__).resolve().parents[2]
EXAMPLE = TOP / "python/examples/simulator.py"
IN_C = TOP / "examples/c/simulator.c"


def printed(*words):
    paths = {**os.environ, "PYTHONPATH": str(TOP / "python")}
    return subprocess.run(words, env=paths, check=True, stdout=subprocess.PIPE, text=True).stdout


def test_one_port():
    """One port serves each cell in the slot in which it comes."""
    told = printed(sys.executable, EXAMPLE, "1", "1", "500", "50", "100")
    assert told.splitlines()[2:] == ["    50        0.00  100.00", "   100        0.00  100.00"]


def test_as_in_c(tmp_path):
    compiler = shutil.which("cc")
    if not compiler or not IN_C.is_file():
        pytest.skip("no C compiler, or no example in C")
    program, shared = tmp_path / "simulator", tmp_path / "libtiny_tera.so.1"
    shutil.copyfile(library.load()._name, shared)
    command = [compiler, "-O2", "-I", TOP / "include", IN_C, shared, "-o", program]
    subprocess.run([str(word) for word in command], check=True)
    words = ("4", "2", "1000", "60", "95")
    paths = {**os.environ, "LD_LIBRARY_PATH": str(tmp_path)}
    told = subprocess.run([program, *words], env=paths, check=True, stdout=subprocess.PIPE, text=True).stdout
    assert printed(sys.executable, EXAMPLE, *words) == told
    for wrong, why in ((("4", "x"), "x is no whole number"), (("65",), "ports and rounds are each from 1 to 64")):
        for example in ([program], [sys.executable, EXAMPLE]):
            variables = {**paths, "PYTHONPATH": str(TOP / "python")}
            ended = subprocess.run([*example, *wrong], env=variables, stdout=subprocess.DEVNULL, stderr=subprocess.PIPE, text=True)
            assert ended.returncode and ended.stderr == f"simulator: {why}\n"
