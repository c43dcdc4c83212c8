"""The types that the package tells its users hold together."""

import importlib.util
import shutil
import subprocess
import sys
from pathlib import Path

import pytest

PACKAGE = Path(__file__).resolve().parents[1]


def test_strict(tmp_path):
    command = [sys.executable, "-m", "mypy"] if importlib.util.find_spec("mypy") else [shutil.which("mypy")]
    if command == [None]:
        pytest.skip("there is no mypy")
    words = [*command, "--strict", "--cache-dir", tmp_path, "tiny_tera", "examples/own_islip.py"]
    ran = subprocess.run(words, cwd=PACKAGE, stdout=subprocess.PIPE, stderr=subprocess.STDOUT, text=True)
    assert ran.returncode == 0, ran.stdout
