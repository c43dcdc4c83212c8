"""Where the shared object is found."""

import os
import shutil
import subprocess
import sys
from pathlib import Path

import pytest

from tiny_tera import library

TOP = Path(__file__).resolve().parent.parent.parent


def test_library_of_the_repository(monkeypatch):
    """Without the variable it is that of the folder that the launcher names: built there, or stored."""
    ran = subprocess.run([TOP / "tiny_tera", "--library"], stdout=subprocess.PIPE, text=True)
    if ran.returncode:
        pytest.skip("there is no library of these sources")
    monkeypatch.delenv(library.VARIABLE, raising=False)
    assert str(Path(ran.stdout.strip(), library.NAME)) in library.places()
    monkeypatch.setenv(library.VARIABLE, "/named")
    assert library.places() == ["/named"]


def copied(folder):
    """The package alone, in this folder."""
    shutil.copytree(TOP / "python/tiny_tera", folder / "tiny_tera", ignore=shutil.ignore_patterns("__pycache__", "*.so"))
    return folder


def loaded(packages, path="/usr/bin:/bin"):
    """The file that the package of this folder loads, where no variable but PATH names one."""
    code = f"import sys; sys.path.insert(0, {str(packages)!r}); from tiny_tera import library; print(library.load()._name)"
    ran = subprocess.run([sys.executable, "-c", code], env={"PATH": path}, stdout=subprocess.PIPE, stderr=subprocess.PIPE, text=True)
    return ran.stdout.strip() or ran.stderr.splitlines()[-1]


@pytest.fixture
def shared():
    """The shared object that is there; one that the loader finds by itself hides the places that are tried here."""
    try:
        found = Path(library.load()._name).resolve()
    except library.NoLibrary as fault:
        pytest.skip(str(fault))
    if not found.is_file() or Path("/usr/local/lib", f"{library.NAME}.1").exists():
        pytest.skip("a library is installed on this machine")
    return found


def test_library_of_a_prefix(tmp_path, shared):
    """That of the prefix that the package was installed to, or of the program that is found."""
    packages = copied(tmp_path / "one/lib/python3/site-packages")
    told = loaded(packages)
    assert told.startswith("tiny_tera.library.NoLibrary: ") and library.VARIABLE in told
    place, program = tmp_path / "other/lib/libtiny_tera.so.1", tmp_path / "other/bin/tiny_tera"
    for file in (place, program):
        file.parent.mkdir(parents=True)
    shutil.copyfile(shared, place)
    program.write_text("#!/bin/sh\n")
    program.chmod(0o755)
    assert loaded(packages, f"{program.parent}{os.pathsep}/usr/bin") == str(place)
    beside = tmp_path / "one/lib/libtiny_tera.so.1"
    shutil.copyfile(shared, beside)
    assert loaded(packages, f"{program.parent}{os.pathsep}/usr/bin") == str(beside)
    shutil.copyfile(shared, packages / "tiny_tera/libtiny_tera.so")
    assert loaded(packages) == str(packages / "tiny_tera/libtiny_tera.so")
