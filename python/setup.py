"""Puts the library of the repository, where there is one, beside the package that is built: it then finds it there."""

import shutil
import sys
from pathlib import Path

from setuptools import Distribution, setup
from setuptools.command.build_py import build_py

HERE = Path(__file__).resolve().parent
sys.path.insert(0, str(HERE))

from tiny_tera.library import NAME, of_repository  # noqa: E402

FOUND = next((file for file in of_repository(HERE.parent) if file.is_file()), None)


class WithLibrary(build_py):
    """Builds the package; one that is installed as it stands in the repository finds the library from there."""

    def run(self) -> None:
        place = Path(self.build_lib, "tiny_tera", NAME)
        place.unlink(missing_ok=True)  # Of an earlier build.
        super().run()
        if FOUND and not place.exists() and not getattr(self, "editable_mode", False):
            shutil.copyfile(FOUND, place)


class OfOneMachine(Distribution):
    """A package with a library runs on machines of one kind, by any version of Python."""

    def has_ext_modules(self) -> bool:
        return FOUND is not None


setup(cmdclass={"build_py": WithLibrary}, distclass=OfOneMachine, options={"bdist_wheel": {"py_limited_api": "cp39"}})
