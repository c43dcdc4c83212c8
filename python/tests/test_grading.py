"""docs/GRADING.md: its solution is the example, and its commands print what the page says."""

import re
import subprocess
import sys
from pathlib import Path

import pytest

TOP = Path(__file__).resolve().parents[2]
PAGE = (TOP / "docs/GRADING.md").read_text(encoding="utf-8")
EXAMPLE = TOP / "python/examples/own_islip.py"


def blocks(kind):
    return re.findall(rf"^```{kind}\n(.*?)^```$", PAGE, re.M | re.S)


def program():
    """The program that is there; none is proved for a test."""
    sys.path.insert(0, str(TOP))
    from launcher import there

    found = there.program(TOP)
    if not found.is_file():
        pytest.skip("there is no program")
    return found


def changed(source, difference):
    """A source with a change, whose lines stand there once."""
    before, after = ("".join(line[1:] for line in difference.splitlines(True) if line[0] in kinds) for kinds in (" -", " +"))
    assert source.count(before) == 1, difference
    return source.replace(before, after)


def sessions():
    """The commands of the page, each with what it prints."""
    for block in blocks("text"):
        for part in re.findall(r"^\$ .*\n(?:(?!\$ ).*\n)*", block, re.M):
            yield part[2:].split("\n", 1)


def test_solution_of_the_page():
    assert blocks("python") == [EXAMPLE.read_text(encoding="utf-8")]
    assert len([line for line in EXAMPLE.read_text(encoding="utf-8").splitlines() if line]) == 40


def test_commands_of_the_page(tmp_path):
    """The solution and the two changed ones get the verdicts of the page."""
    found, source = program(), EXAMPLE.read_text(encoding="utf-8")
    for name, difference in zip(("every_round", "refused"), blocks("diff")):
        (tmp_path / f"{name}.py").write_text(changed(source, difference), encoding="utf-8")
    count = 0
    for command, printed in sessions():
        if command.startswith("export "):
            environment = command
            continue
        words = command.replace("/tmp/", f"{tmp_path}/").replace("./tiny_tera", f"'{found}'").replace("python3", f"'{sys.executable}'")
        ran = subprocess.run(["sh", "-c", f"{environment}; {words}"], cwd=TOP, stdout=subprocess.PIPE, stderr=subprocess.STDOUT, text=True)
        assert ran.stdout == printed, command
        count += 1
    assert count == 8
