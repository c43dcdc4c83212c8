"""The list of cases: each is a function over a fresh folder with the files of the job."""

from .files import INPUTS
from .running import Place

CASES = []


def case(what, files=INPUTS):
    """Adds a case: what it tries, and the files that it begins with."""

    def add(function):
        CASES.append((what, files, function))
        return function

    return add


def run_case(program, files, function):
    """Runs one case; answers what it counted, if it did."""
    with Place(program, files) as place:
        return function(place)
