"""Options of commands: what a value may be, and what is said of one that it may not be."""

import re
from typing import NamedTuple

MAX_DIGITS = 10
SHARE, PLACES = re.compile(r"(?=.)(0|1|)(?:\.(\d+))?", re.A), 6


class Fault(ValueError):
    """Words that specify no job; the text says which word is wrong, and what may stand there."""


class Option(NamedTuple):
    """An option: which commands take it, what its value may be (without any it is a flag), and what a run then writes."""

    commands: tuple = ()
    letter: str = ""  # The value's, in the synopsis.
    low: int = 0
    high: int = 0
    choices: tuple = ()
    suffix: str = ""  # Of the file that is written, behind PREFIX.
    stands_for: str = ""  # The option that has the same value in millionths.
    unit: str = ""  # Of the number.
    high_long: int = 0  # The highest value of a long job, where that is another.

    def allowed(self):
        """What its value may be."""
        if self.stands_for:
            return f"a number from 0 to 1 with at most {PLACES} places"
        return one_of(self.choices) if self.choices else number_between(self.low, self.high, self.unit)

    def read(self, word):
        """Its value as the program takes it, None where the word is none."""
        if self.stands_for:
            return millionths(word)
        is_value = word in self.choices if self.choices else is_number(word, self.low, self.high_long or self.high)
        return word if is_value else None


def millionths(word):
    """A number from 0 to 1 in millionths, exactly, as 950000 for 0.95; None where the word is none with at most six places."""
    found = SHARE.fullmatch(word)
    if not found or len(found[2] or "") > PLACES:
        return None
    number = int(found[1] or 0) * 10 ** PLACES + int((found[2] or "").ljust(PLACES, "0"))
    return str(number) if number <= 10 ** PLACES else None


def is_number(word, low, high):
    """Whether a word is a number of 1 to 10 decimal digits in a range."""
    digits = word.isascii() and word.isdigit() and len(word) <= MAX_DIGITS
    return digits and low <= int(word) <= high


def number_of(what, word, low, high):
    """The number that a word is, else a Fault."""
    if not is_number(word, low, high):
        raise Fault(f"{what} {word}: it is {number_between(low, high)}")
    return int(word)


def number_between(low, high, unit=""):
    what = f"a number of {unit} from" if unit else "a number from"
    return f"{what} {low:,} to {high:,}, written without commas" if high > 999 else f"{what} {low} to {high}"


def one_of(words):
    return ", ".join(words[:-1]) + " or " + words[-1] if len(words) > 1 else words[0]


def near(word, known):
    """A question after the known word that is most like one that is not known."""
    import difflib  # Only where a word is wrong.
    found = difflib.get_close_matches(word, known, 1)
    return f"; is {found[0]} meant?" if found else ""
