"""For check_repository: how long the sentences of a page are, in words; code, tables and made parts are left out."""

import re
from typing import NamedTuple

# Pages whose sentences have at most so many words on average, and none more than LONGEST.
PLAIN_PAGES = ("README.md", *(f"docs/{name}.md" for name in ("SWITCH", "WAITING", "PROMISES", "MAINTAINING", "USAGE", "LINE_RATES", "SIMULATE", "SIZING")))
AVERAGE, LONGEST = 18, 40

LEFT_OUT = (
    re.compile(r"<!-- [^\n]* made by .*?<!-- The end of [^\n]* -->", re.S),  # What a maker writes.
    re.compile(r"^ *```.*?^ *```$", re.S | re.M),
    re.compile(r"^ *[|<#].*$", re.M),  # Rows of tables, pictures and headings.
)
SHORTER = (
    (re.compile(r"`[^`]*`"), "Code"),  # However long, it is one word to who reads.
    (re.compile(r"!\[[^\]]*\]\([^)]*\)"), ""),
    (re.compile(r"\[([^\]]*)\]\([^)]*\)"), r"\1"),
    (re.compile(r"\*\*"), ""),
    (re.compile(r"\((?:Code(?:, | and |; )?)+\)"), ""),  # Names alone are no sentence.
)
ITEM = re.compile(r"^ *(?:[-*]|\d+\.) ")
# The end of a sentence; the point of a first name's letter is none.
END = re.compile(r"(?<!\b[A-Z])[.?!][)\"]*\s+(?=[\"(]*(?:[A-Z0-9]|iSLIP))")


class Lengths(NamedTuple):
    """Of a page: how many sentences it has, their words, and the words of the longest with its text."""

    sentences: int
    words: int
    longest: int
    text: str


def paragraphs(page: str) -> list[str]:
    """The paragraphs of a page and the items of its lists, each on one line."""
    for pattern in LEFT_OUT:
        page = pattern.sub("\n", page)
    for pattern, shorter in SHORTER:
        page = pattern.sub(shorter, page)
    found = [""]
    for line in page.splitlines():
        if not line.strip() or ITEM.match(line):
            found.append("")
        found[-1] += " " + ITEM.sub("", line)
    return [" ".join(it.split()) for it in found if it.strip()]


def sentences(page: str) -> list[str]:
    """The sentences of a page, in order."""
    return [it for paragraph in paragraphs(page) for it in END.split(paragraph) if words(it)]


def words(sentence: str) -> int:
    """How many words a sentence has: signs that stand alone are none."""
    return sum(any(letter.isalnum() for letter in word) for word in sentence.split())


def lengths(page: str) -> Lengths:
    """How long the sentences of a page are."""
    found = [(words(it), it) for it in sentences(page)]
    longest, text = max(found, default=(0, ""))
    return Lengths(len(found), sum(count for count, _ in found), longest, text)


def faults(name: str, page: str) -> list[str]:
    """What is too long in a page."""
    found = lengths(page)
    said = [f"{name}: a sentence has {words(it)} words, over {LONGEST}: {it[:60]}.." for it in sentences(page) if words(it) > LONGEST]
    if found.words > AVERAGE * found.sentences:
        said.append(f"{name}: its sentences have {found.words / found.sentences:.1f} words on average, over {AVERAGE}")
    return said
