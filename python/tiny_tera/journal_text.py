"""Journals as text, one line a slot, and back; docs/FORMATS.md has the form."""

from __future__ import annotations

import re
from typing import Iterable, Iterator, List, NoReturn, Optional, Sequence, Set, Tuple, Union

from .journal import LEVELS, MAX_PORTS, MAX_ROUNDS, Fed, Post, read_journal
from .journal_writer import BadSlot, journal_bytes

_PORT = "(?:0|[1-9][0-9]?)"
_HEADER = re.compile(f"journal ports ({_PORT}) rounds ({_PORT})")
_REQUEST = re.compile(rf"({_PORT})>(\*|{_PORT}(?:,{_PORT})*):([0-{LEVELS - 1}])([um])")
_MATCH = re.compile(rf"({_PORT})>({_PORT}):([0-{LEVELS - 1}])([um])")
_CARD = re.compile(f"({_PORT})")
_KINDS = "um"
_ALL = "*"


class BadText(ValueError):
    """A text is no journal; `line` is the number of the line that is wrong, from 1 on."""

    def __init__(self, line: int, what: str) -> None:
        super().__init__(f"line {line}: {what}")
        self.line = line


def text_of_journal(data: Union[bytes, bytearray, memoryview]) -> Iterator[str]:
    """The lines of a journal's text, each with its line feed; journal.BadJournal where the bytes are none."""
    found = read_journal(data)
    yield f"journal ports {found.ports} rounds {found.rounds}\n"
    for number, slot in enumerate(found.slots()):
        requests = [word for card, post in enumerate(slot.posts) for word in _requests(card, post, found.ports)]
        more = [str(card) for card, post in enumerate(slot.posts) if post.more]
        told = [_ALL] if len(more) == found.ports else more
        fed = [(output, feed) for output, feed in enumerate(slot.outputs) if feed]
        matches = [f"{feed.input}>{output}:{feed.level}{_KINDS[feed.multicast]}" for output, feed in fed]
        yield " ".join([f"slot {number} requests", *requests, "more", *told, "matches", *matches]) + "\n"


def _requests(card: int, post: Post, ports: int) -> Iterator[str]:
    """What a card asks, a word for each kind and level."""
    for kind, sets in zip(_KINDS, (post.unicast, post.multicast)):
        for level, outputs in enumerate(sets):
            named = ",".join(str(output) for output in range(ports) if outputs >> output & 1)
            if outputs:
                yield f"{card}>{_ALL if outputs == (1 << ports) - 1 else named}:{level}{kind}"


def journal_of_text(lines: Iterable[str]) -> bytes:
    """The journal of a text, whose lines may end with a line feed; BadText where it is none."""
    reader = _Reader(lines)
    rounds = reader.header()
    try:
        return journal_bytes(rounds, reader.slots())
    except BadSlot as fault:
        raise BadText(reader.line, str(fault)) from None


class _Reader:
    """The lines of a text, and the number of the one that was read last."""

    def __init__(self, lines: Iterable[str]) -> None:
        self.lines = iter(lines)
        self.line = 0
        self.ports = 0

    def refuse(self, what: str) -> NoReturn:
        raise BadText(self.line, what)

    def words(self) -> List[str]:
        """The words of the next line that has any and is no remark; none at the end."""
        for line in self.lines:
            self.line += 1
            text = line[:-1] if line.endswith("\n") else line
            words = (text[:-1] if text.endswith("\r") else text).replace("\t", " ").split(" ")
            found = [word for word in words if word]
            if found and not found[0].startswith("#"):
                return found
        return []

    def header(self) -> int:
        """The rounds that the first line states, beside the ports."""
        found = _HEADER.fullmatch(" ".join(self.words()))
        if not found:
            raise BadText(max(self.line, 1), "expected: journal ports N rounds R")
        self.ports, rounds = int(found[1]), int(found[2])
        for name, number, most in (("ports", self.ports, MAX_PORTS), ("rounds", rounds, MAX_ROUNDS)):
            if not 1 <= number <= most:
                self.refuse(f"{name} are 1 to {most}, and not {number}")
        return rounds

    def slots(self) -> Iterator[Tuple[Sequence[Union[Post, Tuple[List[int], List[int]]]], List[Optional[Fed]]]]:
        """The rows and feeds that the journal is made of, slot by slot."""
        number = 0
        while words := self.words():
            before, matches = _divided(words[3:], "matches")
            requests, more = _divided(before, "more")
            if words[:3] != ["slot", str(number), "requests"] or matches is None:
                self.refuse(f"expected: slot {number} requests .. more .. matches ..")
            rows = self.rows(requests)
            if more is not None:
                cards = self.cards(more)
                yield [Post(tuple(row[0]), tuple(row[1]), card in cards) for card, row in enumerate(rows)], self.feeds(matches)
            else:
                yield rows, self.feeds(matches)
            number += 1
        if not number:
            raise BadText(self.line + 1, "expected: slot 0 requests .. more .. matches ..")

    def rows(self, words: Sequence[str]) -> List[Tuple[List[int], List[int]]]:
        """For each input the sets of unicast and those of multicast."""
        rows = [([0] * LEVELS, [0] * LEVELS) for _ in range(self.ports)]
        for word in words:
            card, named, level, kind = self.parts(_REQUEST, word, "a request, as 0>1,2:0u")
            outputs = range(self.ports) if named == _ALL else [self.port(output, word) for output in named.split(",")]
            sets = rows[self.port(card, word)][_KINDS.index(kind)]
            for output in outputs:
                if sets[int(level)] >> output & 1:
                    self.refuse(f"{word!r} asks output {output} once more")
                sets[int(level)] |= 1 << output
        return rows

    def cards(self, words: Sequence[str]) -> Set[int]:
        """The cards of the word `more`."""
        if list(words) == [_ALL]:
            return set(range(self.ports))
        found: Set[int] = set()
        for word in words:
            card = self.port(self.parts(_CARD, word, "a port")[0], word)
            if card in found:
                self.refuse(f"port {card} stands twice after more")
            found.add(card)
        return found

    def feeds(self, words: Sequence[str]) -> List[Optional[Fed]]:
        """What feeds each output."""
        feeds: List[Optional[Fed]] = [None] * self.ports
        for word in words:
            card, output, level, kind = self.parts(_MATCH, word, "a match, as 0>1:0u")
            at = self.port(output, word)
            if feeds[at]:
                self.refuse(f"{word!r} feeds output {at} once more")
            feeds[at] = Fed(self.port(card, word), int(level), kind == "m")
        return feeds

    def parts(self, form: re.Pattern[str], word: str, what: str) -> Sequence[str]:
        found = form.fullmatch(word)
        if not found:
            self.refuse(f"{word[:40]!r} is not {what}")
        return found.groups()

    def port(self, number: str, word: str) -> int:
        if int(number) >= self.ports:
            self.refuse(f"{word[:40]!r} names port {number}, and there are {self.ports}")
        return int(number)


def _divided(words: Sequence[str], name: str) -> Tuple[Sequence[str], Optional[Sequence[str]]]:
    """The words before the one of this name, and those after it, None where it is not there."""
    if name not in words:
        return words, None
    at = words.index(name)
    return words[:at], words[at + 1 :]
