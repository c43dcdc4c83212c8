"""Reads forwarding tables, by the rules of the switch: what it refuses is refused here, by the same text."""

import re
from typing import Dict, Optional, Tuple, Union

NUMBER = re.compile(rb"(?:0|[1-9][0-9]{0,2})\Z")
BLANKS = b" \t"
MAX_LINES, MAX_PORTS, LEVELS = 4_096, 64, 4
MAX_OCTET, MAX_LENGTH = 255, 32

# By prefix length and prefix, and of the line `*` by None: the outputs and the level.
Routes = Dict[Optional[Tuple[int, int]], Tuple[Tuple[int, ...], int]]


class BadTable(ValueError):
    """A text is no table; the message is the program's."""


def read_table(text: Union[str, bytes], ports: int = MAX_PORTS) -> Routes:
    """The routes of a table for so many ports; BadTable where it has a fault."""
    data = text.encode() if isinstance(text, str) else text
    lines = [_words(line) for line in data.split(b"\n")]
    count = sum(map(bool, lines))
    if count > MAX_LINES:
        raise BadTable(f"table: {count} lines")
    routes, numbers = {}, {}
    for number, words in enumerate(lines, 1):
        if words:
            target, served = _route(number, words, ports)
            first = numbers.setdefault(target, number)
            if first != number:
                raise BadTable(f"table line {number}: repeats line {first}")
            routes[target] = served
    return routes


def _words(line):
    """The words of a line, none where it is empty or a comment."""
    content = (line[:-1] if line.endswith(b"\r") else line).strip(BLANKS)
    return re.split(rb"[ \t]+", content) if content and not content.startswith(b"#") else []


def _route(number, words, ports):
    """What a line serves, and how."""
    try:
        target, *rest = words
        length, address = (None, 0) if target == b"*" else _prefix(target)
        fan_out = [_number(word) for word in rest[0].split(b",")]
        level = _number(rest[1]) if len(rest) > 1 else 0
    except (ValueError, IndexError):
        raise BadTable(f"table line {number}: bad line") from None
    if len(words) > 3:
        raise BadTable(f"table line {number}: bad line")
    if length is not None and address & ((1 << MAX_LENGTH - length) - 1):
        raise BadTable(f"table line {number}: host bits")
    beyond = next((port for port in fan_out if port >= ports), None)
    if beyond is not None:
        raise BadTable(f"table line {number}: port {beyond}")
    if level >= LEVELS:
        raise BadTable(f"table line {number}: level")
    prefix = None if length is None else (length, address >> (MAX_LENGTH - length))
    return prefix, (tuple(sorted(set(fan_out))), level)


def _prefix(word):
    """The length and the address of a prefix; ValueError where it is none."""
    address, length = word.split(b"/")
    first, second, third, fourth = [_number(octet, MAX_OCTET) for octet in address.split(b".")]
    return _number(length, MAX_LENGTH), int.from_bytes(bytes((first, second, third, fourth)), "big")


def _number(word, most=999):
    """A number of 1 to 3 digits; ValueError where a word is none, or more than the most."""
    if not NUMBER.match(word) or int(word) > most:
        raise ValueError(word)
    return int(word)


def route(routes: Routes, address: Optional[int]) -> Optional[Tuple[Tuple[int, ...], int]]:
    """The outputs and the level of an address (None: a packet without one), or None."""
    if address is not None:
        for length in range(MAX_LENGTH, -1, -1):
            found = routes.get((length, address >> (MAX_LENGTH - length)))
            if found:
                return found
    return routes.get(None)
