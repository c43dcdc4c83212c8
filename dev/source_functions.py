"""The functions of a source in the layout of `rt fmt`: where each body stands, and what another crate can know of the source.

In that layout a body begins at a brace at the function's own indentation, or at the end of its head, and ends at the
next closing brace at that indentation.
"""

import re
from typing import NamedTuple

HEAD = re.compile(r'^( *)(pub(?:\([a-z ]+\))? )?(?:(?:const|unsafe|ghost) )*(?:extern "C" )?fn (\w+)')
COMMENT = re.compile(r"^\s*(//|--)")
# What only the crate's own proof reads.
TACTIC = re.compile(r"^\s*#!?\[tactic\(")


class Function(NamedTuple):
    """A function with a body, its lines counted from 0. What stands in an `impl` with no word before it may be of a trait."""

    name: str
    head: int
    begin: int  # The first line after the opening brace.
    end: int  # The line of the closing brace, which may be that of the opening one.
    is_private: bool  # Whether no other crate can call it.


def _body_of(lines, at, indent):
    """The first line after the opening brace of the function whose head begins at a line, and the line of its closing
    brace; None where it has no body."""
    for number in range(at, len(lines)):
        line = lines[number]
        if number > at and re.match(rf" {{0,{len(indent)}}}[^ ]", line) and not re.match(rf"{indent}[{{)]", line):
            return None
        is_head = number == at or line.startswith(indent + ")")
        if line in (indent + "{}", indent + "{ }") or is_head and line.endswith("{}"):
            return number + 1, number
        if line == indent + "{" or is_head and line.endswith("{"):
            return number + 1, lines.index(indent + "}", number)
    return None


def functions_of(lines):
    """The functions with a body, in the order of the lines."""
    found = []
    for number, line in enumerate(lines):
        head = HEAD.match(line)
        body = head and _body_of(lines, number, head[1])
        if body:
            is_private = head[2] != "pub " if head[2] else not head[1]
            found.append(Function(head[3], number, *body, is_private))
    return found


def stated(text):
    """The text without bodies, private functions, comments and empty lines: what another crate can know of it."""
    lines = text.split("\n")
    left = set(range(len(lines)))
    for function in functions_of(lines):
        left -= set(range(function.begin, function.end))
        if function.is_private:
            left -= set(range(function.head, function.end + 1))
    return "\n".join(lines[it] for it in sorted(left) if lines[it].strip() and not COMMENT.match(lines[it]) and not TACTIC.match(lines[it]))
