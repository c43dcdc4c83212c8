"""Hints on lines of the table that are refused."""

import ipaddress
import re

from .capture_hints import is_capture
from .sources import stamp_of

NUMBER = re.compile(r"(0|[1-9][0-9]{0,2})$")
MAX_OCTET, MAX_LENGTH = 255, 32
FORM = "a line is NETWORK/LENGTH PORTS [LEVEL], as 10.0.1.0/24 1,2 0"


def line_of(name, number):
    """A line of a table, counted from 1, without what ends it; None where the file cannot be read again."""
    if not stamp_of(name):
        return None
    try:
        with open(name, "rb") as file:
            lines = file.read().split(b"\n")
    except OSError:
        return None
    if number > len(lines):
        return None
    line = lines[number - 1].decode(errors="replace")
    return line[:-1] if line.endswith("\r") else line


def on_capture(job):
    """A capture in the place of the table."""
    return f"{job.table} is a capture, and stands where the table is expected: the words are TABLE" + (" PREFIX" if job.prefix else "") + " INPUT.."


def on_lines(job, _):
    """A table with too many lines; that one may be a capture, whose bytes can begin many lines."""
    return on_capture(job) if is_capture(job.table) else f"{job.table} may have at most 4,096 lines with routes"


def on_bad_line(job, number):
    if is_capture(job.table):
        return on_capture(job)
    line = line_of(job.table, number)
    if line is None:
        return None
    why = _why(line)
    return f"line {number} of {job.table}: {why}" if why else None


def _why(line):
    """What is wrong with a line that is not of the form."""
    words = re.split(r"[ \t]+", line.strip(" \t"))
    if any(not it.isprintable() and it != "\t" for it in line):
        return "it has a carriage return or another letter that is not shown; end lines with LF or CR LF"
    if "#" in line:
        return "a comment has a line of its own, which begins with #"
    why = _why_target(words[0])
    if why:
        return why
    if len(words) == 1:
        return f"behind the prefix come its ports; {FORM}"
    return _why_ports(words)


def _why_ports(words):
    rest = words[1:]
    if any(it.startswith(",") or it.endswith(",") for it in rest[:-1]) or rest[-1].startswith(","):
        return f"ports are joined by commas without blanks: {','.join(it for it in ' '.join(rest).replace(',', ' ').split())}"
    if len(rest) > 2:
        return f"behind the ports comes at most the level; several ports are joined by commas; {FORM}"
    bad = next((it for it in rest[0].split(",") + rest[1:] if not NUMBER.match(it)), None)
    return None if bad is None else _why_number(bad)


def _why_number(word):
    if re.match(r"0[0-9]+$", word):
        return f"{word} has a leading zero"
    if "-" in word:
        return f"{word!r} is no number; ports are listed one by one, as 1,2,3"
    return f"{word!r} is no number of 1 to 3 digits"


def _why_target(word):
    if word == "*":
        return None
    if ":" in word:
        return f"{word} is an IPv6 prefix, and only IPv4 is switched; packets without an IPv4 destination go where the line * says"
    address, slash, length = word.partition("/")
    octets = address.split(".")
    if len(octets) == 4 and not slash and all(map(NUMBER.match, octets)):
        return f"{word} has no length: one address is {word}/32"
    if len(octets) != 4 or not slash:
        return f"{word!r} is no IPv4 prefix; {FORM}"
    bad = next((it for it in [*octets, length] if re.match(r"0[0-9]+$", it)), None)
    if bad:
        return f"{bad} in {word} has a leading zero"
    if re.match(r"[0-9]+(\.[0-9]+){3}$", length):
        return f"{word} has a mask, and the length is a number from 0 to 32"
    if not NUMBER.match(length) or int(length) > MAX_LENGTH:
        return f"the length in {word} is a number from 0 to 32"
    if not all(NUMBER.match(it) and int(it) <= MAX_OCTET for it in octets):
        return f"{address} is no IPv4 address"
    return None


def on_host_bits(job, number):
    line = line_of(job.table, number)
    try:
        network = ipaddress.ip_network(line.split()[0], strict=False)
    except (ValueError, AttributeError, IndexError):
        return None
    return f"line {number} of {job.table}: bits beyond the length are 0: {network}"


def on_port(job, number, port):
    count = len(job.inputs)
    first = "" if job.command == "firm" else job.prefix
    if first and is_capture(first):
        return f"{first} is a capture, and stands where PREFIX is expected: the words are TABLE PREFIX INPUT.."
    have = f"ports are 0 to {count - 1}" if count > 1 else "the only port is 0"
    return f"line {number} of {job.table}: with {count} capture{'s' if count > 1 else ''} {have}"


def on_level(job, number):
    return f"line {number} of {job.table}: the level is a number from 0, the best, to 3; several ports are joined by commas"


def on_repeats(job, number, first):
    return f"lines {first} and {number} of {job.table} have the same prefix: give all its ports in one line, joined by commas"
