"""What the tests of the model are made of: captures and tables by hand, and jobs and rows at random."""

from __future__ import annotations

import random
from typing import Any, Dict, Iterable, List, Optional, Sequence, Tuple

from .captures import ETHERNET, RAW_IP
from .files import MemoryFiles
from .jobs import run_words
from .plans import MOST_DEPTH, Plan, Settings, plan_files
from .ports import LEVELS, NO_PORTS
from .rounds import Pointers
from .rows import MULTICAST, UNICAST, Entry, Match, Row, Served, row_of
from .runs import Run, run_plan
from .schedulers import Scheduler, islip

unhex = bytes.fromhex
Job = Tuple[bytes, List[bytes], Settings]  # A table, captures and settings.


def header(link: int = RAW_IP) -> bytes:
    """The header of a capture, which is a capture without packets: little-endian, in microseconds."""
    return unhex("d4c3b2a1 02000400 00000000 00000000 00000400") + link.to_bytes(4, "little")


NANO_HEADER = unhex("4d3cb2a1") + header()[4:]


def address(text: str) -> bytes:
    """The bytes of an address."""
    return bytes(map(int, text.split(".")))


def raw(length: int, to: str) -> bytes:
    """A raw IP packet of a length to an address."""
    head = unhex("45000014 00000000 40fd0000 0a000009") + address(to)
    return head + bytes(length - len(head))


def record(data: bytes, seconds: int = 0, fraction: int = 0, original: Optional[int] = None) -> bytes:
    """A record of a capture."""
    fields = (seconds, fraction, len(data), len(data) if original is None else original)
    return b"".join(field.to_bytes(4, "little") for field in fields) + data


def capture(*packets: bytes, link: int = RAW_IP) -> bytes:
    """A capture of packets at time 0."""
    return header(link) + b"".join(map(record, packets))


FRAME = unhex("020000000001 020000000002 0800 4500002e 00000000 40fd0000 0a000001 0a000101") + bytes(26)
TWO_PORTS = b"10.0.0.0/24 0\n10.0.1.0/24 1\n"
ONE_FRAME = header(ETHERNET) + unhex("01000000 02000000 3c000000 3c000000") + FRAME
BIG_ENDIAN_NANO = unhex(
    "a1b23c4d 0002 0004 00000000 00000000 00040000 00000065 00000001 00000005 00000014 00000014"
) + raw(20, "10.0.1.1")
NOWHERE, TO_0, TO_1 = raw(20, "192.0.2.1"), raw(20, "10.0.0.1"), raw(20, "10.0.1.1")
# Three ports: in slot 3 a new request of port 0 takes the grant that port 1 had waited for.
NEW_REQUEST = [capture(NOWHERE, NOWHERE, NOWHERE, TO_0), capture(TO_0, TO_0, TO_1), capture(NOWHERE, TO_0, TO_0)]
# A head to three outputs beside unicast to one of them.
HEAD_TABLE = b"10.0.9.0/24 0,1,2\n10.0.1.0/24 1\n"
HEAD = [capture(raw(20, "10.0.9.1")), capture(TO_1, TO_1), capture()]
# Two heads that share an output.
HEADS_TABLE = b"10.0.9.0/24 0,1\n10.0.8.0/24 1,2\n"
HEADS = [capture(raw(20, "10.0.9.1")), capture(raw(20, "10.0.8.1")), capture()]
# Two inputs send to output 0; in slot 4 two cells come to a queue in which two wait.
FILLING = [capture(raw(100, "10.0.0.1"), raw(60, "10.0.0.1")), capture(raw(100, "10.0.0.1"))]


class Ended:
    """How a job over files in memory ended."""

    def __init__(self, status: int, files: MemoryFiles) -> None:
        self.status, self.files, self.begun = status, files.files, files.begun
        self.out, self.err = (files.printed[name].decode() for name in ("stdout", "stderr"))

    def summary(self) -> Dict[str, str]:
        """The values of the summary by their names."""
        return dict(line.split(" ", 1) for line in self.out.splitlines())

    def report(self) -> List[str]:
        """The lines of the report behind the summary."""
        return self.files["out.report"].decode().splitlines()[len(self.summary()):]


def run(table: bytes, inputs: Sequence[bytes], options: str = "", command: str = "run", **how: Any) -> Ended:
    """A job over a table and captures."""
    names = [f"in{port}" for port in range(len(inputs))]
    files = MemoryFiles({"table": table, **dict(zip(names, inputs))}, **how)
    outputs = ["out"] if command == "run" else []
    return Ended(run_words([command, *options.split(), "table", *outputs, *names], files), files)


def do(words: str, files: Optional[Dict[str, bytes]] = None, **how: Any) -> Ended:
    """A job of any words."""
    memory = MemoryFiles(files or {}, **how)
    return Ended(run_words(words.split(), memory), memory)


def summary_text(**numbers: object) -> str:
    """The text of a summary; what is not given is that of two ports, on which nothing comes."""
    names = "ports rounds depth slots packets oversize unrouted dropped forwarded copies cells".split()
    values = {**dict.fromkeys(names, 0), "ports": 2, "rounds": 4, "depth": MOST_DEPTH, "longest": "0 0 0 0", **numbers}
    return "".join(f"{name} {value}\n" for name, value in values.items())


def plan_of(table: bytes, inputs: Sequence[bytes], **settings: int) -> Plan:
    """A plan."""
    return plan_files(Settings(**settings), table, inputs)


def run_of(table: bytes, inputs: Sequence[bytes], scheduler: Scheduler = islip, **settings: int) -> Run:
    """A run."""
    return run_plan(plan_of(table, inputs, **settings), scheduler)


def pairs(match: Match) -> set:
    """The pairs of a match."""
    return {(entry.input, entry.output) for entry in match}


def entries(text: str) -> Match:
    """The match of a text as `0>1:0u 0>2:0m`."""
    parts = (part.replace(">", ":").split(":") for part in text.split())
    return frozenset(Entry(int(port), int(output), int(rank[0]), "um".index(rank[1])) for port, output, rank in parts)


def random_job(rng: random.Random, most_ports: int = 4, is_big: bool = False) -> Job:
    """A small table and captures with settings; with `is_big` some packets are oversize."""
    ports, routes = rng.randint(1, most_ports), rng.randint(1, 6)
    lines = []
    for number in range(routes):
        fan = rng.sample(range(ports), rng.randint(1, ports) if rng.random() < 0.4 else 1)
        lines.append(f"10.0.{number}.0/24 {','.join(map(str, fan))} {rng.choice((0, 0, 1, 2, 3))}\n")
    if rng.random() < 0.3:
        lines.append(f"* {rng.randrange(ports)} 3\n")
    inputs = [random_capture(rng, routes, is_big) for _ in range(ports)]
    depth, pace = rng.choice((1, 2, 3, 4, 6, MOST_DEPTH)), rng.choice((None, None, 1, 7))
    return "".join(lines).encode(), inputs, Settings(rng.randint(1, 4), depth, 4, pace)


def random_capture(rng: random.Random, routes: int, is_big: bool) -> bytes:
    """A capture of up to eight packets."""
    data, clock = header(), rng.randint(0, 50)
    for _ in range(rng.randint(0, 8)):
        clock += rng.choice((0, 0, 1, 3, 30))
        length = rng.choice((20, 20, 40, 41, 60, 100, 200))
        packet = raw(length, f"10.0.{rng.randrange(routes + 1)}.1")
        data += record(raw(65_536, "10.0.0.1") if is_big and rng.random() < 0.05 else packet, 0, clock)
    return data


def busy_job(rng: random.Random) -> Job:
    """A job whose queues get long: few routes, packets of many cells."""
    ports, routes = rng.randint(1, 4), rng.randint(1, 3)
    lines = []
    for number in range(routes):
        fan = rng.sample(range(ports), rng.choice((1, 1, rng.randint(1, ports))))
        lines.append(f"10.0.{number}.0/24 {','.join(map(str, fan))} {rng.choice((0, 0, 1))}\n")
    packets = [
        [raw(rng.choice((20, 60, 100, 300, 700)), f"10.0.{rng.randrange(routes)}.1") for _ in range(rng.randint(0, 5))]
        for _ in range(ports)
    ]
    return "".join(lines).encode(), [capture(*card) for card in packets], Settings(rng.randint(1, 3))


def random_row(rng: random.Random, ports: int, best: int = 0, density: float = 0.3, heads: float = 0.3) -> Row:
    """A row that names outputs at no level better than one."""
    unicast: Dict[int, Iterable[int]] = {}
    multicast: Dict[int, Iterable[int]] = {}
    for level in range(best, LEVELS):
        unicast[level] = {output for output in range(ports) if rng.random() < density}
        if rng.random() < heads:
            multicast[level] = {output for output in range(ports) if rng.random() < 0.5}
    return row_of(unicast, multicast)


def random_pointers(rng: random.Random, ports: int) -> Pointers:
    """Pointers at any ports."""
    pointers = Pointers(ports)
    for table in (pointers.grant, pointers.accept):
        table.update((key, rng.randrange(ports)) for key in table)
    pointers.shared.update((level, rng.randrange(ports)) for level in pointers.shared)
    return pointers


def keeping_row(old: Row, served: Optional[Served], more: Row) -> Row:
    """A row that keeps an old one and its served part, and asks for more where it may."""
    unicast, multicast = [], []
    for level in range(LEVELS):
        gone = {
            kind: served.outputs if served is not None and served[1:] == (level, kind) else NO_PORTS
            for kind in (UNICAST, MULTICAST)
        }
        unicast.append((old.unicast[level] - gone[UNICAST]) | more.unicast[level])
        multicast.append(old.multicast[level] - gone[MULTICAST] or more.multicast[level])
    return Row(tuple(unicast), tuple(multicast))
