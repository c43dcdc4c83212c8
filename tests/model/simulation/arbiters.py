"""The schedulers of a simulation, over sets of outputs that inputs ask for."""

from __future__ import annotations

from typing import Callable, Dict, List, NamedTuple, Sequence, Set

from .sources import ARBITER, HALF, Stream

Rows = Sequence[Set[int]]
Pairs = Dict[int, int]
Choose = Callable[[str, int, Set[int]], int]  # By step, port and the ports to choose of.


class Match(NamedTuple):
    """What feeds each output, and how many pairs each round added."""

    fed: Pairs
    added: List[int]


class Rotating:
    """Under islip, firm and rrm the pairs of the first round move both pointers to one beyond each other. A refused
    grant leaves islip's pointer, moves firm's to the input, and rrm's one beyond it."""

    def __init__(self, name: str, ports: int, rounds: int) -> None:
        self.name, self.ports, self.rounds = name, ports, rounds
        self.pointers = {"grant": [0] * ports, "accept": [0] * ports}

    def decide(self, rows: Rows) -> Match:
        """The match of a slot."""
        return make_rounds(self.ports, self.rounds, rows, self.choose, self.move)

    def choose(self, step: str, port: int, asking: Set[int]) -> int:
        """The first from the port's pointer on."""
        pointer = self.pointers[step][port]
        return min(asking, key=lambda other: (other - pointer) % self.ports)

    def move(self, granted: Pairs, accepted: Pairs) -> None:
        """Moves the pointers after a first round: grants are by output, accepted outputs by input."""
        grant, accept = self.pointers["grant"], self.pointers["accept"]
        for port, output in accepted.items():
            grant[output], accept[port] = (port + 1) % self.ports, (output + 1) % self.ports
        for output, port in granted.items():
            if accepted[port] != output and self.name != "islip":
                grant[output] = port if self.name == "firm" else (port + 1) % self.ports


class Random:
    """Under pim each port that has a choice takes any with the same probability: in a round the outputs draw a word
    each, by rising number, and then the inputs."""

    def __init__(self, ports: int, rounds: int, seed: int) -> None:
        self.ports, self.rounds, self.stream = ports, rounds, Stream(seed, ARBITER)

    def decide(self, rows: Rows) -> Match:
        """The match of a slot."""
        return make_rounds(self.ports, self.rounds, rows, self.choose, lambda granted, accepted: None)

    def choose(self, step: str, port: int, asking: Set[int]) -> int:
        """Any of them."""
        return sorted(asking)[self.stream.next() // HALF * len(asking) // HALF]


def make_rounds(ports: int, rounds: int, rows: Rows, choose: Choose, move: Callable[[Pairs, Pairs], None]) -> Match:
    """The rounds of a slot. After one that adds nothing no later one adds a pair, draws a word or moves a pointer."""
    match = Match({}, [])
    while len(match.added) < rounds and 0 not in match.added:
        free = [port for port in range(ports) if port not in match.fed.values()]
        unfed = [output for output in range(ports) if output not in match.fed]
        asked = {output: {port for port in free if output in rows[port]} for output in unfed}
        granted = {output: choose("grant", output, inputs) for output, inputs in asked.items() if inputs}
        offered = {port: {output for output in granted if granted[output] == port} for port in free}
        accepted = {port: choose("accept", port, outputs) for port, outputs in offered.items() if outputs}
        if not match.added:
            move(granted, accepted)
        match.fed.update({output: port for port, output in accepted.items()})
        match.added.append(len(accepted))
    return match
