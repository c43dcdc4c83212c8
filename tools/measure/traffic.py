"""Makes traffic by a seed: captures of packets of one cell each, their table, and their arrivals.

In `uniform`, `diagonal`, `log-diagonal` and `hot-spot` traffic a packet comes to each input in each slot with the
probability of the load, whatever came before (independent Bernoulli arrivals); they differ in where it goes.

- `uniform`: to any of N outputs with the same probability, 1/N.
- `diagonal`: from input i to output i with probability 2/3, to output i + 1 modulo N with 1/3.
- `log-diagonal`: from input i to output i + d modulo N with 2^(N-1-d) / (2^N - 1): each further output gets half as much.
- `hot-spot`: to output 0 with the probability of the hot share, else to any output with the same probability.
- `bursty`: each input is on and off by turns (a Markov chain of two states). On, a packet comes in each slot, all of
  one burst for the same output, which is any with the same probability. Bursts have a mean length; the lengths of
  bursts (from 1) and of pauses (from 0) are geometric, and the mean pause makes the load.
"""

import random
import struct
from bisect import bisect
from functools import lru_cache
from itertools import accumulate
from pathlib import Path

from launcher.captures import Arrival

KINDS = ("uniform", "bursty", "diagonal", "log-diagonal", "hot-spot")
PACE_US = 1  # Microseconds of a slot: the time stamps count slots.
MAX_PORTS = 64
HALVED_ABOVE = 32  # Over so many ports a run takes half as many cells.
MAX_CELLS = 131_072

LINK_RAW_IP = 101
SNAP_LENGTH = 262_144
HEADER_BYTES = 20  # A packet is an IPv4 header alone: with 16 bytes of its own, a message of one cell.
PROTOCOL = 253  # For experiments.
SECOND_US = 1_000_000


def most_slots(ports):
    """The most slots of traffic for which no run has too many cells, whatever the load."""
    return (MAX_CELLS // 2 if ports > HALVED_ABOVE else MAX_CELLS) // ports


def make_arrivals(kind, load, burst, hot, ports, slots, seed):
    """The packets that come in so many slots, in the order of slots and then of inputs.

    Load is over 0 and at most 1, burst the mean burst in packets, at least 1, hot the share of packets that
    go to the hot spot. The slots are counted from the first in which a packet comes. The same words give the
    same packets.
    """
    own = f" {hot:g}" if kind == "hot-spot" else ""
    numbers = random.Random(f"{kind} {load} {burst} {ports} {slots} {seed}{own}")
    sources = [_source(kind, numbers, card, load, burst, hot, ports) for card in range(ports)]
    found = []
    for slot in range(slots):
        for card, source in enumerate(sources):
            output = next(source)
            if output is not None:
                found.append(Arrival(slot, card, (output,), 0, 1))
    first = found[0].slot if found else 0
    return [packet._replace(slot=packet.slot - first) for packet in found] if first else found


def _source(kind, numbers, card, load, burst, hot, ports):
    """For each slot the output of the packet that comes to an input, or None."""
    if kind == "uniform":
        return _uniform(numbers, load, ports)
    if kind == "bursty":
        return _bursty(numbers, load, burst, ports)
    return _weighted(numbers, load, shares(kind, card, hot, ports))


def shares(kind, card, hot, ports):
    """For each output the share of the packets of an input that go there."""
    if kind == "log-diagonal":
        by_distance = [2 ** (ports - 1 - distance) / (2**ports - 1) for distance in range(ports)]
    elif kind == "diagonal" and ports > 1:
        by_distance = [2 / 3, 1 / 3] + [0] * (ports - 2)
    elif kind == "hot-spot":
        return [(hot if output == 0 else 0) + (1 - hot) / ports for output in range(ports)]
    else:
        by_distance = [1] + [0] * (ports - 1)
    return [by_distance[(output - card) % ports] for output in range(ports)]


def _below(numbers, limit):
    """A number below the limit, each with the same probability."""
    return int(numbers.random() * limit)


def _uniform(numbers, load, ports):
    while True:
        yield _below(numbers, ports) if numbers.random() < load else None


def _weighted(numbers, load, weights):
    limits = list(accumulate(weights))
    last = max(output for output, weight in enumerate(weights) if weight)
    while True:
        yield min(bisect(limits, numbers.random()), last) if numbers.random() < load else None


def _bursty(numbers, load, burst, ports):
    pause = burst * (1 - load) / load
    ends_burst, ends_pause = 1 / burst, 1 / (1 + pause)
    # As if it had run for ever: a burst or a pause is under way, which has at least this slot left.
    is_on = numbers.random() < load
    if not is_on:
        yield None
    while True:
        if is_on:
            output = _below(numbers, ports)
            yield output
            while numbers.random() >= ends_burst:
                yield output
        while numbers.random() >= ends_pause:
            yield None
        is_on = True


def write_traffic(folder, arrivals, ports):
    """Writes an empty folder: the captures 00.pcap and so on of the ports, and table.txt."""
    by_input = [[] for _ in range(ports)]
    for packet in arrivals:
        by_input[packet.input].append(packet)
    table = "".join(f"10.0.{output}.0/24 {output}\n" for output in range(ports))
    write_folder(folder, [_capture(packets) for packets in by_input], table)


def write_folder(folder, captures, table):
    """Writes captures, in the order of ports, and a table to a folder, which is made, or empty; OSError where it is not."""
    folder = Path(folder)
    folder.mkdir(parents=True, exist_ok=True)
    if any(folder.iterdir()):
        raise FileExistsError(f"{folder} is not empty")
    for name, data in zip(capture_names(len(captures)), captures):
        (folder / name).write_bytes(data)
    (folder / "table.txt").write_text(table)


def capture_names(ports):
    """The names of the captures, in the order of ports."""
    return [f"{card:02}.pcap" for card in range(ports)]


def _capture(packets):
    """The bytes of a classic pcap file of these packets."""
    records = ((packet.slot * PACE_US, ip_header(packet.input, _address(packet.outputs[0]), HEADER_BYTES)) for packet in packets)
    return capture_bytes(LINK_RAW_IP, records)


def _address(output):
    """The address that the table sends to an output."""
    return bytes([10, 0, output, 1])


def capture_bytes(link, records):
    """The bytes of a classic pcap file, little-endian; a record is its time in microseconds and its frame."""
    header = struct.pack("<IHHIIII", 0xA1B2C3D4, 2, 4, 0, 0, SNAP_LENGTH, link)
    return header + b"".join(_record(time, frame) for time, frame in records)


def _record(time, frame):
    seconds, micros = divmod(time, SECOND_US)
    return struct.pack("<IIII", seconds, micros, len(frame), len(frame)) + frame


@lru_cache(maxsize=None)
def ip_header(card, destination, length):
    """The header of an IPv4 packet of so many bytes from a port to an address."""
    source = bytes([10, 1, card, 1])
    words = struct.pack(">BBHHHBBH", 0x45, 0, length, 0, 0, 64, PROTOCOL, 0) + source + destination
    total = sum(struct.unpack(">10H", words))
    while total > 0xFFFF:
        total = (total & 0xFFFF) + (total >> 16)
    return words[:10] + struct.pack(">H", 0xFFFF - total) + words[12:]
