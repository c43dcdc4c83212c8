"""The traffic that `tiny_tera simulate` makes, as arrivals: docs/SIMULATE.md has the patterns and the random numbers.

With `--simulated SEED` the packets are those cells, each as a packet of one cell in its slot. So a run with --pace-us 1
serves each as the simulation does, and its packets file has each delay.
"""

from launcher.captures import Arrival

from .simulations import BURSTY, WEIGHED, millionths
from .words import decimal

WORD, HALF = 2**64, 2**32
MILLION = 1_000_000


class Numbers:
    """The random numbers of an input: SplitMix64, begun by the first word of the one that begins at 256 * seed + input."""

    def __init__(self, seed, card):
        self.state = 256 * seed + card
        self.state = self.next()

    def next(self):
        self.state = (self.state + 0x9E3779B97F4A7C15) % WORD
        word = self.state
        word = (word ^ word >> 30) * 0xBF58476D1CE4E5B9 % WORD
        word = (word ^ word >> 27) * 0x94D049BB133111EB % WORD
        return word ^ word >> 31


def make_arrivals(kind, load, burst, weight, ports, slots, seed):
    """The packets that come in so many slots, in the order of slots and then of inputs. The load and the weight are shares
    of at most six places; the burst counts for the kind bursty."""
    load, weight = (millionths(decimal(share)) for share in (load, weight))
    burst = burst if kind == BURSTY else 1
    sources = [_source(Numbers(seed, card), card, kind, load, burst, weight, ports) for card in range(ports)]
    came = ((slot, card, next(source)) for slot in range(slots) for card, source in enumerate(sources))
    return [Arrival(slot, card, (output,), 0, 1) for slot, card, output in came if output is not None]


def _source(numbers, card, kind, load, burst, weight, ports):
    """For each slot the output of the cell that comes to an input, or None."""
    output = None
    while True:
        word = numbers.next()
        high, low = divmod(word, HALF)
        if output is None or high * burst < HALF:  # No burst goes on.
            begins = low * (load + burst * (MILLION - load)) < load * HALF
            output = _output(numbers.next(), card, kind, weight, ports) if begins else None
        yield output


def _output(word, card, kind, weight, ports):
    """The output of a burst that begins at an input."""
    high, low = divmod(word, HALF)
    if kind == "diagonal":
        return (card + (3 * high >= 2 * HALF)) % ports
    if kind == "log-diagonal":
        return (card + (64 - word.bit_length())) % ports
    if kind in WEIGHED and high * MILLION < weight * HALF:
        return 0 if kind == "hot-spot" else card
    return low * ports // HALF
