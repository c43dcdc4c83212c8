"""A slot-by-slot simulator of an input-queued switch: Bernoulli traffic, virtual output queues, the mean delay of a cell.

    python3 simulator.py [PORTS [ROUNDS [SLOTS [LOAD..]]]]

The same as examples/c/simulator.c, with the same random numbers. A cell that comes in a slot may leave in the same
slot, with delay 0. Queues are first in, first out, one for each input and output, of level 0.
"""

import sys
from collections import deque

import numpy

from tiny_tera.scheduling import UNICAST, Scheduler, sets

WORD = (1 << 64) - 1


def random_numbers(state):
    """A sequence of 64-bit random numbers (splitmix64)."""
    while True:
        state = state + 0x9E3779B97F4A7C15 & WORD
        z = (state ^ state >> 30) * 0xBF58476D1CE4E5B9 & WORD
        z = (z ^ z >> 27) * 0x94D049BB133111EB & WORD
        yield z ^ z >> 31


def run(ports, rounds, slots, percent):
    """How many cells came and left, and the sum of their delays."""
    scheduler, numbers = Scheduler(ports, rounds), random_numbers(1)
    queues = [[deque() for _ in range(ports)] for _ in range(ports)]
    waiting = numpy.zeros((ports, ports), dtype=bool)
    came = left = delay = 0
    for slot in range(slots):
        for source in range(ports):
            if next(numbers) % 100 < percent:
                output = next(numbers) % ports
                queues[source][output].append(slot)
                waiting[source, output] = True
                came += 1
        scheduler.rows[:, UNICAST, 0] = sets(waiting)
        scheduler.decide()
        for source, output in scheduler.pairs():
            delay += slot - queues[source][output].popleft()
            left += 1
            waiting[source, output] = bool(queues[source][output])
    return came, left, delay


def number(word):
    """The number that a word is."""
    if not (word.isascii() and word.isdigit()):
        sys.exit(f"simulator: {word} is no whole number")
    return int(word)


def main(words):
    ports, rounds, slots = (*map(number, words[:3]), *(16, 4, 20000)[len(words[:3]):])
    loads = list(map(number, words[3:])) or [50, 80, 90, 95, 99]
    if not (1 <= ports <= 64 and 1 <= rounds <= 64):
        sys.exit("simulator: ports and rounds are each from 1 to 64")
    print(f"{ports} ports, {rounds} rounds, {slots} slots\nload %  mean delay  left %")
    for percent in loads:
        came, left, delay = run(ports, rounds, slots, percent)
        print(f"{percent:6}  {delay / left if left else 0:10.2f}  {100 * left / came if came else 100:6.2f}")


if __name__ == "__main__":
    main(sys.argv[1:])
