"""The waits of unicast queues, from a journal."""

from collections import Counter

from .journal import LEVELS


def members(ports):
    """The ports of a set given as bits, in rising order."""
    while ports:
        lowest = ports & -ports
        yield lowest.bit_length() - 1
        ports ^= lowest


def served_waits(journal):
    """For each level, how often a unicast queue was served after each number of slots of waiting.

    A wait is the number of slots in a row before the one that serves the queue in which the queue
    was posted and not matched; 0 where it is served in the first slot that posts it.
    """
    counts = [Counter() for _ in range(LEVELS)]
    waiting = {}
    for slot in journal.slots():
        waiting = _after(slot, waiting, counts)
    return counts


def are_of_one_run(journal, counts, report):
    """Whether a journal with these waits has the ports, the rounds, the slots and the longest waits of a report."""
    head = (journal.ports, journal.rounds, journal.slot_count)
    longest = tuple(max(count, default=0) for count in counts)
    return (head, longest) == (tuple(report.summary[name] for name in ("ports", "rounds", "slots")), report.longest)


def _after(slot, waiting, counts):
    """The queues that wait after a slot, with their waits; those that it serves are counted."""
    left = {}
    for card, output, level in _posted(slot):
        queue = (card, output, level)
        if slot.outputs[output] == (card, level, False):
            counts[level][waiting.get(queue, 0)] += 1
        else:
            left[queue] = waiting.get(queue, 0) + 1
    return left


def _posted(slot):
    """The unicast queues that a slot posts: input, output and level of each."""
    for card, post in enumerate(slot.posts):
        for level, outputs in enumerate(post.unicast):
            for output in members(outputs):
                yield card, output, level
