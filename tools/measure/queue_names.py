"""The names of queues, as the report has them.

0>1:2u is the queue of input 0 for output 1 at level 2, and 0>*:2m that for multicast.
"""

import re
from typing import NamedTuple, Optional

NAME = re.compile(r"([0-9]+)>(?:([0-9]+):([0-3])u?|\*:([0-3])m?)")


class QueueName(NamedTuple):
    """A queue: its input, its output (None for multicast) and its level."""

    input: int
    output: Optional[int]
    level: int

    def __str__(self):
        return f"{self.input}>*:{self.level}m" if self.output is None else f"{self.input}>{self.output}:{self.level}u"

    @property
    def part_of_names(self):
        """The queue in the name of a file."""
        output = "all" if self.output is None else self.output
        return f"{self.input}_{output}_{self.level}{'m' if self.output is None else 'u'}"


def read_name(word):
    """The queue that a word names, as 0>1:2 or 0>*:2; ValueError where it names none."""
    found = NAME.fullmatch(word)
    if not found:
        raise ValueError(f"{word!r} is no queue; one is named I>J:L, as '0>1:2', or I>*:L for multicast, in quotes")
    output = None if found[2] is None else int(found[2])
    return QueueName(int(found[1]), output, int(found[3] or found[4]))
