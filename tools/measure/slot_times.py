"""Words that say how long a slot lasts, and its microseconds."""

from launcher.slot_lengths import MICROSECOND, MOST_ETHERNET, MOST_PACE_US, MOST_RATE, of_pace, of_rate, rate_for

from .words import whole

PLACES = 4  # Of microseconds.


def add_words(parser):
    """Gives a parser of words those that say how long a slot lasts."""
    either = parser.add_mutually_exclusive_group()
    either.add_argument("--pace-us", metavar="K", type=whole(1, MOST_PACE_US),
                        help="a slot lasts K microseconds, as in the run")
    either.add_argument("--line-rate", metavar="MBPS", type=whole(1, MOST_RATE),
                        help="a slot is the time of a cell of 64 bytes at so many Mbit/s")
    either.add_argument("--ethernet", metavar="E", type=whole(1, MOST_ETHERNET),
                        help="the same at the line rate that keeps up with an Ethernet of so many Mbit/s")


def slot_of(words):
    """The length of a slot; None where the words do not say it."""
    if words.pace_us is not None:
        return of_pace(words.pace_us)
    rate = words.line_rate if words.ethernet is None else rate_for(words.ethernet)
    return None if rate is None else of_rate(rate)


def slot_us(words):
    """The microseconds of a slot; None where the words do not say it."""
    slot = slot_of(words)
    return None if slot is None else slot.nanos / slot.divisor / MICROSECOND


def in_us(slots, length):
    """A column of slots in microseconds, where a slot has so many."""
    return (slots.astype("Float64") * length).round(PLACES)
