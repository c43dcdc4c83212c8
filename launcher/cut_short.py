"""Which captures have packets of which a part alone was captured, as with a snap length: the switch has no cells for the rest."""

from itertools import islice

from .captures import BadCapture, fields_of
from .given import given_name
from .sources import stamp_of

MOST_PACKETS = 1_000  # Of each capture, from its beginning, and so many bytes.
MOST_BYTES = 2_000_000


def line_of_cut(names):
    """What is to be told of such packets of the ports, None where there are none."""
    found = [(port, *counts) for port, counts in enumerate(map(_counts, names)) if counts[0]]
    if not found:
        return None
    port, cut, packets = found[0]
    more = f", and so are some of {len(found) - 1} ports more" if len(found) > 1 else ""
    first = f"{cut:,} of the first {packets:,} packets of port {port} ({given_name(names[port])}) are not whole{more}"
    return f"{first}: a packet has cells for its captured bytes alone; tcpdump -s 0 captures all"


def _counts(name):
    """How many packets at the beginning of a capture are not whole, and how many these are together."""
    cut = packets = 0
    if stamp_of(name):
        try:
            with open(name, "rb") as file:
                for _, original, _, length in islice(fields_of(file.read(MOST_BYTES)), MOST_PACKETS):
                    packets += 1
                    cut += length < original
        except (OSError, BadCapture):
            pass  # It has more bytes than were read, or is not as it was.
    return cut, packets
