"""The proved schedulers, over numpy arrays.

A switch has n ports, 1 to 64; port i is input i and output i. A set of ports is a uint64 in which bit j stands for
port j. Levels are 0 to 3, and level 0 is the best. A slot is the time of one cell.
"""

from __future__ import annotations

import copy
import itertools
from typing import Any, NamedTuple

import numpy
from numpy.typing import ArrayLike, DTypeLike, NDArray

from .library import check, load

MAX_PORTS = 64
MAX_ROUNDS = 64
LEVELS = 4
UNICAST, MULTICAST = 0, 1
# In the place of a port: the output is free.
NONE = 0xFFFFFFFF

#: What feeds an output: input, level and kind (UNICAST or MULTICAST); all three are NONE where it is free.
FEED = numpy.dtype([("input", numpy.uint32), ("level", numpy.uint32), ("kind", numpy.uint32)])

#: How the rounds of a slot were used, by the names that RoundsUsed has.
ROUNDS = numpy.dtype([("used", numpy.uint32), ("first", numpy.uint32), ("last_added", numpy.uint32)])

# By each rule of the pointers the library's functions that decide a slot, and many.
_CALLS = {
    "islip": ("tiny_tera_decide", "tiny_tera_decide_many"),
    "firm": ("tiny_tera_decide_firm", "tiny_tera_decide_many_firm"),
    "rrm": ("tiny_tera_decide_rrm", "tiny_tera_decide_many_rrm"),
}
RULES = tuple(_CALLS)

_SLOT_NUMBERS = 1 << 32
_BITS = numpy.arange(MAX_PORTS, dtype=numpy.uint64)
_TABLE = LEVELS * MAX_PORTS


class RoundsUsed(NamedTuple):
    """How the rounds of a slot were used."""

    used: int  #: how many rounds added a pair
    first: int  #: how many outputs the first round matched
    last_added: int  #: how many the last of all rounds matched; 0 where fewer rounds than all added one


def sets(wanted: ArrayLike) -> NDArray[numpy.uint64]:
    """The sets of ports of a table of booleans: of shape (.., n) to uint64 of shape (..)."""
    flags = numpy.asarray(wanted, dtype=bool)
    if flags.ndim == 0 or flags.shape[-1] > MAX_PORTS:
        raise ValueError(f"the last axis has at most {MAX_PORTS} ports")
    bits = flags.astype(numpy.uint64) << _BITS[: flags.shape[-1]]
    joined: NDArray[numpy.uint64] = numpy.bitwise_or.reduce(bits, axis=-1)
    return joined


def members(port_sets: ArrayLike, ports: int) -> NDArray[numpy.bool_]:
    """Which of the ports each set has: uint64 of shape (..) to booleans of shape (.., ports)."""
    if not 1 <= ports <= MAX_PORTS:
        raise ValueError(f"ports are 1 to {MAX_PORTS}")
    words = numpy.asarray(port_sets, dtype=numpy.uint64)
    return (words[..., None] >> _BITS[:ports] & numpy.uint64(1)).astype(bool)


def new_rows(ports: int) -> NDArray[numpy.uint64]:
    """Rows that name no output, uint64 of shape (ports, 2, 4): rows[i, kind, level] is the set of outputs for which
    input i has a unicast cell waiting, or which the head of its multicast queue still has to reach."""
    return numpy.zeros((ports, 2, LEVELS), dtype=numpy.uint64)


class Pointers:
    """Where the rotating pointers of a switch are, all at port 0 at first. Those of ports from n on are not read.

    grant   uint32 of shape (4, 64): grant[level, output] is the input from which the output grants unicast
    accept  uint32 of shape (4, 64): accept[level, input] is the output from which the input accepts unicast
    shared  uint32 of shape (4,): shared[level] is the input from which all outputs grant multicast
    words   uint32 of shape (516,): all of them, which a call changes in place

    The first three are views of `words`, made anew each time. Setting one of the four copies the numbers into `words`;
    ValueError where they are of another shape, or no words of 32 bits. Copies, also unpickled ones, are pointers of
    their own.
    """

    def __init__(self) -> None:
        self._words: NDArray[numpy.uint32] = numpy.zeros(2 * _TABLE + LEVELS, dtype=numpy.uint32)

    @property
    def words(self) -> NDArray[numpy.uint32]:
        return self._words

    @words.setter
    def words(self, numbers: ArrayLike) -> None:
        _fill(self._words, numbers)

    @property
    def grant(self) -> NDArray[numpy.uint32]:
        return self._words[:_TABLE].reshape(LEVELS, MAX_PORTS)

    @grant.setter
    def grant(self, numbers: ArrayLike) -> None:
        _fill(self.grant, numbers)

    @property
    def accept(self) -> NDArray[numpy.uint32]:
        return self._words[_TABLE : 2 * _TABLE].reshape(LEVELS, MAX_PORTS)

    @accept.setter
    def accept(self, numbers: ArrayLike) -> None:
        _fill(self.accept, numbers)

    @property
    def shared(self) -> NDArray[numpy.uint32]:
        return self._words[2 * _TABLE :]

    @shared.setter
    def shared(self, numbers: ArrayLike) -> None:
        _fill(self.shared, numbers)

    def copy(self) -> Pointers:
        """Pointers of their own at the same ports."""
        made = Pointers()
        made.words = self._words
        return made

    __copy__ = copy

    def __getstate__(self) -> dict[str, Any]:
        return {"words": self._words}

    def __setstate__(self, state: dict[str, Any]) -> None:
        # An array that is unpickled may be one that cannot be written.
        Pointers.__init__(self)
        self.words = state["words"]


class Decision(NamedTuple):
    """What a slot decides: `feeds`, FEED of shape (n,), has for each output what feeds it."""

    feeds: NDArray[numpy.void]
    rounds: RoundsUsed


class Decisions(NamedTuple):
    """What slots decide that follow each other: `feeds`, FEED of shape (slots, n), has for each slot and output what
    feeds it, and `rounds`, ROUNDS of shape (slots,), how the rounds of each slot were used."""

    feeds: NDArray[numpy.void]
    rounds: NDArray[numpy.void]


class UnicastDecision(NamedTuple):
    """What a slot of one level decides: `fed`, uint32 of shape (n,), has for each output the input that feeds it, or NONE."""

    fed: NDArray[numpy.uint32]
    rounds: RoundsUsed


def islip_slot(
    asks: ArrayLike, grant: NDArray[numpy.uint32], accept: NDArray[numpy.uint32], rounds: int = 4
) -> UnicastDecision:
    """Decides one slot of iSLIP for one level of unicast, in 1 to 64 rounds.

    asks    uint64 of shape (n,): the outputs that each input asks
    grant   uint32 of shape (n,): for each output the input from which it grants; changed to what it is after the slot
    accept  uint32 of shape (n,): for each input the output from which it accepts; changed likewise

    Refused where a number is out of range; then nothing has changed.
    """
    asked = _read("asks", asks, numpy.uint64, 1)
    ports = len(asked)
    fed = numpy.empty(ports, dtype=numpy.uint32)
    used = numpy.zeros(3, dtype=numpy.uint32)
    changed = (_changed("grant", grant), _changed("accept", accept))
    _apart(asked, *changed)
    slices = [word for it in (asked, *changed, fed) for word in (it.ctypes.data, len(it))]
    check(load().tiny_tera_islip_slot(_word(ports), _word(rounds), *slices, used.ctypes.data))
    return UnicastDecision(fed, RoundsUsed(*used.tolist()))


def decide(rows: ArrayLike, pointers: Pointers, slot: int, rounds: int = 4, rule: str = "islip") -> Decision:
    """Decides one slot over four levels, unicast and multicast, in 1 to 64 rounds.

    rows      uint64 of shape (n, 2, 4), as of `new_rows`
    pointers  changed to where they are after the slot
    slot      its number; even slots prefer unicast and odd ones multicast
    rule      where a refused unicast grant of the first round moves its pointer: "islip" nowhere, "firm" to that input,
              "rrm" one beyond it

    Refused where a number is out of range; then nothing has changed. A Scheduler is faster, slot after slot.
    """
    posted = _rows(rows)
    scheduler = Scheduler(len(posted), rounds, rule, pointers)
    scheduler.rows[:] = posted
    scheduler.slot = slot
    return Decision(scheduler.decide(), scheduler.rounds_used())


class Scheduler:
    """The scheduler of a switch from slot to slot, over arrays that stay the same ones: write `rows` in place, call
    `decide()`, and read `feeds`. Where the rows of many slots are known before, `decide_many` takes them in one call. It
    is for one thread at a time.

    rows      uint64 of shape (ports, 2, 4), as of `new_rows`: what the inputs post. A call does not change it.
    pointers  where the pointers are before the next slot
    feeds     FEED of shape (ports,): what feeds each output in the slot that was decided last
    slot      the number of the next slot, which `decide` counts up
    rounds    how many rounds a slot has; it may be set from slot to slot
    ports, rule    those that it was made with

    It can be copied and pickled; a copy has arrays of its own, and shares the pointers with none but what was copied
    or pickled together with it.
    """

    def __init__(self, ports: int, rounds: int = 4, rule: str = "islip", pointers: Pointers | None = None) -> None:
        if rule not in RULES:
            raise ValueError(f"the rule is one of {', '.join(RULES)}, and not {rule!r}")
        if not 1 <= ports <= MAX_PORTS:
            raise ValueError(f"ports are 1 to {MAX_PORTS}, and not {ports}")
        self._ports, self._rule, self.rounds, self.slot = ports, rule, rounds, 0
        self._rows = new_rows(ports)
        self._pointers = Pointers() if pointers is None else pointers
        self._feeds = numpy.full(ports, NONE, dtype=FEED)
        self._used = numpy.zeros(3, dtype=numpy.uint32)
        self._call, self._call_many = (getattr(load(), name) for name in _CALLS[rule])
        # These arrays stay as long as the scheduler, so their addresses are taken once.
        self._words = self._pointers.words
        rows, feeds = self._rows.ctypes.data, self._feeds.ctypes.data
        self._arguments = (rows, ports, self._words.ctypes.data, feeds, ports, self._used.ctypes.data)

    def copy(self) -> Scheduler:
        """A scheduler in the same state, with arrays and pointers of its own."""
        return copy.deepcopy(self)

    __copy__ = copy

    def __getstate__(self) -> dict[str, Any]:
        names = ("ports", "rounds", "rule", "slot", "rows", "pointers", "feeds")
        return {**{name: getattr(self, name) for name in names}, "used": self._used}

    def __setstate__(self, state: dict[str, Any]) -> None:
        # The library is looked for anew, since it may stand elsewhere in the process that unpickles.
        Scheduler.__init__(self, state["ports"], state["rounds"], state["rule"], state["pointers"])
        self.slot = state["slot"]
        self._rows[:], self._feeds[:], self._used[:] = state["rows"], state["feeds"], state["used"]

    @property
    def ports(self) -> int:
        return self._ports

    @property
    def rule(self) -> str:
        return self._rule

    @property
    def rows(self) -> NDArray[numpy.uint64]:
        return self._rows

    @property
    def pointers(self) -> Pointers:
        return self._pointers

    @property
    def feeds(self) -> NDArray[numpy.void]:
        return self._feeds

    def decide(self) -> NDArray[numpy.void]:
        """Decides the next slot and answers `feeds`; Refused where a number is out of range, and then nothing has changed."""
        check(self._call(self._ports, _word(self.rounds), self.slot % _SLOT_NUMBERS, *self._arguments))
        self.slot += 1
        return self._feeds

    def decide_many(self, rows: ArrayLike) -> Decisions:
        """Decides the next slots in one call, each as `decide` would, and answers what they decide.

        rows  uint64 of shape (slots, ports, 2, 4): for each slot what the inputs post, as in `new_rows`

        `feeds` and what else tells of the last slot then tell of the last of these; the scheduler's own `rows` are not
        read. Refused where a number is out of range in any of the slots; then nothing has changed.
        """
        posted = _read("rows", rows, numpy.uint64, 4)
        if posted.shape[1:] != self._rows.shape:
            raise ValueError(f"rows have the shape (slots, {self._ports}, 2, {LEVELS}), and not {posted.shape}")
        _apart(posted, self._words)
        slots = len(posted)
        feeds, used = numpy.empty((slots, self._ports), dtype=FEED), numpy.empty(slots, dtype=ROUNDS)
        first = (posted.ctypes.data, slots * self._ports, self._words.ctypes.data)
        written = (feeds.ctypes.data, feeds.size, used.ctypes.data, slots)
        check(self._call_many(self._ports, _word(self.rounds), self.slot % _SLOT_NUMBERS, *first, *written))
        self.slot += slots
        if slots:
            self._feeds[:], self._used[:] = feeds[-1], used[-1].tolist()
        return Decisions(feeds, used)

    def rounds_used(self) -> RoundsUsed:
        """How the rounds of the slot that was decided last were used."""
        return RoundsUsed(*self._used.tolist())

    def pairs(self) -> list[tuple[int, int]]:
        """The matched pairs of that slot, as (input, output), by rising output."""
        return [(port, output) for output, port in enumerate(self._feeds["input"].tolist()) if port != NONE]


def is_maximal(rows: ArrayLike, feeds: ArrayLike) -> bool:
    """Whether a match is maximal for these rows: no free input asks a free output, and no input that is matched as
    multicast asks a free output as multicast of the same level.

    rows   uint64 of shape (n, 2, 4), as of `new_rows`
    feeds  FEED of shape (n,): a match, by any scheduler

    Refused where a number is out of range, or where `feeds` is no match.
    """
    posted, fed = _rows(rows), _read("feeds", feeds, FEED, 1)
    answer = numpy.zeros(1, dtype=numpy.uint32)
    slices = (posted.ctypes.data, len(posted), fed.ctypes.data, len(fed))
    check(load().tiny_tera_is_maximal(_word(len(posted)), *slices, answer.ctypes.data))
    return bool(answer[0])


class WaitMeter:
    """The waits of the unicast queues: for how many slots, one after the other, each was posted and not served.

    waits    uint32 of shape (ports, 4, 64): waits[input, level, output], up to the slot that was noted last
    longest  uint32 of shape (4,): for each level the longest wait of all slots so far
    """

    def __init__(self, ports: int) -> None:
        self.ports = ports
        self.waits: NDArray[numpy.uint32] = numpy.zeros((ports, LEVELS, MAX_PORTS), dtype=numpy.uint32)
        self.longest: NDArray[numpy.uint32] = numpy.zeros(LEVELS, dtype=numpy.uint32)

    def note(self, rows: ArrayLike, feeds: ArrayLike) -> None:
        """Notes one slot more: its rows, uint64 of shape (ports, 2, 4), and what fed its outputs, FEED of shape (ports,).

        Refused where a number is out of range; then nothing has changed.
        """
        posted, fed = _rows(rows), _read("feeds", feeds, FEED, 1)
        waits, longest = _changed("waits", self.waits), _changed("longest", self.longest)
        _apart(waits, longest, posted)
        _apart(waits, longest, fed)
        slices = [word for it in (posted, fed) for word in (it.ctypes.data, len(it))]
        slices += [waits.ctypes.data, waits.size, longest.ctypes.data, longest.size]
        check(load().tiny_tera_note_waits(_word(self.ports), *slices))


def _word(number: int) -> int:
    """The number where 32 bits hold it, and else one that each function refuses."""
    return number if 0 <= number < NONE else NONE


def _rows(rows: ArrayLike) -> NDArray[numpy.uint64]:
    found = _read("rows", rows, numpy.uint64, 3)
    if found.shape[1:] != (2, LEVELS):
        raise ValueError(f"rows have the shape (ports, 2, {LEVELS}), and not {found.shape}")
    return found


def _read(name: str, given: ArrayLike, kind: DTypeLike, axes: int) -> NDArray[Any]:
    """The array as the library reads it, a copy only where the given one is of another type or order."""
    wanted = numpy.dtype(kind)
    # A list of large and small numbers would become one of floating-point numbers.
    found = given if isinstance(given, numpy.ndarray) else numpy.array(given, dtype=wanted if wanted.fields else object)
    if found.dtype != wanted:
        if wanted.fields or not all(_is_word(number) for number in found.flat):
            raise ValueError(f"{name} holds {wanted} alone")
        found = found.astype(wanted)
    if found.ndim != axes:
        raise ValueError(f"{name} has {axes} axes, and not {found.ndim}")
    return numpy.ascontiguousarray(found)


def _is_word(number: object, bits: int = 64) -> bool:
    return isinstance(number, (int, numpy.integer)) and 0 <= int(number) < 1 << bits


def _fill(place: NDArray[numpy.uint32], numbers: ArrayLike) -> None:
    """Copies numbers into an array of the same shape, where each of them is a word of 32 bits."""
    found = numbers if isinstance(numbers, numpy.ndarray) else numpy.array(numbers, dtype=object)
    if found.shape != place.shape:
        raise ValueError(f"pointers of the shape {place.shape} are set, and not of {found.shape}")
    if found.dtype != place.dtype and not all(_is_word(number, 32) for number in found.flat):
        raise ValueError("a pointer is a number of 32 bits")
    place[...] = found


def _changed(name: str, given: NDArray[Any]) -> NDArray[numpy.uint32]:
    """The array, which the library is to change in place."""
    if not isinstance(given, numpy.ndarray) or given.dtype != numpy.uint32:
        raise ValueError(f"{name} is an array of uint32, which the call changes")
    if not (given.flags.c_contiguous and given.flags.writeable):
        raise ValueError(f"{name} is in one piece and can be written")
    return given


def _apart(*arrays: NDArray[Any]) -> None:
    """Refuses arrays that overlap, of which a call writes some."""
    for one, other in itertools.combinations(arrays, 2):
        if numpy.may_share_memory(one, other):
            raise ValueError("two of the arrays overlap")
