"""The board: which posts, decisions and takes may come one after the other, and what they answer."""

from __future__ import annotations

from typing import List, NamedTuple, Optional

from .cards import Post
from .messages import Cell, is_cell
from .ports import Ports
from .rounds import Pointers
from .rows import Row, Served, feed_of, keeps, served_part
from .schedulers import Decision, Scheduler, islip


class Taken(NamedTuple):
    """A card's part of a slot: the outputs that it was served with, the cell that crosses to its own output, and
    whether the slot is the last."""

    slot: int
    served: Optional[Served]
    cell: Optional[Cell]
    is_last: bool


def is_accepted(ports: int, card: int, post: Post, before: Optional[Row], served: Optional[Served]) -> bool:
    """Whether a post may follow on the row before, with its served part: it keeps what was not served, has the cell
    that was granted, and says that more is to come where its row asks."""
    if not post.row.is_within(ports) or before is not None and not keeps(before, served, post.row):
        return False
    granted = None if served is None else (card, served.level, served.kind)
    if granted != (None if post.cell is None else post.cell.flow()):
        return False
    return (post.cell is None or is_cell(post.cell)) and (post.more or post.row.is_empty())


class History:
    """What came at a board, and what it answered."""

    def __init__(self, ports: int, rounds: int, most_slots: int, scheduler: Scheduler = islip) -> None:
        self.ports, self.rounds, self.most_slots, self.scheduler = ports, rounds, most_slots, scheduler
        self.posts: List[List[Post]] = [[] for _ in range(ports)]
        self.takes: List[List[Taken]] = [[] for _ in range(ports)]
        self.decisions: List[Decision] = []

    def posted(self) -> Ports:
        """The cards that have posted for the slot that is decided next."""
        return frozenset(card for card in range(self.ports) if len(self.posts[card]) == len(self.decisions) + 1)

    def is_done(self, card: int) -> bool:
        """Whether a card has taken its part of the last slot."""
        return any(taken.is_last for taken in self.takes[card])

    def may_post(self, card: int, post: Post) -> bool:
        """Whether a card may post so now: once for a slot, after its part of the one before."""
        if not 0 <= card < self.ports or self.is_done(card):
            return False
        posts, takes = self.posts[card], self.takes[card]
        if len(posts) != len(takes) or len(posts) >= self.most_slots:
            return False
        before, served = (posts[-1].row, takes[-1].served) if posts else (None, None)
        return is_accepted(self.ports, card, post, before, served)

    def may_decide(self) -> bool:
        """Whether all cards have posted."""
        return len(self.posted()) == self.ports

    def may_take(self, card: int) -> bool:
        """Whether a slot is decided that the card posted for and has not taken."""
        return 0 <= card < self.ports and len(self.takes[card]) < min(len(self.posts[card]), len(self.decisions))

    def post(self, card: int, post: Post) -> None:
        """A card posts; the last one has the slot decided."""
        assert self.may_post(card, post)
        self.posts[card].append(post)
        if self.may_decide():
            slot = len(self.decisions)
            rows = [posts[slot].row for posts in self.posts]
            pointers = self.decisions[-1].pointers if self.decisions else Pointers(self.ports)
            self.decisions.append(self.scheduler(self.ports, self.rounds, slot, rows, pointers))

    def take(self, card: int) -> Taken:
        """A card takes its part."""
        assert self.may_take(card)
        slot = len(self.takes[card])
        feed = feed_of(self.decisions[slot - 1].match, card) if slot > 0 else None
        cell = None if feed is None else self.posts[feed.input][slot].cell
        is_last = not any(posts[slot].more for posts in self.posts)
        self.takes[card].append(Taken(slot, served_part(self.decisions[slot].match, card), cell, is_last))
        return self.takes[card][-1]
