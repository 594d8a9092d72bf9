"""Choices of a reading: what no value proves, and what the links that a trace does not cover leave open.

A key of 256 bits or a MAC of 32 proves the unseen step that it needs, so that rules take that at once, where it is
licensed. Whose a message is, and whether a connection ended, no value proves: there a reading takes the likeliest, and
notes the offer of the other. Where something differs behind an offer, the messages concerned are read again with it
(`rereading`).
"""
from __future__ import annotations

from collections.abc import Hashable, Iterable
from dataclasses import dataclass, field
from enum import Enum


class Offer(str, Enum):
    """What a reading may take in another way at a message."""

    NEW = "a new connection, whose first message the trace does not show"
    STAYS = "a connection that goes on behind its Release Command"


Tape = frozenset[tuple[int, Offer]]  # offers that are taken, by the places of messages


@dataclass
class Choices:
    """The offers that a reading takes, and those that it met."""

    taken: Tape = frozenset()
    met: list[tuple[int, Offer]] = field(default_factory=list)

    def takes(self, place: int, offer: Offer) -> bool:
        """Whether the reading takes an offer, of which it may: the first reading of a trace takes none."""
        self.met.append((place, offer))
        return (place, offer) in self.taken


class Groups:
    """What is joined by shared marks, as messages of phones by identities: a choice at one may concern all."""

    def __init__(self) -> None:
        self.above: dict[Hashable, Hashable] = {}

    def root(self, one: Hashable) -> Hashable:
        path = []
        while self.above.setdefault(one, one) != one:
            path.append(one)
            one = self.above[one]
        self.above.update(dict.fromkeys(path, one))
        return one

    def join(self, marks: Iterable[Hashable]) -> None:
        roots = [self.root(mark) for mark in marks]
        for other in roots[1:]:
            self.above[self.root(other)] = self.root(roots[0])
