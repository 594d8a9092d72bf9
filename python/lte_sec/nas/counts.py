"""Which COUNT a message has, where a trace begins late or lacks messages: the least that fits, as far as 24 bits and
the work allow."""
from __future__ import annotations

from collections.abc import Callable, Iterator
from typing import TypeVar

from .contexts import EpsSecurityContext

Place = TypeVar("Place")
WRAP, SHORT_WRAP = 256, 32  # of a sequence number, and of that of a Service Request
LIMIT = 1 << 24
TRIES = 8  # wraps of the sequence number that are always tried: a trace may lack messages, or show them late
FEW = 16  # wraps that are tried of each message of a phone that is not known, when the work is spent


def estimate(least: int, low: int, wrap: int = WRAP) -> int:
    """The least COUNT from `least` on with these low bits."""
    return least + (low - least) % wrap


def near(context: EpsSecurityContext, direction: int, low: int, wrap: int = WRAP) -> list[int]:
    """The COUNTs to try first: the receiver's, then those of late messages, then those after messages that the trace
    lacks."""
    first = estimate(context.next[direction], low, wrap)
    late = [first - back * wrap for back in range(1, TRIES + 1) if first >= back * wrap]
    ahead = [first + on * wrap for on in range(1, TRIES + 1) if first + on * wrap < LIMIT]
    return [*([first] if first < LIMIT else []), *late, *ahead]


class Effort:
    """How many MACs and KeNBs the far searches of a trace may make together; each may take a part of what is left."""

    def __init__(self, left: int, part: int = 2):
        self.left, self.part, self.reached, self.tried = left, part, True, 0

    def find(
        self, places: list[Place], low: int, wrap: int, fits: Callable[[Place, int], bool]
    ) -> tuple[Place, int] | None:
        """The first place (a KASME, or one with an algorithm) and COUNT with these low bits that fit, from the lowest
        COUNT on.

        None if nothing fits or the work does not reach: `reached` says which.
        """
        self.reached = True
        allowed = max(self.left // self.part, FEW * max(1, len(places)))
        for count, place in self.candidates(places, low, wrap):
            if allowed <= 0:
                self.reached = False
                return None
            allowed -= 1
            self.left, self.tried = self.left - 1, self.tried + 1
            if fits(place, count):
                return place, count
        return None

    def candidates(self, places: list[Place], low: int, wrap: int) -> Iterator[tuple[int, Place]]:
        return ((count, place) for count in range(low, LIMIT, wrap) for place in places)
