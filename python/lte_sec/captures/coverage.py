"""Which links a trace covers, counted before it is judged: what happens on the others leaves no message, and may all
the same be lawful.

A link without any message is not covered. Where the trace has both directions of some link, one direction of another
counts as not covered only if the other presupposes it or has four messages or more: a station that sent one request and
was never answered is no half a tap.
"""
from __future__ import annotations

from collections import Counter
from collections.abc import Iterable, Iterator
from dataclasses import dataclass, field
from functools import cached_property

from ..common.terms import TraceError
from .decoding import Message

UP, DOWN = "up", "down"
WAYS = (UP, DOWN)
ENOUGH = 4  # messages of the other direction
ANSWERS = (  # messages of a station that something from the core brought about
    "InitialContextSetupResponse",
    "InitialContextSetupFailure",
    "HandoverRequestAcknowledge",
    "HandoverFailure",
    "HandoverNotify",
    "UEContextReleaseComplete",
    "UEContextModificationResponse",
    "UEContextModificationFailure",
    "UEContextSuspendRequest",
)
SHOWN = 6  # links that the note names of a kind
LINK = "a link is S1/STATION, S1/STATION/up, S1/STATION/down or X2/STATION/STATION"


@dataclass(frozen=True)
class Word:
    """What the user says of a link: of S1 a station and perhaps one direction, of X2 two stations."""

    kind: str
    one: str
    other: str = ""

    def of_s1(self, station: str, way: str) -> bool:
        return self.kind == "S1" and self.one == station and self.other in ("", way)

    def of_x2(self, one: str, other: str) -> bool:
        return self.kind == "X2" and {self.one, self.other} == {one, other}


def word(text: str) -> Word:
    """A link as the user writes it."""
    kind, *names = text.split("/")
    kind = kind.upper()
    if kind == "S1" and (len(names) == 1 or len(names) == 2 and names[1] in WAYS) and names[0]:
        return Word(kind, *names)
    if kind == "X2" and len(names) == 2 and all(names):
        return Word(kind, *names)
    raise TraceError(f"{LINK}: {text}")


@dataclass
class Coverage:
    """The messages of each link: of S1 by station and direction, of X2 by source and target."""

    s1_counts: Counter[tuple[str, str]] = field(default_factory=Counter)
    x2_counts: Counter[tuple[str, str]] = field(default_factory=Counter)
    covers: tuple[Word, ...] = ()
    lacks: tuple[Word, ...] = ()
    stations: dict[str, None] = field(default_factory=dict)  # all that the trace names, in order
    presupposed: set[tuple[str, str]] = field(
        default_factory=set
    )  # directions of S1 in which something was sent, as a message of the other shows

    answered: dict[tuple[str, str], bool] = field(
        default_factory=dict, init=False, repr=False, compare=False
    )  # of S1, as it is asked for each message

    def s1_seen(self, station: str, way: str, number: int = 1) -> None:
        self.answered.clear()
        self.s1_counts[station, way] += number
        self.stations.setdefault(station)

    def x2_seen(self, source: str, target: str, number: int = 1) -> None:
        self.x2_counts[source, target] += number
        self.stations.setdefault(source)
        self.stations.setdefault(target)

    def s1(self, station: str, *ways: str) -> bool:
        """Whether S1 of a station is covered, in these directions or in both."""
        return all(self.s1_way(station, way) for way in ways or WAYS)

    def s1_way(self, station: str, way: str) -> bool:
        found = self.answered.get((station, way))
        if found is None:
            found = self.answered[station, way] = self.s1_way_of(station, way)
        return found

    def s1_way_of(self, station: str, way: str) -> bool:
        if any(one.of_s1(station, way) for one in self.lacks):
            return False
        if any(one.of_s1(station, way) for one in self.covers):
            return True
        back = self.s1_counts[station, DOWN if way == UP else UP]
        return (
            self.s1_counts[station, way] > 0
            or 0 < back < ENOUGH
            and (station, way) not in self.presupposed
            and self.has_both_of_s1()
        )

    def has_both_of_s1(self) -> bool:
        return any(self.s1_counts[station, UP] and self.s1_counts[station, DOWN] for station in self.stations)

    def x2(self, source: str, target: str) -> bool:
        """Whether X2 from one station to another is covered."""
        if any(one.of_x2(source, target) for one in self.lacks):
            return False
        if any(one.of_x2(source, target) for one in self.covers):
            return True
        back = self.x2_counts[target, source]
        both = any(self.x2_counts[other, one] for one, other in list(self.x2_counts))
        return self.x2_counts[source, target] > 0 or 0 < back < ENOUGH and both

    @cached_property
    def whole(self) -> bool:
        """Whether S1 of all stations that the trace names is covered; kept, as it is asked for each message of a phone
        that is not known."""
        return all(self.s1(station) for station in self.stations)

    def closed(self, station: str) -> bool:
        """Whether a phone cannot come to a station unseen: S1 of all that the trace names is covered, and X2 to this
        one from another."""
        return self.whole and any(target == station for _, target in self.x2_counts)

    # -- the note at the head of a report

    def head(self) -> list[str]:
        """Which links the trace covers, and what cannot be told for that reason."""
        found = [*self.of_s1(True), *self.of_x2()]
        lines = [f"links covered: {'; '.join(found) if found else 'none'}"]
        lacking = list(self.of_s1(False))
        if lacking:
            lines.append(
                f"links not covered: {'; '.join(lacking)}: a key that a lawful course there gives is right, so that "
                "a fault there may pass as lawful"
            )
        return lines

    def of_s1(self, covered: bool) -> Iterator[str]:
        whole = [station for station in self.stations if self.s1(station)]
        halves = {
            station: [way for way in WAYS if self.s1(station, way)] for station in self.stations if station not in whole
        }
        if covered:
            texts = [*whole, *(f"{station} {ways[0]}" for station, ways in halves.items() if ways)]
        else:
            texts = [
                station if not ways else f"{station} {DOWN if ways == [UP] else UP}" for station, ways in halves.items()
            ]
        if texts:
            yield f"S1 of {listed(texts)}"

    def of_x2(self) -> Iterator[str]:
        pairs = dict.fromkeys((min(pair), max(pair)) for pair in self.x2_counts)
        texts = []
        for one, other in pairs:
            ways = self.x2(one, other), self.x2(other, one)
            texts.append(f"{one} and {other}" if all(ways) else f"{one} to {other}" if ways[0] else f"{other} to {one}")
        if texts:
            yield f"X2 of {listed(texts)}"


def listed(texts: list[str]) -> str:
    """The first of many, and how many more there are."""
    more = f" and {len(texts) - SHOWN} more" if len(texts) > SHOWN else ""
    return ", ".join(texts[:SHOWN]) + more


def presupposes(message: Message, way: str, is_switched: bool) -> bool:
    """Whether a message of S1 shows that something was sent in the other direction: it names the identity that the
    other end gave, or answers.

    A path switch names the core's identity too, which the source told over X2, and its answer may fail.
    """
    if message.enb_id is None or way == DOWN:
        return message.enb_id is not None
    return message.name in ANSWERS or message.name == "UplinkNASTransport" and not is_switched


@dataclass(frozen=True)
class LinkSeen:
    """A link with the number of its messages: of S1 a station and a direction, of X2 source and target."""

    kind: str
    one: str
    other: str
    number: int
    presupposes: bool = False  # a message of it shows that something was sent in the other direction


def taken(links: Iterable[LinkSeen], covers: Iterable[str], lacks: Iterable[str]) -> Coverage:
    """The coverage of a trace, from its links."""
    found = Coverage(covers=tuple(map(word, covers)), lacks=tuple(map(word, lacks)))
    for link in links:
        if link.kind == "S1" and link.one:
            found.s1_seen(link.one, link.other, link.number)
            if link.presupposes:
                found.presupposed.add((link.one, UP if link.other == DOWN else DOWN))
        elif link.kind == "X2" and link.one and link.other:
            found.x2_seen(link.one, link.other, link.number)
    return found
