"""What was seen of a trace: each message with its link, ends and connection, and each value of it with its verdict.

Reading hands this list over, and lines, JSON and annotations are written from it alone. It is the only way from the
judge to what is built on it; all texts in it are shown in one line each (`escaped`).
"""
from __future__ import annotations

from collections import Counter
from collections.abc import Callable, Iterable, Iterator, Mapping, Sequence
from dataclasses import dataclass, field
from functools import cached_property
from typing import TypeVar, overload

from ..captures.decoding import Message, title
from ..common.escaped import shown
from ..common.report import NOTE, RIGHT, Line, Verdict
from ..common.terms import Derivations
from .line_store import LinesInOrder

UP, DOWN = "up", "down"


@dataclass(frozen=True)
class Link:
    """The link that a message goes on: of S1 the station, the core and the way; of X2 the source and the target."""

    kind: str  # S1, X2, RRC, S6a, GTPv2, or one of `capture_files`
    one: str = ""
    other: str = ""
    way: str = ""  # of S1: up to the core or down


@dataclass(frozen=True)
class End:
    """An end of a message: the name of the station where it is known, else the address; and the address."""

    name: str
    address: str


@dataclass(frozen=True)
class Seen:
    """One message of a trace. Connection, handover and phone are numbers from 1, None where it belongs to none."""

    frame: str
    time: float
    kind: str  # the name of the message
    link: Link
    source: End
    target: End
    connection: int | None
    handover: int | None
    phone: int | None
    values: tuple[Line, ...]
    decoded: Message = field(repr=False)

    @property
    def title(self) -> str:
        """The name of the message in a line."""
        return title(self.decoded)


@dataclass(frozen=True)
class Use:
    """A key that a station had in use for a connection, from a frame on, and the algorithms of its bearers where the
    trace tells them."""

    connection: int
    frame: str
    station: str
    term: str
    key: bytes = field(repr=False)
    eea: int | None = None
    eia: int | None = None


Entry = TypeVar("Entry")


class Late(Sequence[Entry]):
    """A list that is made where something of it is asked for: most reports need no more than the lines."""

    def __init__(self, make: Callable[[], Iterable[Entry]]):
        self.make = make

    @cached_property
    def all(self) -> tuple[Entry, ...]:
        return tuple(self.make())

    def __len__(self) -> int:
        return len(self.all)

    def __iter__(self) -> Iterator[Entry]:
        return iter(self.all)

    @overload
    def __getitem__(self, place: int) -> Entry:
        ...

    @overload
    def __getitem__(self, place: slice) -> Sequence[Entry]:
        ...

    def __getitem__(self, place: int | slice) -> Entry | Sequence[Entry]:
        return self.all[place]


@dataclass(frozen=True)
class Account:
    """All that was seen of a trace. `head` says what the whole trace has and has not; it stands before all frames."""

    messages: Sequence[Seen]
    head: tuple[str, ...] = ()
    derivations: Derivations | None = field(default=None, repr=False)
    uses: Sequence[Use] = ()  # the keys of stations, connection by connection
    told: LinesInOrder | None = field(default=None, repr=False)  # the values, where they are those of the reading

    def values(self) -> Iterator[tuple[Seen, Line]]:
        """Each value with its message, in the order of the lines."""
        return ((message, value) for message in self.messages for value in message.values)

    def lines(self) -> Iterator[Line]:
        """Each value, in the order of the lines."""
        return iter(self.told) if self.told is not None else (value for _, value in self.values())

    def verdicts(self) -> Counter[Verdict]:
        """How many values have each verdict."""
        return Counter(line.verdict for line in self.lines()) if self.told is None else self.told.verdicts()


@dataclass(frozen=True)
class Membership:
    """Of each place of a trace the number of its connection and of its handover, from 0."""

    connections: Mapping[int, int]
    handovers: Mapping[int, int]
    tmsis: Mapping[int, int]  # of a connection


def phones(lines: Iterable[tuple[int, Line]], membership: Membership) -> dict[int, int]:
    """The phone of each connection: connections are of one phone where they share a KASME, by what is right, or an
    M-TMSI."""
    group: dict[int, int] = {}

    def first(one: int) -> int:
        while group.setdefault(one, one) != one:
            one = group[one]
        return one

    shared: dict[object, int] = {}
    told = [
        (membership.connections[place], line.kasme)
        for place, line in lines
        if place in membership.connections and line.kasme and line.verdict == RIGHT
    ]
    for connection, mark in [*told, *membership.tmsis.items()]:
        group[first(connection)] = first(shared.setdefault(mark, connection))
    every = sorted(set(membership.connections.values()))
    numbers: dict[int, int] = {}
    return {one: numbers.setdefault(first(one), len(numbers) + 1) for one in every}


def link_of(message: Message, names: Mapping[str, str], is_up: bool) -> Link:
    source, target = (shown(names.get(end) or end) for end in (message.source, message.target))
    if message.link != "S1":
        return Link(message.link, source, target)
    return Link("S1", source, target, UP) if is_up else Link("S1", target, source, DOWN)


def account(
    messages: Sequence[Message],
    told: LinesInOrder,
    membership: Callable[[], Membership],
    names: Mapping[str, str],
    up: Iterable[str],
    head: Iterable[str],
    derivations: Derivations,
    uses: Callable[[], Iterable[Use]],
) -> Account:
    """The list of what was seen, of lines in the order of their places; `names` are those of stations by address, `up`
    the messages of S1 that a station sends."""
    late = Late(lambda: all_seen(messages, list(told.placed()), membership(), names, frozenset(up)))
    return Account(late, tuple(map(shown, head)), derivations, Late(uses), told)


def all_seen(
    messages: Sequence[Message],
    placed: list[tuple[int, Line]],
    membership: Membership,
    names: Mapping[str, str],
    up: frozenset[str],
) -> Iterator[Seen]:
    """Each message with its values."""
    values: dict[int, list[Line]] = {}
    for place, line in placed:
        values.setdefault(place, []).append(line)
    phone = phones(placed, membership)
    for place, one in enumerate(messages):
        connection, handover = membership.connections.get(place), membership.handovers.get(place)
        source, target = (End(shown(names.get(end) or end), shown(end)) for end in (one.source, one.target))
        yield Seen(
            shown(one.frame),
            one.time,
            shown(one.name),
            link_of(one, names, one.name in up),
            source,
            target,
            None if connection is None else connection + 1,
            None if handover is None else handover + 1,
            None if connection is None else phone.get(connection),
            tuple(values.get(place, ())),
            one,
        )


def judged_anything(seen: Account) -> bool:
    """Whether there was anything to judge."""
    return any(number for verdict, number in seen.verdicts().items() if verdict != NOTE)
