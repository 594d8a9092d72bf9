"""Questions to the proved program `lte_trace`: what a trace has of the keys of one phone, and the answer in words."""
from __future__ import annotations

import os
import subprocess
from collections.abc import Iterable, Iterator
from dataclasses import dataclass, field
from pathlib import Path

from ..captures.cells import is_cell
from ..captures.coverage import DOWN, UP
from ..common.causes import Cause, Why, every
from ..common.report import DIFFERS, KEYS, Line
from ..common.terms import Key, counted, numbered
from .account import Seen
from .trace import Trace

BOUNDS = (2, 1)  # unseen moves between two messages, with moves over the air: fewer where the search is given up
COUNTS = 40  # that are tried behind the last one where a station's messages to the core are not covered
MOST = 256  # stations, or KASMEs
SECONDS = 60.0  # for one question
VARIABLE = "LTE_SEC_TRACE"  # `proved` or `unproved`, and the path of the program: the launcher says it
# said of a message that no history gives, of any length
NEVER = ("out-of-order", "out-of-place", "out-of-reach", "out-of-chain")
MOST_STEPS = 255  # of a chain, to a key whose derivation is told
MOST_TOLD = 8  # moves of such a history that are told
ANSWERED = {
    "PathSwitchRequestAcknowledge": "PathSwitchRequest",
    "UEContextSuspendResponse": "UEContextSuspendRequest",
    "UEContextResumeResponse": "UEContextResumeRequest",
    "HandoverRequest": "HandoverRequired",
}
TAKEN = "UEContextModificationResponse"
REQUESTS = tuple(ANSWERED.values())
PLAIN = {
    "take": "the key change taken",
    "switch": "a path switch",
    "ask": "a request to the core whose answer is",
    "arrive": "the arrival at the target",
    "cancel": "the handover cancelled",
    "leave": "the end of the connection",
}


@dataclass(frozen=True)
class Found:
    """So many messages of a question have a lawful history, and whether no number of unseen moves gives one more."""

    explained: int
    closed: bool
    moves: tuple[str, ...] = ()  # of that history, if they were asked for
    never: bool = False  # no number of unseen moves gives one more, over the air neither


@dataclass(frozen=True)
class Program:
    """The program `lte_trace`."""

    path: str
    is_proved: bool

    def ask(self, question: str) -> Found | None:
        """The answer to a question; None where the search was given up."""
        try:
            ran = subprocess.run(
                [self.path], input=question, capture_output=True, text=True, timeout=SECONDS, check=False
            )
        except (OSError, subprocess.TimeoutExpired):
            return None
        first, *moves = ran.stdout.splitlines() or [""]
        words = first.split()
        return (
            Found(int(words[1]), "closed" in words, tuple(moves), not set(NEVER).isdisjoint(words))
            if ran.returncode == 0 and words[:1] == ["explained"]
            else None
        )


def program() -> Program | None:
    """The program as the launcher names it, where it is built."""
    kind, _, path = os.environ.get(VARIABLE, "").partition(" ")
    return Program(path, kind == "proved") if path and Path(path).exists() else None


@dataclass
class Sighting:
    """A message of a phone that tells of keys, as a question has it: the words before the key, and the key with its
    NCC."""

    at: str
    key: str = ""
    seen: Seen | None = None
    value: Line | None = None  # that is blamed
    passed: bool = False  # its key is not looked at

    @property
    def line(self) -> str:
        return (
            f"{self.at} {self.key}"
            if self.key and not self.passed
            else self.at
            if self.at.startswith(("asked ", "took "))
            else f"any {self.at}"
        )


@dataclass
class Numbering:
    """Stations by their numbers."""

    found: dict[str, int] = field(default_factory=dict)

    def of(self, name: str) -> int:
        return self.found.setdefault(name, len(self.found))


def is_blamed(value: Line) -> bool:
    """Whether a line says that a key, or its NCC, is another than any lawful history gives. A KeNB of another COUNT is
    not asked for: NAS tells its COUNT, which the program does not see."""
    is_of_count = value.what == "KeNB" and value.key is not None and value.key.term.kind == "kenb"
    return (
        value.verdict == DIFFERS
        and value.what in KEYS
        and not is_of_count
        and (value.hex != value.wanted_hex or value.ncc != value.wanted_ncc)
    )


def key_of(one: Seen) -> str:
    """Key and NCC of a message."""
    message = one.decoded
    key = message.nh or message.key or b""
    return f"{key.hex()} {message.ncc}" if message.ncc is not None else key.hex()


class Phone:
    """What a trace has of the keys of one phone, as a question."""

    def __init__(self, trace: Trace, messages: list[Seen]):
        self.trace, self.messages = trace, messages
        self.numbers = Numbering()
        self.kasmes: dict[int, int] = {}
        self.bound = BOUNDS[0]
        found = [*self.all()]
        taps = {line.partition(" ")[2] for line in self.taps()}
        self.sightings = [one for one in found if one.at in taps or one.value is not None]

    def all(self) -> Iterator[Sighting]:
        answered = self.answered()
        for place, one in enumerate(self.messages):
            blamed = next((value for value in one.values if is_blamed(value)), None)
            at = self.place(one)
            if at and key_of(one):
                yield Sighting(at, key_of(one), one, blamed)
            elif one.kind == TAKEN and one.link.kind == "S1" and self.was_changed(place):
                yield Sighting(f"took {self.numbers.of(one.link.one)}")
            elif one.kind in REQUESTS and one.link.kind == "S1" and place not in answered:
                yield Sighting(f"asked {self.numbers.of(one.link.one)}")

    def was_changed(self, place: int) -> bool:
        """Whether the modification that is answered here brought a key."""
        before = (
            one
            for one in reversed(self.messages[:place])
            if one.kind == "UEContextModificationRequest" and one.connection == self.messages[place].connection
        )
        return any(one.decoded.key is not None for one in [next(before, None)] if one is not None)

    def place(self, one: Seen) -> str:
        """Where a message goes that carries a key."""
        message, link = one.decoded, one.link
        if link.kind == "X2" and message.key is not None and message.ncc is not None:
            cells = self.trace.cells  # the cells tell the stations, also where no X2 Setup names an end
            return (
                f"over {self.numbers.of(cells.station(message.source_eci) or link.one)} "
                f"{self.numbers.of(cells.station(message.eci) or link.other)}"
            )
        if link.kind != "S1":
            return ""
        station = self.numbers.of(link.one)
        if message.name == "HandoverRequest" and message.nh is not None and message.ncc is not None:
            return f"request {station}"
        if message.name in ANSWERED and message.nh is not None and message.ncc is not None:
            return f"answer {station}"
        if message.name == "InitialContextSetupRequest" and message.key is not None:
            return f"setup {station}"
        return f"change {station}" if message.name == "UEContextModificationRequest" and message.key is not None else ""

    def answered(self) -> set[int]:
        """The places of requests to the core whose answer is there."""
        waiting: dict[tuple[int | None, str], list[int]] = {}
        found: set[int] = set()
        for place, one in enumerate(self.messages):
            if one.link.kind != "S1":
                continue
            if one.kind in REQUESTS:
                waiting.setdefault((one.connection, one.kind), []).append(place)
            before = waiting.get((one.connection, ANSWERED.get(one.kind, "")), [])
            if before and one.decoded.nh is not None:
                found.add(before.pop(0))
        return found

    # -- the question

    def counts(self) -> Iterator[tuple[int, int]]:
        """KASME and COUNT of each KeNB that is due: those of the lines, and of messages up that are not covered."""
        last: dict[int, int] = {}
        for one in self.messages:
            for value in one.values:
                key = value.wanted_key if value.wanted_key is not None and value.wanted_key.known else value.key
                if value.what in KEYS and key is not None and key.kasme >= 0 and counted(key.term.base()) >= 0:
                    last.setdefault(key.kasme, counted(key.term.base()))
                    last[key.kasme] = max(last[key.kasme], counted(key.term.base()))
                    yield key.kasme, counted(key.term.base())
        if not all(self.trace.coverage.s1(name, UP) for name in self.numbers.found):
            for kasme, count in last.items():
                yield from ((kasme, more) for more in range(count, count + COUNTS))

    def found(self) -> list[Key]:
        """The blamed keys whose derivation is found, from a KeNB on."""
        keys = (one.value.key for one in self.sightings if one.value is not None and one.value.key is not None)
        return [
            key
            for key in keys
            if key.kasme >= 0
            and key.term.is_of_station
            and numbered(key.term) <= MOST_STEPS
            and all(is_cell(*one) for one in key.term.cells())
        ]

    def clues(self) -> Iterator[str]:
        """How these are made. The program makes them itself, so that it need not believe it."""
        for key in self.found():
            yield f"key {self.kasmes[key.kasme]} {counted(key.term.base())} {numbered(key.term)}"
            yield from (f"star {pci} {earfcn}" for pci, earfcn in reversed(key.term.cells()))

    def moves(self) -> Iterator[str]:
        """The KASMEs, COUNTs and cells of which moves are made."""
        due = dict.fromkeys(self.counts())
        for kasme in dict.fromkeys([*(kasme for kasme, _ in due), *(key.kasme for key in self.found())]):
            self.kasmes[kasme] = len(self.kasmes)
            yield f"kasme {self.trace.derivations.kasmes[kasme].value.hex()}"
        yield from self.cells()
        yield from (f"count {self.kasmes[kasme]} {count}" for kasme, count in due)
        yield from (f"first {number}" for number in self.firsts())

    def cells(self) -> Iterator[str]:
        """The cells of each station."""
        for name, number in self.numbers.found.items():
            yield from dict.fromkeys(
                f"cell {number} {site.pci} {site.earfcn}"
                for site in self.trace.cells.every()
                if self.trace.cells.station(site.eci) == name
            )

    def firsts(self) -> list[int]:
        """The first NCC that the cores of the trace send: 2, or 1 where they step their chain only for an answer. Where
        a request to the core may go unseen it may be either: with 1, too, 2 comes behind a lost answer."""
        judge, coverage = self.trace.judge, self.trace.coverage
        if not all(coverage.s1(station, UP) for station in coverage.stations):
            return [1, 2]
        seen = {number for numbers in judge.seen_firsts.values() for number in numbers}
        return sorted({*judge.firsts.values()} or seen & {1, 2} or {1, 2})

    def taps(self) -> Iterator[str]:
        coverage, found = self.trace.coverage, self.numbers.found
        for name, number in found.items():
            if coverage.s1(name, DOWN):
                yield from (f"covers {what} {number}" for what in ("setup", "change", "answer", "request"))
            if coverage.s1(name, UP):
                yield from (f"covers {what} {number}" for what in ("took", "asked"))
        unseen = self.came_unseen()
        yield from (
            f"covers over {found[one]} {found[other]}"
            for one in found
            for other in found
            if one != other and other not in unseen and coverage.x2(one, other)
        )

    def came_unseen(self) -> set[object]:
        """The stations to which the phone came by a handover of which the trace lacks X2: no X2 to them is covered."""
        return {
            reason.value("station")
            for one in self.messages
            for value in one.values
            for reason in every(value.said)
            if reason.cause is Cause.WITHOUT_X2
        }

    def fits(self) -> bool:
        """Whether the program takes a question of so many stations and KASMEs."""
        return (
            len(self.numbers.found) <= MOST
            and len({*(kasme for kasme, _ in self.counts()), *(key.kasme for key in self.found())}) <= MOST
        )

    def ask(self, taken: Program, told: bool = False) -> Found | None:
        """The answer to the question of all messages, with as many unseen moves as it can be searched with."""
        for bound in BOUNDS[BOUNDS.index(self.bound) :] if self.fits() else ():
            self.bound = bound
            answer = taken.ask(self.question(bound, True, told=told))
            if answer is not None:
                return answer
        return None

    def some(self, taken: Program) -> int:
        """How many messages have a history, as far as searches of fewer moves tell: none over the air."""
        answers = (taken.ask(self.question(bound, False)) for bound in BOUNDS) if self.fits() else ()
        return max((answer.explained for answer in answers if answer is not None), default=0)

    def question(self, bound: int, air: bool, upto: int | None = None, told: bool = False) -> str:
        self.kasmes = {}
        head = [
            *self.moves(),
            *self.clues(),
            *self.taps(),
            f"bound {bound}",
            *(["air"] if air else []),
            *(["moves"] if told else []),
        ]
        return "\n".join([*head, *(one.line for one in self.sightings[:upto])]) + "\n"

    # -- the answer

    def spelled(self, move: str) -> str:
        """A move of a history, in words."""
        name, *choices = move.split()
        stations = {str(number): station for station, number in self.numbers.found.items()}
        if name == "renew":
            return f"a KeNB of COUNT {choices[1]} at {stations.get(choices[3], '?')}" + (
                ", refused" if choices[-1] == "refused" else ""
            )
        if name == "offer":
            return f"a key change of COUNT {choices[1]}"
        if name == "refresh":
            return f"KeNB* within the station for cell {choices[0]}/{choices[1]}"
        if name in ("prepare", "require"):
            link = "X2" if name == "prepare" else "S1"
            return f"a handover over {link} prepared at {stations.get(choices[0], '?')}" + (
                ", besides another" if choices[-1] == "besides" else ""
            )
        return " ".join([PLAIN.get(name, name), *choices])

    def grounds(self, moves: Iterable[str]) -> Iterator[Why]:
        """What each message rests on, in order: the unseen moves of its connection up to it."""
        unseen: list[str] = []
        for line in moves:
            seen, _, move = line.partition(" ")
            if move.startswith("renew "):
                unseen = []
            if seen == "unseen":
                unseen.append(self.spelled(move))
                continue
            few = unseen[-MOST_TOLD:]
            more = f"{len(unseen) - len(few)} more and " if len(few) < len(unseen) else ""
            yield Cause.HISTORY_WITH_UNSEEN.because(
                moves=more + ", ".join(few)
            ) if few else Cause.HISTORY_WITHOUT_UNSEEN.because()
