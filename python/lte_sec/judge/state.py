"""What a trace has of one connection: the histories that are lawful so far, its handovers, and what is due."""
from __future__ import annotations

import itertools
from collections.abc import Iterable
from dataclasses import dataclass, field, replace

from ..captures.cells import Cell
from ..captures.decoding import Command
from ..common.causes import Cause, Why
from ..common.report import Line
from ..common.terms import Key
from ..nas.contexts import NasSide
from .histories import MOST, Chain, Held, History, Numbered, PhoneKeys, once

MANY_ATTEMPTS, FEW_ATTEMPTS = 64, 16  # of a connection: from so many on so many are kept


@dataclass(frozen=True)
class Given:
    """What the target of a handover may have, and the state of the source that gives it; None where any may."""

    held: Held
    source: Held | None = None


@dataclass
class Attempt:
    """A handover that was asked for: the target, what it was given (as it was sent, then as it was wanted), and what
    the command says."""

    kind: str  # X2, S1, change (of the key, in the cell), within (a station) or unseen
    frame: str
    station: str
    eci: int | None
    given: list[Given]
    nccs: list[int]  # of the command: as it was sent to the target, then as it was wanted
    cell: Cell | None = None
    pairs: list[Numbered] = field(default_factory=list)  # NH and NCC as an S1 target was given them
    change: bool = False  # the command is to tell that KASME changed
    command: Command | None = None
    heard: tuple[int, Cell | None, bool] | None = None  # NCC, cell and keyChangeIndicator as the phone was told them
    told: bool = False  # the line on agreement stands
    aired: bool = False  # the command was seen over the air
    over: str = ""  # how it ended
    bases: list[Numbered] = field(default_factory=list)  # what the target's KeNB* was made from
    before: list[History] = field(default_factory=list)  # the histories when the phone came to the target
    doubt: Why = ()  # why it is not known whether phone and target have one key
    capabilities: tuple[int, int] | None = None  # of the phone, as the target was told them
    number: int = field(default_factory=itertools.count().__next__)  # among all readings


@dataclass
class SentKenb:
    """The last KeNB that the station of a connection was sent, with its frame; none where it was refused."""

    given: tuple[bytes, str] | None = None


@dataclass
class Undecided:
    """A line of an NH and an NCC of two numbers: either may be the fault, and the next answer tells which."""

    at: int  # its number among the lines
    line: Line
    other: Line  # how the line reads if the chain goes on from `number`
    number: int


@dataclass
class Connection:
    """One connection of a phone, from its first message to its release, through all handovers."""

    side: NasSide = field(default_factory=NasSide)
    mme: str = ""
    legs: dict[tuple[str, int | None], int | None] = field(
        default_factory=dict
    )  # MME-UE-S1AP-ID by end and eNB-UE-S1AP-ID
    station: str = ""
    eci: int | None = None
    told_eci: int | None = None  # the cell that the station last told
    histories: list[History] = field(default_factory=lambda: [History()])  # the likeliest first, never none
    left: dict[str, list[Held]] = field(
        default_factory=dict
    )  # what stations had that the phone left: the search looks there
    asked: int = 0  # requests to step the chain that have no answer yet
    missed: dict[int, str] = field(
        default_factory=dict
    )  # numbers of NH whose answers come late, if at all, each with its station where that is known
    attempts: list[Attempt] = field(default_factory=list)
    saved: list[History] | None = None  # before a key change that may fail
    algorithms: tuple[int, int] | None = None
    # a key tells at which KeNB the chain begins, and the phone was at no station without S1 since: only the core's
    # number is in doubt
    based: bool = False
    cut: Why = ()  # what was more than is kept, since the last KeNB of a connection
    parted: bool = False  # phone and station have come apart
    undecided: Undecided | None = None
    certain: int = 0  # the place in the trace of the last KeNB or NH that was right
    last: int = -1  # that of its last message of S1
    proved: int | None = None  # that of its last line that is right
    sent: SentKenb = field(default_factory=SentKenb)
    away: list[str] = field(
        default_factory=list
    )  # stations without S1 in the trace where the phone was since its keys were last certain
    resumed: bool = False  # the phone came back from suspension at its station
    capabilities: tuple[int, int] | None = None  # of the phone, as the core told the station
    forwarded: list[Numbered] = field(default_factory=list)  # NH and NCC that another core was given for this handover
    keys: list[tuple[str, str, Key]] = field(default_factory=list)  # frame, holder and key, for Wireshark

    @property
    def number(self) -> int:
        """Its number among all readings, from 1 on."""
        return self.side.number

    def cores(self) -> list[Chain]:
        """The core's chains, each once."""
        return once([one.core for one in self.histories if one.core is not None])

    def states(self) -> list[Held]:
        """What the serving station may have, each once."""
        return once([one.held for one in self.histories if one.held.known])

    @property
    def phone(self) -> PhoneKeys | None:
        """The phone of the likeliest history."""
        return self.histories[0].phone

    def keeps(self, found: Iterable[History]) -> None:
        """These histories are left, as many as are kept."""
        distinct = once(found)
        self.cut = self.cut or (Cause.MANY_HISTORIES.because(most=MOST) if len(distinct) > MOST else ())
        self.histories = distinct[:MOST] or [History()]

    def steps(self, steps: list[tuple[Chain, Chain]]) -> None:
        """The core went on from one chain to another, by any of these steps: histories with other chains are gone."""
        self.keeps(
            [replace(one, core=after) for before, after in steps for one in self.histories if one.core == before]
        )

    def goes_on(self, cores: list[Chain]) -> None:
        """The core's chain is one of these, whatever it was."""
        likely: list[Chain | None] = [*cores] or [None]
        self.keeps(replace(one, core=core) for core in likely for one in self.histories)

    def leaves(self, station: str) -> None:
        """The phone leaves the serving station for another."""
        self.left.pop(station, None)
        self.left[self.station] = self.states()[:2]

    def open_attempts(self) -> list[Attempt]:
        """The attempts that are not over; old ones that are go, so that a long connection takes no longer than many
        short ones."""
        if len(self.attempts) > MANY_ATTEMPTS:
            old = [attempt for attempt in self.attempts[:-FEW_ATTEMPTS] if not attempt.over]
            self.cut = self.cut or (Cause.MANY_HANDOVERS.because(most=FEW_ATTEMPTS) if len(old) > FEW_ATTEMPTS else ())
            self.attempts = old[-FEW_ATTEMPTS:] + self.attempts[-FEW_ATTEMPTS:]
        return [attempt for attempt in self.attempts if not attempt.over]
