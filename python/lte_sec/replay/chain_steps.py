"""The core's chain of NH as steps: which of the requests that the capture leaves without an answer the core got, by the
next number.

A request has a block for its delivery to the core, which is filled or left empty once a later key tells.
"""
from __future__ import annotations

from dataclasses import dataclass, field

from ..captures.cells import Cell
from ..common.causes import Why
from ..common.report import DIFFERS
from ..common.terms import Term, numbered
from .nas_steps import NasSteps, ReplayedKey
from .recording import KeySeen, Met
from .script import At, ItemBlock

NO_ANSWER = "its answer is not in the capture, and is taken as lost"


def kenb(count: int) -> Term:
    return Term("kenb", (count,))


def nh(number: int) -> Term:
    return Term("nh", (number,))


def star(term: Term, cell: Cell) -> Term:
    return Term("star", cell, term)


def above(term: Term) -> tuple[Term, Cell] | None:
    """What a KeNB* is made from, and for which cell."""
    return (term.above, (term.numbers[0], term.numbers[1])) if term.kind == "star" and term.above is not None else None


@dataclass
class Ask:
    """A request that has the core step its chain: the item that sends it, and the one with which the core gets it."""

    at: At
    of: str
    got: str
    block: ItemBlock
    station: str
    behind: list[ItemBlock] = field(default_factory=list)  # what comes only where the core got it


@dataclass
class Open:
    """A handover that its station began and that has no end yet."""

    kind: str  # X2 or S1
    station: str
    cell: Cell
    begin: str
    handover: int | None
    bases: set[Term]  # what its KeNB* is made from
    given: ItemBlock  # the delivery of the request at the target
    request: str  # the item that is in it
    acked: str = ""  # the answer came to the source
    ask: Ask | None = None
    frame: str = ""
    is_prepared: bool = True


@dataclass
class ReplayedConnection:
    """The phone's connection as the run has it; derivations are those of the capture where the run's keys differ."""

    connection: int | None
    station: str
    cell: Cell
    base: Term
    kasme: str
    uses: set[Term]
    pairs: set[Term] = field(default_factory=set)
    told: int = 0  # the number of the last NH that the core sent, by the capture
    asks: list[Ask] = field(default_factory=list)
    open: Open | None = None
    came: bool = False  # over X2, so that the station may ask for a path switch again
    unasked: Ask | None = None  # a path switch that no request of the capture stands for
    release: str = ""  # the item that tells the source of a handover over X2 to release the phone
    source: str = ""


@dataclass
class ChainSteps(NasSteps):
    """What the run has of the core's chain, too."""

    link: ReplayedConnection | None = None
    lost: Why = ()  # why what the capture has of this connection is not replayed
    unanswered: list[tuple[Ask, int]] = field(
        default_factory=list
    )  # requests that the core got without an answer, with their numbers

    @property
    def is_connected(self) -> bool:
        return self.link is not None

    def row(self, met: Met, item: str) -> None:
        if met.key is not None:
            self.rows.append(ReplayedKey(met, met.key, item))

    # -- requests

    def ask(self, at: At, of: str, station: str) -> Ask:
        assert self.link is not None
        asked = Ask(at, of, self.script.name(), self.script.block(), station)
        self.link.asks.append(asked)
        return asked

    def reach(self, asked: Ask) -> None:
        """The core gets a request."""
        if not asked.block.items:
            self.script.deliver(asked.of, asked.at, True, asked.block, asked.got)

    def steps_to(self, number: int) -> int:
        """How many steps of the chain lead to this number."""
        assert self.link is not None
        before = self.link.told or self.script.first_ncc - 1
        return number - before

    def answered(self, key: KeySeen) -> Ask | None:
        """The request that an answer with this NH is for: the latest. Those before it reached the core as the number
        tells."""
        link = self.link
        assert link is not None
        if key.is_late:
            return self.late(key)
        if not link.asks:
            return None
        wanted = numbered(key.wanted if key.verdict == DIFFERS else key.term)
        self.settle_asks(link.asks[:-1], self.steps_to(wanted) - 1 if wanted else len(link.asks) - 1)
        asked = link.asks[-1]
        self.reach(asked)
        link.asks = []
        link.told = numbered(key.term) or wanted or link.told + 1
        return asked

    def late(self, key: KeySeen) -> Ask | None:
        assert self.link is not None
        number = numbered(key.term)
        return next((asked for asked, its in self.unanswered if its == number), None)

    def settle_asks(self, asks: list[Ask], reached: int) -> None:
        """Of requests without an answer the first so many reached the core."""
        assert self.link is not None
        before = self.link.told or self.script.first_ncc - 1
        for place, asked in enumerate(asks):
            if place < reached:
                self.reach(asked)
                self.script.assume(asked.at.frame, NO_ANSWER)
                self.unanswered.append((asked, before + place + 1))
            else:
                self.script.assume(
                    asked.at.frame, "it did not come to the core, since the next number is one that leaves it out"
                )
                for block in asked.behind:
                    block.clear()

    def close_asks(self) -> None:
        """Nothing more tells of the requests without an answer."""
        if self.link is not None:
            self.settle_asks(self.link.asks, len(self.link.asks))
            self.link.asks = []

    def told_by_star(self, number: int, at: At) -> bool:
        """A KeNB* is made from an NH whose answer the capture lacks; whether a request stands for it."""
        link = self.link
        assert link is not None
        late = [asked for asked, its in self.unanswered if its == number]
        reached = self.steps_to(number)
        if late and reached <= 0:
            asked = late[-1]
        elif 0 < reached <= len(link.asks):
            self.settle_asks(link.asks[: reached - 1], reached - 1)
            asked = link.asks[reached - 1]
            self.reach(asked)
            link.asks, link.told = link.asks[reached:], number
        elif reached > 0 and link.came:
            self.unseen_steps(reached - len(link.asks) - 1, at)
            asked = self.again(
                self.script.assume(at.frame, "a path switch and its answer are not in the capture before this")
            )
            link.asks, link.told = [], number
        else:
            return False
        self.give(
            asked,
            self.script.assume(
                asked.at.frame,
                "the answer to the path switch is not in the capture, and came: the next KeNB* is made from its NH",
            ),
            {nh(number)},
        )
        return True

    def unseen_steps(self, count: int, at: At) -> None:
        """Steps of the core's chain of which nothing shows: each a path switch that is asked for again, and whose
        answer is lost."""
        assert self.link is not None
        self.settle_asks(self.link.asks, len(self.link.asks))
        for _ in range(count):
            self.reach(
                self.again(
                    self.script.assume(at.frame, "a step of the core's chain of which the capture shows nothing")
                )
            )

    def again(self, at: At) -> Ask:
        """A path switch that the serving station asks for again."""
        assert self.link is not None
        asked = Ask(
            at,
            self.script.act({"do": "ask", "station": self.script.station(self.link.station)}, at),
            self.script.name(),
            self.script.block(),
            self.link.station,
        )
        self.reach(asked)
        return asked

    def give(self, asked: Ask, at: At, pairs: set[Term]) -> None:
        """The answer to a path switch comes to the station."""
        link = self.link
        assert link is not None
        item = self.script.deliver(asked.got, at)
        if asked.station == link.station:
            link.pairs, link.release = pairs, item
