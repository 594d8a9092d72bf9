"""The messages of a phone as the steps of a scenario: its connections, key changes and handovers, in the order of the
capture."""
from __future__ import annotations

from collections.abc import Callable
from dataclasses import dataclass

from ..captures.cells import Cell
from ..common.causes import Cause, Why
from ..common.report import DIFFERS, RIGHT
from ..common.terms import NONE, Term, counted, numbered
from ..nas.findings import NOT_GIVEN
from .chain_steps import ReplayedConnection, above, kenb, nh
from .connection_steps import ConnectionSteps, due, without
from .recording import KeySeen, Met
from .script import At, Full

TELLS_CELL = ("InitialUEMessage", "UplinkNASTransport", "PathSwitchRequest", "HandoverNotify")
SHOWS_STATION = ("UplinkNASTransport", "HandoverRequired", "PathSwitchRequestAcknowledge", "UEContextReleaseRequest")
MADE_UP, ZEROS = "a KASME that is made up", bytes(32)

StepHandler = Callable[["Steps", Met, At], None]


def triggers_of(met: list[Met]) -> set[tuple[str, int]]:
    """KASME and COUNT of each message at which the KeNB of a connection is made."""
    found: set[tuple[str, int]] = set()
    kasmes: dict[int | None, str] = {}  # of NAS, by connection
    for one in met:
        told = due(one.key) if one.message.name == "InitialContextSetupRequest" else None
        if told is not None:
            found.add((told[0] or kasmes.get(one.connection, ""), told[1]))
        for nas in one.nas:
            kasmes[one.connection] = nas.kasme
    return found


@dataclass
class Steps(ConnectionSteps):
    """Walks through the messages of a phone."""

    cut: int = 0  # the last place at which another scenario may begin

    def walk(self) -> int | None:
        """Writes the steps of all messages, or as far as the scenario has room: the place of the first message that it
        has none for."""
        for self.place, met in enumerate(self.met):
            if self.may_begin(met):
                self.cut = self.place
            try:
                self.one(met)
            except Full:
                return self.place
        self.close_asks()
        return None

    def may_begin(self, met: Met) -> bool:
        """Whether a scenario may begin with this message: a connection's first one, or a handover from an NH."""
        if met.message.name in ("InitialUEMessage", "HandoverRequired"):
            return True
        made = (
            above(met.key.term)
            if met.key is not None and met.message.link == "X2" and met.key.verdict == RIGHT
            else None
        )
        return made is not None and made[0].kind == "nh"

    def one(self, met: Met) -> None:
        self.cells.now = met.place
        message, at = met.message, At(met.frame, met.title)
        assert met.connection is not None
        self.takes_cell(met)
        if met.connection not in self.begun:
            self.begins(met)
        if (
            message.name in SHOWS_STATION
            and message.link == "S1"
            and self.is_of(met)
            and (met.key is None or not met.key.is_late)
        ):
            self.comes_to(met.station, at)
        if (
            message.link == "X2"
            and message.name in ("HandoverRequest", "RetrieveUEContextResponse")
            and self.is_of(met)
        ):
            self.comes_to(met.station, at)
        handler = HANDLERS.get((message.link, message.name))
        if handler is not None:
            handler(self, met, at)
        elif met.key is not None:
            self.not_replayed(met, self.lost or Cause.NO_STEP_FOR_KEY.because())
        if met.message.link != "X2":
            self.for_reestablishment(met, at)
        self.nas(met)

    def takes_cell(self, met: Met) -> None:
        message, number = met.message, met.connection
        cell = self.cell_of(message.eci)
        if number is not None and message.link == "S1" and message.name in TELLS_CELL and cell is not None:
            self.told_cells[number], self.told_stations[number] = cell, met.station

    # -- a connection that began before the capture

    def begins(self, met: Met) -> None:
        """The first message of a connection: where the capture does not show its beginning, the first key tells it."""
        assert met.connection is not None
        self.begun.add(met.connection)
        name, key = met.message.name, self.first_key(met)
        if (
            name == "InitialUEMessage"
            or key is None
            or key.message.name == "InitialContextSetupRequest"
            or key.key is None
        ):
            return
        if (
            self.link is not None
            and (key.key.kasme, key.key.base) == (self.link.kasme, self.link.base)
            and key.key.verdict != DIFFERS
        ):
            self.link.connection = met.connection  # one KeNB is that of one connection
            return
        at = self.script.assume(
            met.frame, f"the connection began before {self.whole}; its beginning is made from its first key"
        )
        if self.link is not None or self.held is not None:
            self.end(at)
        self.lost = self.begun_before(met, key, key.key, at)

    def first_key(self, met: Met) -> Met | None:
        return next((one for one in [met, *self.after(met)] if one.key is not None), None)

    def begun_before(self, met: Met, first: Met, key: KeySeen, at: At) -> Why:
        """Makes the connection as it stands before the first key; answers why it cannot."""
        count, kasme = counted(key.base), key.kasme
        if first.message.name == "UEContextModificationRequest":
            return self.begun_before_change(met, first, at)
        if key.term == NONE or count < 0 or not kasme or key.verdict == DIFFERS:
            return NOT_GIVEN if key.term == NONE else Cause.NO_ORIGIN.because()
        is_answer = first.message.name == "PathSwitchRequestAcknowledge"
        station = self.served_by(met, first)
        rest, within = self.origin(key.term, station) if key.what == "KeNB*" else (key.term, [])
        number = numbered(rest)
        if rest.kind != "nh" and rest != key.base:
            return Cause.STAR_OF_STAR.because()
        handovers = max(0, number - self.script.first_ncc + (1 if key.what == "KeNB*" else 0)) if number else 0
        shows = any(one.message.name == "PathSwitchRequest" for one in self.between(met, first))
        if is_answer and not shows:
            handovers += 1
        if number and number < self.script.first_ncc:
            return Cause.NUMBER_NOT_SENT.because()
        if not self.asked_for(kasme, count, met):
            return self.lost
        self.chain_of(met, station, kasme, count, handovers, at, is_answer and not shows)
        return ()

    def begun_before_change(self, met: Met, first: Met, at: At) -> Why:
        """Makes a connection under the KASME before a key change; no key of a line depends on it, so that it may be
        made up."""
        new = first.key.kasme if first.key is not None else ""
        kasme = next(
            (
                one.kasme
                for before in self.between(met, first)
                for one in before.nas
                if one.is_right and one.kasme not in (new, *self.used)
            ),
            "",
        )
        if not kasme:
            kasme = without(MADE_UP, [name for name, value in self.kasmes.items() if value != ZEROS])
            self.kasmes[kasme] = ZEROS
        if not self.asked_for(kasme, 0, met):
            return self.lost
        self.chain_of(met, met.station or self.nameless("the station"), kasme, 0, 0, at, False)
        return ()

    def between(self, met: Met, first: Met) -> list[Met]:
        found: list[Met] = []
        for one in [met, *self.after(met)]:
            if one is first:
                break
            found.append(one)
        return found

    def served_by(self, met: Met, first: Met) -> str:
        """The station that serves the phone before a message."""
        if met.message.name == "PathSwitchRequest" or not met.station:
            others = [self.station_of(site.eci) for site in self.cells.sites.values()]
            source = self.station_of(first.message.source_eci) if first.message.source_eci is not None else ""
            return (
                source
                or next((name for name in others if name != met.station), "")
                or self.nameless("a station before")
            )
        if met.message.name == "HandoverRequest" and met.message.link == "S1":
            return self.station_of(met.message.source_eci) or self.nameless("a station before")
        return met.station

    def origin(self, term: Term, station: str) -> tuple[Term, list[Cell]]:
        """What the first key is made from, without the target's cell and steps in cells of the source."""
        made, within = above(term), list[Cell]()
        rest = made[0] if made is not None else term
        own = self.own(station)
        while (inner := above(rest)) is not None and inner[1] in own:
            rest = inner[0]
            within.insert(0, inner[1])
        return rest, within

    def chain_of(self, met: Met, station: str, kasme: str, count: int, handovers: int, at: At, is_open: bool) -> None:
        """A connection at a COUNT, and so many handovers over X2 with their path switches, that end at a station."""
        assert met.connection is not None and self.context is not None
        other = next(
            (name for name in [self.station_of(site.eci) for site in self.cells.sites.values()] if name != station), ""
        ) or self.nameless("another station")
        ways = [station if (handovers - turn) % 2 == 0 else other for turn in range(handovers + 1)]
        cells = {name: self.known_cell(met.connection, name, met.frame) for name in dict.fromkeys(ways)}
        item = self.script.act({"do": "connect", "cell": self.script.cell(ways[0], cells[ways[0]])}, at)
        self.script.deliver(self.script.deliver(self.script.deliver(item, at), at), at, False)
        self.trigger = None
        self.link = link = ReplayedConnection(
            met.connection, ways[0], cells[ways[0]], kenb(count), kasme, {kenb(count)}
        )
        for turn, name in enumerate(ways[1:], 1):
            bases = link.pairs or link.uses
            self.begin_x2(name, cells[name], set(bases), at, None)
            self.obeyed(at)
            if turn == handovers and is_open:
                break
            asked = link.asks.pop()
            self.reach(asked)
            link.told = link.told + 1 if link.told else self.script.first_ncc
            link.unasked = None
            self.give(asked, at, {nh(link.told)})

    # -- what the profile does not have

    def suspended(self, met: Met, at: At) -> None:
        self.lost = Cause.SUSPENSION.because()
        self.not_replayed(met, Cause.SUSPENSION.because())

    def needs_link(self, met: Met) -> None:
        """A key of a connection whose Initial Context Setup Request the capture lacks."""
        if self.link is None and not self.lost and met.key is not None:
            at = self.script.assume(
                met.frame,
                "the Initial Context Setup Request is not in the capture; the connection is made from this key",
            )
            self.lost = self.begun_before(met, met, met.key, at)

    def s1_request(self, met: Met, at: At) -> None:
        self.needs_link(met)
        self.changed_unseen(met)
        self.handover_request(met, at)

    def x2_asked(self, met: Met, at: At) -> None:
        self.needs_link(met)
        self.changed_unseen(met)
        self.cancel(at)
        self.steps_before(met, at)
        self.for_reestablishment(met, at)
        self.x2_request(met, at)

    def switched(self, met: Met, at: At) -> None:
        self.needs_link(met)
        self.changed_unseen(met)
        self.answer(met, at)

    def commanded_within(self, met: Met, at: At) -> None:
        if met.within is not None and self.link is not None and not self.lost:
            self.step_within(met.within, at)


HANDLERS: dict[tuple[str, str], StepHandler] = {
    ("S1", "InitialContextSetupRequest"): Steps.setup,
    ("S1", "UEContextModificationRequest"): Steps.changes,
    ("S1", "UEContextReleaseCommand"): Steps.released,
    ("S1", "UEContextReleaseComplete"): Steps.released,
    ("S1", "HandoverRequired"): Steps.required,
    ("S1", "HandoverRequest"): Steps.s1_request,
    ("S1", "HandoverFailure"): Steps.refused,
    ("S1", "HandoverCommand"): Steps.command,
    ("S1", "HandoverNotify"): Steps.notify,
    ("S1", "HandoverCancel"): Steps.cancelled,
    ("S1", "HandoverPreparationFailure"): Steps.cancelled,
    ("S1", "PathSwitchRequest"): Steps.path_switch,
    ("S1", "PathSwitchRequestAcknowledge"): Steps.switched,
    ("S1", "UEContextSuspendRequest"): Steps.suspended,
    ("S1", "UEContextSuspendResponse"): Steps.suspended,
    ("S1", "UEContextResumeRequest"): Steps.suspended,
    ("S1", "UEContextResumeResponse"): Steps.suspended,
    ("X2", "HandoverRequest"): Steps.x2_asked,
    ("X2", "HandoverRequestAcknowledge"): Steps.x2_answered,
    ("X2", "HandoverPreparationFailure"): Steps.x2_refused,
    ("X2", "HandoverCancel"): Steps.x2_refused,
    ("X2", "UEContextRelease"): Steps.x2_released,
    ("X2", "RetrieveUEContextResponse"): Steps.suspended,
    ("RRC", "RrcConnectionReconfiguration"): Steps.commanded_within,
}
