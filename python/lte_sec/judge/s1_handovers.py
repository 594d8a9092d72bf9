"""Handovers of a trace over S1, and what a core hands to the next one."""
from __future__ import annotations

from dataclasses import replace
from itertools import islice

from ..captures.coverage import UP as FROM_STATIONS
from ..captures.decoding import Message, title
from ..common.causes import Cause
from ..common.report import DIFFERS, RIGHT, Line, unknown_line
from .attempts import Attempts, Leg, PreparedAttempt
from .histories import Numbered
from .state import Attempt, Connection

WAITING, NEAREST = (
    64,
    1024,
)  # commands that RRC may still show; connections in which a handover without a container is sought
INTRA_LTE = 0  # TS 36.413 9.2.1.13


class S1Handovers(Attempts):
    """Judges handovers over S1."""

    # -- over S1

    def handover_required(self, connection: Connection, message: Message, station: str, at_core: Leg) -> None:
        if message.kind not in (None, INTRA_LTE):
            self.judge.lines.append(
                unknown_line(message.frame, title(message), "handover", Cause.OTHER_TECHNOLOGY.because())
            )
            return
        connection.asked += 1
        connection.algorithms = message.algorithms or connection.algorithms
        if message.container is not None:
            self.sources[message.container] = [*self.sources.get(message.container, [])[-WAITING:], connection]
        self.judge.prepared(connection, message, None)

    def handover_request(self, message: Message, core: str, end: str) -> None:
        connection = self.waiting(message) or self.steps_to(message) or self.new("")
        self.belongs(connection)
        if message.nh is None or message.ncc is None:
            return
        station = self.cells.addresses.get(end) or self.cells.station(message.eci)
        pairs = (
            self.forwarded(connection, message) if connection.forwarded else self.judge.nh(connection, message, station)
        )
        connection.forwarded = []
        self.judge.capabilities(message, [connection.side.capabilities, connection.capabilities])
        connection.capabilities = message.capabilities or connection.capabilities
        attempt = Attempt(
            "S1", message.frame, station, message.eci, [], [pair.ncc for pair in pairs], self.judge.cell(message.eci)
        )
        attempt.pairs = pairs
        attempt.capabilities = message.capabilities
        self.judge.target_keys(attempt, attempt.cell)
        connection.attempts.append(attempt)
        self.belongs(connection, attempt)
        self.targets[core, message.mme_id] = (connection, attempt)

    def waiting(self, message: Message) -> Connection | None:
        """The connection whose container this is: of several with the same octets, the one whose next NH this is, else
        the last."""
        found = self.sources.get(message.container or b"", [])
        if len(found) < 2:
            return next(iter(found), None)
        chosen = next(
            (one for one in found if self.is_due(one, message)), found[-1] if len(found) <= WAITING else None
        )  # else not all were kept
        if chosen is not None:
            found.remove(chosen)
        return chosen

    def is_due(self, connection: Connection, message: Message) -> bool:
        return any(
            after.sync.value == message.nh
            for chain in connection.cores()
            for after in self.judge.due(connection, chain)
        )

    def steps_to(self, message: Message) -> Connection | None:
        """The connection that waits for a handover over S1 and whose next NH this is, where no container tells."""
        station = self.cells.station(message.source_eci)
        for connection in [*islice(reversed(self.connections.values()), NEAREST)][::-1]:
            waits = connection.station == station if station else connection.asked
            if waits and self.is_due(connection, message):
                return connection
        return None

    def handover_answered(self, connection: Connection, message: Message, station: str, at_core: Leg) -> None:
        pair = self.targets.get(at_core)
        if pair is None:
            return
        self.belongs(*pair)
        if message.container is not None:
            self.answers[message.container] = [*self.answers.get(message.container, [])[-WAITING:], pair]
        self.commanded(pair, message)

    def handover_command(self, connection: Connection, message: Message, station: str, at_core: Leg) -> None:
        if message.kind not in (None, INTRA_LTE):
            self.judge.lines.append(
                unknown_line(message.frame, title(message), "command", Cause.OTHER_TECHNOLOGY.because())
            )
            return
        opened = [attempt for attempt in connection.open_attempts() if attempt.kind == "S1"]
        answered = self.answers.get(message.container or b"", [])
        pair = next(
            (one for one in reversed(answered) if one[0] is connection),
            answered[-1] if answered else (connection, opened[-1]) if opened else None,
        )
        if pair is None:
            self.asked_unseen(connection, station)
            if message.command is not None or message.container is not None:
                self.judge.lines.append(
                    unknown_line(message.frame, title(message), "command", Cause.HANDOVER_NOT_SHOWN.because())
                )
            return
        self.belongs(*pair)
        self.commanded(pair, message)
        if pair[1].command is None:
            self.judge.undecoded(*pair, message, Cause.RRC_UNDECODED.because())

    def commanded(self, pair: PreparedAttempt, message: Message) -> None:
        """The command of a handover is seen: what it tells, and what the phone makes of it."""
        connection, attempt = pair
        if message.command is not None and attempt.command is None:
            self.judge.command(connection, attempt, message, message.command)
            self.judge.agreement(connection, attempt)
            self.commands = [*self.commands[-WAITING:], pair]

    def handover_notify(self, connection: Connection, message: Message, station: str, at_core: Leg) -> None:
        pair = self.targets.get(at_core)
        if pair is not None:
            self.belongs(*pair)
        if pair is not None and not pair[1].over:
            pair[0].mme = at_core[0]
            pair[1].eci = message.eci if pair[1].eci is None else pair[1].eci
            self.judge.moved(*pair, message.eci)

    def handover_failure(self, connection: Connection, message: Message, station: str, at_core: Leg) -> None:
        if at_core in self.targets:
            self.belongs(*self.targets[at_core])
            self.targets[at_core][1].over = "refused"

    def handover_cancelled(self, connection: Connection, message: Message, station: str, at_core: Leg) -> None:
        for attempt in connection.open_attempts():
            if attempt.kind == "S1":
                self.belongs(connection, attempt)
                attempt.over = "cancelled"

    # -- requests that the trace cannot show, as S1 up of their station is not covered: the core's answers tell of them

    def asked_unseen(self, connection: Connection, station: str) -> bool:
        """The core answers a request of this station: where that could not be seen, the chain may have stepped for
        it."""
        is_unseen = not self.judge.coverage.s1(station, FROM_STATIONS)
        if is_unseen and not any(attempt.kind == "S1" for attempt in connection.open_attempts()):
            connection.asked += 1
        return is_unseen

    def refused(self, connection: Connection, message: Message, station: str, at_core: Leg) -> None:
        """A path switch or a handover over S1 that is refused, or whose end is acknowledged."""
        self.asked_unseen(connection, station)
        if message.name == "HandoverPreparationFailure":
            self.handover_cancelled(connection, message, station, at_core)

    def switched(self, connection: Connection, message: Message, station: str, at_core: Leg) -> None:
        """The answer to a path switch: without its request, and where no handover leads here, the phone came back from
        elsewhere."""
        if not self.judge.coverage.s1(station, FROM_STATIONS) and station == connection.station:
            unasked = next(
                (one for one in reversed(connection.attempts) if one.over == "unasked" and one.station == station), None
            )
            if unasked is not None:
                unasked.over = "done"
            elif connection.states() and not any(one.frame == message.frame for one in connection.attempts[-1:]):
                connection.asked += 1
                self.judge.came_back(connection, message.frame, connection.eci)
        self.given(connection, message, station, at_core)

    def resumed(self, connection: Connection, message: Message, station: str, at_core: Leg) -> None:
        """The answer to a phone that comes back from suspension."""
        if not self.judge.coverage.s1(station, FROM_STATIONS):
            self.judge.resumed(connection, message)
        self.given(connection, message, station, at_core)

    def given(self, connection: Connection, message: Message, station: str, at_core: Leg) -> None:
        """NH and NCC for the station: in the answer to a path switch, and where a phone is suspended or comes back."""
        connection.capabilities = message.capabilities or connection.capabilities
        if message.nh is None or message.ncc is None:
            connection.asked = max(0, connection.asked - 1)
            return
        pairs = self.judge.nh(connection, message, station)
        if station == connection.station:
            self.judge.given(connection, pairs)

    # -- between cores

    def mm_context(self, message: Message) -> None:
        """The MM context of GTPv2-C: what the next core has to go on from (TS 33.401 7.2.8.4.3, TS 29.274 8.38)."""
        context = message.mm
        assert context is not None
        place = next((place for place, one in enumerate(self.derivations.kasmes) if one.value == context.kasme), None)
        known = [
            one for one in self.connections.values() if one.side.current is not None and one.side.current.kasme == place
        ]
        if place is None or not known:
            self.judge.lines.append(
                unknown_line(message.frame, title(message), "MM context", Cause.CONNECTION_NOT_SHOWN.because())
            )
            return
        connection = next((one for one in reversed(known) if one.asked), known[-1])
        self.belongs(connection)
        self.mm_ksi(connection, message, place)
        stations = context.old or context  # where KASME is new and not in use at stations, they go on from the old one
        if stations.nh is None or stations.ncc is None:
            return
        message = replace(message, nh=stations.nh, ncc=stations.ncc)
        if message.name == "ForwardRelocationRequest":
            connection.forwarded = self.judge.nh(connection, message)
        elif not any(chain.sync.value == stations.nh for chain in connection.cores()):
            self.judge.unjudged(message, "NH", Cause.NOT_NEXT.because())

    def mm_ksi(self, connection: Connection, message: Message, place: int) -> None:
        current, told = connection.side.current, message.mm.ksi if message.mm else None
        wanted = current.ksi if current else None
        name = self.derivations.name(place)
        if told is None or wanted is None or told == wanted:
            said = (
                Cause.KASME_RIGHT.because(name=name)
                if told is None
                else Cause.KASME_AND_KSI_RIGHT.because(name=name, ksi=told)
            )
            self.judge.lines.append(Line(message.frame, title(message), "KASME", RIGHT, said, kasme=name))
        else:
            said = (Cause.KASME_IS.of(name=name), Cause.KSI_OF_CONTEXT.of(found=told, wanted=wanted))
            self.judge.lines.append(
                Line(
                    message.frame,
                    title(message),
                    "KASME",
                    DIFFERS,
                    said,
                    found=str(told),
                    wanted=str(wanted),
                    wanted_hex=str(wanted),
                    kasme=name,
                )
            )

    def forwarded(self, connection: Connection, message: Message) -> list[Numbered]:
        """The Handover Request of the next core has the NH and NCC that it was handed."""
        first = connection.forwarded[0]
        found = (
            first.key if first.key.value == message.nh else self.judge.named(message.nh or b"", connection, [first.key])
        )
        self.judge.judged(message, "NH", found, first.key, (message.ncc or 0, first.ncc), Cause.HANDED_ON.because())
        return (
            connection.forwarded if found is first.key else [Numbered(found, message.ncc or 0), *connection.forwarded]
        )
