"""Connections of a trace: which one a message of S1 belongs to, and what sets it up, changes and ends it."""
from __future__ import annotations

from ..captures.coverage import DOWN as FROM_CORE
from ..captures.coverage import UP as FROM_STATIONS
from ..captures.coverage import Coverage
from ..captures.decoding import Message
from ..captures.stations import FROM_STATION, TELLS_CELL, station_end
from .attempts import ANY_CORE, Leg
from .choices import Choices, Offer
from .grounds import Grounds
from .handovers import Handovers
from .s1_handovers import WAITING
from .state import Connection

EMERGENCY = 0  # an RRC Establishment Cause
ENDED = 128  # connections that ended and have their identities still, or as many as go on


class Connections(Handovers):
    """Finds the connection of a message, by some choices, and judges what begins and ends it."""

    coverage: Coverage
    choices: Choices
    grounds: Grounds
    forgets: bool  # whether connections that ended are forgotten
    ended: dict[int, int]  # by the number of a connection the place of its end, the oldest first
    restarts: dict[str, int]  # by station's end, the place where its S1 last began anew

    def is_late(self, connection: Connection, message: Message, station: str) -> bool:
        """Whether an answer comes to a station that the phone has left since: its NH is overdue, and says nothing of
        where the phone is."""
        return (
            station != connection.station
            and station in connection.left
            and message.nh is not None
            and self.judge.late(connection, message, station) is not None
        )

    def connection(self, message: Message, station: str, leg: Leg, at_core: Leg) -> Connection | None:
        """The connection that a message belongs to."""
        if message.name == "InitialUEMessage":
            before = self.legs.get(leg)
            if before is not None and before.station == station:  # the trace lacks its release
                self.ends(before)
            connection = self.legs[leg] = self.new(station, message.eci)
            connection.side.tmsi, connection.side.initial = message.tmsi, True
            connection.side.emergency = message.cause == EMERGENCY
            return connection
        if message.name == "HandoverRequestAcknowledge" and at_core in self.targets:
            return self.targets[at_core][0]
        new_leg = message.name == "PathSwitchRequest"  # its eNB-UE-S1AP-ID is a fresh one
        found = self.legs.get(leg) if message.enb_id is not None and not new_leg else None
        known = self.mmes.get(-1 if message.mme_id is None else message.mme_id, {})
        found = found or known.get(at_core[0]) or known.get(ANY_CORE)
        if (
            found is not None
            and self.may_be_new(found, message, station, leg, at_core)
            and self.choices.takes(self.at, Offer.NEW)
        ):
            found = self.new(station)
        if found is None and (message.enb_id is not None or message.mme_id is not None):
            found = self.new(station, message.eci if message.name in TELLS_CELL else None)
        return found

    def may_be_new(self, connection: Connection, message: Message, station: str, leg: Leg, at_core: Leg) -> bool:
        """Whether a message down may be of a new connection whose first message the trace cannot show. Its identities
        must be free: the core gives a new one to this eNB-UE-S1AP-ID, or S1 began anew, or the release may have passed
        unseen too."""
        if message.name in FROM_STATION or self.coverage.s1(station, FROM_STATIONS):
            return False
        bound = connection.legs.get(leg)
        is_other = bound is not None and at_core[1] is not None and bound != at_core[1]
        return is_other or self.restarts.get(leg[0], -1) > connection.last or not self.coverage.s1(station, FROM_CORE)

    def binds(self, connection: Connection, leg: Leg, at_core: Leg) -> None:
        if leg[1] is not None:
            self.legs[leg] = connection
            connection.legs[leg] = at_core[1] if at_core[1] is not None else connection.legs.get(leg)
        if at_core[1] is not None:
            known = self.mmes.setdefault(at_core[1], {})
            known[at_core[0]] = connection
            if known.get(ANY_CORE) is connection:
                del known[ANY_CORE]
            connection.mme = connection.mme or at_core[0]

    # -- setup, change and end of its context

    def context_setup(self, connection: Connection, message: Message, station: str, at_core: Leg) -> None:
        self.told_capabilities(connection, message)
        if message.key is not None:
            if not connection.station:
                self.judge.moves.came(connection, station)
            self.judge.setup(connection, message)

    def told_capabilities(self, connection: Connection, message: Message) -> None:
        """The core tells a station what the phone can do, as the phone said in NAS (TS 33.401 7.2.4.2.1, 7.2.4.4)."""
        side = connection.side
        before = side.current.capabilities if side.current is not None else None
        self.judge.capabilities(message, [side.capabilities or before], side.capabilities is not None)
        connection.capabilities = message.capabilities or connection.capabilities

    def context_changed(self, connection: Connection, message: Message, station: str, at_core: Leg) -> None:
        self.told_capabilities(connection, message)
        if message.key is not None:
            self.judge.change(connection, message)
            if connection.attempts:
                self.commands = [*self.commands[-WAITING:], (connection, connection.attempts[-1])]

    def change_done(self, connection: Connection, message: Message, station: str, at_core: Leg) -> None:
        self.judge.changed(connection)
        self.judge.comes_into_use(connection)

    def set_up(self, connection: Connection, message: Message, station: str, at_core: Leg) -> None:
        self.judge.comes_into_use(connection)

    def setup_failed(self, connection: Connection, message: Message, station: str, at_core: Leg) -> None:
        self.judge.refused(connection)

    def change_failed(self, connection: Connection, message: Message, station: str, at_core: Leg) -> None:
        self.judge.change_failed(connection)

    def released(self, connection: Connection, message: Message, station: str, at_core: Leg) -> None:
        leg = (station_end(message), message.enb_id)
        if self.legs.get(leg) is connection:
            del self.legs[leg]
        connection.legs.pop(leg, None)
        if at_core[1] is not None and at_core[1] not in connection.legs.values():
            known = self.mmes.get(at_core[1], {})
            known.pop(at_core[0], None)
            if not known:
                self.mmes.pop(at_core[1], None)
            self.targets.pop(at_core, None)
        if station == connection.station:
            self.ends(connection)

    def ends(self, connection: Connection) -> None:
        """A connection is over. Its identities name it for a while, since messages may come late, or again."""
        self.ended.pop(connection.number, None)
        self.ended[connection.number] = connection.last
        most = max(ENDED, len(self.connections) - len(self.ended))
        if self.forgets and len(self.ended) > most + most // 4:
            self.forget([*self.ended][:-most])

    def forget(self, over: list[int]) -> None:
        """Connections go that ended long ago, and that no message named since, but for what the report tells of
        them."""
        gone = set[int]()
        for number in over:
            is_over = self.connections[number].last == self.ended.pop(number)
            if is_over and self.grounds.ended.take(self.connections[number]):
                del self.connections[number]
                gone.add(number)
        self.legs = {leg: one for leg, one in self.legs.items() if one.number not in gone}
        left = (
            (mme, {core: one for core, one in known.items() if one.number not in gone})
            for mme, known in self.mmes.items()
        )
        self.mmes = {mme: known for mme, known in left if known}
        self.targets = {leg: pair for leg, pair in self.targets.items() if pair[0].number not in gone}
        self.x2 = {ends: pair for ends, pair in self.x2.items() if pair[0].number not in gone}
        sources = (
            (container, [one for one in found if one.number not in gone]) for container, found in self.sources.items()
        )
        self.sources = {container: found for container, found in sources if found}
        answers = (
            (container, [pair for pair in found if pair[0].number not in gone])
            for container, found in self.answers.items()
        )
        self.answers = {container: found for container, found in answers if found}

    def releasing(self, connection: Connection, message: Message, station: str, at_core: Leg) -> None:
        """A release whose answer the trace cannot show: the connection ends here."""
        if not self.coverage.s1(station, FROM_STATIONS) and not self.choices.takes(self.at, Offer.STAYS):
            self.released(connection, message, station, at_core)

    def reset(self, end: str, core: str) -> None:
        """The S1 interface begins anew: all connections at this station's end are gone."""
        for leg in [leg for leg in self.legs if leg[0] in (end, core)]:
            del self.legs[leg]
