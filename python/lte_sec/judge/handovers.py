"""Handovers of a trace over X2 and within a station, path switches and suspensions."""
from __future__ import annotations

from ..captures.decoding import Command, Message, title
from ..common.causes import Cause
from ..common.report import unknown_line
from .attempts import ANY_CORE, Leg, PreparedAttempt
from .s1_handovers import WAITING, S1Handovers
from .state import Connection

FROM_TARGET = ("HandoverRequestAcknowledge", "HandoverPreparationFailure", "UEContextRelease")  # of X2AP


class Handovers(S1Handovers):
    """Judges handovers over X2 and within a station too, path switches and suspensions."""

    # -- path switch

    def path_switch(self, connection: Connection, message: Message, station: str, at_core: Leg) -> None:
        ready = [one for one in connection.open_attempts() if one.kind == "X2" and one.station == station]
        ready = [one for one in ready if one.eci == message.eci] or ready
        last = connection.attempts[-1] if connection.attempts else None
        if ready:
            self.judge.moved(connection, ready[-1], message.eci)
        elif station != connection.station:
            attempt = self.judge.unseen(connection, station, message.eci)
            connection.attempts.append(attempt)
            self.judge.note(message.frame, Cause.WITHOUT_X2.because(station=station))
            self.judge.moved(connection, attempt)
        elif last is not None and last.over == "unasked":
            self.judge.elsewhere(connection, last, message.eci)
        elif not self.judge.coverage.closed(station):
            self.judge.came_back(connection, message.frame, message.eci)
        if connection.attempts:
            self.belongs(connection, connection.attempts[-1])
        told = connection.attempts[-1].capabilities if connection.attempts else None
        self.judge.capabilities(message, [told or connection.capabilities])
        if (
            connection.attempts
            and connection.attempts[-1].over == "unasked"
            and connection.attempts[-1].station == station
        ):
            connection.attempts[-1].over = "done"
        else:
            connection.asked += 1

    # -- suspension

    def suspend(self, connection: Connection, message: Message, station: str, at_core: Leg) -> None:
        connection.asked += 1

    def resume(self, connection: Connection, message: Message, station: str, at_core: Leg) -> None:
        connection.asked += 1
        self.judge.resumed(connection, message)

    # -- over X2

    def x2ap(self, message: Message) -> None:
        back = message.name in FROM_TARGET
        way = (message.target, message.source) if back else (message.source, message.target)
        if message.name == "RetrieveUEContextRequest":
            self.retrieved[message.target, message.source, message.new_x2] = message.eci
        elif message.name == "RetrieveUEContextResponse" and message.key is not None:
            message.eci = self.retrieved.get((*way, message.new_x2), message.eci)
            self.messages[self.at] = message
            self.asked(message, way)
        elif message.name == "HandoverRequest" and message.key is not None:
            self.asked(message, way)
        else:
            self.x2_rest(message, self.x2.get((*way, message.old_x2)))

    def asked(self, message: Message, way: tuple[str, str]) -> None:
        """A source hands its phone over, or its context to the station that the phone resumes at (TS 36.423 8.2.1,
        8.3.13)."""
        connection = self.serving(message)
        made = self.judge.star(connection, message)
        self.judge.capabilities(message, [connection.capabilities])
        attempt = self.judge.asked(
            connection, message, made, self.cells.station(message.eci) or self.cells.addresses.get(way[1], "")
        )
        self.judge.prepared(connection, message, made)
        connection.attempts.append(attempt)
        self.belongs(connection, attempt)
        connection.algorithms = message.algorithms or connection.algorithms
        self.x2[(*way, message.old_x2)] = (connection, attempt)

    def x2_rest(self, message: Message, pair: PreparedAttempt | None) -> None:
        if pair is not None:
            self.belongs(*pair)
        if pair is None or pair[1].over:
            if message.command is not None:
                self.judge.lines.append(
                    unknown_line(message.frame, title(message), "command", Cause.HANDOVER_NOT_SHOWN.because())
                )
            return
        if message.name == "HandoverRequestAcknowledge":
            self.commanded(pair, message)
            if pair[1].command is None:
                self.judge.undecoded(*pair, message, Cause.RRC_UNDECODED.because())
        elif message.name in ("HandoverPreparationFailure", "HandoverCancel"):
            pair[1].over = "cancelled"
        elif message.name == "UEContextRelease":
            self.judge.moved(*pair)
            self.unasked(*pair)

    def serving(self, message: Message) -> Connection:
        """The connection that a source hands over: by the core's identity for it, at the source's station and at the
        core of its GUMMEI."""
        station = (
            self.cells.station(message.source_eci)
            if message.source_eci is not None
            else self.cells.addresses.get(message.source, "")
        )
        known = self.mmes.get(message.mme_id, {}) if message.mme_id is not None else {}
        cores = {self.gummeis[one] for one in message.gummeis if one in self.gummeis}
        found = [one for core, one in known.items() if not cores or core in cores] or list(known.values())
        there = [one for one in found if one.station == station] or (found if len(found) == 1 else [])
        connection = (
            (self.fitting(there, message) if len(there) > 1 else there[0])
            if there
            else self.began_before(station, message)
        )
        self.arrived(connection, station, message.frame)
        return connection

    def began_before(self, station: str, message: Message) -> Connection:
        """A connection whose beginning the trace lacks: the core's identity names it, whichever core that is."""
        connection = self.new(station, message.source_eci)
        if message.mme_id is not None:
            self.mmes.setdefault(message.mme_id, {})[ANY_CORE] = connection
        return connection

    def fitting(self, connections: list[Connection], message: Message) -> Connection:
        """Of connections that have the same identity at several cores, the one whose KeNB* this is; else one whose
        chain is not known, or the last."""
        cell = self.judge.cell(message.eci)
        for connection in connections if cell else []:
            if cell and any(
                self.derivations.star(one.base().key, *cell).value == message.key for one in connection.states()
            ):
                return connection
        for connection in connections if cell else []:
            if cell and any(
                self.derivations.star(chain.sync, *cell).value == message.key
                for chain, _ in self.judge.unseen_chains(connection, message.ncc or 0)
            ):
                return connection
        for connection in connections if cell else []:
            if (
                cell
                and connection.away
                and self.judge.moves.of_star(connection, message.key or b"", message.ncc or 0, cell)
            ):
                return connection
        return next((one for one in connections if not one.cores()), connections[-1])

    # -- over the air

    def rrc(self, message: Message, told: Command) -> None:
        """A handover command over the air, in clear: compared with what the target was given."""
        waiting = [pair for pair in self.commands if not pair[1].aired]
        same = [
            pair
            for pair in waiting
            if pair[1].command is not None and pair[1].command.octets == told.octets and told.octets
        ]

        def alike(pair: PreparedAttempt) -> int:
            cell = pair[1].cell or (None, None)
            return (
                2 * (cell[0] == told.pci)
                + (told.earfcn in (None, cell[1]))
                + (told.ncc in pair[1].nccs)
                + 2 * (pair[1].change == told.key_change)
            )

        near = sorted((pair for pair in waiting if alike(pair) >= 4), key=alike, reverse=True)
        chosen = [*same, *near]
        if not chosen:
            return self.rrc_within(message, told)
        chosen[0][1].aired = True
        self.commands = [pair for pair in self.commands if not pair[1].aired][-WAITING:]
        self.belongs(*chosen[0])
        self.judge.command(*chosen[0], message, told)

    def rrc_within(self, message: Message, told: Command) -> None:
        """A command that belongs to no handover between stations: one within the station, of its only phone."""
        active = list({id(one): one for one in self.legs.values()}.values())
        for connection in active:
            sites = [
                site
                for site in self.cells.of(connection.station)
                if site.pci == told.pci and told.earfcn in (None, site.earfcn)
            ]
            others = [one for one in active if one.station == connection.station]
            if sites and len(others) == 1 and connection.states() and not told.key_change:
                self.judge.within(connection, message, told, sites[0])
                return self.belongs(connection, connection.attempts[-1])
        self.judge.lines.append(unknown_line(message.frame, "RRC", "command", Cause.HANDOVER_NOT_CLEAR.because()))
