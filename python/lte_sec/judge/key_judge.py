"""The keys of one connection against TS 33.401: what stations send and hold, and the key that the phone takes."""
from __future__ import annotations

from dataclasses import replace

from ..captures.cells import Cell, Site
from ..captures.decoding import Command, Message
from ..common.causes import Cause
from .agreement import AgreementJudge
from .histories import UNKNOWN_KEY, Held, History, Numbered, renewed
from .stars import Made
from .state import Attempt, Connection, Given


class KeyJudge(AgreementJudge):
    """Judges the keys of a connection from its beginning on: what stations and phone have behind each key change and
    handover."""

    # -- a new connection, a new KASME, a resumption

    def setup(self, connection: Connection, message: Message) -> None:
        """InitialContextSetupRequest: KeNB for a new connection; NCC is 0 (TS 33.401 7.2.8.1.1)."""
        phone, keys = self.kenb(connection, message)
        self.moves.sent.add(message.key or b"")
        self.sends(connection, message, keys[0])
        connection.away, connection.certain, connection.cut = [], self.cells.now, ()
        self.moves.came(connection, connection.station)
        connection.keeps(
            self.begun(
                connection, keys, [Held(key) for key in keys], renewed(self.derivations, phone) if phone.known else None
            )
        )
        connection.asked, connection.missed, connection.left, connection.saved = 0, {}, {}, None
        connection.attempts, connection.parted, connection.undecided = [], False, None
        connection.keys.append((message.frame, connection.station, keys[0]))
        connection.side.established |= connection.side.trigger is not None and connection.side.trigger.sure
        if keys[0].value != phone.value:
            self.apart(connection, message.frame, connection.station, phone, keys[0])

    def change(self, connection: Connection, message: Message) -> None:
        """UEContextModificationRequest with a key: KASME changes on the fly; the station makes KeNB* for the cell
        (7.2.9.2).

        Until its answer what was before is lawful too.
        """
        connection.saved = [replace(one, is_old=False) for one in connection.histories]
        phone, keys = self.kenb(connection, message)
        self.moves.sent.add(message.key or b"")
        self.sends(connection, message, keys[0])
        connection.eci = connection.eci if connection.told_eci is None else connection.told_eci
        cell = self.cell(connection.eci)
        connection.asked, connection.missed, connection.undecided = 0, {}, None
        if cell is None:
            connection.keeps(self.begun(connection, keys, [Held()], None))
            return self.unjudged(message, "key change", Cause.PHONE_CELL_UNKNOWN.because())
        held = [Held(self.derivations.star(key, *cell)) for key in keys]
        taken = renewed(self.derivations, phone, cell) if phone.known else None
        connection.keeps(
            [*self.begun(connection, keys, held, taken), *(replace(one, is_old=True) for one in connection.saved)]
        )
        attempt = Attempt(
            "change",
            message.frame,
            connection.station,
            connection.eci,
            [Given(one) for one in held],
            [0],
            cell,
            change=True,
        )
        connection.attempts.append(attempt)
        connection.keys.append((message.frame, connection.station, held[0].key))
        self.agreement(connection, attempt, taken)
        attempt.over = "done"

    def changed(self, connection: Connection) -> None:
        """The station answers that it changed the key: what was before is gone."""
        connection.saved = None
        connection.keeps([one for one in connection.histories if not one.is_old] or connection.histories)

    def change_failed(self, connection: Connection) -> None:
        self.refused(connection)
        if connection.saved is not None:
            connection.keeps(
                [replace(one, is_old=False) for one in connection.histories if one.is_old] or connection.saved
            )
            connection.saved = None

    def resumed(self, connection: Connection, message: Message) -> None:
        """A suspended phone comes back at its station: both make KeNB* for the cell that it comes to (TS 33.401
        7.2.11)."""
        known = [one for one in connection.histories if one.held.known]
        made = [one.refreshed(self.derivations, cell) for cell in self.own_cells(connection) for one in known]
        connection.keeps(made or [replace(one, held=Held(), phone=None) for one in connection.histories])
        connection.resumed = True

    # -- the end of a handover

    def moved(self, connection: Connection, attempt: Attempt, eci: int | None = None) -> None:
        """A handover is done: the target's keys and the phone's are in use (TS 33.401 7.2.8.4). The histories are
        crossed with it."""
        self.agreement(connection, attempt)
        attempt.before = connection.histories
        connection.leaves(attempt.station)
        connection.keeps(self.crossed(connection, attempt))
        connection.eci, connection.told_eci, connection.resumed = attempt.eci, None, False
        self.moves.came(connection, attempt.station)
        if (
            attempt.kind == "S1" and connection.cores()
        ):  # wherever the phone was before, the target goes on from the NH that it was sent
            self.moves.is_certain(connection)
        if attempt.given:
            connection.keys.append((attempt.frame, attempt.station, attempt.given[0].held.key))
        for other in connection.open_attempts():
            other.over = "done" if other is attempt else "left"
        self.elsewhere(connection, attempt, eci)

    def crossed(self, connection: Connection, attempt: Attempt) -> list[History]:
        """The histories with what the target has: each takes what it gives, or all take what was sent where none gives
        it any more."""
        given = attempt.given or [Given(Held())]
        pairs = [
            (one, target.held) for target in given for one in connection.histories if target.source in (None, one.held)
        ]
        pairs = pairs or [(one, target.held) for target in given for one in connection.histories]
        return [
            History(one.core, held, self.phone_behind(connection, one, attempt, held), one.is_old)
            for one, held in pairs
        ]

    def elsewhere(self, connection: Connection, attempt: Attempt, eci: int | None) -> None:
        """The phone came to another cell of the target than was prepared: by re-establishment there, or by a handover
        within the target.

        Both make KeNB* for that cell, from what the prepared one was made from or from the prepared one (TS 33.401
        7.4.3, 7.2.8.4).
        """
        if (
            eci is None
            or connection.eci is None
            or eci == connection.eci
            or self.cells.station(eci) != connection.station
        ):
            return
        cell = self.cell(eci)
        connection.eci = eci
        self.note(
            attempt.frame,
            Cause.CAME_TO_OTHER_CELL.because(
                station=attempt.station, cell=f"({cell[0]},{cell[1]})" if cell else f"ECI {eci:07x}"
            ),
        )
        if cell is None:
            return connection.keeps(replace(one, held=Held(), phone=None) for one in connection.histories)
        connection.keeps(
            [
                *self.came_there(attempt, cell),
                *(one.refreshed(self.derivations, cell) for one in connection.histories if one.held.known),
            ]
        )

    def within(self, connection: Connection, message: Message, told: Command, site: Site) -> None:
        """A handover within a station, which only RRC shows (7.2.8.4.1)."""
        cell = (site.pci, site.earfcn)
        if told.ncc is not None and told.ncc not in [one.base().ncc for one in connection.states()]:
            self.goes_on_to(connection, told.ncc)
        given = self.handed_on(connection, cell)
        attempt = Attempt(
            "within", message.frame, connection.station, site.eci, given, [one.held.ncc for one in given], cell
        )
        connection.attempts.append(attempt)
        self.command(connection, attempt, message, told)
        self.moved(connection, attempt)

    def goes_on_to(self, connection: Connection, ncc: int) -> None:
        """The station has an NH of this NCC: from where the trace does not show S1, or from an answer that it lacks."""
        found = self.moves.with_ncc(connection, ncc) if connection.away else []
        if found:
            return self.moves.takes(connection, found)
        for chain, histories in self.unseen_chains(connection, ncc, by_key=False):
            self.told_unseen(connection, chain)
            return connection.keeps(histories)
        if connection.asked and not connection.cores():  # the answer brought an NH of a chain that is not known
            connection.asked = 0
            connection.keeps(one.stores(Numbered(UNKNOWN_KEY, ncc)) for one in connection.histories)

    def handed_on(self, connection: Connection, cell: Cell) -> list[Given]:
        """What the target has, by each state of the source."""
        return [
            Given(Held(self.derivations.star(one.base().key, *cell), one.base().ncc), one)
            for one in connection.states()
        ]

    def unseen(self, connection: Connection, station: str, eci: int | None) -> Attempt:
        """A handover whose messages between the stations the trace lacks: as the standard has it."""
        cell = self.cell(eci)
        given = self.handed_on(connection, cell) if cell else []
        return Attempt("X2", "", station, eci, given, [given[0].held.ncc if given else 0], cell, told=True)

    def came_unseen(self, connection: Connection, frame: str, station: str) -> None:
        """The phone is at another station, and the trace shows nothing of how it came there: its key there is not
        known."""
        connection.attempts.append(Attempt("unseen", frame, station, None, [], [], told=True, over="done"))
        connection.leaves(station)
        self.moves.came(connection, station)
        self.moves.was_anywhere(connection)
        connection.eci, connection.told_eci, connection.resumed = None, None, False
        connection.keeps([one.away() for one in connection.histories])
        self.note(frame, Cause.AT_STATION.because(station=station))

    def came_back(self, connection: Connection, frame: str, eci: int | None) -> None:
        """A path switch where the phone is already: it was at another station, and the trace shows neither going nor
        coming."""
        self.moves.was_anywhere(connection)
        connection.eci, connection.told_eci = eci, None
        connection.keeps([one.away() for one in connection.histories])
        self.note(frame, Cause.CAME_ANEW.because(station=connection.station))

    def asked(self, connection: Connection, message: Message, made: Made, station: str) -> Attempt:
        """A handover over X2 that a source asks for."""
        attempt = Attempt(
            "X2",
            message.frame,
            station,
            message.eci,
            made.given,
            [one.held.ncc for one in made.given],
            self.cell(message.eci),
        )
        attempt.bases, attempt.doubt = made.bases, made.doubt
        attempt.capabilities = message.capabilities
        return attempt

    def given(self, connection: Connection, pairs: list[Numbered]) -> None:
        """The serving station stores NH and NCC for the next handover (7.2.8.4.1)."""
        connection.keeps([one.stores(pair) for pair in pairs for one in connection.histories])
