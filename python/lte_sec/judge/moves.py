"""What may have happened on links that a trace does not cover: lawful histories of core, station and phone, the
likeliest first.

A move changes a history as TS 33.401 7.2.8 and 7.2.9 have it: the core steps its chain, a pair of NH and NCC is given
and stored, a key is handed on for a cell, a KeNB is made anew.
"""
from __future__ import annotations

from collections.abc import Callable, Iterator
from dataclasses import replace

from ..captures.cells import Cell, Cells
from ..captures.coverage import DOWN, Coverage
from ..common.causes import Cause, Why
from ..common.terms import Key, counted, numbered
from ..common.terms import UP as UPLINK
from ..nas.contexts import EpsSecurityContext
from ..nas.service import ServiceBook
from .histories import CHAIN, UNKNOWN_KEY, Chain, Held, History, Numbered, PhoneKeys, renewed
from .state import Connection

STEPS, COUNTS, FIRSTS, CELLS, KASMES, AROUND = 8, 40, 4, 6, 16, 4
ANYWHERE = "a station that the trace does not show"


class Moves:
    """The lawful histories of a connection whose phone was where the trace shows nothing."""

    def __init__(self, book: ServiceBook, cells: Cells, coverage: Coverage):
        self.book, self.cells, self.coverage = book, cells, coverage
        self.derivations = book.derivations
        self.sent: set[bytes] = set()  # KeNBs that were sent: none is made twice

    # -- where the phone was

    def came(self, connection: Connection, station: str) -> None:
        """The phone is at a station: where S1 down of that is not covered, what the core gives it is not seen. Nothing
        else sets where a phone is."""
        connection.station = station
        if station and not self.coverage.s1(station, DOWN):
            self.was_at(connection, station)

    def was_anywhere(self, connection: Connection) -> None:
        """The phone was at a station of which the trace shows nothing."""
        self.was_at(connection, ANYWHERE)

    def was_at(self, connection: Connection, station: str) -> None:
        connection.based = False
        connection.away += [station] if station not in connection.away else []

    def why(self, connection: Connection) -> Why:
        """The condition under which a value that no history gives may be right."""
        return (
            Cause.WAS_ANYWHERE.because()
            if connection.away == [ANYWHERE]
            else Cause.WAS_AT.because(stations=" and ".join(connection.away[-2:]))
        )

    def remark(self, connection: Connection) -> Why:
        return Cause.LAWFUL_WHERE.because(why=self.why(connection))

    # -- moves

    def cells_of(self, connection: Connection) -> list[Cell]:
        """The cells that an unseen step may have been for: those of the station, and those of stations where the phone
        was."""
        named = dict.fromkeys([connection.station, *reversed(connection.away)])
        sites = [site for station in named for site in self.cells.of(station)]
        return list(dict.fromkeys((site.pci, site.earfcn) for site in sites))[:CELLS]

    def renewals(self, connection: Connection) -> Iterator[Key]:
        """The KeNBs that a connection or key change may have brought that the trace does not show: none that was sent
        before."""
        if connection.based:
            return
        side, book = connection.side, self.book
        at_hand = side.pending, side.current, side.trigger.context if side.trigger else None
        contexts: list[EpsSecurityContext] = [one for one in at_hand if one is not None and one.given]
        in_use = dict.fromkeys([*(chain.kasme for chain in connection.cores()), *(one.kasme for one in contexts)])
        tried: dict[tuple[int, int], None] = {}
        for kasme in in_use:
            known = [
                *([book.contexts[kasme]] if kasme in book.contexts else []),
                *(one for one in contexts if one.kasme == kasme),
            ]
            first = max(0, known[0].next[UPLINK] - AROUND) if known else 0
            tried |= dict.fromkeys((kasme, count) for count in range(first, first + COUNTS + AROUND))
        tried |= dict.fromkeys((kasme, count) for kasme in book.unused()[:KASMES] for count in range(FIRSTS))
        for kasme, other in list(book.contexts.items())[-KASMES:]:
            if other.given and kasme not in in_use:
                first = max(0, other.next[UPLINK] - AROUND)
                tried |= dict.fromkeys((kasme, count) for count in range(first, first + 2 * AROUND))
        for kasme, count in tried:
            key = self.derivations.kenb(kasme, count)
            if key.value not in self.sent:
                yield key

    def stepped(self, chain: Chain, cells: list[Cell]) -> Iterator[History]:
        """One to eight steps of a chain, each NH stored, or in use for a cell."""
        for _ in range(STEPS):
            before, chain = chain, chain.step(self.derivations)
            phone = PhoneKeys(UNKNOWN_KEY, before.ncc, before, True)
            yield History(chain, Held(UNKNOWN_KEY, before.ncc, Numbered(chain.sync, chain.ncc)), phone)
            for cell in cells:
                key = self.derivations.star(chain.sync, *cell)
                yield History(chain, Held(key, chain.ncc), PhoneKeys(key, chain.ncc, chain))

    def unseen(self, connection: Connection) -> Iterator[Iterator[History]]:
        """The histories of a phone that was where S1 is not covered: those that go on from what is known, then those of
        each new KeNB."""
        cells = self.cells_of(connection)
        yield self.going_on(connection, cells)
        for kenb in self.renewals(connection):
            yield self.renewing(kenb, cells)

    def going_on(self, connection: Connection, cells: list[Cell]) -> Iterator[History]:
        for chain in connection.cores():
            yield from self.stepped(chain, cells)
        for one in connection.histories:
            if one.held.known and one.core is not None:
                yield from (one.refreshed(self.derivations, cell) for cell in cells)
        yield from self.prepared_elsewhere(connection, cells)

    def renewing(self, kenb: Key, cells: list[Cell]) -> Iterator[History]:
        begun = Chain(kenb.kasme, kenb)
        yield History(begun, Held(kenb), renewed(self.derivations, kenb))
        for cell in cells:
            phone = renewed(self.derivations, kenb, cell)
            yield History(begun, Held(phone.key), phone)
        yield from self.stepped(begun, cells)

    def prepared_elsewhere(self, connection: Connection, cells: list[Cell]) -> Iterator[History]:
        """The phone came to another cell of the target than was prepared (TS 33.401 7.4.3)."""
        last = connection.attempts[-1] if connection.attempts else None
        if last is None or last.station != connection.station:
            return
        for one in last.before:
            for pair in last.bases or last.pairs:
                for cell in cells if pair.key.value and one.core is not None else []:
                    yield one.stores(pair).refreshed(self.derivations, cell)

    def of_nh(self, connection: Connection, nh: bytes, ncc: int) -> list[History]:
        """The histories in which this is the NH that the core sends now."""
        for chains in (connection.cores(), (Chain(kenb.kasme, kenb) for kenb in self.renewals(connection))):
            found = []
            for chain in chains:
                for _ in range(STEPS + 1):
                    before, chain = chain, chain.step(self.derivations)
                    if chain.sync.value == nh and chain.ncc == ncc:
                        found.append(
                            History(
                                chain, Held(UNKNOWN_KEY, before.ncc), PhoneKeys(UNKNOWN_KEY, before.ncc, before, True)
                            )
                        )
            if found:
                return found
        return []

    def of_star(self, connection: Connection, key: bytes, ncc: int, cell: Cell) -> list[History]:
        """The histories in which the station makes this KeNB* for a cell."""

        def makes(base: Numbered) -> bool:
            return base.ncc == ncc and self.derivations.calls.kenb_star(base.key.value, *cell) == key

        return self.first_of(connection, lambda one: makes(one.held.base()))

    def with_ncc(self, connection: Connection, ncc: int | None) -> list[History]:
        """The histories in which the next command has this NCC."""
        return self.first_of(connection, lambda one: one.held.base().ncc == ncc)

    def first_of(self, connection: Connection, fits: Callable[[History], bool]) -> list[History]:
        """All histories that fit of those that go on from what is known, else of the first new KeNB with any."""
        return next(filter(None, (list(filter(fits, histories)) for histories in self.unseen(connection))), [])

    def of_kenb(self, connection: Connection, key: bytes) -> Key | None:
        """A KeNB of an uplink message that the trace does not show: of any COUNT near, never one that was sent
        before."""
        return next((one for one in self.renewals(connection) if one.value == key), None)

    def reachable(self, connection: Connection, key: Key, ncc: int, cell: Cell | None = None) -> bool:
        """Whether links that the trace does not cover may have brought this NH, or this KeNB* for a cell, however many
        steps that takes: it goes on from a chain of the connection, or from a KeNB that was not sent before. What is
        tried has bounds, and this has none.
        """
        count, number, cells = counted(key.term.base()), numbered(key.term), key.term.cells()
        if key.term.kind != ("nh" if cell is None else "star") or cell is not None and cells[0] != cell:
            return False
        if count < 0 or key.kasme < 0 or ncc != number % CHAIN or not set(cells[1:]) <= self.unseen_cells(connection):
            return False
        if any(
            chain.kasme == key.kasme and chain.sync.term.base() == key.term.base() and number > chain.number
            for chain in connection.cores()
        ):
            return True
        return not connection.based and self.may_be_made(key.kasme, count)

    def unseen_cells(self, connection: Connection) -> set[Cell]:
        """The cells in which the phone may have been: those of stations where it was, and of those whose S1 is not
        covered."""
        was_at = {connection.station, *connection.left}
        stations = {
            station
            for station in map(self.cells.station, self.cells.sites)
            if station in was_at or not self.coverage.s1(station, DOWN)
        }
        return {(site.pci, site.earfcn) for site in self.cells.every() if self.cells.station(site.eci) in stations}

    def may_be_made(self, kasme: int, count: int) -> bool:
        """Whether a KeNB may be made at this COUNT: it is not behind those that were used, and was not sent before."""
        context = self.book.contexts.get(kasme)
        return (context is None or count >= context.next[UPLINK] - AROUND) and self.derivations.kenb(
            kasme, count
        ).value not in self.sent

    def takes(self, connection: Connection, histories: list[History]) -> None:
        """The connection goes on from these histories; the KeNB that they begin at was made then."""
        connection.asked, connection.missed, connection.undecided = 0, {}, None
        self.sent |= {
            self.derivations.kenb(one.core.kasme, count).value
            for one in histories
            if one.core is not None
            for count in [counted(one.core.sync.term.base())]
            if count >= 0
        }
        connection.keeps([replace(one, phone=one.phone or connection.phone) for one in histories])
        self.is_certain(connection)
        connection.parted = False

    def is_certain(self, connection: Connection) -> None:
        """The core's chain is certain again, wherever the phone was before; what the phone did there with NAS stays
        open."""
        connection.side.away |= bool(connection.away)
        connection.away = [
            station
            for station in connection.away
            if station == connection.station and not self.coverage.s1(station, DOWN)
        ]

    def lost(self, connection: Connection) -> None:
        """No history gives a value, and one under a KASME that was not given might: from here on nothing is known."""
        connection.asked, connection.missed, connection.undecided = 0, {}, None
        connection.keeps(History(None, one.held) for one in connection.histories)
        connection.side.away = True
