"""KeNB* against TS 33.401 for the target of a handover over X2: the lawful histories that give it, the likeliest first.

They are tried in this order: as the trace shows it, what a trace lacks one half of, what was on links that it does not
cover, what only the air shows. The first that gives the key says what the line rests on; those that do not give it are
gone.
"""
from __future__ import annotations

from collections.abc import Iterator
from dataclasses import dataclass, field, replace

from ..captures.cells import Cell, is_cell
from ..captures.decoding import Message
from ..common import mistakes
from ..common.causes import Cause, Why
from ..common.terms import Key, unknown
from ..nas.findings import NOT_GIVEN
from .chains import LOST_CHANGE, ChainJudge
from .histories import CHAIN, Chain, Held, History, Numbered, PhoneKeys, renewed
from .moves import ANYWHERE
from .state import Attempt, Connection, Given

BASES = 4  # keys for which a mistake is sought
MANY, MIXED, WIDE = (
    16,
    6,
    1024,
)  # refreshes that are tried: so many in turn, in so many cells, through so many ways of them
LOST_ANSWER = Cause.LOST_ANSWER.because()


@dataclass
class Made:
    """What came of a KeNB*: what the target may have been given, and from what it was made."""

    given: list[Given]
    bases: list[Numbered] = field(default_factory=list)
    doubt: Why = ()  # why it is not known whether it is right


class StarJudge(ChainJudge):
    """Judges KeNB* too."""

    def after_unseen(self, connection: Connection, message: Message) -> None:
        """Where the source names another own cell than the known one, there was a handover within it that the trace
        lacks."""
        eci = message.source_eci if message.source_eci is not None else connection.told_eci
        cell = self.cell(eci)
        connection.eci = eci if connection.eci is None else connection.eci
        if (
            eci is None
            or cell is None
            or eci == connection.eci
            or self.cells.station(eci) != connection.station
            or not connection.states()
        ):
            return
        if any(attempt.kind == "within" and attempt.eci == eci for attempt in connection.attempts[-1:]):
            return
        connection.eci = eci
        if connection.resumed:
            return
        self.note(message.frame, Cause.IN_OTHER_CELL.because(station=connection.station))
        moved = [one.refreshed(self.derivations, cell) for one in connection.histories if one.held.known]
        last = connection.attempts[-1] if connection.attempts else None
        came = self.came_there(last, cell) if last is not None and last.station == connection.station else []
        cores = connection.cores()
        connection.keeps([*moved, *(one for one in came if one.core in cores), *connection.histories])

    def came_there(self, attempt: Attempt, cell: Cell) -> list[History]:
        """The phone came to another cell of the target than was prepared, and KeNB* was made for that (TS 33.401 7.4.3,
        7.2.8.4)."""
        return [
            one.stores(pair).refreshed(self.derivations, cell)
            for pair in attempt.bases or attempt.pairs
            for one in attempt.before
            if pair.key.value
        ]

    def star(self, connection: Connection, message: Message) -> Made:
        """Judges a KeNB* and its NCC, and keeps the histories that give it."""
        assert message.key is not None
        ncc, cell = message.ncc or 0, self.cell(message.eci)
        self.after_unseen(connection, message)
        bases = list(dict.fromkeys(one.base() for one in connection.states()))
        if not bases or cell is None:
            return self.star_of_nothing(connection, message, bases)
        wanted = [Numbered(self.derivations.star(base.key, *cell), base.ncc) for base in bases]
        fits = [place for place, one in enumerate(wanted) if one.key.value == message.key]
        if fits:
            exact = [place for place in fits if wanted[place].ncc == ncc] or fits[:1]
            return self.right_star(connection, message, bases[exact[0]], wanted[exact[0]], cell)
        first = next((one for one in wanted if not unknown(one.key.term)), wanted[0])
        if not connection.cores() and connection.asked and ncc != first.ncc:
            found = self.named(message.key, connection, [])
            self.unjudged(message, "KeNB*", Cause.NH_NOT_SHOWN.because(), found)
            self.begins_at(connection, found)
            return Made([Given(Held(found, ncc))], doubt=Cause.STAR_NOT_JUDGED.because())
        made = (
            self.star_of_changed_cell(connection, message, bases)
            or self.star_of_elsewhere(connection, message, cell)
            or self.star_of_unseen(connection, message, cell)
        )
        made = (
            made
            or self.star_of_refreshed(connection, message, first, cell)
            or self.star_of_nobody(connection, message, bases, cell)
        )
        return (
            made
            or self.star_of_foreign(connection, message, bases)
            or self.other_star(connection, message, bases, first, cell)
        )

    def star_of_nothing(self, connection: Connection, message: Message, bases: list[Numbered]) -> Made:
        """A KeNB* of a source whose key is not known, or for a cell that is not."""
        found = self.named(message.key or b"", connection, [])
        why = (Cause.TARGET_CELL_UNKNOWN if bases else Cause.KEY_NOT_SHOWN).because()
        self.unjudged(message, "KeNB*", why if found.known or bases else NOT_GIVEN, found)
        self.begins_at(connection, found)
        return Made([Given(Held(found, message.ncc or 0))], doubt=why)

    def right_star(self, connection: Connection, message: Message, base: Numbered, made: Numbered, cell: Cell) -> Made:
        """A KeNB* that the histories with this base give, with its NCC or another."""
        ncc = message.ncc or 0
        self.judged(message, "KeNB*", made.key, made.key, (ncc, made.ncc), cell=cell)
        connection.keeps(one for one in connection.histories if one.held.base() == base)
        return Made([Given(Held(made.key, one)) for one in dict.fromkeys((ncc, made.ncc))], [base])

    def made_by(self, connection: Connection, histories: list[History], made: Key, ncc: int) -> Made:
        """What the target is given by these histories, which are left."""
        connection.keeps(histories)
        return Made([Given(Held(made, ncc))], [connection.histories[0].held.base()])

    def star_of_nobody(
        self, connection: Connection, message: Message, bases: list[Numbered], cell: Cell
    ) -> Made | None:
        """A KeNB* that no course gives which was tried of a phone without S1: one under a KASME that was not given may,
        or one with more steps."""
        if not connection.away:
            return None
        found = self.named(message.key or b"", connection, [base.key for base in bases])
        if found.known and not self.moves.reachable(connection, found, message.ncc or 0, cell):
            return None
        why = self.moves.why(connection)
        self.unjudged(message, "KeNB*", why, found)
        self.moves.lost(connection)
        return Made([Given(Held(found, message.ncc or 0))], doubt=why)

    def star_of_changed_cell(self, connection: Connection, message: Message, bases: list[Numbered]) -> Made | None:
        """A KeNB* for another PCI of the target cell than is known, which the target's own answer has too: the cell has
        changed."""
        told, site = self.reply(self.cells.now), self.cells.at(message.eci) if message.eci is not None else None
        if (
            told is None
            or site is None
            or told.pci is None
            or told.pci in self.cells.pcis()
            or site.eci in self.cells.given
        ):
            return None
        now = replace(site, pci=told.pci, earfcn=told.earfcn if told.earfcn is not None else site.earfcn)
        for base in bases if is_cell(now.pci, now.earfcn) else []:
            made = self.derivations.star(base.key, now.pci, now.earfcn)
            if made.value == message.key:
                self.cells.changed(now, self.cells.now)
                self.judged(
                    message,
                    "KeNB*",
                    made,
                    made,
                    (message.ncc or 0, base.ncc),
                    Cause.PCI_IS_NEW.because(pci=now.pci),
                    (now.pci, now.earfcn),
                )
                return self.made_by(
                    connection, [one for one in connection.histories if one.held.base() == base], made, message.ncc or 0
                )
        return None

    def star_of_unknown_pci(self, message: Message, found: Key, bases: list[Numbered], cell: Cell) -> Why:
        """Why a KeNB* for a PCI of no known cell may be right: the target may have told its source of it where the
        trace does not show X2."""
        made_for = found.term.cells()[:1] if found.term.kind == "star" else []
        lawful = any(found.term.above == base.key.term and base.ncc == message.ncc for base in bases)
        target = self.cells.station(message.eci)
        told = self.coverage.x2(
            target, self.cells.station(message.source_eci) or self.cells.addresses.get(message.source, "")
        )
        if not lawful or told or not made_for or made_for[0][0] in self.cells.pcis() or made_for[0][1] != cell[1]:
            return ()
        return Cause.PCI_MAY_BE_NEW.because(pci=made_for[0][0], station=target)

    def star_of_elsewhere(self, connection: Connection, message: Message, cell: Cell) -> Made | None:
        """A KeNB* of a phone that was where the trace has no S1."""
        if not connection.away or not connection.cores():
            return None
        ncc = message.ncc or 0
        found = self.moves.of_star(connection, message.key or b"", ncc, cell)
        if not found:
            return None
        made = self.derivations.star(found[0].held.base().key, *cell)
        self.judged(message, "KeNB*", made, made, (ncc, ncc), self.moves.remark(connection), cell)
        self.moves.takes(connection, found)
        return self.made_by(connection, connection.histories, made, ncc)

    # -- where the trace lacks one half

    def unseen_chains(
        self, connection: Connection, ncc: int, by_key: bool = True
    ) -> Iterator[tuple[Chain, list[History]]]:
        """The chains with this NCC that the source may have been told in answers that the trace lacks, and the
        histories behind each: no station makes an NH itself. Where the trace shows no request for it, a whole exchange
        is missing, which needs a link that is not covered or lost frames, and a key that proves it."""
        for number, told in sorted(connection.missed.items()):
            late = self.numbered(connection, number) if told in ("", connection.station) else None
            if late is not None and late.ncc == ncc:
                yield late, [one.stores(Numbered(late.sync, ncc)) for one in connection.histories]
        is_free = by_key and self.told_elsewhere(connection)
        for begun in connection.cores():
            chain, asked = begun, self.numbers(connection, begun) if connection.asked else []
            for number in range(1, CHAIN + 1):
                chain = chain.step(self.derivations)
                if chain.ncc == ncc and (is_free or number in asked):
                    yield chain, [
                        replace(one.stores(Numbered(chain.sync, ncc)), core=chain)
                        for one in connection.histories
                        if one.core == begun
                    ]

    def told_elsewhere(self, connection: Connection) -> bool:
        """Whether a whole exchange may have told the serving station an NH: its S1 is not covered in both directions,
        the capture lost frames, or the trace does not show where the phone was. Elsewhere the core tells another
        station."""
        return (
            not self.coverage.s1(connection.station)
            or ANYWHERE in connection.away
            or self.lost_frames(connection.certain)
        )

    def told_unseen(self, connection: Connection, chain: Chain) -> None:
        """The source was told this NH, in an answer that may come yet: X2 and S1 may be captured in another order than
        they were sent."""
        if chain.number not in connection.missed:
            connection.asked = 0
        connection.missed[chain.number] = connection.station

    def star_of_unseen(self, connection: Connection, message: Message, cell: Cell) -> Made | None:
        """A KeNB* from an NH that the source was to get, in an answer that the trace lacks, or after a key change that
        it lacks."""
        ncc = message.ncc or 0
        for chain, histories in self.unseen_chains(connection, ncc):
            made = self.derivations.star(chain.sync, *cell)
            if made.value == message.key:
                self.judged(message, "KeNB*", made, made, (ncc, ncc), LOST_ANSWER, cell)
                self.told_unseen(connection, chain)
                return self.made_by(connection, histories, made, ncc)
        return self.star_of_change(connection, message, cell)

    def star_of_change(self, connection: Connection, message: Message, cell: Cell) -> Made | None:
        """A KeNB* from the key of a key change that the trace lacks."""
        own = self.cell(connection.eci)
        for kenb in self.unseen_changes(connection) if own is not None and not message.ncc else []:
            phone = renewed(self.derivations, kenb, own)
            made = self.derivations.star(phone.key, *cell)
            if made.value == message.key:
                self.judged(message, "KeNB*", made, made, (0, 0), LOST_CHANGE, cell)
                self.changed_unseen(connection, kenb, [History(phone.chain, Held(phone.key), phone)])
                return self.made_by(connection, connection.histories, made, 0)
        return None

    def star_of_foreign(self, connection: Connection, message: Message, bases: list[Numbered]) -> Made | None:
        """A KeNB* of a phone whose KASME was not given: a key change that the trace lacks may have brought its key, and
        NCC 0."""
        begun = not message.ncc and all(base.ncc for base in bases)
        if connection.phone is not None and not begun and not self.is_foreign(connection):
            return None
        found, why = self.named(message.key or b"", connection, []), Cause.FOREIGN_CHANGE.because()
        if begun and connection.phone is not None and found.known:
            return None
        self.unjudged(message, "KeNB*", why, found)
        connection.asked = 0
        connection.keeps(History(None, one.held) for one in connection.histories)
        self.begins_at(connection, found)
        return Made([Given(Held(found, message.ncc or 0))], doubt=why)

    # -- refreshes that S1 and X2 do not show

    def own_cells(self, connection: Connection) -> list[Cell]:
        """The cells of the station that the phone is at, its own first."""
        own = self.cell(connection.eci)
        others = sorted({(site.pci, site.earfcn) for site in self.cells.of(connection.station)} - {own})
        return ([own] if own else []) + [one for one in others if one is not None][:MIXED]

    def refreshes(self, connection: Connection, histories: list[History]) -> Iterator[tuple[History, list[Cell]]]:
        """The histories behind steps to cells of the station: re-establishments and handovers within it (TS 33.401
        7.2.8.4.1, 7.2.9.3, TS 36.331 5.3.7). They end in the phone's own cell."""
        cells = self.own_cells(connection)
        if not cells or self.cell(connection.eci) is None:
            return
        level: list[tuple[History, list[Cell]]] = [(one, []) for one in histories if one.held.known]
        for _ in range(MANY):
            ways = cells
            if len(level) * len(cells) > WIDE:  # from here on only in its own cell
                level, ways = [(one, path) for one, path in level if set(path) == {cells[0]}], cells[:1]
            level = [(one.refreshed(self.derivations, cell), [*path, cell]) for one, path in level for cell in ways]
            yield from ((one, path) for one, path in level if path[-1] == cells[0])

    def star_of_refreshed(self, connection: Connection, message: Message, wanted: Numbered, cell: Cell) -> Made | None:
        """A KeNB* that is right if the phone was refreshed in its cell before; nothing on S1 and X2 tells."""
        ncc = message.ncc or 0
        starts: list[tuple[list[History], Chain | None, Why]] = [(connection.histories, None, ())]
        if all(one.base().ncc != ncc for one in connection.states()):
            starts += [(histories, chain, LOST_ANSWER) for chain, histories in self.unseen_chains(connection, ncc)]
        for kenb in self.unseen_changes(connection):
            begun = Chain(kenb.kasme, kenb)
            starts.append(([History(begun, Held(kenb), PhoneKeys(kenb, 0, begun))], begun, LOST_CHANGE))
        for histories, chain, also in starts:
            for one, path in self.refreshes(connection, distinct(histories)):
                made = self.derivations.star(one.held.key, *cell)
                if made.value == message.key:
                    if chain is not None and chain.number:
                        self.told_unseen(connection, chain)
                    elif chain is not None:
                        self.changed_unseen(connection, chain.sync, histories)
                    connection.keeps(self.gone(histories, path, one.held))
                    return self.refreshed_star(connection, message, wanted, one, path, made, also)
        return None

    def gone(self, histories: list[History], path: list[Cell], held: Held) -> Iterator[History]:
        """The histories that come to this state of the station through these cells."""
        for one in histories:
            for cell in path if one.held.known else []:
                one = one.refreshed(self.derivations, cell)
            if one.held == held:
                yield one

    def refreshed_star(
        self,
        connection: Connection,
        message: Message,
        wanted: Numbered,
        one: History,
        path: list[Cell],
        made: Key,
        also: Why,
    ) -> Made:
        """The line of a KeNB* that is right if the phone was refreshed; NCC is judged all the same."""
        if set(path) != {path[-1]}:
            how = Cause.IF_IN_CELLS.of(cells=" ".join(f"({pci},{earfcn})" for pci, earfcn in path))
        else:
            how = Cause.IF_REFRESHED_OFTEN.of(times=len(path)) if len(path) > 1 else Cause.IF_REFRESHED.of()
        why, ncc = (how, *also), message.ncc or 0
        if ncc != one.held.ncc:
            self.judged(message, "KeNB*", made, made, (ncc, one.held.ncc), why)
        else:
            self.unjudged(message, "KeNB*", (*why, Cause.ELSE_WANTED.of(wanted=self.show(wanted.key, made))), made)
        return Made([Given(Held(made, ncc))], [one.held.base()], why)

    # -- what no history gives

    def other_star(
        self, connection: Connection, message: Message, bases: list[Numbered], wanted: Numbered, cell: Cell
    ) -> Made:
        """A KeNB* that no lawful history gives."""
        assert message.key is not None
        ncc = message.ncc or 0
        found = self.named(message.key, connection, [base.key for base in bases], cell)
        given = [Given(Held(found, ncc)), Given(Held(wanted.key, wanted.ncc))]
        doubt = self.star_of_unknown_pci(message, found, bases, cell)
        if doubt:
            self.unjudged(message, "KeNB*", doubt, found)
            return Made(given, bases, doubt)
        why = self.reason(found, lambda: (mistakes.star(found.value, base.key.value, *cell) for base in bases[:BASES]))
        self.judged(message, "KeNB*", found, wanted.key, (ncc, wanted.ncc), why, cell)
        return Made(given, bases)


def distinct(histories: list[History]) -> list[History]:
    """The first history of each state of the station."""
    return list({one.held: one for one in reversed(histories)}.values())[::-1]
