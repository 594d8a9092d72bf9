"""Lines on keys: what a key is and what it was to be, with the search for a derivation and the reason of a mistake."""
from __future__ import annotations

import itertools
from collections import Counter
from collections.abc import Callable, Iterator

from ..captures.cells import Cell, Cells
from ..captures.coverage import DOWN, Coverage
from ..captures.decoding import Command, Message, title
from ..common import report
from ..common.causes import Cause, Why
from ..common.report import DIFFERS, RIGHT, Line, note_line, unknown_line
from ..common.terms import NONE, UP, Key, counted
from ..nas.service import ServiceBook
from .clauses import of_key
from .line_store import KeptLines
from .moves import Moves
from .search import DerivationSearch
from .state import Connection, SentKenb

REASONS = 200  # keys of a trace for which a reason is sought
OTHERS = 16  # contexts of other phones whose KeNBs are at hand for the search


class KeyLines:
    """What judges of keys share: what is known of the trace, and the lines so far."""

    def __init__(
        self, book: ServiceBook, cells: Cells, search: DerivationSearch, firsts: dict[str, int], coverage: Coverage
    ):
        self.book, self.cells, self.search, self.firsts, self.coverage = book, cells, search, firsts, coverage
        self.moves = Moves(book, cells, coverage)
        self.reply: Callable[
            [int], Command | None
        ] = lambda place: None  # what the target of a handover over X2 answers, by the place of its request
        self.in_use: dict[bytes, str] = {}  # KeNBs that stations took, with the frame of each
        self.last_sent: dict[int, SentKenb] = {}  # by KASME, the last KeNB
        self.gaps: list[tuple[int, int]] = []  # places between which the capture lost frames
        self.reasoned = 0  # keys for which a reason was sought
        self.derivations = book.derivations
        self.lines = KeptLines()
        self.seen_firsts: dict[str, Counter[int]] = {}  # by core, how often each number of NH was the first

    # -- what may have passed unseen

    def licensed(self, connection: Connection) -> bool:
        """Whether a whole exchange between core and station may have passed that the trace does not show: no rule takes
        one without this.

        S1 down of the station is not covered; the phone is or was where S1 is not; the trace shows nothing of the
        connection before, which may have begun before it or at any station; or the capture lost frames since the last
        line that is right.
        """
        return connection.proved is None and not self.coverage.whole or self.licensed_here(connection)

    def licensed_here(self, connection: Connection) -> bool:
        """The same for an exchange since the first message of the connection, where the trace shows that."""
        if connection.away or connection.side.away or not self.coverage.s1(connection.station, DOWN):
            return True
        if connection.proved is None and not connection.side.initial:
            return True
        return self.lost_frames(-1 if connection.proved is None else connection.proved)

    def lost_frames(self, since: int) -> bool:
        """Whether the capture lost frames behind a place, as SCTP's numbers tell."""
        behind = itertools.takewhile(lambda gap: gap[1] > since, reversed(self.gaps))
        return any(begin < self.cells.now for begin, _ in behind)

    # -- keys

    def at_hand(self, connection: Connection) -> list[Key]:
        """The keys of a connection, the most likely first."""
        held = [*connection.states(), *(one for states in connection.left.values() for one in states)]
        keys = (
            [one.base().key for one in held] + [one.key for one in held] + [chain.sync for chain in connection.cores()]
        )
        if connection.phone:
            keys += [connection.phone.key, connection.phone.chain.sync]
        keys += [key for _, _, key in connection.keys[-8:]]
        bases = [
            self.derivations.kenb(key.kasme, counted(key.term.base()))
            for key in keys
            if counted(key.term.base()) >= 0 and key.kasme >= 0
        ]
        context = connection.side.current
        own = [(context.kasme, context.next[UP])] if context and context.given else []
        others = [(one.kasme, one.next[UP]) for one in list(self.book.contexts.values())[-OTHERS:] if one.given]
        others += [(kasme, context.next[UP]) for kasme in range(len(self.derivations.kasmes))[:OTHERS] if context]
        near = dict.fromkeys((kasme, max(0, count - back)) for kasme, count in [*own, *others] for back in range(4))
        return [*keys, *bases, *(self.derivations.kenb(*one) for one in near)]

    def named(self, value: bytes, connection: Connection, more: list[Key], cell: Cell | None = None) -> Key:
        """The term of a key that is not the wanted one."""
        found = self.search.find(value, [*more, *self.at_hand(connection)], cell[0] if cell else None, bool(more))
        return found or Key(value, NONE)

    def reason(self, found: Key, tries: Callable[[], Iterator[Why]]) -> Why:
        """The mistake that gives a key which no derivation gives, as far as the reasons of a trace go."""
        if found.known or self.reasoned >= REASONS:
            return ()
        self.reasoned += 1
        return next(filter(None, tries()), ())

    def show(self, key: Key, beside: Key | None = None) -> str:
        return self.derivations.shown(key, beside)

    def judged(
        self,
        message: Message,
        kind: str,
        found: Key,
        wanted: Key,
        ncc: tuple[int, int] | None = None,
        why: Why = (),
        cell: Cell | None = None,
        of: str = "",
    ) -> Line:
        line = self.line_of(message, kind, found, wanted, ncc, why, of)
        line.cell = cell
        self.lines.append(line)
        return line

    def line_of(
        self,
        message: Message,
        kind: str,
        found: Key,
        wanted: Key,
        ncc: tuple[int, int] | None = None,
        why: Why = (),
        of: str = "",
    ) -> Line:
        """The line of a key; `of` says for which cell a message prepares it."""
        differs = found.value != wanted.value
        form = self.show(found, wanted if differs else None)
        other = form if found is wanted else self.derivations.form(wanted, found) + self.derivations.whose(wanted)
        if differs and not found.known and wanted.value:
            why = (*why, Cause.OCTETS.of(got=found.value.hex(), wanted=wanted.value.hex()))
        said = report.of_key(f"{kind} {of}".rstrip(), form, other, differs, ncc, of_key(message, kind, of != "", why))
        verdict = DIFFERS if differs or ncc is not None and ncc[0] != ncc[1] else RIGHT
        line = Line(
            message.frame,
            title(message),
            kind,
            verdict,
            said,
            remarks=why,
            of=of,
            found=found.form,
            base=found.base,
            hex=found.value.hex(),
            kasme=self.derivations.name(found.kasme),
            key=found,
            wanted_key=wanted,
        )
        is_same = found is wanted  # as it mostly is
        line.wanted, line.wanted_hex = (line.found, line.hex) if is_same else (wanted.form, wanted.value.hex())
        line.ncc, line.wanted_ncc = ncc or (None, None)
        return line

    def unjudged(self, message: Message, kind: str, why: Why, found: Key | None = None) -> None:
        line = unknown_line(message.frame, title(message), kind, why, self.show(found) if found and found.known else "")
        line.hex, line.key = found.value.hex() if found else "", found
        line.found = ""
        if found is not None and found.known:
            line.found, line.base, line.kasme = found.form, found.base, self.derivations.name(found.kasme)
        self.lines.append(line)

    def cell(self, eci: int | None) -> Cell | None:
        site = self.cells.at(eci) if eci is not None else None
        return (site.pci, site.earfcn) if site else None

    def note(self, frame: str, why: Why) -> None:
        self.lines.append(note_line(frame, why))
