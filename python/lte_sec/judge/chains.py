"""NH and NCC against TS 33.401: the core's chain, when it sends of it."""
from __future__ import annotations

from collections import Counter
from collections.abc import Iterator

from ..captures.decoding import Message
from ..common import mistakes
from ..common.causes import Cause
from ..common.terms import NONE, UP, Key, counted, numbered
from ..nas.findings import NOT_GIVEN
from .histories import CHAIN, UNKNOWN_KEY, Chain, History, Numbered, PhoneKeys
from .kenbs import KenbJudge
from .state import Connection, Undecided

FAR = 6  # so many steps of the chain ahead of the phone the core is warned of; at eight they come apart
LOST_FRAMES, LOST_CHANGE = Cause.LOST_FRAMES.because(), Cause.LOST_CHANGE.because()
FIRST = (2, 1)  # the number of the first NH that a core sends: 2 by TS 33.401 7.2.8.1.1 and 7.2.8.4.2, 1 of other cores

ChainStep = tuple[Chain, Chain]  # the core's chain before and after


class ChainJudge(KenbJudge):
    """Judges NH too, and goes on from what was sent."""

    def numbers(self, connection: Connection, chain: Chain) -> list[int]:
        """How many steps the chain may go on by: one, and one more for each earlier request without an answer."""
        more = range(max(1, connection.asked))
        if chain.number:
            return [1 + extra for extra in more]
        first = self.firsts.get(connection.mme)
        firsts = [first] if first else list(FIRST)
        return list(dict.fromkeys(number + extra for extra in more for number in firsts))

    def due(self, connection: Connection, chain: Chain) -> Iterator[Chain]:
        """The chains that the core may have come to from this one, the likeliest first."""
        numbers, found = self.numbers(connection, chain), [chain]
        for number in numbers:
            while len(found) <= number:
                found.append(found[-1].step(self.derivations))
            yield found[number]

    def nh(self, connection: Connection, message: Message, station: str = "") -> list[Numbered]:
        """Judges NH and NCC that are sent to a station, and keeps the histories that give them; answers the pairs that
        it may have: as sent, then as wanted."""
        assert message.nh is not None and message.ncc is not None
        tried = [(chain, after) for chain in connection.cores() for after in self.due(connection, chain)]
        matches = [step for step in tried if step[1].sync.value == message.nh]
        match = next((step for step in matches if step[1].ncc == message.ncc), None)
        if match is not None:
            return self.right_nh(connection, message, [step for step in matches if step[1] == match[1]])
        if matches:
            by_ncc = [step for step in tried if step[1].ncc == message.ncc and step[1].kasme == matches[0][1].kasme]
            return (
                self.two_numbers(connection, message, matches[0], by_ncc[0])
                if by_ncc
                else self.right_nh(connection, message, matches[:1])
            )
        made = (
            self.overdue(connection, message, station)
            or self.nh_of_change(connection, message)
            or self.nh_of_elsewhere(connection, message)
        )
        made = made or self.nh_of_lost(connection, message)
        return made or self.other_nh(connection, message, tried)

    # -- on what a trace lacks

    def nh_of_lost(self, connection: Connection, message: Message) -> list[Numbered] | None:
        """An NH some steps on, where the capture lost frames since the last one: an exchange with the core may be among
        them."""
        for begun in connection.cores() if self.lost_frames(connection.certain) else []:
            chain = begun
            for _ in range(CHAIN):
                chain = chain.step(self.derivations)
                if chain.sync.value == message.nh and chain.ncc == message.ncc:
                    self.judged(message, "NH", chain.sync, chain.sync, (message.ncc, message.ncc), LOST_FRAMES)
                    connection.steps([(begun, chain)])
                    connection.asked, connection.certain = 0, self.cells.now
                    return [Numbered(chain.sync, message.ncc)]
        return None

    def nh_of_elsewhere(self, connection: Connection, message: Message) -> list[Numbered] | None:
        """An NH of a phone that was where the trace has no S1."""
        if not connection.away or not connection.cores():
            return None
        assert message.nh is not None and message.ncc is not None
        found = self.moves.of_nh(connection, message.nh, message.ncc)
        chain = next((one.core for one in found if one.core is not None), None)
        if chain is None:
            return self.nh_of_nobody(connection, message)
        self.judged(message, "NH", chain.sync, chain.sync, (message.ncc, message.ncc), self.moves.remark(connection))
        self.moves.takes(connection, found)
        return [Numbered(chain.sync, message.ncc)]

    def nh_of_nobody(self, connection: Connection, message: Message) -> list[Numbered] | None:
        """An NH that no course gives which was tried of a phone without S1: one under a KASME that was not given may,
        or one with more steps."""
        value, ncc = message.nh or b"", message.ncc or 0
        found = self.named(value, connection, [chain.sync for chain in connection.cores()])
        if found.known and not self.moves.reachable(connection, found, ncc):
            return None
        self.unjudged(message, "NH", self.moves.why(connection), found)
        self.moves.lost(connection)
        return [Numbered(Key(value, NONE), ncc)]

    def overdue(self, connection: Connection, message: Message, station: str) -> list[Numbered] | None:
        """An answer that comes after the answer to a later request: its number was left out then."""
        late = self.late(connection, message, station)
        if late is None:
            return None
        del connection.missed[late.number]
        self.judged(message, "NH", late.sync, late.sync, (message.ncc or 0, late.ncc), Cause.LATE.because())
        return [Numbered(late.sync, message.ncc or 0)]

    def late(self, connection: Connection, message: Message, station: str) -> Chain | None:
        """The chain at the number of an answer that is overdue: it comes to the station that had its NH before."""
        chains = (
            self.numbered(connection, number)
            for number, told in sorted(connection.missed.items())
            if not station or told in ("", station)
        )
        return next((chain for chain in chains if chain is not None and chain.sync.value == message.nh), None)

    def numbered(self, connection: Connection, number: int) -> Chain | None:
        """The chain of a connection at a number, from its beginning."""
        chain = next(iter(connection.cores()), None)
        start = next(
            (
                key
                for key in self.at_hand(connection)
                if chain is not None and key.term == (chain.sync.term.base() or NONE)
            ),
            None,
        )
        return (
            Chain(chain.kasme, start).step(self.derivations, number)
            if chain is not None and start is not None
            else None
        )

    # -- a key change that the trace lacks

    def unseen_changes(self, connection: Connection) -> list[Key]:
        """The KeNBs that a key change may have brought: of another KASME than that of the chain, which a Security Mode
        exchange brought."""
        side = connection.side
        contexts = [(side.trigger.context, side.trigger.counts)] if side.trigger is not None else []
        contexts += [(side.pending, (side.pending.next[UP],))] if side.pending is not None else []
        chain = next((one.kasme for one in connection.cores()), None)
        return [
            self.derivations.kenb(one.kasme, count)
            for one, counts in contexts
            if one.given and chain not in (None, one.kasme)
            for count in counts
        ]

    def changed_unseen(self, connection: Connection, kenb: Key, histories: list[History]) -> None:
        """A key change to this KeNB came, and these histories are left."""
        if connection.side.pending is not None and connection.side.pending.kasme == kenb.kasme:
            self.book.complete(connection.side)
        self.used(connection)
        connection.asked, connection.missed = 0, {}
        connection.keeps(histories)

    def nh_of_change(self, connection: Connection, message: Message) -> list[Numbered] | None:
        """An NH of the chain that a key change began."""
        for kenb in self.unseen_changes(connection):
            begun = Chain(kenb.kasme, kenb)
            for chain in self.due(connection, begun):
                if chain.sync.value == message.nh and chain.ncc == message.ncc:
                    self.judged(message, "NH", chain.sync, chain.sync, (message.ncc, message.ncc), LOST_CHANGE)
                    phone = PhoneKeys(UNKNOWN_KEY, 0, begun, True)
                    self.changed_unseen(
                        connection, kenb, [History(chain, one.held, phone) for one in connection.histories]
                    )
                    return [Numbered(chain.sync, message.ncc)]
        return None

    def is_foreign(self, connection: Connection) -> bool:
        """Whether a KASME that was not given is in use for NAS, so that a key change may bring it for the keys of
        stations."""
        return any(
            context is not None and not context.given for context in (connection.side.current, connection.side.pending)
        )

    def begins_at(self, connection: Connection, found: Key) -> None:
        """A key that is not judged and whose derivation is found tells where the chain begins: from here on only the
        core's number is in doubt."""
        count, number = counted(found.term.base()), numbered(found.term)
        if connection.cores() or count < 0:
            return
        chain = Chain(found.kasme, self.derivations.kenb(found.kasme, count))
        connection.goes_on([chain.step(self.derivations, number)])
        self.moves.sent.add(chain.sync.value)
        connection.based = True

    # -- what was sent

    def other_nh(self, connection: Connection, message: Message, tried: list[ChainStep]) -> list[Numbered]:
        """An NH that no lawful history gives."""
        assert message.nh is not None and message.ncc is not None
        found = self.named(message.nh, connection, [after.sync for _, after in tried])
        number = found.term.numbers[0] if found.term.kind == "nh" else 0
        connection.asked = 0
        if self.is_foreign(connection):
            self.unjudged(message, "NH", NOT_GIVEN, found)
            connection.keeps(History(None, one.held) for one in connection.histories)
            return [Numbered(found, message.ncc)]
        unknown_cores = [one for one in connection.histories if one.core is None]
        if tried and unknown_cores:
            self.unjudged(message, "NH", NOT_GIVEN, found)
            connection.keeps(unknown_cores)
            return [Numbered(found, message.ncc)]
        if not tried:
            self.unjudged(message, "NH", Cause.CHAIN_NOT_SHOWN.because() if found.known else NOT_GIVEN, found)
            self.begins_at(connection, found)
            if not connection.cores() and number:
                connection.goes_on([Chain(found.kasme, found, number)])
            return [Numbered(found, message.ncc)]
        # Several numbers may be due where requests have no answer. A key that nothing explains leaves NCC to tell.
        chains = [after for _, after in tried]
        likely = [chain for chain in chains if not found.known and chain.ncc == message.ncc] + chains
        wanted = next((chain for chain in likely if chain.sync.term.base() != NONE), likely[0])
        kasmes = self.derivations.kasmes
        why = self.reason(
            found,
            lambda: (
                mistakes.nh(found.value, kasmes[chain.kasme].value, sync.value)
                for chain in connection.cores()
                for sync in self.syncs(connection, chain)
            ),
        )
        if message.name == "HandoverRequest" and found.term.kind == "kenb" and found.kasme != wanted.kasme:
            why = Cause.NEW_KASME.because()
        self.judged(message, "NH", found, wanted.sync, (message.ncc, wanted.ncc), why)
        self.decided(connection, wanted)
        connection.goes_on(self.sent_or_wanted(connection, found, number, wanted))
        return [Numbered(found, message.ncc), Numbered(wanted.sync, wanted.ncc)]

    def sent_or_wanted(self, connection: Connection, found: Key, number: int, wanted: Chain) -> list[Chain]:
        """The chains that the core may go on with behind an NH that differs: from that, from the wanted one, or from
        what was before."""
        same = found.term.base() == wanted.sync.term.base() and found.kasme == wanted.kasme
        numbers = [number, wanted.number] if same and number else [wanted.number, number]
        before = (
            [] if found.known else connection.cores()[:1]
        )  # where nothing tells what was sent, the core may not have stepped
        chains = [
            *(Chain(wanted.kasme, found, one) for one in dict.fromkeys(numbers) if one or not number),
            wanted,
            *before,
        ]
        return [*chains, Chain(found.kasme, found, number)] if found.kasme not in (-1, wanted.kasme) else chains

    def syncs(self, connection: Connection, chain: Chain) -> Iterator[Key]:
        """The SYNC-inputs of the NHs that a chain may go on with."""
        for _ in range(max(self.numbers(connection, chain))):
            yield chain.sync
            chain = chain.step(self.derivations)

    def right_nh(self, connection: Connection, message: Message, steps: list[ChainStep]) -> list[Numbered]:
        """An NH that is due, with its NCC or another."""
        chain = steps[0][1]
        self.decided(connection, chain)
        connection.certain = self.cells.now
        before = next((one.number for one in connection.cores() if one.number < chain.number), 0)
        if before == 0:
            first = self.firsts.get(connection.mme, chain.number if connection.asked < 2 else FIRST[0])
            if connection.asked < 2:
                self.seen_firsts.setdefault(connection.mme, Counter())[chain.number] += 1
            before = min(first, chain.number) - 1
        connection.missed = {**dict.fromkeys(range(before + 1, chain.number), ""), **connection.missed}
        self.judged(message, "NH", chain.sync, chain.sync, (message.ncc or 0, chain.ncc))
        connection.steps(steps)
        self.moves.is_certain(connection)
        connection.asked = max(0, connection.asked - (chain.number - before))
        if connection.phone and chain.number - connection.phone.chain.number >= FAR:
            ahead = chain.number - connection.phone.chain.number
            self.note(message.frame, Cause.FAR_AHEAD.because(steps=ahead))
        pairs = [Numbered(chain.sync, message.ncc or 0)]
        return pairs if message.ncc == chain.ncc else [*pairs, Numbered(chain.sync, chain.ncc)]

    def two_numbers(
        self, connection: Connection, message: Message, by_key: ChainStep, by_ncc: ChainStep
    ) -> list[Numbered]:
        """An NH of one number that is due and the NCC of another: one of them is the fault, and the next answer tells
        which."""
        ncc, key, other = message.ncc or 0, by_key[1], by_ncc[1]
        lines = {
            key.number: self.line_of(message, "NH", key.sync, key.sync, (ncc, key.ncc)),
            other.number: self.line_of(message, "NH", key.sync, other.sync, (ncc, ncc)),
        }
        likely = sorted(
            (by_key, by_ncc), key=lambda step: FIRST.index(step[1].number) if step[1].number in FIRST else -1
        )
        self.lines.append(lines[likely[0][1].number])
        connection.undecided = Undecided(
            len(self.lines) - 1, lines[likely[0][1].number], lines[likely[1][1].number], likely[1][1].number
        )
        connection.steps(likely)
        connection.asked = 0
        return [Numbered(key.sync, ncc), Numbered(key.sync, key.ncc), Numbered(other.sync, ncc)]

    def decided(self, connection: Connection, chain: Chain) -> None:
        """The next answer stands: which of two numbers it goes on from decides what the fault before it was."""
        undecided, connection.undecided = connection.undecided, None
        if undecided is not None and chain.number == undecided.number + 1 and not connection.cut:
            undecided.other.place = undecided.line.place
            self.lines[undecided.at] = undecided.other
