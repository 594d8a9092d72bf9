"""KeNB against TS 33.401: the key that the core makes from KASME at the COUNT of an uplink message, when it is sent."""
from __future__ import annotations

from ..captures.coverage import UP as FROM_STATION
from ..captures.decoding import Message
from ..common import mistakes
from ..common.causes import Cause, Why
from ..common.pairs import paired
from ..common.report import DIFFERS
from ..common.terms import UP, Key, counted
from ..nas.contexts import NasSide, Trigger
from ..nas.findings import LOST_MODE, NOT_GIVEN
from .histories import Chain, Held, History, PhoneKeys, merged
from .keylines import KeyLines
from .state import Connection

FEW = 4  # COUNTs of an uplink message by which a KeNB is made after a Security Mode exchange


class KenbJudge(KeyLines):
    """Judges KeNB."""

    def wanted_kenbs(self, connection: Connection) -> list[Key]:
        """The KeNB that is due: at the COUNT of the trigger; where its MAC is wrong, also at the COUNT that was to
        come."""
        trigger, pending = connection.side.trigger, connection.side.pending
        counts: list[tuple[int, int]] = []
        if trigger is not None and trigger.context.given:
            counts += [(trigger.context.kasme, count) for count in trigger.counts]
            if not trigger.sure:
                counts.append((trigger.context.kasme, trigger.context.next[UP]))
        if pending is not None and pending.given:  # the Security Mode Complete has not come yet, or the trace lacks it
            counts.append((pending.kasme, pending.next[UP]))
        return [self.derivations.kenb(*one) for one in dict.fromkeys(counts)]

    def kenb(self, connection: Connection, message: Message) -> tuple[Key, list[Key]]:
        """Judges a KeNB; answers what the phone takes, and what may have been sent: as it is, then as it was wanted."""
        assert message.key is not None
        wanted = self.wanted_kenbs(connection)
        match = next((key for key in wanted if key.value == message.key), None)
        unseen = None if match is not None else self.kenb_of_unseen(connection, message.key)
        if match is None and unseen is not None:
            self.judged(message, "KeNB", unseen, unseen, why=LOST_MODE)
            return unseen, [unseen]
        free = self.kenb_of_elsewhere(connection, message.key) if match is None else None
        if free is not None:
            self.judged(message, "KeNB", free, free, why=Cause.UNSEEN_UPLINK.because())
            return free, [free]
        if match is not None and match.value in self.in_use:
            self.again_in_use(message, match)
            self.used(connection)
            return match, [match]
        if match is not None:
            self.judged(message, "KeNB", match, match)
            if connection.side.pending is not None and match.kasme == connection.side.pending.kasme:
                self.book.complete(connection.side)
            self.used(connection)
            return match, [match]
        why = self.not_due(connection, wanted)
        found = self.mistaken(message.key, [] if why else wanted) or self.named(
            message.key, connection, [] if why else wanted
        )
        self.used(connection)
        mistake = () if why else self.kenb_reason(found, wanted)
        if not why and not found.known and not mistake and self.lacks_uplink(connection):
            why = Cause.FAR_UPLINK.because()
        if why:
            self.unjudged(message, "KeNB", why if found.known or wanted else NOT_GIVEN, found)
            connection.side.trigger = None if not found.known else connection.side.trigger
            return found, [found]
        self.judged(message, "KeNB", found, wanted[0], why=mistake)
        return wanted[0], [found, wanted[0]]

    def mistaken(self, value: bytes, wanted: list[Key]) -> Key | None:
        """The KeNB of a COUNT that is taken for a wanted one."""
        tried = (
            self.derivations.kenb(key.kasme, other)
            for key in wanted
            for _, other in mistakes.count_mistakes(counted(key.term))
        )
        return next((key for key in tried if key.value == value), None)

    def kenb_reason(self, found: Key, wanted: list[Key]) -> Why:
        """The mistake of a KeNB: of its COUNT, or one that no derivation gives."""
        kasmes, counts = self.derivations.kasmes, [(one.kasme, counted(one.term)) for one in wanted]
        if found.term.kind == "kenb" and found.kasme == wanted[0].kasme:
            return next(
                ((one,) for one, other in mistakes.count_mistakes(counts[0][1]) if other == counted(found.term)), ()
            )
        return self.reason(
            found, lambda: (mistakes.kenb(found.value, kasmes[kasme].value, count) for kasme, count in counts)
        )

    def again_in_use(self, message: Message, key: Key) -> None:
        """A KeNB that was in use before: each has a fresh COUNT (TS 33.401 7.2.6.2), unless the first was refused or
        never taken."""
        line = self.line_of(message, "KeNB", key, key)
        line.verdict, line.remarks = DIFFERS, Cause.IN_USE_BEFORE.because(frame=self.in_use[key.value])
        line.said = Cause.KEY_COMES_AGAIN.because(
            what="KeNB", found=f"{line.found}{self.derivations.whose(key)}", why=line.remarks
        )
        self.lines.append(line)

    def comes_into_use(self, connection: Connection) -> None:
        """The station took the last KeNB of a connection."""
        if connection.sent.given is not None:
            self.in_use.setdefault(*connection.sent.given)

    def refused(self, connection: Connection) -> None:
        """The station did not take the last KeNB of a connection: it may come again."""
        connection.sent.given = None
        if connection.side.trigger is not None:
            connection.side.trigger.used = False

    def sends(self, connection: Connection, message: Message, key: Key) -> None:
        """A KeNB is sent: the one before it of the same KASME was in use, unless it was refused."""
        before = self.last_sent.get(key.kasme)
        if before is not None and before.given is not None and before.given[0] != key.value:
            self.in_use.setdefault(*before.given)
        connection.sent.given = (key.value, message.frame)
        self.last_sent[key.kasme] = connection.sent

    def kenb_of_elsewhere(self, connection: Connection, value: bytes) -> Key | None:
        """A KeNB of an uplink message that the trace does not show, since it has not that direction of the station's
        S1."""
        if not self.lacks_uplink(connection):
            return None
        found = self.moves.of_kenb(connection, value)
        if found is None and not connection.based:
            other = self.named(value, connection, [])
            found = (
                other
                if other.term.kind == "kenb" and self.moves.may_be_made(other.kasme, counted(other.term))
                else None
            )
        if found is not None:
            self.in_use_under(connection.side, found.kasme)
        return found

    def lacks_uplink(self, connection: Connection) -> bool:
        """Whether the trace may lack the uplink message that brought a KeNB."""
        return bool(connection.away) or not self.coverage.s1(connection.station, FROM_STATION)

    def in_use_under(self, side: NasSide, kasme: int) -> None:
        """A KASME is in use, as a KeNB shows whose message the trace does not have. The phone may have taken its last
        Command or refused it."""
        pending = side.pending if side.pending is not None and side.pending.kasme == kasme else None
        context = self.book.contexts.setdefault(kasme, pending or self.book.context(kasme, guessed=True))
        self.book.follows(side.current, context)
        side.current, side.pending, side.away = context, None if context is pending else pending, False

    def used(self, connection: Connection) -> None:
        if connection.side.trigger is not None:
            connection.side.trigger.used = True

    def not_due(self, connection: Connection, wanted: list[Key]) -> Why:
        """Why a KeNB cannot be judged, or nothing."""
        side = connection.side
        if (
            side.pending is not None
            and not side.pending.given
            or side.trigger is not None
            and not side.trigger.context.given
        ):
            return NOT_GIVEN
        if not wanted:
            return Cause.TRIGGER_NOT_SHOWN.because()
        unseen = side.authenticated or side.trigger is not None and side.trigger.used and side.pending is None
        if unseen and self.licensed(connection):
            return Cause.MODE_NOT_SHOWN.because()
        return ()

    def kenb_of_unseen(self, connection: Connection, value: bytes) -> Key | None:
        """The KeNB of a new KASME whose Security Mode exchange the trace lacks: it is made at one of the first
        COUNTs."""
        side = connection.side
        for kasme in self.book.unused() if self.licensed_here(connection) else []:
            for count in range(FEW):
                if self.derivations.calls.kenb(self.derivations.kasmes[kasme].value, count) == value:
                    context = self.book.context(kasme, guessed=True)
                    self.book.follows(side.current, context)
                    self.book.contexts[kasme] = side.current = context
                    side.pending, side.authenticated, side.established = None, False, True
                    side.trigger = Trigger(context, (count,), True, True)
                    return self.derivations.kenb(kasme, count)
        return None

    def chains(self, connection: Connection, key: Key) -> list[Chain]:
        """The chains that may begin at a KeNB: under the KASME in use, and under that of the key."""
        trigger = connection.side.trigger
        kasmes = [trigger.context.kasme] if trigger and trigger.context.given else []
        return [Chain(kasme, key) for kasme in dict.fromkeys([*kasmes, key.kasme]) if kasme >= 0]

    def begun(
        self, connection: Connection, keys: list[Key], held: list[Held], phone: PhoneKeys | None
    ) -> list[History]:
        """The histories behind a KeNB that was one of these, and what the station makes of each: core and station go on
        from the same one, or from two where the message alone was wrong."""
        chains: dict[int, list[Chain | None]] = {
            place: [*self.chains(connection, key)] or [None] for place, key in enumerate(keys)
        }
        same = [History(chain, one, phone) for begun, one in paired(chains.values(), held) for chain in begun]
        return merged(
            [*same, *(History(chain, one, phone) for begun in chains.values() for chain in begun for one in held)]
        )
