"""NAS messages of a trace: under which KASME and COUNT each stands, and whether its MAC is right (TS 24.301 4.4, 9.1 to
9.3).

A receiver takes the least COUNT above the last accepted one that has the sequence number of the message. So does this
reading, and it also looks at the COUNTs before and after that, since a trace may lack messages or show them late.
"""
from __future__ import annotations

from collections.abc import Callable, Iterable
from dataclasses import replace

from ..common.causes import Cause, Reason
from ..common.report import DIFFERS, UNKNOWN
from ..common.terms import COMPUTED, DOWN, UP
from .contexts import (
    CIPHERED,
    COMMAND,
    COMPLETE,
    FOREIGN,
    PLAIN,
    SERVICE_REQUEST,
    EpsSecurityContext,
    NasSeen,
    NasSide,
    Trigger,
)
from .counts import WRAP, estimate
from .findings import LOST_MODE, NasFindings
from .plain import EMM, ESM
from .texts import is_nas

PATIENCE = 3  # messages of a connection for which a beginning before the trace is sought
AHEAD = 16  # messages of a connection that are looked at for a KASME
OTHERS = 16  # contexts of other KASMEs in which a message is sought
NEW = 16  # COUNTs of a context whose Security Mode exchange a trace lacks

# What comes later in the same connection: NAS messages with their directions, and KeNBs.
Later = Callable[[], Iterable["tuple[int, bytes] | bytes"]]


def is_protected(pdu: bytes) -> bool:
    return len(pdu) >= 7 and pdu[0] & 15 == EMM and PLAIN < pdu[0] >> 4 < SERVICE_REQUEST


class NasBook(NasFindings):
    """Judges NAS messages: seeks the context and the COUNT under which each stands."""

    # -- one message

    def judge(self, side: NasSide, direction: int, pdu: bytes, later: Later) -> NasSeen | None:
        """What is found of a message, or None of one that may be plain."""
        side.messages += 1
        if len(pdu) < 2:
            return NasSeen(direction, PLAIN, UNKNOWN, note=Cause.NO_NAS.because())
        header, discriminator = pdu[0] >> 4, pdu[0] & 15
        if discriminator == ESM:
            return self.plain(side, direction, pdu, None)
        if discriminator != EMM:
            return NasSeen(direction, header, UNKNOWN, note=Cause.DISCRIMINATOR.because(found=discriminator))
        if header == PLAIN:
            return self.plain(side, direction, pdu, pdu[1])
        if header >= SERVICE_REQUEST:
            return self.service_request(side, pdu, later)
        if len(pdu) < 7:
            return NasSeen(direction, header, DIFFERS, pdu[1:5].hex(), faults=[Cause.TOO_SHORT.of()])
        seen = (
            self.command(side, pdu, later)
            if header == COMMAND and direction == DOWN
            else self.protected(side, direction, pdu, later)
        )
        self.reserved(seen)
        return seen

    def service_request(self, side: NasSide, pdu: bytes, later: Later) -> NasSeen | None:
        raise NotImplementedError  # of `ServiceBook`

    def command(self, side: NasSide, pdu: bytes, later: Later) -> NasSeen:
        raise NotImplementedError  # this and the next are of `ModeBook`

    def completed(self, side: NasSide, context: EpsSecurityContext, count: int) -> list[Reason]:
        raise NotImplementedError

    # -- all others

    def protected(self, side: NasSide, direction: int, pdu: bytes, later: Later) -> NasSeen:
        complete = direction == UP and pdu[0] >> 4 == COMPLETE
        order = [side.pending, side.current] if complete else [side.current, side.pending]
        held = [context for context in order if context is not None]
        if not held:
            held = self.likely(side, direction, pdu, later)
        for context in held:
            count = self.opens(context, direction, pdu)
            due = self.fewer(side, context, direction, pdu, count, later) if count is not None else None
            if due is not None:
                self.takes(side, context, complete, direction, (due,), False)
                return self.refused(context, direction, pdu, due, self.whose(context, direction, pdu, due))
            if count is not None:
                faults = self.completed(side, context, count) if complete else []
                self.takes(side, context, complete, direction, (count,), True)
                seen = self.settled(side, context, direction, pdu, count)
                seen.blame(*faults)
                return seen
        if not held:
            return self.without(side, direction, pdu, complete, later)
        if all(not context.given for context in held) or complete and not held[0].given:
            return self.foreign(side, held[0], direction, pdu, complete)
        context = next(one for one in held if one.given)
        if not self.judged(context):
            count = estimate(context.next[direction], pdu[5])
            self.takes(side, context, complete, direction, (count,), False)
            return self.refused(context, direction, pdu, count)
        return self.unopened(side, held, direction, pdu, complete, later)

    def fewer(
        self, side: NasSide, context: EpsSecurityContext, direction: int, pdu: bytes, count: int, later: Later
    ) -> int | None:
        """The COUNT that is due, where a message with a wrong MAC there has no more faults than one at the COUNT that
        its MAC has.

        At its own COUNT a message may have been used with other octets, its text may not read, and KeNB may be of
        another COUNT; at the one that is due its MAC is wrong. The same octets again are a replay.
        """
        due, before = estimate(context.next[direction], pdu[5]), context.seen.get(direction, count)
        if count == due or before is not None and before.has(pdu):
            return None
        first = direction == UP and side.initial and side.messages == 1
        key = next((one for one in later() if isinstance(one, bytes)), None) if first and context.given else None

        def faults(at: int) -> int:
            reads = (
                pdu[0] >> 4 not in CIPHERED
                or context.guessed
                or is_nas(self.text(context, direction, at, pdu) or pdu[6:])
            )
            return (not reads) + (key is not None and self.derivations.kenb(context.kasme, at).value != key)

        return due if 1 + faults(due) <= (before is not None) + faults(count) else None

    def foreign(
        self, side: NasSide, context: EpsSecurityContext, direction: int, pdu: bytes, complete: bool
    ) -> NasSeen:
        """A message under a KASME that was not given."""
        self.takes(side, context, complete, direction, (), complete)
        side.completed |= complete
        return self.refused(context, direction, pdu, pdu[5]) if context.eia == 0 else self.nothing(direction, pdu)

    def without(self, side: NasSide, direction: int, pdu: bytes, complete: bool, later: Later) -> NasSeen:
        """A message of a connection that has no context so far and fits none."""
        fresh = self.lost_mode(side, direction, pdu, complete) if complete else None
        if fresh is not None:
            return self.renewed(side, *fresh, direction, pdu)
        side.completed |= complete
        side.missed += 1
        return self.nothing(direction, pdu)

    def lost_mode(
        self, side: NasSide, direction: int, pdu: bytes, complete: bool
    ) -> tuple[EpsSecurityContext, int] | None:
        """The new context of a message whose Security Mode exchange the trace lacks, and its COUNT: those of an
        authentication begin at 0.

        A Complete shows that its Command was sent. A KASME that the phone refused is known without another exchange.
        """
        if pdu[5] >= NEW:
            return None
        free = [kasme for kasme in self.unused() if side.hidden or complete or kasme in side.rejected]
        found = (self.under(self.context(kasme, guessed=True), direction, pdu[5], pdu) for kasme in free)
        return next(((one, pdu[5]) for one in found if one is not None), None)

    def renewed(self, side: NasSide, context: EpsSecurityContext, count: int, direction: int, pdu: bytes) -> NasSeen:
        """A message under a context whose Security Mode exchange the trace lacks, or only its Command."""
        complete = direction == UP and pdu[0] >> 4 == COMPLETE
        self.follows(side.current, context)
        side.current, side.pending, side.authenticated = context, None, False
        self.contexts[context.kasme] = context
        side.trigger = Trigger(
            context, (count,) if complete else tuple(range(count if direction == UP else NEW)) or (0,), complete
        )
        side.established = True
        return self.settled(side, context, direction, pdu, count, () if complete else LOST_MODE)

    def other_algorithms(
        self, held: list[EpsSecurityContext], direction: int, pdu: bytes
    ) -> tuple[EpsSecurityContext, int] | None:
        """A context in use under other algorithms, which an exchange brought that the trace does not show, and the
        COUNT of a message under it."""
        others = (
            replace(one, eia=eia, guessed=True, resumed=True)
            for one in held
            if one.given
            for eia in COMPUTED
            if eia != one.eia
        )
        found = ((one, self.opens(one, direction, pdu)) for one in others)
        return next(((one, count) for one, count in found if count is not None), None)

    def unopened(
        self, side: NasSide, held: list[EpsSecurityContext], direction: int, pdu: bytes, complete: bool, later: Later
    ) -> NasSeen:
        """A message that does not open near the COUNTs of the context in use: a fault, a gap in the trace, or another
        context."""
        context = next(one for one in held if one.given)
        count = estimate(context.next[direction], pdu[5])
        same, other, failing = self.ahead(context, direction, pdu, later)
        if not same:
            fresh = self.other_algorithms(held, direction, pdu) if side.hidden else None
            fresh = fresh or (self.lost_mode(side, direction, pdu, complete) if not other or complete else None)
            if fresh is not None:
                return self.renewed(side, *fresh, direction, pdu)
            if side.pending is not None and not side.pending.given:
                return self.nothing(direction, pdu)
            is_others = any(
                self.opens(one, direction, pdu) is not None for one in self.others(held)
            )  # 32 bits say whose it is: no far COUNT is sought
            far = (
                None
                if is_others
                else self.effort.find(
                    [context.kasme], pdu[5], WRAP, lambda _, tried: self.has_mac(context, direction, tried, pdu)
                )
            )
            if far is not None:
                self.takes(side, context, complete, direction, (far[1],), True)
                return self.settled(side, context, direction, pdu, far[1])
            if side.away:
                return self.came_back(side, context, direction, pdu)
            alone = (
                complete and side.pending is None
            )  # its Command, which the trace lacks, may have brought a KASME that was not given
            if not other and (alone or side.authenticated or failing == {UP, DOWN}):
                self.leaves(side, context)
                return self.nothing(direction, pdu)
            if not is_others and not self.effort.reached:
                return self.nothing(direction, pdu, Cause.COUNT_FAR.because())
        self.takes(side, context, complete, direction, (count,), False)
        return self.refused(context, direction, pdu, count, self.whose(context, direction, pdu, count))

    def others(self, held: list[EpsSecurityContext]) -> list[EpsSecurityContext]:
        """The contexts of other KASMEs: of those that were in use last, and of some that were not."""
        found = [*list(self.contexts.values())[-OTHERS:], *(self.context(kasme) for kasme in self.unused()[:OTHERS])]
        return [one for one in found if one.given and all(one.kasme != context.kasme for context in held)]

    def came_back(self, side: NasSide, context: EpsSecurityContext, direction: int, pdu: bytes) -> NasSeen:
        """A message of a phone that was where the trace shows nothing: it may stand under another KASME by now."""
        for kasme in self.kasmes():
            other = self.contexts.get(kasme) or self.context(kasme, guessed=True)
            count = self.opens(other, direction, pdu) if kasme != context.kasme else None
            if count is not None:
                return self.renewed(side, other, count, direction, pdu)
        self.leaves(side, context)
        return self.nothing(direction, pdu, Cause.WAS_AWAY.because())

    def leaves(self, side: NasSide, context: EpsSecurityContext) -> None:
        """The connection goes on under a KASME that was not given, until one that is known is in use again."""
        unknown = EpsSecurityContext(FOREIGN)
        self.follows(context, unknown)
        side.current, side.trigger, side.authenticated = unknown, None, False

    def ahead(
        self, context: EpsSecurityContext, direction: int, pdu: bytes, later: Later
    ) -> tuple[bool, bool, set[int]]:
        """What comes later in the connection under a context: whether a message of the same direction is right, one of
        the other, and the directions of those that are not, this one too."""
        failing, tried = {direction}, 0
        other = False
        for one in later():
            if isinstance(one, bytes) or not is_protected(one[1]):
                continue
            way, text = one
            tried += 1
            if text[0] >> 4 == COMMAND or tried > AHEAD:
                break
            if self.opens(context, way, text) is None:
                failing.add(way)
            elif way == direction:
                return True, other, failing
            else:
                other = True
        return False, other, failing

    def takes(
        self,
        side: NasSide,
        context: EpsSecurityContext,
        complete: bool,
        direction: int,
        counts: tuple[int, ...],
        sure: bool,
    ) -> None:
        """What a message changes: a Complete, or a right message under the pending context, puts that in use."""
        was_pending = context is side.pending
        if was_pending and (complete or sure):
            self.follows(side.current, context)
            side.current, side.pending = context, None
        elif side.current is None and not was_pending:
            side.current = context
        if side.current is context and context.given:
            self.contexts[context.kasme] = context
            context.capabilities = side.capabilities or context.capabilities
        if direction == UP and (complete or was_pending or side.initial and side.trigger is None):
            lost = side.messages > 1 and not complete and not was_pending  # what brought KeNB came before this message
            side.trigger = Trigger(context, tuple(range(counts[0] + 1)) if lost and counts else counts, sure)

    # -- a connection that has no context so far

    def likely(self, side: NasSide, direction: int, pdu: bytes, later: Later) -> list[EpsSecurityContext]:
        """The contexts of a connection that has none yet: by identity, else by the MAC; at last as one that began
        before the trace."""
        place = self.phones.get(side.tmsi) if side.tmsi is not None else None
        known = self.contexts.get(place) if place is not None else None
        others = [one for one in self.contexts.values() if one is not known] if side.missed < PATIENCE else []
        order = [*([known] if known else []), *others]
        right = next((one for one in order if self.opens(one, direction, pdu) is not None), None)
        if right is not None:
            return [right]
        if known is not None and self.told_ksi(pdu) == known.ksi is not None:
            return [known]
        if (
            place == FOREIGN
            or side.missed >= PATIENCE
            or pdu[0] >> 4 == COMPLETE
            and self.lost_mode(side, direction, pdu, True)
        ):
            return []
        return self.began_before(direction, pdu)

    def told_ksi(self, pdu: bytes) -> int | None:
        """The KSI that a first message tells: Attach Request, Tracking Area Update Request (TS 24.301 9.9.3.21)."""
        return pdu[8] >> 4 & 7 if len(pdu) > 8 and pdu[0] >> 4 == 1 and pdu[6:8] in (b"\x07\x41", b"\x07\x48") else None

    def began_before(self, direction: int, pdu: bytes) -> list[EpsSecurityContext]:
        """A context that began before the trace."""

        def fits(context: EpsSecurityContext, count: int) -> bool:
            return self.has_mac(context, direction, count, pdu)

        usual, others = (
            [self.context(kasme, eia=eia, guessed=True) for eia in eias for kasme in self.unused()]
            for eias in (COMPUTED[:1], COMPUTED[1:])
        )
        found = (
            (self.cold.find(usual, pdu[5], WRAP, fits) or self.rare.find(others, pdu[5], WRAP, fits)) if usual else None
        )
        if found is None:
            return []
        found[0].next[direction] = found[1]
        return [found[0]]

    def complete(self, side: NasSide) -> None:
        """The pending context is in use: KeNB is made at the COUNT of the Complete that the trace shows later, or
        lacks."""
        if side.pending is not None:
            side.trigger = Trigger(side.pending, (side.pending.next[UP],), True)
            self.follows(side.current, side.pending)
            side.current, side.pending = side.pending, None
            self.contexts[side.current.kasme] = side.current
