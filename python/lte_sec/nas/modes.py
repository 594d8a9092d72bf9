"""Security Mode Command, Complete and Reject: which context they bring, and what each must say (TS 24.301 5.4.3, TS
33.401 7.2.4)."""
from __future__ import annotations

from dataclasses import replace

from ..common.causes import Cause, Reason, Why
from ..common.terms import COMPUTED, DOWN, UP
from .contexts import COMMAND, COMPLETE, FOREIGN, EpsSecurityContext, NasSeen, NasSide
from .nas_book import AHEAD, Later, NasBook, is_protected
from .plain import EMM, MODE_COMMAND, NO_KEY, capability_fault, of_octets, replayed

FIRST_COUNTS = 4  # the most that a Command's COUNT may be where a KASME begins: it is sent again four times (5.4.3.7)


class ModeBook(NasBook):
    """The NAS contexts of a trace, with what Security Mode messages do to them."""

    def command(self, side: NasSide, pdu: bytes, later: Later) -> NasSeen:
        """A Security Mode Command: its own octets tell algorithms and KSI; the KASME is the one under which its MAC is
        right."""
        plain, seq = pdu[6:], pdu[5]
        octet, ksi = (
            (plain[2], plain[3] & 7) if len(plain) >= 4 and plain[:2] == bytes([EMM, MODE_COMMAND]) else (0x22, None)
        )
        eea, eia = octet >> 4 & 7, octet & 7
        side.commands += 1
        if eia == 0:
            side.pending = EpsSecurityContext(FOREIGN, eea, 0, ksi)
            right = pdu[1:5] == bytes(4)
            return (
                self.found(side, side.pending, DOWN, pdu, seq) if right else self.refused(side.pending, DOWN, pdu, seq)
            )
        fresh = [self.context(kasme, eea, eia, ksi) for kasme in self.kasmes()]
        context = next((one for one in fresh if self.judged(one) and self.has_mac(one, DOWN, seq, pdu)), None)
        old = self.contexts.get(context.kasme) or (context if context.seen else None) if context else side.current
        if (
            old is not None and old.given and eia in COMPUTED
        ):  # a KASME lives once: its COUNTs go on under other algorithms too
            count = self.opens(replace(old, eia=eia), DOWN, pdu)
            if count is not None:
                side.pending = replace(
                    old, eea=eea, eia=eia, ksi=ksi, guessed=False, resumed=old.kasme in self.contexts
                )
                side.rejected.discard(old.kasme)  # the phone refused the Command before, not the KASME
                return self.found(side, side.pending, DOWN, pdu, count)
        if context is not None:
            side.pending, self.turn = context, context.kasme + 1
            side.rejected.discard(context.kasme)
            return self.begun(side, self.found(side, context, DOWN, pdu, seq))
        return self.wrong_command(side, pdu, fresh, ksi, later)

    def begun(self, side: NasSide, seen: NasSeen) -> NasSeen:
        """A Command with which a KASME begins; its COUNT is one of the first (TS 24.301 4.4.3.1)."""
        begins = side.fresh or side.current is not None and side.current.given
        if begins and seen.count is not None and seen.count > FIRST_COUNTS:
            seen.blame(Cause.COUNT_NOT_RESET.of(found=seen.count))
        return seen

    def wrong_command(
        self, side: NasSide, pdu: bytes, fresh: list[EpsSecurityContext], ksi: int | None, later: Later
    ) -> NasSeen:
        """A Command under no KASME that was given, unless what follows it stands under one."""
        context = next((one for one in fresh if self.evidence(side, one, later)), None)
        side.authenticated, side.offered = False, None  # whatever KASME it brings, it used the authentication
        if context is None:
            side.pending = EpsSecurityContext(FOREIGN, fresh[0].eea if fresh else 2, fresh[0].eia if fresh else 2, ksi)
            return self.nothing(DOWN, pdu)
        side.pending = context
        context.next[DOWN] = pdu[5] + 1
        seen = self.refused(context, DOWN, pdu, pdu[5], self.whose(context, DOWN, pdu, pdu[5]))
        if self.judged(context):  # what a message with a wrong MAC says of its context is not believed
            context.ksi, context.guessed = None, True
        return seen

    def evidence(self, side: NasSide, context: EpsSecurityContext, later: Later) -> bool:
        """Whether what comes later in the connection stands under this new context; a MAC that is right tells its
        algorithm.

        What stands under the context in use says nothing of a new one, and a KeNB of neither says that the Command
        brought another KASME.
        """
        for place, one in enumerate(later()):
            if place == AHEAD:
                break
            if isinstance(one, bytes):
                return any(self.derivations.kenb(context.kasme, count).value == one for count in range(FIRST_COUNTS))
            direction, pdu = one
            in_use = side.current if side.current is not None and side.current.given else None
            if (
                in_use is not None
                and is_protected(pdu)
                and pdu[0] >> 4 not in (COMMAND, COMPLETE)
                and self.opens(in_use, direction, pdu) is not None
            ):
                continue
            if is_protected(pdu) and pdu[0] >> 4 == COMMAND:
                break
            right = self.under(context, direction, pdu[5], pdu) if is_protected(pdu) else None
            if right is not None:
                context.eia = right.eia
                return True
            if is_protected(pdu) and direction == UP and pdu[0] >> 4 == COMPLETE:
                break  # the Complete of another KASME: what comes behind it stands under that
        return False

    def commanded(self, side: NasSide, context: EpsSecurityContext, plain: bytes, seen: NasSeen) -> None:
        """What a Security Mode Command says beside its COUNT: algorithms, KSI and replayed capabilities."""
        back = replayed(plain)
        seen.blame(
            *capability_fault(side, plain),
            *algorithm_faults(side, context),
            *ksi_fault(side, plain[3] & 7 if len(plain) > 3 else None),
        )
        if back is not None and (
            side.capabilities is None or capability_fault(side, plain)
        ):  # the core goes on from what it took
            side.capabilities = of_octets(back)
        secured, side.authenticated, side.offered = side.established or side.authenticated, False, None
        if context.eia == 0 and not side.emergency:
            if secured and side.initial:  # else its first message may have asked for an emergency
                seen.blame(Cause.EIA0_IN_USE.of())
            else:
                seen.warning = Cause.EIA0_OUTSIDE.because()

    def completed(self, side: NasSide, context: EpsSecurityContext, count: int) -> list[Reason]:
        """What is wrong with a Complete: it stands under the context that its Command brought, at one of its first
        COUNTs (5.4.3.3)."""
        brought, commands, begins = side.pending, side.commands, side.fresh
        side.commands, side.fresh = 0, False
        if brought is not None and brought.given and context.kasme != brought.kasme:
            return [Cause.COMPLETE_OF_OTHER_KASME.of()]
        if brought is not None and brought.given and context.eia != brought.eia and not side.hidden:
            return [Cause.COMPLETE_OF_OTHER_EIA.of(found=context.eia, wanted=brought.eia)]
        begins |= side.current is not None and side.current.given and side.current.kasme != context.kasme
        if brought is context and begins and 0 < commands <= count and not context.resumed:
            return [Cause.COUNT_NOT_RESET.of(found=count)]
        return []


def algorithm_faults(side: NasSide, context: EpsSecurityContext) -> list[Reason]:
    """Algorithms that the phone did not say it has (TS 33.401 7.2.4.4)."""
    told = side.told
    if told is None or len(told) < 2:
        return []
    chosen = ((context.eea, "EEA", told[0]), (context.eia, "EIA", told[1]))
    return [
        Cause.ALGORITHM_LACKS.of(name=name, identity=identity)
        for identity, name, octet in chosen
        if identity and not octet >> 7 - identity & 1
    ]


def ksi_fault(side: NasSide, ksi: int | None) -> Why:
    """A KSI that no context has, or another than that of the authentication before (TS 24.301 5.4.3.2, 9.9.3.21)."""
    if ksi == NO_KEY:
        return Cause.KSI_OF_NO_KEY.because()
    if ksi is not None and side.offered is not None and ksi != side.offered:
        return Cause.KSI_OF_COMMAND.because(found=ksi, wanted=side.offered)
    return ()
