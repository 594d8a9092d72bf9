"""NAS contexts of a trace: what each KASME has, MACs and texts under it, and whose a temporary identity is (TS 24.301
4.4, 5.5.1)."""
from __future__ import annotations

from dataclasses import replace

from ..common import mistakes
from ..common.causes import Cause, Why
from ..common.terms import COMPUTED, NAS_ENCRYPTION, NAS_INTEGRITY, Derivations
from .contexts import CIPHERED, PARTLY, EpsSecurityContext, Life, NasSide
from .counts import WRAP, Effort, near
from .texts import is_emm, is_nas

RARE = 64  # the part of the work that goes to other algorithms than the usual one


class ContextBook:
    """The KASMEs of a trace: their contexts, and the temporary identities that were given out under them."""

    def __init__(self, derivations: Derivations, effort: int | None = None):
        self.derivations = derivations
        effort = 10 * derivations.calls.budget if effort is None else effort
        self.effort, self.cold = Effort(effort), Effort(
            effort, 4
        )  # for contexts that are known, and for those that began before the trace
        self.rare = Effort(effort // RARE, 4)  # for these under another algorithm than the usual one
        self.contexts: dict[int, EpsSecurityContext] = {}
        self.lives: dict[int, Life] = {}  # by KASME
        self.phones: dict[int, int] = {}  # KASME by M-TMSI
        self.tmsis: dict[int, set[int]] = {}
        self.turn = (
            0  # KASMEs are mostly given in the order of their authentications, so the search goes on from the last
        )

    def context(
        self, kasme: int, eea: int = 2, eia: int = 2, ksi: int | None = None, guessed: bool = False
    ) -> EpsSecurityContext:
        """A context of a KASME that was given. A KASME lives once, so that COUNTs go on under each of its Commands,
        whether the one before was taken or refused."""
        return EpsSecurityContext(kasme, eea, eia, ksi, self.lives.setdefault(kasme, Life()), guessed=guessed)

    def kasmes(self) -> list[int]:
        """The places of all KASMEs, from the one after that which was taken last."""
        every = range(len(self.derivations.kasmes))
        return [*every[self.turn :], *every[: self.turn]]

    def unused(self) -> list[int]:
        """The places of the KASMEs that no message stood under so far."""
        return [kasme for kasme in self.kasmes() if kasme not in self.contexts]

    @property
    def tried(self) -> int:
        """The MACs and KeNBs that far searches made so far."""
        return sum(one.tried for one in (self.effort, self.cold, self.rare))

    # -- MACs and texts

    def mac(self, context: EpsSecurityContext, direction: int, count: int, body: bytes) -> bytes:
        """The MAC of a message; EIA0 has zeros (TS 33.401 B.1)."""
        if context.eia == 0:
            return bytes(4)
        key = self.derivations.nas_key(context.kasme, NAS_INTEGRITY, context.eia)
        return self.derivations.macs[context.eia](key, count, 0, direction, body)

    def has_mac(self, context: EpsSecurityContext, direction: int, count: int, pdu: bytes) -> bool:
        return self.mac(context, direction, count, pdu[5:]) == pdu[1:5]

    def text(self, context: EpsSecurityContext, direction: int, count: int, pdu: bytes) -> bytes | None:
        """The text of a message, deciphered; None where that is not computed here."""
        header = pdu[0] >> 4
        if header in CIPHERED and context.guessed and context.given:
            self.guess(context, direction, count, pdu)
        if header not in (*CIPHERED, PARTLY) or context.eea == 0:
            return pdu[6:]
        return (
            self.deciphered(context, direction, count, pdu)
            if header != PARTLY and context.eea in COMPUTED and context.given
            else None
        )

    def deciphered(self, context: EpsSecurityContext, direction: int, count: int, pdu: bytes) -> bytes:
        key = self.derivations.nas_key(context.kasme, NAS_ENCRYPTION, context.eea)
        return self.derivations.enciphers[context.eea](key, count, 0, direction, pdu[6:])

    def guess(self, context: EpsSecurityContext, direction: int, count: int, pdu: bytes) -> None:
        """The ciphering of a context whose Command the trace lacks: that under which the text reads as a NAS message
        (9.2)."""
        for reads in (is_emm, is_nas):
            for eea in (*COMPUTED, 0):
                if reads(self.deciphered(replace(context, eea=eea), direction, count, pdu) if eea else pdu[6:]):
                    context.eea, context.guessed = eea, False
                    return
        context.eea = COMPUTED[0]

    def judged(self, context: EpsSecurityContext) -> bool:
        """Whether the MACs of a context are computed here."""
        return context.eia in COMPUTED and context.given or context.eia == 0

    def opens(self, context: EpsSecurityContext, direction: int, pdu: bytes) -> int | None:
        """The COUNT near the next one under which the MAC is right, or None."""
        if not self.judged(context):
            return None
        return next(
            (count for count in near(context, direction, pdu[5]) if self.has_mac(context, direction, count, pdu)), None
        )

    def accept(
        self, side: NasSide, context: EpsSecurityContext, direction: int, count: int, pdu: bytes, first: bool = False
    ) -> Why:
        """Takes a message whose MAC is right; answers a remark, or the fault where a COUNT was used twice.

        The same octets come again only at the newest COUNT, in their connection; a first message up also in another (TS
        24.301 4.4.3.2).
        """
        before, least = context.seen.get(direction, count), context.next[direction]
        context.seen.put(direction, count, pdu, side.number)
        if count >= least:
            context.next[direction] = count + 1
            return Cause.AFTER_LOST.because() if count >= least + WRAP else ()
        if before is None:
            return Cause.LATE.because()
        if not before.has(pdu):
            return Cause.COUNT_USED_TWICE.because()
        is_same = before.connection == side.number
        if first or count == least - 1 and is_same:
            return Cause.SENT_AGAIN.because()
        return Cause.REPLAY_BEHIND.because(behind=least - 1 - count) if is_same else Cause.REPLAY_ELSEWHERE.because()

    def under(self, context: EpsSecurityContext, direction: int, count: int, pdu: bytes) -> EpsSecurityContext | None:
        """The context with the integrity algorithm under which the MAC of a message is right: its own first, then the
        others."""
        order = sorted(COMPUTED, key=lambda eia: eia != context.eia)
        return next(
            (one for one in (replace(context, eia=eia) for eia in order) if self.has_mac(one, direction, count, pdu)),
            None,
        )

    def whose(self, context: EpsSecurityContext, direction: int, pdu: bytes, count: int) -> Why:
        """The mistake behind a wrong MAC, or nothing."""
        kasmes = self.derivations.kasmes
        others = ((one.name, one.value) for place, one in enumerate(kasmes) if place != context.kasme)
        return mistakes.mac(
            self.derivations.calls,
            mistakes.ProtectedNas(kasmes[context.kasme].value, context.eea, context.eia, direction, count, pdu),
            others,
        )

    # -- identities

    def knows(self, tmsi: int, kasme: int) -> None:
        before = self.phones.get(tmsi)
        if before is not None and before != kasme:
            self.tmsis.get(before, set()).discard(tmsi)
        self.phones[tmsi] = kasme
        self.tmsis.setdefault(kasme, set()).add(tmsi)

    def follows(self, old: EpsSecurityContext | None, new: EpsSecurityContext) -> None:
        """The phone of the old context has a new one: its identities go with it."""
        if old is not None and old.kasme != new.kasme and old.given:
            for tmsi in self.tmsis.pop(old.kasme, set()):
                self.knows(tmsi, new.kasme)
