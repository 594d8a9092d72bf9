"""Service Requests: whose each is (TS 24.301 5.6.1, 9.9.3.28).

A short MAC has 16 bits, so that of another phone fits by chance. A request belongs to a context only where KSI and
S-TMSI allow it and the KeNB that follows does not speak against it; a KeNB that fits is proof.
"""
from __future__ import annotations

from collections.abc import Callable, Iterable
from dataclasses import dataclass, replace

from ..common.causes import Cause
from ..common.report import DIFFERS, RIGHT, UNKNOWN
from ..common.terms import COMPUTED, DOWN, UP
from .contexts import FOREIGN, EpsSecurityContext, Life, NasSeen, NasSide, Trigger
from .counts import SHORT_WRAP, near
from .findings import LOST_MODE, NOT_GIVEN, is_fault
from .modes import ModeBook
from .nas_book import NEW, Later

BESIDE = 2  # COUNTs before and behind that of a request whose KeNB is sought
SIZE = 4  # octets of a Service Request
REJECT = b"\x07\x4e"  # a plain Service Reject


@dataclass(frozen=True)
class Owner:
    """The context and COUNT of a Service Request, and whether its KeNB proves them."""

    context: EpsSecurityContext
    count: int
    proved: bool = False


class ServiceBook(ModeBook):
    """The NAS contexts of a trace, for Service Requests too."""

    def short_mac(self, context: EpsSecurityContext, count: int, pdu: bytes) -> bytes:
        """The short MAC of a Service Request: the last two octets of the MAC over its first two (TS 24.301
        9.9.3.28)."""
        return self.mac(context, UP, count, pdu[:2])[2:4]

    def service_request(self, side: NasSide, pdu: bytes, later: Later) -> NasSeen:
        header, told = pdu[0] >> 4, pdu[2:4].hex()
        if len(pdu) != SIZE:
            held = side.current is not None and side.current.given
            if held:
                return NasSeen(
                    UP, header, DIFFERS, told, faults=[Cause.SIZE_OF_REQUEST.of(wanted=SIZE, found=len(pdu))]
                )
            return NasSeen(
                UP, header, UNKNOWN, told, note=Cause.SIZE_NOT_OF_REQUEST.because(wanted=SIZE, found=len(pdu))
            )
        owner = self.owner(side, pdu, later)
        if owner is None:
            return NasSeen(UP, header, UNKNOWN, told, plain=pdu, note=NOT_GIVEN)
        return self.served(side, pdu, owner)

    def served(self, side: NasSide, pdu: bytes, owner: Owner) -> NasSeen:
        """The finding for a request whose context is known."""
        began = (
            owner.context.guessed and not owner.context.seen
        )  # before the trace, which does not show under which algorithms
        changed = self.changed(owner, pdu) if side.hidden or began else None
        context, ksi, note = changed or owner.context, pdu[1] >> 5, LOST_MODE if changed else ()
        wanted, side.current = self.short_mac(context, owner.count, pdu) if self.judged(context) else b"", context
        right = wanted == pdu[2:4]
        self.contexts[context.kasme], self.lives[context.kasme] = context, context.life
        if side.tmsi is not None:
            self.knows(side.tmsi, context.kasme)
        side.trigger = Trigger(context, (owner.count,), right)
        note = (self.accept(side, context, UP, owner.count, pdu, True) or note) if right else ()
        seen = NasSeen(
            UP,
            pdu[0] >> 4,
            RIGHT if right else DIFFERS,
            pdu[2:4].hex(),
            owner.count,
            wanted.hex(),
            context.kasme,
            pdu,
            note,
        )
        if not self.judged(context):
            seen.verdict, seen.note = UNKNOWN, Cause.EIA_NOT_COMPUTED.because(eia=context.eia)
        elif context.ksi is not None and context.ksi != ksi and right:
            seen.blame(Cause.KSI_DIFFERS.of(found=ksi, wanted=context.ksi))
        if is_fault(note):
            seen.note = ()
            seen.blame(*note)
        context.ksi = ksi if context.ksi is None else context.ksi
        return seen

    def changed(self, owner: Owner, pdu: bytes) -> EpsSecurityContext | None:
        """The context under other algorithms, where the short MAC is right only there: an exchange brought them that
        the trace does not show."""
        context = owner.context
        if not self.judged(context) or self.short_mac(context, owner.count, pdu) == pdu[2:4]:
            return None
        others = (replace(context, eia=eia, guessed=True, resumed=True) for eia in COMPUTED if eia != context.eia)
        return next((one for one in others if self.short_mac(one, owner.count, pdu) == pdu[2:4]), None)

    def owner(self, side: NasSide, pdu: bytes, later: Later) -> Owner | None:
        """Whose a Service Request is: by the KeNB that follows, else by S-TMSI, KSI and short MAC."""
        ksi, low = pdu[1] >> 5, pdu[1] & 31
        key = next((one for one in later() if isinstance(one, bytes)), None)
        place = self.phones.get(side.tmsi) if side.tmsi is not None else None
        known = (
            side.current
            if side.current and side.current.given
            else self.contexts.get(FOREIGN if place is None else place)
        )
        allowed = [known] if known else [one for one in self.contexts.values() if self.may_be(one, ksi, place)]
        if key is not None:
            fits = known is not None and known.ksi in (None, ksi) and self.right_near(known, pdu, low) is not None
            others = [] if fits else [one for one in self.contexts.values() if one is not known]
            proved = self.proved([*([known] if known else []), *others], low, key)
            if proved is not None:
                right = self.right_near(proved.context, pdu, low) if fits else None
                if right is not None:
                    return Owner(proved.context, self.fewest(proved.context, (right, proved.count), pdu, low, key))
                return proved if fits else self.explained(proved, pdu, low, allowed)
        again = next(
            (
                Owner(one, count, True)
                for one in allowed
                for count in near(one, UP, low, SHORT_WRAP)
                if self.was_sent(one, count, pdu)
            ),
            None,
        )
        if again is not None:
            return again
        if known is not None and known.ksi in (None, ksi):
            return self.known_owner(known, pdu, low, key, later)
        return self.by_short_mac(allowed, pdu, low) if key is None else self.began(pdu, low, key)

    def fewest(
        self, context: EpsSecurityContext, counts: Iterable[int], pdu: bytes, low: int, key: bytes | None
    ) -> int:
        """Of these COUNTs the one at which a request has the fewest faults, and of several the one that is due."""
        due = near(context, UP, low, SHORT_WRAP)[0]
        return min(counts, key=lambda count: (self.faults(context, count, pdu, key), count != due))

    def faults(self, context: EpsSecurityContext, count: int, pdu: bytes, key: bytes | None) -> int:
        """How many faults a request has at a COUNT: its short MAC may be wrong, KeNB behind it of another COUNT, and
        the COUNT used with other octets."""
        wrong = self.judged(context) and self.short_mac(context, count, pdu) != pdu[2:4]
        used = context.seen.get(UP, count) is not None and not self.was_sent(context, count, pdu)
        return wrong + used + (key is not None and self.derivations.kenb(context.kasme, count).value != key)

    def was_sent(self, context: EpsSecurityContext, count: int, pdu: bytes) -> bool:
        """Whether these octets were sent up at this COUNT."""
        sent = context.seen.get(UP, count)
        return sent is not None and sent.has(pdu)

    def may_be(self, context: EpsSecurityContext, ksi: int, place: int | None) -> bool:
        """Whether S-TMSI and KSI of a request allow a context: its phone has no other S-TMSI, and this S-TMSI is of no
        other phone."""
        return context.ksi in (None, ksi) and (
            place is None and not self.tmsis.get(context.kasme) or place == context.kasme
        )

    def right_near(self, context: EpsSecurityContext, pdu: bytes, low: int) -> int | None:
        """The COUNT near the next one under which the short MAC is right."""
        counts = near(context, UP, low, SHORT_WRAP) if self.judged(context) else []
        return next((count for count in counts if self.short_mac(context, count, pdu) == pdu[2:4]), None)

    def proved(self, contexts: list[EpsSecurityContext], low: int, key: bytes) -> Owner | None:
        """The context and COUNT whose KeNB follows."""
        kenb, kasmes = self.derivations.calls.kenb, self.derivations.kasmes
        tried = ((one, count) for one in contexts for count in near(one, UP, low, SHORT_WRAP))
        return next(
            (Owner(one, count, True) for one, count in tried if kenb(kasmes[one.kasme].value, count) == key), None
        )

    def known_owner(
        self, known: EpsSecurityContext, pdu: bytes, low: int, key: bytes | None, later: Later
    ) -> Owner | None:
        """A request of a phone that S-TMSI and KSI name, whose KeNB does not follow or does not fit."""
        due, right = near(known, UP, low, SHORT_WRAP)[0], self.right_near(known, pdu, low)
        if right is not None or not self.judged(known):
            return Owner(known, due if right is None else self.fewest(known, (right, due), pdu, low, key))
        if (
            key is None
        ):  # what follows tells whether the phone has this context, and whether the core refused the request
            same, other, _ = self.ahead(known, UP, pdu, later)
            refused = any(not isinstance(one, bytes) and one[1][:2] == REJECT for one in later())
            return Owner(known, due) if same or other or refused else None
        far = self.effort.find([known.kasme], low, SHORT_WRAP, self.kenb_is(key))
        return Owner(known, far[1], True) if far is not None else None

    def by_short_mac(self, allowed: list[EpsSecurityContext], pdu: bytes, low: int) -> Owner | None:
        """A request that no KeNB follows: the short MAC at the COUNT that is due."""
        due = [(one, near(one, UP, low, SHORT_WRAP)[0]) for one in allowed if self.judged(one)]
        return next((Owner(one, count) for one, count in due if self.short_mac(one, count, pdu) == pdu[2:4]), None)

    def kenb_is(self, key: bytes) -> Callable[[int, int], bool]:
        kenb, kasmes = self.derivations.calls.kenb, self.derivations.kasmes
        return lambda kasme, count: kenb(kasmes[kasme].value, count) == key

    def began(self, pdu: bytes, low: int, key: bytes) -> Owner | None:
        """A request of a context that began before the trace, by the KeNB that it brings."""
        unused = self.unused()
        found = self.cold.find(unused, low, SHORT_WRAP, self.kenb_is(key)) if unused else None
        return (
            self.began_beside(pdu, low, key)
            if found is None
            else self.explained(Owner(self.begun_at(found[0], found[1]), found[1], True), pdu, low, [])
        )

    def began_beside(self, pdu: bytes, low: int, key: bytes) -> Owner | None:
        """The same where KeNB is of a COUNT beside that of the request, and the short MAC is right at this."""
        beside, is_key = [count for count in range(low - BESIDE, low + BESIDE + 1) if count >= 0], self.kenb_is(key)
        found = next(
            (self.begun_at(kasme, low) for kasme in self.unused()[:NEW] for count in beside if is_key(kasme, count)),
            None,
        )
        right = None if found is None else self.right_near(found, pdu, low)
        return Owner(found, right) if found is not None and right is not None else None

    def begun_at(self, kasme: int, count: int) -> EpsSecurityContext:
        return EpsSecurityContext(kasme, life=Life({UP: count, DOWN: 0}), guessed=True)

    def explained(self, owner: Owner, pdu: bytes, low: int, allowed: list[EpsSecurityContext]) -> Owner:
        """KeNB proves a COUNT, and the short MAC is wrong there: where it is right at a COUNT near that, under another
        KASME at that COUNT, or under a context that is allowed, KeNB is what is wrong. By chance a short MAC fits once
        in 65,536."""
        context, count = owner.context, owner.count
        if not self.judged(context) or self.short_mac(context, count, pdu) == pdu[2:4]:
            return owner
        right = self.right_near(context, pdu, low)
        others = (self.begun_at(kasme, count) for kasme in self.unused()[:NEW] if kasme != context.kasme)
        other = next((one for one in others if self.short_mac(one, count, pdu) == pdu[2:4]), None)
        if right is not None or other is not None:
            return Owner(context, right) if right is not None else Owner(other or context, count)
        return self.by_short_mac([one for one in allowed[-NEW:] if one is not context], pdu, low) or owner
