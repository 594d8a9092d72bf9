"""What is found of a NAS message: whether its MAC, its header type, its text and its order are right (TS 24.301 4.4,
5.4.3, 9.1 to 9.3)."""
from __future__ import annotations

import re

from ..common.causes import FAULT, Cause, Why, every
from ..common.report import DIFFERS, RIGHT, UNKNOWN
from ..common.terms import COMPUTED, DOWN, UP
from .context_book import ContextBook
from .contexts import CIPHERED, COMMAND, COMPLETE, PARTLY, PLAIN, SERVICE_REQUEST, EpsSecurityContext, NasSeen, NasSide
from .plain import EMM, MODE_COMMAND, learn, plain_verdict
from .texts import NEVER_CIPHERED, text_fault

GUTI = re.compile(rb"\x0b\xf6.{6}(.{4})", re.DOTALL)  # TS 24.301 9.9.3.12, with its length
WITH_GUTI = (b"\x07\x42", b"\x07\x49", b"\x07\x50")
HEADERS = {0x5D: COMMAND, 0x5E: COMPLETE}  # the header types that these messages have (TS 24.301 5.4.3)
HEADER_FAULTS = {COMMAND: Cause.HEADER_OF_COMMAND, COMPLETE: Cause.HEADER_OF_COMPLETE}  # where another is
CONTROL_SERVICE = 0x4D  # Control Plane Service Request, whose text is ciphered in part
NOT_GIVEN, LOST_MODE = Cause.NOT_GIVEN.because(), Cause.LOST_MODE.because()


def is_fault(why: Why) -> bool:
    return any(one.cause.severity is FAULT for one in why)


class NasFindings(ContextBook):
    """Finds what is right and wrong of a NAS message under a context and COUNT."""

    def commanded(self, side: NasSide, context: EpsSecurityContext, plain: bytes, seen: NasSeen) -> None:
        raise NotImplementedError  # of `ModeBook`

    def reserved(self, seen: NasSeen) -> None:
        if PARTLY < seen.header < SERVICE_REQUEST:
            seen.faults = [Cause.HEADER_RESERVED.of(found=seen.header)]
            seen.verdict = DIFFERS

    def plain(self, side: NasSide, direction: int, pdu: bytes, kind: int | None) -> NasSeen | None:
        found = plain_verdict(side, direction, kind)
        if found is None:
            learn(side, direction, pdu)
            return None
        verdict, why = found
        return NasSeen(
            direction,
            PLAIN,
            verdict,
            plain=pdu,
            note=why if verdict == UNKNOWN else (),
            faults=[*why] if verdict == DIFFERS else [],
        )

    def found(
        self, side: NasSide, context: EpsSecurityContext, direction: int, pdu: bytes, count: int, note: Why = ()
    ) -> NasSeen:
        """The finding for a message whose MAC is right under a context and COUNT."""
        header, is_first = pdu[0] >> 4, direction == UP and side.initial and side.messages == 1
        note = self.accept(side, context, direction, count, pdu, is_first) or note
        fault, plain = text_fault(
            self.derivations, context, direction, count, pdu, self.text(context, direction, count, pdu)
        )
        other = next((one.value("eea") for one in every(fault) if one.cause is Cause.CIPHERED_BY_EEA), None)
        if side.hidden and isinstance(other, int):  # an unseen exchange may have changed it
            context.eea, fault = other, ()
        seen = NasSeen(
            direction,
            header,
            RIGHT,
            pdu[1:5].hex(),
            count,
            "",
            context.kasme if context.given else None,
            plain or None,
            note,
        )
        seen.text_right = (
            not fault and header in CIPHERED and context.eea in COMPUTED and not context.guessed and bool(plain)
        )
        if is_fault(note):
            seen.note, seen.faults = (), [*note]
        wanted = self.header_wanted(side, context, direction, pdu, plain, is_first)
        seen.faults += (
            [HEADER_FAULTS.get(wanted, Cause.HEADER_DIFFERS).of(found=header, wanted=wanted)]
            if wanted != header
            else []
        )
        seen.faults += fault
        if context.kasme in side.rejected and not side.hidden:
            seen.faults.append(Cause.CONTEXT_REFUSED.of())
        if plain:
            self.learn(side, context, direction, plain)
        if plain and len(plain) > 1 and plain[:2] == bytes([EMM, MODE_COMMAND]):
            self.commanded(side, context, plain, seen)
        seen.verdict = DIFFERS if seen.faults else RIGHT
        return seen

    def header_wanted(
        self,
        side: NasSide,
        context: EpsSecurityContext,
        direction: int,
        pdu: bytes,
        plain: bytes | None,
        is_first: bool,
    ) -> int:
        """The header type that a message must have (TS 24.301 4.4.5, 5.4.3); where several may stand, its own."""
        header, text = pdu[0] >> 4, pdu[6:8] if pdu[0] >> 4 == PARTLY else (plain or b"")[:2]
        kind = text[1] if len(text) == 2 and text[0] == EMM else None
        if kind in HEADERS:
            return HEADERS[kind]
        if kind == CONTROL_SERVICE:
            return PARTLY if header in (COMMAND, COMPLETE) else header
        if text and header in (COMMAND, COMPLETE, PARTLY):
            return 1 if direction == UP and not side.established else 2
        if kind in NEVER_CIPHERED and direction == UP:
            return 1 if header == 2 and context.eea and not context.guessed else header
        told = context.eea and not context.guessed
        return 2 if header == 1 and not is_first and side.ciphered and told else header

    def learn(self, side: NasSide, context: EpsSecurityContext, direction: int, plain: bytes) -> None:
        learn(side, direction, plain)
        if direction == DOWN and plain[:2] in WITH_GUTI:
            for tmsi in GUTI.findall(plain):
                self.knows(int.from_bytes(tmsi, "big"), context.kasme)

    def refused(self, context: EpsSecurityContext, direction: int, pdu: bytes, count: int, note: Why = ()) -> NasSeen:
        """The finding for a message whose MAC is wrong at the COUNT that its receiver takes."""
        header = pdu[0] >> 4
        if not self.judged(context):
            context.next[direction] = max(context.next[direction], count + 1)
            note = Cause.EIA_NOT_COMPUTED.because(eia=context.eia) if context.given else NOT_GIVEN
            return NasSeen(
                direction,
                header,
                UNKNOWN,
                pdu[1:5].hex(),
                count if context.given else None,
                "",
                context.kasme if context.given else None,
                self.text(context, direction, count, pdu),
                note,
            )
        wanted = self.mac(context, direction, count, pdu[5:]).hex()
        kasme = context.kasme if context.given else None
        return NasSeen(
            direction,
            header,
            DIFFERS,
            pdu[1:5].hex(),
            count,
            wanted,
            kasme,
            self.text(context, direction, count, pdu),
            note,
        )

    def nothing(self, direction: int, pdu: bytes, why: Why = NOT_GIVEN) -> NasSeen:
        return NasSeen(direction, pdu[0] >> 4, UNKNOWN, pdu[1:5].hex(), note=why)

    def settled(
        self, side: NasSide, context: EpsSecurityContext, direction: int, pdu: bytes, count: int, note: Why = ()
    ) -> NasSeen:
        """The finding for a right message, which may establish the secure exchange (TS 24.301 4.4.2.3)."""
        seen = self.found(side, context, direction, pdu, count, note)
        if direction == DOWN or pdu[0] >> 4 == COMPLETE:
            side.established = True
            side.ciphered |= pdu[0] >> 4 in CIPHERED
        return seen
