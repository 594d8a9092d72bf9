"""Whether octets read as a NAS message: so whether a ciphered text was ciphered as it must be (TS 24.301 4.4.5, 9.2,
9.8)."""
from __future__ import annotations

from ..common.causes import Cause, Why
from ..common.mistakes import ProtectedNas
from ..common.mistakes import text as mistake
from ..common.terms import COMPUTED, Derivations
from .contexts import CIPHERED, NAMES, EpsSecurityContext
from .plain import ATTACH_REQUEST, EMM, ESM, TRACKING_REQUEST

ESM_TYPES = frozenset(
    (
        0xC1,
        0xC2,
        0xC3,
        0xC5,
        0xC6,
        0xC7,
        0xC9,
        0xCA,
        0xCB,
        0xCD,
        0xCE,
        0xD0,
        0xD1,
        0xD2,
        0xD3,
        0xD4,
        0xD5,
        0xD6,
        0xD7,
        0xD9,
        0xDA,
        0xDB,
        0xDC,
        0xE8,
        0xE9,
        0xEA,
        0xEB,
        0xEC,
    )
)
LEAST_BEARER = 5  # of an EPS bearer; 0 is none (TS 24.007 11.2.3.1.5)
NEVER_CIPHERED = (ATTACH_REQUEST, TRACKING_REQUEST)  # 4.4.5


def is_emm(text: bytes) -> bool:
    return len(text) > 1 and text[0] == EMM and text[1] in NAMES


def is_nas(text: bytes) -> bool:
    """Whether octets are a NAS message: of EMM without security header, or of ESM with a bearer that may be."""
    if len(text) > 2 and text[0] & 15 == ESM and (text[0] >> 4 == 0 or text[0] >> 4 >= LEAST_BEARER):
        return text[2] in ESM_TYPES
    return is_emm(text)


def text_fault(
    derivations: Derivations, context: EpsSecurityContext, direction: int, count: int, pdu: bytes, plain: bytes | None
) -> tuple[Why, bytes]:
    """How the text of a message with a right MAC differs from what it must be, or nothing; and the text as it was
    meant."""
    if pdu[0] >> 4 not in CIPHERED or plain is None or is_nas(plain) or not context.given or context.guessed:
        return (), plain or b""
    nas = ProtectedNas(derivations.kasmes[context.kasme].value, context.eea, context.eia, direction, count, pdu)
    why, meant = mistake(derivations.calls, nas, is_nas) if context.eia in COMPUTED else ((), b"")
    return Cause.TEXT_DIFFERS.because(why=why or Cause.NO_NAS_TEXT.because()), meant or plain
