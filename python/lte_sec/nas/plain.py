"""NAS messages without protection, and what they tell: which may be plain (TS 24.301 4.4.4), and what a phone says it
can do."""
from __future__ import annotations

from ..common.causes import Cause, Why
from ..common.report import DIFFERS, UNKNOWN, Verdict
from ..common.terms import DOWN, UP
from .contexts import NasSide

EMM, ESM = 7, 2  # protocol discriminators (TS 24.007 11.2.3.1.1)
ATTACH_REQUEST, TRACKING_REQUEST, AUTHENTICATION, MODE_COMMAND, MODE_REJECT = 0x41, 0x48, 0x52, 0x5D, 0x5F
NO_KEY = 7  # a KSI (9.9.3.21)
EMERGENCY_ATTACH = 6  # TS 24.301 9.9.3.11
NETWORK_CAPABILITY = 0x58  # of a Tracking Area Update Request (TS 24.301 8.2.29)
MAY_BE_PLAIN = {
    # TS 24.301 4.4.4.2: Identity, Authentication Request and Reject, Attach, Tracking Area Update and Service Reject,
    # Detach Accept
    DOWN: frozenset((0x55, 0x52, 0x54, 0x44, 0x4B, 0x4E, 0x46)),
    # 4.4.4.3: Attach, Tracking Area Update and Detach Request, Detach Accept, Identity and Authentication Response,
    # Authentication Failure, Security Mode Reject
    UP: frozenset((0x41, 0x48, 0x45, 0x46, 0x56, 0x53, 0x5C, 0x5F)),
}
# accept and complete of Attach, Tracking Area Update, GUTI reallocation and Security Mode, and its command (8.2, 4.4.5)
ALWAYS_PROTECTED = frozenset((0x42, 0x43, 0x49, 0x4A, 0x4F, 0x50, 0x51, 0x5D, 0x5E))
WITHOUT_VALUE = (0x80, 0xF0)  # information elements of one octet, type and value in its halves


def plain_verdict(side: NasSide, direction: int, kind: int | None) -> tuple[Verdict, Why] | None:
    """What is found of a plain message, and why; None where it may be plain. `kind` is the type of an EMM message, None
    of others."""
    is_up = direction == UP
    if side.established:
        return DIFFERS, (Cause.PLAIN_UP if is_up else Cause.PLAIN_DOWN).because()
    if kind in ALWAYS_PROTECTED:
        return DIFFERS, (Cause.NEVER_PLAIN_UP if is_up else Cause.NEVER_PLAIN_DOWN).because()
    if side.completed:
        return UNKNOWN, Cause.PLAIN_BEHIND_UNJUDGED.because()
    return (
        None
        if kind in MAY_BE_PLAIN[direction]
        else (UNKNOWN, (Cause.PLAIN_MAY_DROP_UP if is_up else Cause.PLAIN_MAY_DROP_DOWN).because())
    )


def learn(side: NasSide, direction: int, text: bytes) -> None:
    """Takes in what the plain text of a message tells of the connection."""
    if len(text) < 3 or text[0] != EMM:
        return
    if text[1] == AUTHENTICATION and direction == DOWN:
        side.authenticated, side.fresh, side.offered = True, True, text[2] & 7
    elif text[1] == MODE_REJECT:
        if (
            side.pending is not None
            and side.pending.given
            and (side.current is None or side.current.kasme != side.pending.kasme)
        ):
            side.rejected.add(side.pending.kasme)
        side.pending, side.authenticated, side.offered = None, False, None
    elif text[1] in (ATTACH_REQUEST, TRACKING_REQUEST) and direction == UP:
        side.emergency |= text[1] == ATTACH_REQUEST and text[2] & 7 == EMERGENCY_ATTACH
        side.fresh |= text[2] >> 4 & 7 == NO_KEY
        told = network_capability(text)
        if told is not None:
            side.told = told
            side.capabilities = of_octets(told)


def network_capability(text: bytes) -> bytes | None:
    """The UE network capability of an Attach or Tracking Area Update Request: EEA, EIA, and UEA, UIA where they are
    told (9.9.3.34)."""
    if len(text) < 4 or len(text) < 4 + text[3]:
        return None
    rest = text[4 + text[3] :]  # behind the identity
    if text[1] == ATTACH_REQUEST:
        return rest[1 : 1 + rest[0]][:4] if rest and 2 <= rest[0] <= len(rest) - 1 else None
    while len(rest) >= 2:
        if rest[0] >= WITHOUT_VALUE[0]:
            rest = rest[1:]
            continue
        size = fixed_size(rest)
        if rest[0] == NETWORK_CAPABILITY:
            return rest[2 : 2 + rest[1]][:4] if 2 <= rest[1] <= len(rest) - 2 else None
        rest = rest[size:]
    return None


def fixed_size(rest: bytes) -> int:
    """The octets of the information element here: of those with a type and no length, those that stand before the
    capability (8.2.29)."""
    fixed = {0x52: 6, 0x55: 5, 0x5C: 3, 0x19: 4, 0x13: 6}
    return fixed.get(rest[0]) or 2 + rest[1]


def replayed(text: bytes) -> bytes | None:
    """The replayed security capabilities of a Security Mode Command: EEA, EIA, and UEA, UIA where they are told
    (8.2.20, 9.9.3.36)."""
    return text[5 : 5 + text[4]][:4] if len(text) >= 5 and 2 <= text[4] <= len(text) - 5 else None


def of_octets(octets: bytes) -> tuple[int, int]:
    """Capabilities as S1 and X2 have them (TS 36.413 9.2.1.40): bits for algorithms 1, 2 and 3."""
    return (octets[0] >> 4 & 7, octets[1] >> 4 & 7)


def capability_fault(side: NasSide, text: bytes) -> Why:
    """How the replayed capabilities differ from those that the phone told (TS 33.401 7.2.4.4, TS 24.301 5.4.3.2), or
    nothing."""
    told, back = side.told, replayed(text)
    if told is None or back is None:
        return ()
    size = min(len(told), len(back))
    masks = b"\xff\xff\xff\x7f"[:size]  # bit 8 behind UIA is UCS2 in the phone's own (9.9.3.34)
    is_, wanted = (bytes(octet & mask for octet, mask in zip(octets, masks)) for octets in (back, told))
    return () if is_ == wanted else Cause.CAPABILITIES_REPLAYED.because(found=is_.hex(), wanted=wanted.hex())
