"""EPS security contexts: what a connection has of them, and what is found of a NAS message (TS 24.301 4.4, 9.8)."""
from __future__ import annotations

import itertools
from dataclasses import dataclass, field

from ..common.causes import Reason, Why
from ..common.report import DIFFERS, Verdict
from ..common.terms import DOWN, UP
from .sent_counts import SentCounts

NAMES = {
    0x41: "Attach request",
    0x42: "Attach accept",
    0x43: "Attach complete",
    0x44: "Attach reject",
    0x45: "Detach request",
    0x46: "Detach accept",
    0x48: "Tracking area update request",
    0x49: "Tracking area update accept",
    0x4A: "Tracking area update complete",
    0x4B: "Tracking area update reject",
    0x4C: "Extended service request",
    0x4D: "Control plane service request",
    0x4E: "Service reject",
    0x4F: "Service accept",
    0x50: "GUTI reallocation command",
    0x51: "GUTI reallocation complete",
    0x52: "Authentication request",
    0x53: "Authentication response",
    0x54: "Authentication reject",
    0x55: "Identity request",
    0x56: "Identity response",
    0x5C: "Authentication failure",
    0x5D: "Security mode command",
    0x5E: "Security mode complete",
    0x5F: "Security mode reject",
    0x60: "EMM status",
    0x61: "EMM information",
    0x62: "Downlink NAS transport",
    0x63: "Uplink NAS transport",
    0x64: "CS service notification",
    0x68: "Downlink generic NAS transport",
    0x69: "Uplink generic NAS transport",
}
PLAIN, COMMAND, COMPLETE, PARTLY = 0, 3, 4, 5  # security header types (TS 24.301 9.3.1)
CIPHERED = (2, 4)
SERVICE_REQUEST = 12  # the least header type of one: its first two bits tell it (TS 24.301 9.3.1)
FOREIGN = -1  # the place of a KASME that was not given


@dataclass
class Life:
    """What a KASME has from its authentication on, under whatever algorithms: the next COUNT of each direction, and
    what was sent at each."""

    next: dict[int, int] = field(default_factory=lambda: {UP: 0, DOWN: 0})
    seen: SentCounts = field(default_factory=SentCounts)


@dataclass
class EpsSecurityContext:
    """An EPS security context: a KASME and its life, under the algorithms and the KSI of one Security Mode Command."""

    kasme: int
    eea: int = 2
    eia: int = 2
    ksi: int | None = None
    life: Life = field(default_factory=Life)
    capabilities: tuple[int, int] | None = None  # of the phone, as S1 has them
    resumed: bool = False  # it was in use before, under other algorithms
    guessed: bool = False  # no Command told its algorithms: the ciphering shows at the first ciphered message

    @property
    def given(self) -> bool:
        return self.kasme != FOREIGN

    @property
    def next(self) -> dict[int, int]:
        return self.life.next

    @property
    def seen(self) -> SentCounts:
        return self.life.seen


@dataclass
class Trigger:
    """The uplink message that KeNB is made at: its context, the COUNTs that it may have, and whether its MAC is
    right."""

    context: EpsSecurityContext
    counts: tuple[int, ...]
    sure: bool
    used: bool = False  # a KeNB was made at it

    @property
    def count(self) -> int:
        return self.counts[0]


@dataclass
class NasSide:
    """What a connection has of NAS: the context in use, the one that a Security Mode Command brought, and the
    trigger."""

    current: EpsSecurityContext | None = None
    pending: EpsSecurityContext | None = None
    trigger: Trigger | None = None
    tmsi: int | None = None
    initial: bool = False  # the trace shows the first message of the connection
    messages: int = 0  # of NAS, so far
    missed: int = 0  # messages for which no KASME was found
    established: bool = False  # the secure exchange of NAS messages (TS 24.301 4.4.2.3), by a MAC that is right
    ciphered: bool = False  # ciphering has begun (4.4.5)
    completed: bool = False  # a Complete came that could not be judged
    authenticated: bool = False  # an authentication whose Security Mode exchange did not come yet
    offered: int | None = None  # the KSI of an Authentication Request that no Command has used yet
    fresh: bool = False  # the trace shows that the phone has no key yet, or an authentication: the next KASME begins
    commands: int = 0  # Security Mode Commands of the connection
    rejected: set[int] = field(default_factory=set)  # KASMEs whose last Command the phone refused
    told: bytes | None = None  # EEA, EIA, UEA and UIA of the phone's own Attach or Tracking Area Update Request
    capabilities: tuple[int, int] | None = None  # of the phone, as S1 has them: ciphering, integrity
    emergency: bool = False
    away: bool = False  # the phone was where the trace shows nothing: it may have come by another KASME
    hidden: bool = False  # a Security Mode exchange may have passed that the trace does not show
    number: int = field(default_factory=itertools.count(1).__next__)  # of the connection, among all readings


@dataclass
class NasSeen:
    """What was found of a NAS message: of its MAC, and each fault beside it."""

    direction: int
    header: int
    verdict: Verdict
    mac: str = ""
    count: int | None = None
    wanted: str = ""
    kasme: int | None = None
    plain: bytes | None = None
    note: Why = ()
    faults: list[Reason] = field(default_factory=list)
    warning: Why = ()
    text_right: bool = False  # the text was ciphered, and reads as NAS

    def blame(self, *faults: Reason) -> None:
        self.faults += faults
        self.verdict = DIFFERS if faults else self.verdict

    @property
    def name(self) -> str:
        if self.header >= SERVICE_REQUEST:
            return "Service request"
        text = self.plain or b""
        return NAMES.get(text[1], "") if len(text) > 1 and text[0] == 7 else ""
