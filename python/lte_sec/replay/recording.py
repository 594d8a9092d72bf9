"""What `replay` takes of a trace: each message with its connection, station, NAS messages and keys, all from the list
of what was seen."""
from __future__ import annotations

from dataclasses import dataclass, field

from ..captures.cells import Cells
from ..captures.decoding import Message
from ..common.causes import Cause, Why, has
from ..common.escaped import shown
from ..common.report import UNKNOWN, Line, Verdict
from ..common.terms import NONE, Term
from ..judge.account import Seen
from ..judge.trace import Trace
from ..nas.contexts import PLAIN

AGAIN = (Cause.SENT_AGAIN, Cause.COUNT_USED_TWICE)
KEYS = ("KeNB", "KeNB*", "NH", "key")


@dataclass(frozen=True)
class CapturedNas:
    """A protected NAS message of a KASME that was given."""

    is_up: bool
    header: int
    count: int
    kasme: str
    plain: bytes | None
    is_right: bool
    name: str


@dataclass(frozen=True)
class KeySeen:
    """A key of a message: what it is, its octets and NCC, the derivations that give it and that were wanted, as lines
    tell them, and what was said of it."""

    what: str
    value: bytes
    ncc: int | None
    term: Term  # NONE where nothing gives it
    wanted: Term
    base: Term  # the KeNB of its chain
    kasme: str
    verdict: Verdict
    why: Why

    @property
    def is_late(self) -> bool:
        """Whether its answer came after that to a later request."""
        return has(self.why, Cause.LATE)


@dataclass
class Met:
    """A message of the capture. `connection` and `handover` are numbers, None where it belongs to none."""

    frame: str
    title: str
    message: Message
    place: int
    station: str = ""  # of S1 the station, of X2 the sender
    connection: int | None = None
    handover: int | None = None
    nas: list[CapturedNas] = field(default_factory=list)
    key: KeySeen | None = None
    more: list[KeySeen] = field(default_factory=list)  # of cells for re-establishment
    within: tuple[int, int] | None = None  # the cell that a command within the station names


@dataclass
class RecordedTrace:
    """What a trace has for `replay`."""

    met: list[Met]
    cells: Cells
    kasmes: dict[str, bytes]


def nas_of(value: Line) -> CapturedNas | None:
    """The NAS message of a value, where it stands under a KASME that was given and does not come again."""
    part = value.nas
    if part is None or part.header == PLAIN or value.count is None or not value.kasme or has(value.reasons, *AGAIN):
        return None
    right = value.verdict != UNKNOWN and value.wanted_hex in ("", value.hex)
    return CapturedNas(part.is_up, part.header, value.count, value.kasme, value.plain, right, part.name)


def key_of(value: Line, message: Message) -> KeySeen:
    octets = bytes.fromhex(value.hex) if value.hex else message.key or message.nh or b""
    term = value.key.term if value.key is not None else NONE
    wanted = value.wanted_key.term if value.wanted_key is not None else term
    base = term.base() or term
    return KeySeen(
        value.what,
        octets,
        message.ncc,
        term.told(),
        wanted.told(),
        base.told(),
        value.kasme,
        value.verdict,
        value.reasons,
    )


def met_of(place: int, seen: Seen, begun: set[int], cells: Cells) -> Met:
    """A message as it was seen; `begun` are the handovers before it."""
    message = seen.decoded
    station = (
        shown(cells.station(message.source_eci))
        if seen.link.kind == "X2" and message.source_eci is not None
        else seen.link.one
    )
    met = Met(seen.frame, seen.title, message, place, station, seen.connection, seen.handover)
    met.nas = [one for value in seen.values if (one := nas_of(value)) is not None]
    for value in seen.values:
        if message.key is None and message.nh is None:
            break
        if value.what in KEYS and met.key is None:
            met.key = key_of(value, message)
        elif value.kind == "KeNB*" and value.of:
            met.more.append(key_of(value, message))
    if message.link == "RRC" and seen.handover is not None and seen.handover not in begun:
        met.within = next((value.cell for value in seen.values if value.kind == "command"), None)
    return met


def record(trace: Trace) -> RecordedTrace:
    """What was seen of a trace, for `replay`."""
    met: list[Met] = []
    begun: set[int] = set()
    for place, seen in enumerate(trace.seen.messages):
        met.append(met_of(place, seen, begun, trace.cells))
        begun |= {seen.handover} if seen.handover is not None else set()
    return RecordedTrace(met, trace.cells, {shown(one.name): one.value for one in trace.derivations.kasmes})
