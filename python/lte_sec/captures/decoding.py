"""A message with its fields that say something of keys, and values as tshark prints them.

tshark's JSON is read as pairs, since names repeat: a frame with two bundled messages has two members `s1ap`.
"""
from __future__ import annotations

from collections.abc import Iterator
from dataclasses import dataclass, field, replace
from typing import TYPE_CHECKING

from ..common.escaped import shown
from .cells import Site

if TYPE_CHECKING:
    from typing_extensions import TypeGuard  # Python has it from 3.10 on

KEY_OCTETS = 32

Pairs = list[tuple[str, object]]
Radio = list[tuple[tuple[str, ...], str, object]]


@dataclass(frozen=True)
class Command:
    """What an RRC handover command tells the phone (TS 36.331 6.2.2): NCC, target cell, and whether KASME changed."""

    ncc: int | None
    pci: int | None
    earfcn: int | None  # None where the command has no carrierFreq: that of the source cell
    key_change: bool
    octets: bytes  # the DL-DCCH message


@dataclass(frozen=True)
class Reestablishment:
    """A cell of the target that a source prepares for re-establishment (TS 36.331 10.3, additionalReestabInfoList)."""

    eci: int
    key: bytes
    short_mac: bytes


@dataclass(frozen=True)
class MmContext:
    """What a core hands to the next one over GTPv2-C (TS 29.274 8.38)."""

    kasme: bytes
    ksi: int | None
    nh: bytes | None
    ncc: int | None
    old: MmContext | None = None  # the context that stations go on from, where KASME is a new one (TS 33.401 7.2.10)


@dataclass
class Message:
    """One message, with the fields that say something of keys."""

    frame: str
    time: float
    link: str  # S1, X2, RRC, S6a, GTPv2 or one of `capture_files`
    name: str  # as the standard's ASN.1 has it
    source: str = ""  # address and port
    target: str = ""
    tag: str = ""  # SCTP's verification tag: it names the receiving end, whatever its addresses
    tsns: tuple[int, ...] = ()  # SCTP's numbers of the DATA chunks in the frame
    enb_id: int | None = None  # eNB-UE-S1AP-ID
    mme_id: int | None = None  # MME-UE-S1AP-ID
    old_x2: int | None = None
    new_x2: int | None = None
    key: bytes | None = None  # KeNB or KeNB*
    nh: bytes | None = None
    ncc: int | None = None
    eci: int | None = None  # the cell of the phone (S1), the target cell (X2, and S1's container)
    source_eci: int | None = None  # the source cell that a handover's RRC context names
    source_pci: int | None = None
    rnti: bytes | None = None  # the phone's C-RNTI in the source cell
    station: int | None = None  # an eNB identity
    station_name: str = ""
    core_name: str = ""
    tmsi: int | None = None
    gummeis: list[tuple[int, int]] = field(default_factory=list)  # MME group and code
    nas: list[bytes] = field(default_factory=list)
    container: bytes | None = None
    command: Command | None = None
    algorithms: tuple[int, int] | None = None  # of the access stratum: ciphering, integrity
    capabilities: tuple[int, int] | None = None  # of the phone, ciphering and integrity: bits for algorithms 1, 2 and 3
    reestablishment: list[Reestablishment] = field(default_factory=list)
    secrets: list[tuple[str, bytes]] = field(default_factory=list)  # keys that are not judged, by name
    kind: int | None = None  # of a handover: 0 is intra-LTE (TS 36.413 9.2.1.13)
    cause: int | None = None  # RRC Establishment Cause: 0 is emergency (9.2.1.3a)
    sites: list[Site] = field(default_factory=list)
    kasmes: list[bytes] = field(default_factory=list)
    mm: MmContext | None = None
    fault: str = ""  # why the message is not read as it stands


BEFORE_NAMES = ("X2", "S6a", "GTPv2")  # links that stand before the names of their messages


def title(message: Message) -> str:
    """The name of a message in a line: X2's have it before them, as some are named as S1's."""
    return (
        "RRC"
        if message.link == "RRC"
        else shown(f"{message.link} {message.name}" if message.link in BEFORE_NAMES else message.name)
    )


def octets(text: object) -> bytes:
    """The octets of a value as tshark prints them, with colons or without."""
    return bytes.fromhex(str(text).replace(":", ""))


def key(text: object) -> bytes:
    value = octets(text)
    if len(value) != KEY_OCTETS:
        raise ValueError(f"a key of {len(value)} octets")
    return value


def number(text: object) -> int:
    """The number of a value as tshark prints it, decimal or hex."""
    return int(str(text), 0)


def bits(text: object, size: int) -> int:
    """The number in the first bits of a bit string."""
    value = octets(text)
    return int.from_bytes(value, "big") >> (8 * len(value) - size)


def is_tree(value: object) -> TypeGuard[Pairs]:
    return isinstance(value, list) and bool(value) and isinstance(value[0], tuple)


def leaves(
    pairs: Pairs, ie: int = -1, path: tuple[str, ...] = ()
) -> Iterator[tuple[tuple[str, ...], int, str, object]]:
    """Each value below, with the names above it and the number of the innermost IE it stands in."""
    for name, value in pairs:
        if name in ("s1ap.id", "x2ap.id"):
            ie = number(value)
        if is_tree(value):
            yield from leaves(value, ie, (*path, name))
        else:
            yield path, ie, name, value


def fresh(base: Message, link: str, name: str) -> Message:
    """A message of a frame, with lists of its own."""
    lists: dict[str, list[object]] = {
        each: [] for each in ("nas", "sites", "gummeis", "reestablishment", "secrets", "kasmes")
    }
    return replace(base, link=link, name=name, **lists)


def begun(base: Message, link: str, name: str) -> Message:
    """A message of a frame that has nothing but its frame, time and ends yet."""
    return Message(base.frame, base.time, link, name, base.source, base.target, base.tag, base.tsns)
