"""Records by their fields (docs/FRAMES.md, Records) and what differs between two: named as S1AP, X2AP, NAS and RRC name
them."""
from __future__ import annotations

import dataclasses
from collections.abc import Sequence

from lte_sec.common import tables
from lte_sec.drive import frames

# The records by kind, each with its fields and their widths in octets. A name in KEYS is that of a key: it is told to
# differ and not printed.
KEYS = ("KeNB", "KeNB*", "NH")
TEXT = ("text", 0)  # a field to the end
S1, X2, NAS, RRC = (tables.records(of) for of in ("s1", "x2", "nas", "rrc"))
OTHERS = {"connection", "next connection", "station", "source", "attempt", "number", "air"}  # fields told in decimal
NAMES = {1: "NAS", 2: "NAS", 3: "S1", 5: "S1", 6: "X2"}  # what an address of this tag gets


@dataclasses.dataclass(frozen=True)
class Record:
    """A record: the message that it stands for, and its fields as texts, in order."""

    message: str
    fields: dict[str, str]


def shown(name: str, octets: bytes) -> str:
    """A field as text: numbers in decimal, a cell as PCI,EARFCN-DL, others in hex."""
    if name == "cell":
        return f"{int.from_bytes(octets[:2], 'big')},{int.from_bytes(octets[2:], 'big')}"
    return str(int.from_bytes(octets, "big")) if name in OTHERS or name == "NCC" else octets.hex()


def of_form(form: tables.Form, octets: bytes) -> Record | None:
    """A record of this form, if the octets are as many as its fields take."""
    message, parts = form
    if len(octets) != sum(width for _, width in parts):
        return None
    fields, place = {}, 0
    for name, width in parts:
        fields[name] = shown(name, octets[place : place + width])
        place += width
    return Record(message, fields)


def of_nas(octets: bytes) -> Record | None:
    """A NAS message: its text may be enciphered, and stays in hex."""
    if octets[:1] == b"\x07":
        return Record("plain NAS message", {"text": octets[1:].hex()})
    if len(octets) < 6:
        return None
    return Record(
        "NAS message",
        {
            "header": f"{octets[0]:02x}",
            "MAC": octets[1:5].hex(),
            "sequence number": str(octets[5]),
            "text": octets[6:].hex(),
        },
    )


def of_air(bearer: int, octets: bytes) -> Record | None:
    """A PDCP PDU: of an SRB its sequence number, text and MAC-I, of a DRB its sequence number and packet."""
    name = frames.BEARERS[bearer].upper()
    if bearer in frames.DRBS:
        return (
            Record(
                f"packet on {name}",
                {"sequence number": str(int.from_bytes(octets[:2], "big") & 0xFFF), "packet": octets[2:].hex()},
            )
            if len(octets) >= 2
            else None
        )
    if len(octets) < 5:
        return None
    return Record(
        f"RRC message on {name}",
        {"sequence number": str(octets[0] & 0x1F), "text": octets[1:-4].hex(), "MAC-I": octets[-4:].hex()},
    )


def read(to: bytes, octets: bytes) -> Record | None:
    """The record that goes to an address; None if its octets are none of this kind."""
    if to[0] not in NAMES:
        return of_air(to[-1], octets)
    if NAMES[to[0]] == "NAS":
        return of_nas(octets)
    form = (S1 if NAMES[to[0]] == "S1" else X2).get(octets[0] if octets else -1)
    return of_form(form, octets[1:]) if form else None


def fields_that_differ(wanted: Record, got: Record) -> list[str]:
    """Each field that differs, in words: keys, MACs and texts are only named."""
    told = []
    for name, value in wanted.fields.items():
        if got.fields[name] != value:
            is_named = name in KEYS or name in ("MAC", "MAC-I", "text", "packet")
            told.append(f"{name} differs" if is_named else f"{name} is {got.fields[name]}, wanted {value}")
    return told


def in_words(wanted: frames.Reply, got: frames.Reply) -> str | None:
    """What differs between the records of two replies, in the words of the standards; None where they are the same or
    not read."""
    if wanted.record is None or got.record is None:
        if wanted.record == got.record:
            return None
        there = wanted if got.record is None else got
        assert there.record is not None
        record = read(there.to, there.record)
        name = record.message if record else "record"
        return f"{name} is missing" if got.record is None else f"{name} is sent, wanted none"
    want, have = read(wanted.to, wanted.record), read(got.to, got.record)
    if want is None or have is None or (want, wanted.to) == (have, got.to):
        return None
    if want.message != have.message:
        return f"{have.message} is sent, wanted {want.message}"
    told = fields_that_differ(want, have)
    if wanted.to != got.to:
        told.append(f"it goes to {frames.address_text(got.to)}, wanted {frames.address_text(wanted.to)}")
    return f"{want.message}: {'; '.join(told)}"


NAS_KEYS, RADIO_KEYS = ["KNASenc", "KNASint"], ["KRRCenc", "KRRCint", "KUPenc"]
# The derivations of a step (docs/FRAMES.md), by the role, the way of the note and how many there are.
DERIVED: dict[tuple[str, str, int], list[str]] = {
    ("phone", "", 1): ["KeNB"],
    ("phone", "", 2): NAS_KEYS,
    ("phone", "", 3): ["KeNB", *NAS_KEYS],
    ("phone", "initial", 3): RADIO_KEYS,
    ("phone", "initial", 5): ["KeNB", "KeNB*", *RADIO_KEYS],
    ("phone", "horizontal", 4): ["KeNB*", *RADIO_KEYS],
    ("station", "given", 3): RADIO_KEYS,
    ("station", "given", 4): ["KeNB*", *RADIO_KEYS],
    ("station", "horizontal", 1): ["KeNB*"],
    ("station", "vertical", 1): ["KeNB*"],
    ("station", "horizontal", 4): ["KeNB*", *RADIO_KEYS],
    ("station", "vertical", 4): ["KeNB*", *RADIO_KEYS],
    ("core", "", 2): NAS_KEYS,
    ("core", "initial", 1): ["KeNB"],
    ("core", "initial", 2): ["KeNB", "NH"],
    ("core", "chained", 1): ["NH"],
}


def derivation_names(role: str, reply: frames.Reply, known: Sequence[int] | None = None) -> list[str]:
    """What each derivation of a reply makes, KeNB* with its cell where the record names it or where it is known;
    nothing where a step derives otherwise."""
    way, count = frames.WAYS[reply.note.way] if reply.note else "", len(reply.derived)
    names = DERIVED.get((role, way, count), [])
    if role == "phone" and way == "vertical" and count > 4:
        names = [f"NH {place} of {count - 4}" for place in range(1, count - 3)] + ["KeNB*", *RADIO_KEYS]
    record = read(reply.to, reply.record) if reply.record is not None else None
    told = record.fields.get("cell") if record else None
    cell = told.split(",") if told else known
    return [f"{name} for PCI {cell[0]}, EARFCN-DL {cell[1]}" if name == "KeNB*" and cell else name for name in names]


def differences(wanted: bytes, got: bytes, actor: str = "", cell: Sequence[int] | None = None) -> list[str]:
    """The differences of two replies: first what differs in the record, in words, then a line for each part, in hex;
    derivations by name where the actor is known. `cell` is that of a phone's KeNB*, which its reply does not tell."""
    try:
        want, have = (frames.read_reply(frames.unframed(octets)) for octets in (wanted, got))
    except frames.BadFrame:
        return frames.differences(wanted, got)
    names = derivation_names(actor.split(" ")[0], max(want, have, key=lambda reply: len(reply.derived)), cell)
    words = in_words(want, have)
    return ([words] if words else []) + frames.differences(wanted, got, names)
