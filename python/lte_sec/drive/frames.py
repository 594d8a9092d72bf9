"""Frames of an actor, and its replies, from octets and back (docs/FRAMES.md).

A frame is a length of two octets and that many octets after it: a kind and a body. All numbers are big-endian.
"""
from __future__ import annotations

import dataclasses
import struct
from collections.abc import Sequence
from typing import Any, BinaryIO

from lte_sec.common import tables

BEARERS = {0x00: "nas", 0x01: "srb1", 0x02: "srb2", 0x81: "drb1", 0x82: "drb2", 0x83: "drb3", 0x84: "drb4"}
RADIO, SRBS, DRBS = (0x01, 0x02, 0x81, 0x82, 0x83, 0x84), (0x01, 0x02), (0x81, 0x82, 0x83, 0x84)
WAYS = ("initial", "horizontal", "vertical", "given", "completed", "chained")
RECORD_FAULTS = {1: "Short", 2: "Long", 3: "BadKind", 4: "BadField"}
LONGEST_BODY, LONGEST_RECORD, LONGEST_PACKET, LONGEST_TEXT = 4096, 1536, 1500, 200

# The answers of actors by number: the name, and the values that it keeps, each with its width in octets.
ANSWERS: dict[int, tables.Form] = {number: form for number, form in tables.ANSWERS.items() if number < tables.NETWORK}

# The addresses by tag: the words, and the values, each with its width.
ADDRESSES: dict[int, tables.Form] = {
    0: ("phone", (("station", 1), ("air", 4), ("bearer", 1))),
    1: ("phone nas", ()),
    2: ("core nas", ()),
    3: ("core s1", ()),
    4: ("station", (("station", 1), ("air", 4), ("bearer", 1))),
    5: ("station s1", (("station", 1),)),
    6: ("station x2", (("station", 1),)),
}


class BadFrame(Exception):
    """Octets that are not a frame or not a reply: the place of the first bad octet, counted from the kind, and why."""

    def __init__(self, place: int, why: str):
        super().__init__(f"octet {place}: {why}")
        self.place, self.why = place, why


class Octets:
    """Octets that are read from left to right."""

    def __init__(self, octets: bytes):
        self.octets, self.place = octets, 0

    def take(self, size: int) -> bytes:
        """The next octets. If they are missing, the end is the bad place."""
        if self.place + size > len(self.octets):
            raise BadFrame(len(self.octets), "octets are missing")
        self.place += size
        return self.octets[self.place - size : self.place]

    def number(self, size: int, wanted: range | tuple[int, ...] | None = None, of: str = "number") -> int:
        """The next number, which must be one of those wanted."""
        place, value = self.place, int.from_bytes(self.take(size), "big")
        if wanted is not None and value not in wanted:
            raise BadFrame(place, f"{value} is out of range for the {of}")
        return value

    def rest(self, most: int) -> bytes:
        """All octets that are left, at most so many."""
        if len(self.octets) - self.place > most:
            raise BadFrame(self.place + most, f"there are more than {most} octets")
        return self.take(len(self.octets) - self.place)

    def end(self) -> None:
        if self.place != len(self.octets):
            raise BadFrame(self.place, "there is an octet too many")


def framed(body: bytes) -> bytes:
    """The frame of a kind and a body."""
    return struct.pack(">H", len(body)) + body


def unframed(octets: bytes) -> bytes:
    """Kind and body of a frame that is whole."""
    body = octets[2:]
    if len(octets) < 2 or int.from_bytes(octets[:2], "big") != len(body):
        raise BadFrame(0, f"its length and its octets differ: {octets[:2].hex()}, {len(body)} octets")
    return body


def read_frame(source: BinaryIO) -> bytes | None:
    """Kind and body of the next frame of a source, or nothing at its end."""
    head = source.read(2)
    if not head:
        return None
    size = int.from_bytes(head, "big")
    if len(head) < 2 or size > LONGEST_BODY:
        raise BadFrame(0, "the length is cut" if len(head) < 2 else f"the length is {size}")
    body = source.read(size)
    if len(body) < size:
        raise BadFrame(len(body), "octets are missing")
    return body


# ---------------------------------------------------------------------------------------------------------------------
# Frames to an actor.


def cell(octets: Octets) -> tuple[int, int]:
    """PCI and EARFCN-DL."""
    return octets.number(2, range(504), "PCI"), octets.number(4, range(262144), "EARFCN-DL")


def spelled_cell(pair: tuple[int, int]) -> bytes:
    return struct.pack(">HI", *pair)


def algorithms(octets: Octets) -> list[int]:
    """A list of different encryption algorithms."""
    found: list[int] = []
    for _ in range(octets.number(1, (1, 2), "count of algorithms")):
        found.append(octets.number(1, tuple({0, 2} - set(found)), "algorithm"))
    return found


def sites(octets: Octets) -> list[tuple[int, tuple[int, int]]]:
    """The stations of the cells, no cell twice."""
    found: list[tuple[int, tuple[int, int]]] = []
    for _ in range(octets.number(1, range(1, 33), "count of cells")):
        station, place = octets.number(1, range(8), "station"), octets.place
        pair = cell(octets)
        if pair in [other for _, other in found]:
            raise BadFrame(place, "the cell stands there already")
        found.append((station, pair))
    return found


@dataclasses.dataclass(frozen=True)
class Input:
    """What an actor is told: the kind, its name, and its fields in order."""

    kind: int
    name: str
    fields: dict[str, object]

    def __str__(self) -> str:
        return " ".join([self.name, *(f"{name}={shown(value)}" for name, value in self.fields.items())])


def shown(value: object) -> str:
    """A field as text."""
    if isinstance(value, bytes):
        return value.hex() or "-"
    return str(value).replace(" ", "")


# The fields of the frames of each role after the Setup, by their names; others have none. A field is a width, or a
# reader.
KSI, STATION = ("ksi", 1, range(7)), ("station", 1, range(8))
PDU, CELL = ("pdu", LONGEST_RECORD), ("cell", cell)
TEXT, PACKET = ("text", LONGEST_TEXT), ("text", LONGEST_PACKET)
FIELDS: dict[str, dict[str, tuple[Any, ...]]] = {
    "phone": {
        "Auth": (KSI, ("kasme", 32, None)),
        "Nas": (PDU,),
        "Air": (STATION, ("air", 4, None), ("bearer", 1, RADIO), PDU),
        "SendUser": (("bearer", 1, DRBS), PACKET),
        "SendRrc": (("bearer", 1, SRBS), TEXT),
        "SendNas": (TEXT,),
        "Skip": (("bearer", 1, (0, *RADIO)), ("n", 4, None)),
    },
    "station": {
        "Air": (("air", 4, None), ("bearer", 1, RADIO), PDU),
        "S1": (PDU,),
        "X2": (PDU,),
        "SendUser": (("bearer", 1, DRBS), PACKET),
        "SendRrc": (("bearer", 1, SRBS), TEXT),
        "Skip": (("bearer", 1, RADIO), ("n", 4, None)),
        "Start": (("way", 1, range(3)), CELL),
    },
    "core": {
        "Auth": (KSI, ("kasme", 32, None), ("caps", 2, None)),
        "Nas": (PDU,),
        "S1": (PDU,),
        "SendNas": (TEXT,),
        "Skip": (("bearer", 1, (0,)), ("n", 4, None)),
        "Connect": (CELL,),
    },
}
INPUTS: dict[str, dict[int, tuple[Any, ...]]] = {
    role: {kind: (name, *fields.get(name, ())) for kind, name in tables.inputs(role).items()}
    for role, fields in FIELDS.items()
}
OCTETS = ("kasme", "caps")  # fields that are octets and no numbers
KINDS: dict[str, int] = {
    form[0]: kind for forms in INPUTS.values() for kind, form in forms.items()
}  # a name has one kind for all roles


SETUPS = {"phone": (0,), "station": (0,), "core": (0, 6)}  # the kinds of a Setup


def read_setup(role: str, kind: int, octets: Octets) -> Input:
    """The Setup of a role, after its kind. That of a core whose first pair of NH and NCC has NCC 2 is of kind 06 (TS
    33.401 7.2.8.1.1)."""
    if role == "phone":
        fields: dict[str, object] = {"caps": octets.take(2)}
    else:
        fields = {
            "priority": algorithms(octets),
            "first": octets.number(4, range(1, 1 << 32), "first number"),
            "cells": sites(octets),
        }
    octets.end()
    return Input(kind, "Setup", fields | ({"first_ncc": 2} if kind == 6 else {}))


def read_input(role: str, first: bool, body: bytes) -> Input:
    """What the kind and the body of a frame tell the phone, a station or the core: a Setup first and only first."""
    octets = Octets(body)
    kind = octets.number(1)
    if kind not in (SETUPS[role] if first else INPUTS[role]):
        raise BadFrame(0, f"{kind:02x} is not a kind of frame for the {role} here")
    if first:
        return read_setup(role, kind, octets)
    name, *forms = INPUTS[role][kind]
    fields: dict[str, object] = {}
    for form in forms:
        if form[0] == "cell":
            fields["cell"] = cell(octets)
        elif len(form) == 2:
            fields[form[0]] = octets.rest(form[1])
        elif form[0] in OCTETS:
            fields[form[0]] = octets.take(form[1])
        else:
            fields[form[0]] = octets.number(form[1], form[2], form[0])
    octets.end()
    return Input(kind, name, fields)


# ---------------------------------------------------------------------------------------------------------------------
# Replies.


@dataclasses.dataclass(frozen=True)
class Note:
    """What a reply tells of a key that was made or taken: NCC, the way by its number, and the key."""

    ncc: int
    way: int
    key: bytes


@dataclasses.dataclass(frozen=True)
class Reply:
    """A reply: the number of the answer and the octets of its values, the record sent with the octets of its address,
    the text that was opened, the outputs of the derivations, the note of a key, and the alarm."""

    answer: int = 0
    values: bytes = b""
    to: bytes = b""
    record: bytes | None = None
    text: bytes | None = None
    derived: tuple[bytes, ...] = ()
    note: Note | None = None
    alarm: bool = False

    def spelled(self) -> bytes:
        """Its frame."""
        part = bytes([0x80, self.answer, len(self.values)]) + self.values
        part += b"\0" if self.record is None else b"\1" + self.to + struct.pack(">H", len(self.record)) + self.record
        part += b"\0" if self.text is None else b"\1" + struct.pack(">H", len(self.text)) + self.text
        part += bytes([len(self.derived)]) + b"".join(self.derived)
        part += b"\0" if self.note is None else bytes([1, self.note.ncc, self.note.way]) + self.note.key
        return framed(part + bytes([self.alarm]))

    def parts(self, names: Sequence[str] = ()) -> dict[str, str]:
        """Its parts as texts, in order: those that it does not have are left out. `names` are those of what it
        derives."""
        found = {"answer": f"{self.answer} ({answer_text(self.answer, self.values)})"}
        if self.record is not None:
            found |= {"to": address_text(self.to), "record": self.record.hex()}
        if self.text is not None:
            found["text"] = self.text.hex()
        found |= {
            names[place] if place < len(names) else f"derivation {place}": key.hex()
            for place, key in enumerate(self.derived)
        }
        if self.note is not None:
            found |= {"ncc": str(self.note.ncc), "way": WAYS[self.note.way], "key": self.note.key.hex()}
        return found | ({"alarm": "1"} if self.alarm else {})


def values_of(forms: tables.Fields, octets: bytes) -> dict[str, int | str]:
    """Values by their names, in order: MACs and capabilities in hex."""
    found: dict[str, int | str] = {}
    place = 0
    for name, width in forms:
        piece = octets[place : place + width]
        place += width
        found[name] = int.from_bytes(piece, "big")
        if width == 2 or forms[0][0] == "count" and name != "count":
            found[name] = piece.hex()
        elif name == "bearer":
            found[name] = BEARERS[piece[0]]
    return found


def answer_text(answer: int, values: bytes) -> str:
    """An answer with its values, as reports print them."""
    name, forms = ANSWERS[answer]
    found = values_of(forms, values)
    if name == "BadRecord":
        fault = RECORD_FAULTS[values[0]]
        found = {"fault": f"{fault} {values[1]}" if fault == "BadField" else fault}
    return " ".join([name, *(f"{key}={value}" for key, value in found.items())])


def address_text(octets: bytes) -> str:
    """An address in words."""
    name, forms = ADDRESSES[octets[0]]
    return " ".join([name, *(f"{key}={value}" for key, value in values_of(forms, octets[1:]).items())])


def read_address(octets: Octets) -> bytes:
    start = octets.place
    for name, width in ADDRESSES[octets.number(1, tuple(ADDRESSES), "address")][1]:
        octets.number(width, RADIO if name == "bearer" else None, name)
    return octets.octets[start : octets.place]


def read_reply(body: bytes) -> Reply:
    """The reply that a kind and a body are."""
    octets = Octets(body)
    octets.number(1, (0x80,), "kind of a reply")
    answer = octets.number(1, tuple(ANSWERS), "answer of an actor")
    width = sum(width for _, width in ANSWERS[answer][1])
    values = octets.take(octets.number(1, (width,), f"length of the values of {ANSWERS[answer][0]}"))
    if ANSWERS[answer][0] == "BadRecord" and values[0] not in RECORD_FAULTS:
        raise BadFrame(octets.place - 2, f"{values[0]} is not a fault of a record")

    def is_there(what: str) -> bool:
        return octets.number(1, (0, 1), f"mark of {what}") == 1

    to, record, text, note = b"", None, None, None
    if is_there("a record"):
        to, record = read_address(octets), octets.take(octets.number(2))
    if is_there("a text"):
        text = octets.take(octets.number(2))
    derived = tuple(octets.take(32) for _ in range(octets.number(1)))
    if is_there("a note"):
        note = Note(octets.number(1), octets.number(1, range(len(WAYS)), "way"), octets.take(32))
    reply = Reply(answer, values, to, record, text, derived, note, is_there("an alarm"))
    octets.end()
    return reply


def differences(wanted: bytes, got: bytes, names: Sequence[str] = ()) -> list[str]:
    """The differences of two replies: a line for each part, or one line if either is not a reply. `names` are those of
    what they derive."""
    if wanted == got:
        return []
    try:
        have = read_reply(unframed(got)).parts(names)
    except BadFrame as bad:
        return [f"what came is not a reply, {bad}: {got.hex()}"]
    try:
        want = read_reply(unframed(wanted)).parts(names)
    except BadFrame as bad:
        return [f"what is wanted is not a reply, {bad}: {wanted.hex()}"]
    return [
        f"{name}: wanted {want.get(name, 'none')}, got {have.get(name, 'none')}"
        for name in {**want, **have}
        if want.get(name) != have.get(name)
    ]
